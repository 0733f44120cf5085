//! The text of calls, for either crate; in braces what a logical partition has beside mbrman's fields.

#[macro_export]
macro_rules! side {
    ($module:ident, $krate:ident, $number:expr, { $($more:tt)* }) => {
        mod $module {
            use std::fmt::Debug;
            use std::panic::{catch_unwind, AssertUnwindSafe};

            use $krate::{LogicalPartition, MBRHeader, MBRPartitionEntry, Result, CHS, MBR};

            use crate::disk::{Disk, Rng};

            fn said<T: Debug>(call: &str, f: impl FnOnce() -> Result<T>) -> String {
                crate::numbers::said($number, call, f)
            }

            fn chs(r: &mut Rng) -> CHS {
                let most = r.one_of(&[1, 64, 64, 256]);
                CHS::new(r.below(most * 4) as u16, r.below(most) as u8, r.below(most) as u8)
            }

            fn geometry(r: &mut Rng) -> (u16, u8, u8) {
                match r.below(3) {
                    0 => (0, 0, 0),
                    1 => (1023, 255, 63),
                    _ => (r.below(1030) as u16, r.byte(), r.below(66) as u8),
                }
            }

            fn entry(r: &mut Rng, size: u32, extended: bool) -> MBRPartitionEntry {
                let plain = r.one_of(&[0, 0x83, 0x83, 0x0c]);
                MBRPartitionEntry {
                    boot: if r.once_in(60) { 1 } else { r.one_of(&[0, 0, 0x80]) },
                    first_chs: chs(r),
                    sys: if extended { r.one_of(&[5, 15, 0x85, 0xc5, 0xd5]) } else { plain },
                    last_chs: chs(r),
                    starting_lba: r.sector(size),
                    sectors: r.sector(size),
                }
            }

            fn logical(r: &mut Rng, size: u32, first: bool) -> LogicalPartition {
                let linked = first == r.once_in(30);
                let mut bootstrap_code = [0; 446];
                bootstrap_code[r.below(446) as usize] = r.byte();
                LogicalPartition {
                    partition: entry(r, size, false),
                    absolute_ebr_lba: r.sector(size),
                    ebr_sectors: linked.then(|| r.sector(size)),
                    ebr_first_chs: chs(r),
                    ebr_last_chs: linked.then(|| chs(r)),
                    bootstrap_code,
                    $($more)*
                }
            }

            /// Any table.
            fn table(r: &mut Rng, sector_size: u32, disk_size: u32) -> MBR {
                let mut header = MBRHeader::new([r.byte(), 2, 3, r.byte()]);
                header.copy_protected = r.one_of(&[[0, 0], [0, 0], [0x5a, 0x5a], [0x5a, 0]]);
                if r.once_in(50) {
                    header.boot_signature = [0xaa, 0x55];
                }
                let extended = 1 + r.below(5) as usize;
                for i in 1..=4 {
                    if r.once_in(2) {
                        header[i] = entry(r, disk_size, i == extended);
                    }
                }
                let count = r.one_of(&[0, 0, 1, 2, 3, 5, 24]);
                let logical_partitions = (0..count).map(|i| logical(r, disk_size, i == 0)).collect();
                let align = r.one_of(&[0, 1, 1, 2, 4, 7, 8, 63, 2048]);
                let (cylinders, heads, sectors) = geometry(r);
                MBR { sector_size, header, logical_partitions, align, cylinders, heads, sectors, disk_size }
            }

            /// A table whose partitions are in order.
            fn fair(r: &mut Rng, sector_size: u32, disk_size: u32) -> MBR {
                let mut t = table(r, sector_size, disk_size);
                t.header = MBRHeader::new([1, 2, 3, 4]);
                t.logical_partitions.clear();
                t.align = r.one_of(&[1, 2, 4, 8]);
                let third = disk_size / 3 / t.align * t.align;
                let place = |e, starting_lba, sectors| MBRPartitionEntry { boot: 0, starting_lba, sectors, ..e };
                t[1] = place(entry(r, disk_size, false), t.align, third);
                let mut at = 2 * t.align + third;
                t[3] = place(entry(r, disk_size, true), at, disk_size.saturating_sub(at));
                for _ in 0..r.below(25) {
                    let size = (2 + r.below(4)) * t.align;
                    let _ = catch_unwind(AssertUnwindSafe(|| t.push(0x83, at, size).is_ok()));
                    at += size + r.below(2) * t.align;
                }
                t
            }

            fn change(r: &mut Rng, t: &mut MBR) -> String {
                let (a, b, i, sys) = (r.sector(t.disk_size), r.sector(t.disk_size), r.below(31) as usize, r.byte());
                match r.below(5) {
                    // A 25th logical partition is for mbrman only.
                    0 | 1 if t.logical_partitions.len() < 24 => said("push", || t.push(sys, a, b).cloned()),
                    2 => said("remove", || Ok(t.remove(i))),
                    3 => said("remove_at_sector", || t.remove_at_sector(a)),
                    _ => said("entries", || {
                        t.iter_mut().for_each(|(n, e)| e.sectors ^= u32::from(n == i));
                        Ok((t.get(i).cloned(), t.get_mut(i).cloned(), t.header.get(i).cloned(), t.len(), t.is_empty()))
                    }),
                }
            }

            fn question(r: &mut Rng, t: &mut MBR) -> String {
                let (a, i, c) = (r.sector(t.disk_size), r.below(31) as usize, chs(r));
                let (cylinders, heads, sectors) = (t.cylinders, t.heads, t.sectors);
                match r.below(13) {
                    0 => said("find_at_sector", || Ok(t.find_at_sector(a))),
                    1 => said("find_free_sectors", || Ok(t.find_free_sectors())),
                    2 => said("find_first_place", || Ok(t.find_first_place(a))),
                    3 => said("find_last_place", || Ok(t.find_last_place(a))),
                    4 => said("find_optimal_place", || Ok(t.find_optimal_place(a))),
                    5 => said("get_maximum_partition_size", || t.get_maximum_partition_size()),
                    6 => said("get_maximum_partition_size_for", || t.get_maximum_partition_size_for(i)),
                    7 => said("geometry", || Ok((t.check_geometry(), t.get_cylinder_size()))),
                    8 => said("from_lba_exact", || CHS::from_lba_exact(a, cylinders, heads, sectors)),
                    9 => said("from_lba_aligned", || CHS::from_lba_aligned(a, cylinders, heads, sectors)),
                    10 => said("to_lba", || Ok((c.is_empty(), c.to_lba(heads, sectors)))),
                    11 => said("is_valid", || Ok(c.is_valid(cylinders, heads, sectors))),
                    _ => said("iter", || {
                        let of = |e: &MBRPartitionEntry| (e.is_used(), e.is_unused(), e.is_extended(), e.is_active());
                        Ok((t.iter().map(|(n, e)| (n, of(e))).collect::<Vec<_>>(), t.header.is_copy_protected()))
                    }),
                }
            }

            fn update_chs(r: &mut Rng, t: &MBR) -> Option<String> {
                let mut l = t.logical_partitions.last()?.clone();
                let (cylinders, heads, sectors) = geometry(r);
                Some(said("update_chs", || l.update_chs(cylinders, heads, sectors).map(|()| l)))
            }

            /// Calls on one table. After a refusal, which may leave mbrman's changed, the table is put back.
            fn calls(r: &mut Rng, t: &mut MBR, log: &mut Vec<String>) {
                for _ in 0..4 {
                    let before = t.clone();
                    let text = change(r, t);
                    if text.contains("refused ") {
                        *t = before;
                    }
                    log.push(text);
                    log.push(question(r, t));
                }
                log.extend(update_chs(r, t));
                log.push(format!("table: {t:?}"));
            }

            /// Writes the table; a refusal, after which mbrman has stored some records, is undone.
            fn write(t: &mut MBR, disk: &mut Disk, log: &mut Vec<String>) {
                let before = (t.clone(), disk.clone());
                let text = said("write", || t.write_into(disk).map(|()| t.clone()));
                if text.contains("refused ") {
                    (*t, *disk) = before;
                }
                log.push(text);
                log.push(disk.text());
            }

            /// Changes some bytes of the records of a table.
            fn damage(r: &mut Rng, t: &MBR, disk: &mut Disk) {
                for _ in 0..r.below(3) {
                    let i = r.below(1 + t.logical_partitions.len() as u32) as usize;
                    let lba = if i == 0 { 0 } else { t.logical_partitions[i - 1].absolute_ebr_lba };
                    let from = r.one_of(&[0, 440, 462]);
                    let (at, by) = ((from + r.below(512 - from)) as usize, 1 + r.below(3) as u8);
                    if let Some(record) = disk.record(u64::from(lba) * u64::from(t.sector_size)) {
                        record[at] = record[at].wrapping_add(by);
                    }
                }
            }

            pub fn case(seed: u64) -> Vec<String> {
                let (r, mut log) = (&mut Rng::new(seed), Vec::new());
                let sector_size = r.one_of(&[512, 512, 1024, 4096]);
                let disk_size = if r.once_in(30) { r.below(3) } else { 40 + r.below(300) };
                let make = if r.once_in(2) { fair } else { table };
                let mut t = make(r, sector_size, disk_size);
                let mut disk = Disk::new(sector_size * disk_size);
                calls(r, &mut t, &mut log);
                write(&mut t, &mut disk, &mut log);
                damage(r, &t, &mut disk);
                log.push(said("read header", || MBRHeader::read_from(&mut disk)));
                log.push(said("read", || MBR::read_from(&mut disk, sector_size)));
                if let Ok(Ok(mut t)) = catch_unwind(AssertUnwindSafe(|| MBR::read_from(&mut disk, sector_size))) {
                    (t.cylinders, t.heads, t.sectors) = geometry(r);
                    calls(r, &mut t, &mut log);
                    write(&mut t, &mut disk, &mut log);
                }
                let mut other = Disk::new(r.below(20_000));
                log.push(said("new_from", || MBR::new_from(&mut other, sector_size, [9, 8, 7, r.byte()])));
                log.push(said("update_from", || t.update_from(&mut other).map(|()| t.clone())));
                log.push(said("write header", || t.header.write_into(&mut other).map(|()| other.text())));
                log
            }
        }
    };
}
