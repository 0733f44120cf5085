//! Tables and disks at the limits, refusals that leave the table as it was, and failing readers and writers.

mod common;
use common::{disk_k, entry, logical, new_table, table_k, zeros, Event, Noted};

use std::io::Cursor;
use std::panic::{catch_unwind, AssertUnwindSafe};

use crumbvessel::{Error, Extract, LogicalPartition, MBRHeader, Result, CHS, MBR};

/// A table with this many logical partitions of 4 sectors each, one behind the other.
fn chain(logicals: u32) -> MBR {
    let mut mbr = new_table(1000);
    mbr[2] = entry(0x05, 100, 900);
    for i in 0..logicals {
        mbr.push(0x83, 100 + 4 * i, 4).unwrap();
    }
    mbr
}

/// The number that a panic names.
fn panics<T>(f: impl FnOnce() -> T) -> String {
    let said = catch_unwind(AssertUnwindSafe(f)).err().expect("it panics");
    said.downcast_ref::<String>().expect("with words").split(':').next().unwrap().to_string()
}

fn number<T: std::fmt::Debug>(r: Result<T>) -> u8 {
    r.unwrap_err().number()
}

#[test]
fn twenty_four_logical_partitions() {
    let mut mbr = chain(24);
    assert_eq!((mbr.len(), mbr[28].starting_lba), (28, 193));
    let before = mbr.clone();
    assert_eq!(number(mbr.push(0x83, 200, 4)), 6);
    assert_eq!(mbr, before);
    let mut disk = zeros(1000, 512);
    mbr.write_into(&mut disk).unwrap();
    let read = MBR::read_from(&mut disk, 512).unwrap();
    assert_eq!((&read.logical_partitions, read.align), (&mbr.logical_partitions, 1));
    assert!(read.is_sound().unwrap());
    for i in (5..=28).rev() {
        assert_eq!(mbr.remove(i), before.logical_partitions[i - 5]);
    }
    assert_eq!(mbr.len(), 4);
}

#[test]
fn a_chain_of_twenty_five_is_not_read() {
    let mut mbr = chain(24);
    let mut disk = zeros(1000, 512);
    mbr.write_into(&mut disk).unwrap();
    // The last EBR gets a link to a 25th, which is a copy of the first.
    let first = disk.get_ref()[100 * 512..][..512].to_vec();
    let link = [&[0, 0, 0, 0, 5, 0, 0, 0][..], &96u32.to_le_bytes(), &4u32.to_le_bytes()].concat();
    disk.get_mut()[192 * 512 + 462..][..16].copy_from_slice(&link);
    disk.get_mut()[196 * 512..][..512].copy_from_slice(&first);
    assert_eq!(number(MBR::read_from(&mut disk, 512)), 6);
}

#[test]
fn a_table_with_twenty_five_is_refused_everywhere() {
    let mut mbr = chain(24);
    mbr.logical_partitions.push(logical(196, 197, 3, Some(4)));
    mbr.heads = 2;
    mbr.sectors = 3;
    let before = mbr.clone();
    assert_eq!(number(mbr.push(0x83, 200, 4)), 6);
    assert_eq!(number(mbr.try_remove(29)), 6);
    assert_eq!(number(mbr.remove_at_sector(197)), 6);
    assert_eq!(number(mbr.update_from(&mut zeros(7, 512))), 6);
    let mut disk = Noted::new(512_000);
    assert_eq!(number(mbr.write_into(&mut disk)), 6);
    assert_eq!(disk.changes(), []);
    assert_eq!(number(mbr.try_find_at_sector(197)), 6);
    assert_eq!(number(mbr.try_find_free_sectors()), 6);
    assert_eq!(number(mbr.get_maximum_partition_size()), 6);
    assert_eq!(number(mbr.get_maximum_partition_size_for(29)), 6);
    assert_eq!(number(mbr.is_sound()), 6);
    assert_eq!(panics(|| mbr.find_at_sector(197)), "refused 6");
    assert!(!mbr.check_geometry());
    assert_eq!(mbr.get_cylinder_size(), 6);
    assert_eq!((mbr.len(), mbr[29].starting_lba), (29, 197));
    assert_eq!(mbr, before);
}

#[test]
fn refusals_leave_the_table_as_it_was() {
    let mut k = table_k();
    assert_eq!(number(k.try_remove(4)), 17);
    assert_eq!(number(k.try_remove(6)), 17);
    assert_eq!(number(k.try_remove(usize::MAX)), 17);
    assert_eq!(number(k.remove_at_sector(4096)), 15);
    assert_eq!(number(k.get_maximum_partition_size_for(6)), 15);
    assert_eq!(number(k.get_maximum_partition_size_for(0)), 15);
    assert_eq!(k, table_k());
    k.align = 0;
    assert_eq!(number(k.push(0x83, 8192, 4096)), 7);
    assert_eq!(number(k.try_find_free_sectors()), 7);
    assert_eq!(number(k.try_find_first_place(1)), 7);
    assert_eq!(number(k.try_find_last_place(1)), 7);
    assert_eq!(number(k.try_find_optimal_place(1)), 7);
    assert_eq!(number(k.get_maximum_partition_size()), 7);
    k.align = 2048;
    k.sector_size = 0;
    assert_eq!(number(k.update_from(&mut zeros(7, 512))), 1);
    assert_eq!(number(k.write_into(&mut zeros(7, 512))), 1);
    k.sector_size = 512;
    assert_eq!(k, table_k());
}

#[test]
fn panics_name_the_refusal() {
    let mut k = table_k();
    assert_eq!(panics(|| k.remove(6)), "refused 17");
    assert_eq!(panics(|| CHS::empty().to_lba(255, 63)), "refused 7");
    k.align = 0;
    assert_eq!(panics(|| k.find_free_sectors()), "refused 7");
    assert_eq!(panics(|| k.find_first_place(1)), "refused 7");
    assert_eq!(panics(|| k.find_last_place(1)), "refused 7");
    assert_eq!(panics(|| k.find_optimal_place(1)), "refused 7");
    k[2] = entry(0x83, u32::MAX, 2);
    assert_eq!(panics(|| k.find_at_sector(u32::MAX)), "refused 7");
}

#[test]
fn partitions_are_removed_by_sector() {
    let mut k = table_k();
    k[2] = entry(0x83, 100, 10);
    k.remove_at_sector(109).unwrap();
    assert_eq!(k, table_k());
    k.remove_at_sector(6144).unwrap();
    assert_eq!(k.logical_partitions, []);
}

#[test]
fn writing_refuses_before_the_first_store() {
    let refused = |t: &mut MBR, wanted| {
        let (before, mut disk) = (t.clone(), Noted::new(20480 * 512));
        assert_eq!(number(t.write_into(&mut disk)), wanted);
        assert_eq!((disk.changes(), &*t), (vec![], &before));
    };
    let mut k = table_k();
    k.header.boot_signature = [0, 0];
    refused(&mut k, 3);
    let mut k = table_k();
    k[3].boot = 1;
    refused(&mut k, 4);
    let mut k = table_k();
    k[5].boot = 1;
    refused(&mut k, 4);
    let mut k = table_k();
    k.disk_size = 4096;
    refused(&mut k, 2);
    k.disk_size = 0;
    refused(&mut k, 2);
    let mut k = table_k();
    (k.cylinders, k.heads, k.sectors) = (1, 1, 1);
    refused(&mut k, 13);
    (k.cylinders, k.heads, k.sectors) = (1, 255, 63);
    k[5].sectors = 0;
    k[5].starting_lba = 0;
    refused(&mut k, 7);
    let mut k = table_k();
    k.logical_partitions.push(logical(8192, 10240, 2048, None));
    refused(&mut k, 18);
}

#[test]
fn writing_takes_over_what_it_settles() {
    let mut k = table_k();
    (k.cylinders, k.heads, k.sectors) = (1023, 255, 63);
    k.push(0x83, 8192, 4096).unwrap();
    k.remove(5);
    assert_eq!((k.logical_partitions[0].absolute_ebr_lba, k.logical_partitions[0].ebr_sectors), (8192, Some(4096)));
    let mut disk = Noted::new(20480 * 512);
    k.write_into(&mut disk).unwrap();
    let first = &k.logical_partitions[0];
    assert_eq!((first.absolute_ebr_lba, first.ebr_sectors, first.ebr_last_chs), (4096, None, None));
    assert_eq!(first.partition.first_chs, CHS::from_lba_exact(10240, 1023, 255, 63).unwrap());
    assert_eq!(disk.changes(), [Event::Write(0, 512), Event::Flush, Event::Write(4096 * 512, 512), Event::Flush]);
    let read = MBR::read_from(&mut disk, 512).unwrap();
    assert_eq!(read.logical_partitions[0].partition, first.partition);
}

#[test]
fn a_failing_writer_leaves_the_table_as_it_was() {
    let mut k = table_k();
    k.push(0x83, 8192, 4096).unwrap();
    k.remove(5);
    let before = k.clone();
    let mut disk = Noted::new(20480 * 512);
    disk.fails = Some((2, 7));
    assert!(matches!(k.write_into(&mut disk), Err(Error::Io(_))));
    assert_eq!(k, before);
    let mut short = Cursor::new([0; 1000]);
    assert!(matches!(k.write_into(&mut &mut short), Err(Error::Io(_))));
    assert_eq!(k, before);
}

#[test]
fn places_beyond_four_gibibytes() {
    let mut disk = Noted::new(u64::from(u32::MAX) * 4096);
    let mut mbr = MBR::new_from(&mut disk, 4096, [1, 2, 3, 4]).unwrap();
    assert_eq!((mbr.disk_size, mbr.align), (u32::MAX, 2048));
    mbr[1] = entry(0x0f, 0x8000_0000, 0x7fff_ffff);
    mbr.push(0x83, 0x8000_0000, 4096).unwrap();
    mbr.push(0x83, 0xffff_0000, 4096).unwrap();
    mbr.write_into(&mut disk).unwrap();
    assert_eq!(disk.changes()[4], Event::Write(0xffff_0000 * 4096, 512));
    let read = MBR::read_from(&mut disk, 4096).unwrap();
    assert_eq!((&read.logical_partitions, read.disk_size), (&mbr.logical_partitions, u32::MAX));
}

#[test]
fn sizes_of_disks() {
    let size = |bytes, sector| MBR::new_from(&mut Noted::new(bytes), sector, [0; 4]).map(|t| t.disk_size);
    assert_eq!(size(0, 512).unwrap(), 0);
    assert_eq!(size(1023, 512).unwrap(), 1);
    assert_eq!(size(u64::MAX, 512).unwrap(), u32::MAX);
    for sector in [0, 1, 511, 513, 1536, 8192] {
        assert_eq!(number(size(10_000, sector)), 1);
    }
    let mut k = table_k();
    k.update_from(&mut Noted::new(5130)).unwrap();
    assert_eq!(k, MBR { disk_size: 10, ..table_k() });
}

#[test]
fn small_and_broken_disks() {
    assert_eq!(number(MBR::read_from(&mut Noted::new(511), 512)), 2);
    assert_eq!(number(MBR::read_from(&mut Noted::new(5120), 512)), 3);
    assert_eq!(number(MBR::read_from(&mut disk_k(512), 1000)), 1);
    assert_eq!(number(MBRHeader::read_from(&mut Noted::new(511))), 2);
    assert_eq!(number(MBRHeader::read_from(&mut Noted::new(512))), 3);
    let mut k = disk_k(512);
    k.get_mut()[446] = 1;
    assert_eq!(number(MBR::read_from(&mut k, 512)), 4);
    assert_eq!(number(MBRHeader::read_from(&mut k)), 4);
    // The first EBR is forgiven.
    let mut k = disk_k(512);
    k.get_mut()[4096 * 512 + 510] = 0;
    assert_eq!(MBR::read_from(&mut k, 512).unwrap().len(), 4);
}

#[test]
fn headers_are_written_alone() {
    let mut header = MBRHeader::new([1, 2, 3, 4]);
    assert_eq!(header.disk_signature, [1, 2, 3, 4]);
    assert_eq!((header.is_copy_protected(), header.boot_signature), (Some(false), [0x55, 0xaa]));
    header[4] = entry(0x0c, 1, 2);
    header.copy_protected = [0x5a, 0x5a];
    let mut disk = Cursor::new(vec![7; 600]);
    header.write_into(&mut disk).unwrap();
    assert_eq!(MBRHeader::read_from(&mut disk).unwrap(), header);
    assert_eq!(header.is_copy_protected(), Some(true));
    assert_eq!(disk.get_ref()[512..], [7; 88]);
    header.boot_signature = [0xaa, 0x55];
    assert_eq!(number(header.write_into(&mut disk)), 3);
    header.boot_signature = [0x55, 0xaa];
    header.get_mut(2).unwrap().boot = 0x81;
    assert_eq!(number(header.write_into(&mut disk)), 4);
    assert!(header.get(0).is_none() && header.get(5).is_none());
    assert_eq!(header.iter_mut().map(|(i, _)| i).collect::<Vec<_>>(), [1, 2, 3, 4]);
}

#[test]
fn addresses_of_one_partition() {
    let mut l = logical(4096, 6144, 2048, Some(4096));
    l.update_chs(1023, 255, 63).unwrap();
    let chs = |lba| CHS::from_lba_exact(lba, 1023, 255, 63).unwrap();
    assert_eq!((l.partition.first_chs, l.partition.last_chs), (chs(6144), chs(8191)));
    assert_eq!((l.ebr_first_chs, l.ebr_last_chs), (chs(4096), Some(chs(8191))));
    let before = l.clone();
    assert_eq!(number(l.update_chs(1, 1, 1)), 13);
    assert_eq!(number(l.update_chs(1, 10, 63)), 14);
    assert_eq!(number(l.update_chs(1, 0, 63)), 7);
    assert_eq!(l, before);
    // Without link sectors there is no last link address.
    l.ebr_sectors = None;
    l.update_chs(1023, 255, 63).unwrap();
    assert_eq!(l, LogicalPartition { ebr_sectors: None, ebr_last_chs: None, ..before });
}

#[test]
fn link_fields_of_every_kind() {
    let mut k = table_k();
    for i in 2..5 {
        k.push(0x83, 4096 * i, 4096).unwrap();
    }
    k.logical_partitions[1].ebr_last_chs = None;
    k.logical_partitions[2].ebr_sectors = None;
    k.logical_partitions[3].ebr_last_chs = Some(CHS::new(1023, 254, 63));
    let mut without = k.clone();
    let second = without.logical_partitions.remove(1);
    assert_eq!(k.remove(6), second);
    assert_eq!(k, without);
    let first = without.logical_partitions.remove(0);
    assert_eq!(k.remove(5), first);
    assert_eq!(k, without);
    k.push(0x83, 8192, 4096).unwrap();
    assert_eq!((k.logical_partitions[0].ebr_sectors, k.logical_partitions[2].ebr_sectors), (None, Some(4096)));
    assert_eq!(k.logical_partitions[..2], without.logical_partitions);
}

#[test]
fn extracts_hold_sixty_four_records() {
    let mut x = Extract::new(512, 1000).unwrap();
    for lba in 0..64 {
        x = x.with(lba * 3, &[lba as u8; 512]).unwrap();
    }
    assert_eq!(number(x.with(1, &[0; 512])), 22);
    let over = x.with(3, &[9; 512]).unwrap();
    assert_eq!(over.look_up(3).unwrap(), Some(&[9; 512]));
    assert_eq!((over.records().count(), over.disk_size(), over.sector_size()), (64, 1000, 512));
}

#[test]
fn every_refusal_has_a_variant() {
    for number in 1..=23 {
        let e = Error::of_number(number).unwrap();
        assert_eq!(e.number(), number);
        assert!(!e.to_string().is_empty() && std::error::Error::source(&e).is_none());
    }
    assert!(Error::of_number(0).is_none() && Error::of_number(24).is_none());
    let io = Error::from(std::io::Error::other("no disk"));
    assert_eq!((io.number(), io.to_string()), (0, "generic I/O error".to_string()));
    assert!(std::error::Error::source(&io).is_some());
}
