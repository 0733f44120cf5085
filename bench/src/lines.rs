//! What is measured: for each operation and input one call of ours and one of mbrman's, which say the same.

use mbrman::{Error, LogicalPartition, MBRHeader, MBRPartitionEntry, CHS, MBR};

use crate::disk::Disk;
use crate::ours::{self, BLOCK, RUNS, SLOT, SLOTS, STORES, TAGS};

const ALIGN: u32 = 2048;
/// The extended partition's start.
const X: u32 = 2 * ALIGN;
const GEOMETRY: (u16, u8, u8) = (1023, 255, 63);
/// In a block: the count.
const COUNT: usize = 12;

pub struct Line {
    pub operation: &'static str,
    pub input: String,
    pub ours: Box<dyn FnMut() -> u64>,
    pub theirs: Box<dyn FnMut() -> u64>,
}

fn entry(sys: u8, start: u32, sectors: u32) -> MBRPartitionEntry {
    let chs = CHS::empty();
    MBRPartitionEntry { boot: 0, first_chs: chs, sys, last_chs: chs, starting_lba: start, sectors }
}

/// One primary partition and n logical ones, each of one alignment behind its EBR; room for three more.
fn table(n: u32) -> MBR {
    table_at(n, ALIGN)
}

fn table_at(n: u32, align: u32) -> MBR {
    let x = 2 * align;
    let mut header = MBRHeader::new([1, 2, 3, 4]);
    header.bootstrap_code.iter_mut().enumerate().for_each(|(i, b)| *b = i as u8);
    header.partition_1 = entry(0x83, align, align);
    header.partition_2 = entry(0x05, x, 2 * align * (n + 3));
    let logical = |i: u32| LogicalPartition {
        partition: entry(0x83, x + 2 * align * i + align, align),
        absolute_ebr_lba: x + 2 * align * i,
        ebr_sectors: (i > 0).then_some(2 * align),
        ebr_first_chs: CHS::empty(),
        ebr_last_chs: (i > 0).then(CHS::empty),
        bootstrap_code: [i as u8; 446],
    };
    let logical_partitions = (0..n).map(logical).collect();
    let (cylinders, heads, sectors) = GEOMETRY;
    let disk_size = x + 2 * align * (n + 4);
    MBR { sector_size: 512, header, logical_partitions, align, cylinders, heads, sectors, disk_size }
}

/// The place of a new EBR behind n others.
fn behind(n: u32) -> u32 {
    X + 2 * ALIGN * n
}

/// Zeros where the table's records go.
fn blank(t: &MBR) -> Disk {
    let mut places = vec![0];
    places.extend(t.logical_partitions.iter().map(|l| l.absolute_ebr_lba));
    let records: Vec<_> = places.into_iter().map(|lba| (lba, [0; 512])).collect();
    Disk::new(t.sector_size, t.disk_size, &records)
}

fn written(t: &MBR) -> Disk {
    let mut disk = blank(t);
    t.clone().write_into(&mut disk).expect("a table that can be written");
    disk
}

/// The extract's bytes, the last record's signature turned round.
fn damaged(mut x: Vec<u8>) -> Vec<u8> {
    let n = x.len();
    x[n - 2..].copy_from_slice(&[0xaa, 0x55]);
    x
}

fn disk_of(x: &[u8]) -> Disk {
    let number = |at: usize| u32::from_le_bytes(x[at..at + 4].try_into().unwrap());
    let n = number(8) as usize;
    let records: Vec<_> = (0..n).map(|i| (number(24 + 4 * i), x[24 + 4 * n + 512 * i..][..512].try_into().unwrap())).collect();
    Disk::new(number(0), number(4), &records)
}

/// The table as a block.
fn block(t: &MBR) -> Vec<u8> {
    let x = written(&MBR { cylinders: 0, heads: 0, sectors: 0, ..t.clone() }).bytes();
    let mut b = vec![0; BLOCK];
    assert_eq!(ours::read(&x, &mut b), 0);
    b[8..12].copy_from_slice(&t.align.to_le_bytes());
    b[16..18].copy_from_slice(&t.cylinders.to_le_bytes());
    b[18..20].copy_from_slice(&[t.heads, t.sectors]);
    b
}

fn number(e: &Error) -> u64 {
    let number = match e {
        Error::InvalidSignature => 3,
        Error::InvalidBootFlag => 4,
        Error::EBRStartsTooCloseToTheEndOfExtendedPartition => 11,
        other => panic!("{other:?}"),
    };
    number << 32
}

fn says<T>(r: &mbrman::Result<T>) -> u64 {
    r.as_ref().map_or_else(number, |_| 0)
}

fn read(n: u32, sound: bool) -> Line {
    let whole = written(&table(n)).bytes();
    let x = if sound { whole } else { damaged(whole) };
    read_line(input(n, sound), x)
}

/// Starts that the greatest alignment divides: ours tries it first, mbrman last.
fn read_high(n: u32) -> Line {
    read_line(format!("{n} at 16,384"), written(&table_at(n, 16384)).bytes())
}

fn read_line(input: String, x: Vec<u8>) -> Line {
    let mut disk = disk_of(&x);
    let mut out = vec![0; BLOCK];
    Line {
        operation: "read",
        input,
        ours: Box::new(move || ours::read(&x, &mut out)),
        theirs: Box::new(move || says(&MBR::read_from(&mut disk, 512))),
    }
}

/// Damaged: the sector is in a table whose last partition has no sectors, and is found nowhere.
fn find(n: u32, sound: bool) -> Line {
    let mut t = table(n);
    let sector = t.logical_partitions.last().map_or(ALIGN, |l| l.partition.starting_lba);
    if !sound {
        let last = t.logical_partitions.last_mut().map_or(&mut t.header.partition_1, |l| &mut l.partition);
        last.sectors = 0;
    }
    let b = block(&t);
    Line {
        operation: "find_at_sector",
        input: input(n, sound),
        ours: Box::new(move || ours::find(&b, sector)),
        theirs: Box::new(move || t.find_at_sector(sector).map_or(255 << 32, |n| n as u64)),
    }
}

/// Damaged: a partition that lies in another.
fn free(n: u32, sound: bool) -> Line {
    let mut t = table(n);
    if !sound {
        t.header.partition_3 = entry(0x83, ALIGN + 5, ALIGN / 2);
        if let Some(l) = t.logical_partitions.last_mut() {
            l.partition.starting_lba -= 3;
        }
    }
    let b = block(&t);
    let mut out = vec![0; RUNS];
    Line {
        operation: "find_free_sectors",
        input: input(n, sound),
        ours: Box::new(move || ours::free(&b, &mut out)),
        theirs: Box::new(move || t.find_free_sectors().len() as u64),
    }
}

/// Damaged: beyond the extended partition's end. Both tables are as before afterwards: that is part of the call.
fn push(n: u32, sound: bool) -> Line {
    let n = n.min(23);
    let mut t = table(n);
    let mut b = block(&t);
    let start = if sound { behind(n) } else { behind(n + 3) };
    Line {
        operation: "push",
        input: input(n, sound),
        ours: Box::new(move || {
            let answer = ours::push(&mut b, 0x83, start, 2 * ALIGN);
            b[COUNT..COUNT + 4].copy_from_slice(&n.to_le_bytes());
            answer
        }),
        theirs: Box::new(move || {
            let said = t.push(0x83, start, 2 * ALIGN).map(|_| ());
            let answer = said.as_ref().map_or_else(number, |_| u64::from(n) + 5);
            if said.is_ok() {
                t.logical_partitions.pop();
            }
            answer
        }),
    }
}

/// The first one is removed; both tables get it back in front of the others, and that is part of the call.
fn remove(n: u32) -> Line {
    let mut t = table(n);
    let mut b = block(&t);
    let (first, tag) = (b[SLOTS..SLOTS + SLOT].to_vec(), b[TAGS]);
    let (last, last_tag) = (SLOTS + SLOT * (n as usize - 1), TAGS + n as usize - 1);
    Line {
        operation: "remove",
        input: input(n, true),
        ours: Box::new(move || {
            let answer = ours::remove(&mut b, 5);
            b.copy_within(SLOTS..last, SLOTS + SLOT);
            b[SLOTS..SLOTS + SLOT].copy_from_slice(&first);
            b.copy_within(TAGS..last_tag, TAGS + 1);
            b[TAGS] = tag;
            b[COUNT..COUNT + 4].copy_from_slice(&n.to_le_bytes());
            answer
        }),
        theirs: Box::new(move || {
            let l = t.remove(5);
            t.logical_partitions.insert(0, l);
            0
        }),
    }
}

/// Damaged: the last entry's flag.
fn write(n: u32, sound: bool) -> Line {
    let mut t = table(n);
    let mut b = block(&t);
    let x = written(&t).bytes();
    if !sound {
        let last = t.logical_partitions.last_mut().map_or(&mut t.header.partition_2, |l| &mut l.partition);
        last.boot = 0x7f;
        b[if n == 0 { 466 + 18 } else { SLOTS + SLOT * (n as usize - 1) }] = 0x7f;
    }
    let mut disk = disk_of(&x);
    let mut out = vec![0; x.len()];
    let length = x.len() as u64;
    Line {
        operation: "write",
        input: input(n, sound),
        ours: Box::new(move || ours::write(&mut b, &x, &mut out)),
        theirs: Box::new(move || t.write_into(&mut disk).as_ref().map_or_else(number, |_| length)),
    }
}

/// mbrman's read, push and write, the last to another disk, so that each call is as the first.
fn careful(n: u32, sound: bool) -> Line {
    let n = n.min(23);
    let whole = written(&table(n)).bytes();
    let x = if sound { whole } else { damaged(whole) };
    let mut disk = disk_of(&x);
    let mut after = blank(&table(n + 1));
    let mut out = vec![0; STORES];
    let stores = if n == 0 { 1 } else { 2 };
    Line {
        operation: "careful push",
        input: input(n, sound),
        ours: Box::new(move || ours::careful_push(&x, ALIGN, GEOMETRY, 0x83, behind(n), 2 * ALIGN, &mut out)),
        theirs: Box::new(move || {
            let done = MBR::read_from(&mut disk, 512).and_then(|mut t| {
                (t.cylinders, t.heads, t.sectors) = GEOMETRY;
                t.push(0x83, behind(n), 2 * ALIGN)?;
                t.write_into(&mut after)
            });
            done.as_ref().map_or_else(number, |_| stores)
        }),
    }
}

fn input(n: u32, sound: bool) -> String {
    format!("{n} {}", if sound { "sound" } else { "damaged" })
}

pub fn all() -> Vec<Line> {
    let mut lines = Vec::new();
    let both = |lines: &mut Vec<Line>, f: fn(u32, bool) -> Line| {
        for n in [0, 8, 24] {
            lines.extend([f(n, true), f(n, false)]);
        }
    };
    both(&mut lines, read);
    lines.extend([0, 8, 24].map(read_high));
    both(&mut lines, find);
    both(&mut lines, free);
    both(&mut lines, push);
    lines.extend([remove(8), remove(24)]);
    both(&mut lines, write);
    both(&mut lines, careful);
    lines
}
