//! Tables as the blocks of include/crumbvessel.h.

use mbrman::{LogicalPartition, MBRHeader, MBRPartitionEntry, CHS, MBR};

use crate::marked::{Mark, Table};
use crate::text;

pub const BLOCK: usize = 12852;
pub const HEADER: usize = 20;
pub const HEADER_LENGTH: usize = 520;
const SLOT: usize = 512;
const SLOTS: usize = 24;
/// Where the tags begin, one for each slot.
pub const TAGS: usize = 12828;

fn slot(i: usize) -> usize {
    540 + SLOT * i
}

/// Slot i of a block, then its tag.
pub fn lone(b: &[u8], i: usize) -> Vec<u8> {
    [&b[slot(i)..][..SLOT], &[b[TAGS + i]]].concat()
}

fn tag(l: &LogicalPartition) -> u8 {
    u8::from(l.ebr_sectors.is_some()) + 2 * u8::from(l.ebr_last_chs.is_some())
}

struct Writer(Vec<u8>);

impl Writer {
    fn put(&mut self, bytes: &[u8]) {
        self.0.extend(bytes);
    }

    fn chs(&mut self, c: &CHS) {
        self.put(&c.cylinder.to_le_bytes());
        self.put(&[c.head, c.sector]);
    }

    fn entry(&mut self, e: &MBRPartitionEntry) {
        self.put(&[e.boot]);
        self.chs(&e.first_chs);
        self.put(&[e.sys]);
        self.chs(&e.last_chs);
        self.put(&e.starting_lba.to_le_bytes());
        self.put(&e.sectors.to_le_bytes());
    }

    fn header(&mut self, h: &MBRHeader) {
        self.put(&h.bootstrap_code);
        self.put(&h.disk_signature);
        self.put(&h.copy_protected);
        text::entries(h).into_iter().for_each(|e| self.entry(e));
        self.put(&h.boot_signature);
    }

    fn logical(&mut self, l: &LogicalPartition, mark: &Mark) {
        self.entry(&l.partition);
        self.put(&l.absolute_ebr_lba.to_le_bytes());
        self.put(&l.ebr_sectors.unwrap_or(0).to_le_bytes());
        self.chs(&l.ebr_first_chs);
        self.chs(&l.ebr_last_chs.unwrap_or(CHS::empty()));
        self.put(&l.bootstrap_code);
        self.put(mark);
    }
}

/// The block of a table; slots and tags behind its partitions are zeros, and partitions behind the 24th are left out.
pub fn of_table(t: &Table) -> Vec<u8> {
    let mut w = Writer(Vec::with_capacity(BLOCK));
    for n in [t.sector_size, t.disk_size, t.align, t.logical_partitions.len() as u32] {
        w.put(&n.to_le_bytes());
    }
    w.put(&t.cylinders.to_le_bytes());
    w.put(&[t.heads, t.sectors]);
    w.header(&t.header);
    t.logical_partitions.iter().zip(&t.marks).take(SLOTS).for_each(|(l, mark)| w.logical(l, mark));
    w.0.resize(TAGS, 0);
    t.logical_partitions.iter().take(SLOTS).for_each(|l| w.put(&[tag(l)]));
    w.0.resize(BLOCK, 0);
    w.0
}

struct Reader<'a>(&'a [u8]);

impl Reader<'_> {
    fn take<const N: usize>(&mut self) -> [u8; N] {
        let (taken, rest) = self.0.split_at(N);
        self.0 = rest;
        taken.try_into().unwrap()
    }

    fn u32(&mut self) -> u32 {
        u32::from_le_bytes(self.take())
    }

    fn u8(&mut self) -> u8 {
        self.take::<1>()[0]
    }

    fn chs(&mut self) -> CHS {
        CHS::new(u16::from_le_bytes(self.take()), self.u8(), self.u8())
    }

    fn entry(&mut self) -> MBRPartitionEntry {
        MBRPartitionEntry {
            boot: self.u8(),
            first_chs: self.chs(),
            sys: self.u8(),
            last_chs: self.chs(),
            starting_lba: self.u32(),
            sectors: self.u32(),
        }
    }

    fn header(&mut self) -> MBRHeader {
        MBRHeader {
            bootstrap_code: self.take(),
            disk_signature: self.take(),
            copy_protected: self.take(),
            partition_1: self.entry(),
            partition_2: self.entry(),
            partition_3: self.entry(),
            partition_4: self.entry(),
            boot_signature: self.take(),
        }
    }

    fn logical(&mut self, tag: u8) -> (LogicalPartition, Mark) {
        let (partition, absolute_ebr_lba, sectors) = (self.entry(), self.u32(), self.u32());
        let (ebr_first_chs, last) = (self.chs(), self.chs());
        let l = LogicalPartition {
            partition,
            absolute_ebr_lba,
            ebr_sectors: (tag & 1 != 0).then_some(sectors),
            ebr_first_chs,
            ebr_last_chs: (tag & 2 != 0).then_some(last),
            bootstrap_code: self.take(),
        };
        (l, self.take())
    }
}

pub fn entry(bytes: &[u8]) -> MBRPartitionEntry {
    Reader(bytes).entry()
}

/// The partition in a slot with its tag, and its mark.
pub fn logical(lone: &[u8]) -> (LogicalPartition, Mark) {
    Reader(lone).logical(lone[SLOT])
}

pub fn header(bytes: &[u8]) -> MBRHeader {
    Reader(bytes).header()
}

/// The table of a block. No byte of it is left to chance: slots in use and their tags are what the table is written as
/// again, the others are as in the block that was handed in, or zeros.
pub fn table(b: &[u8], given: Option<&[u8]>) -> Table {
    let mut r = Reader(b);
    let (sector_size, disk_size, align, count) = (r.u32(), r.u32(), r.u32(), r.u32() as usize);
    let (cylinders, heads, sectors) = (u16::from_le_bytes(r.take()), r.u8(), r.u8());
    let header = r.header();
    let (logical_partitions, marks) = b[TAGS..TAGS + count].iter().map(|&tag| r.logical(tag)).unzip();
    let mbr = MBR { sector_size, header, logical_partitions, align, cylinders, heads, sectors, disk_size };
    let t = Table { mbr, marks };
    let (again, zeros, used) = (of_table(&t), vec![0; BLOCK], slot(count));
    let given = given.unwrap_or(&zeros);
    assert!(b[..used] == again[..used], "a block with other bytes than its table's");
    assert!(b[used..TAGS] == given[used..TAGS], "an unused slot is not as given");
    let used = TAGS + count;
    assert!(b[TAGS..used] == again[TAGS..used], "a block with other tags than its table's");
    assert!(b[used..] == given[used..], "the tag of an unused slot is not as given");
    t
}
