//! A table, a header and a logical partition as the archive's bytes, and back. All numbers are little-endian.

use crate::archive::{Block, BLOCK, HEADER, LONE_SLOT, SLOT, TAGS};
use crate::{LogicalPartition, MBRHeader, MBRPartitionEntry, CHS, MBR};

/// What a tag is the sum of.
const EBR_SECTORS: u8 = 1;
const EBR_LAST: u8 = 2;

fn tag(l: &LogicalPartition) -> u8 {
    u8::from(l.ebr_sectors.is_some()) * EBR_SECTORS + u8::from(l.ebr_last_chs.is_some()) * EBR_LAST
}

/// Bytes put one behind the other.
struct Puts<'a>(&'a mut [u8]);

impl Puts<'_> {
    fn bytes(&mut self, bytes: &[u8]) -> &mut Self {
        let (here, behind) = std::mem::take(&mut self.0).split_at_mut(bytes.len());
        here.copy_from_slice(bytes);
        self.0 = behind;
        self
    }

    fn number(&mut self, number: u32) -> &mut Self {
        self.bytes(&number.to_le_bytes())
    }

    fn chs(&mut self, a: CHS) -> &mut Self {
        self.bytes(&a.cylinder.to_le_bytes()).bytes(&[a.head, a.sector])
    }

    fn entry(&mut self, e: &MBRPartitionEntry) -> &mut Self {
        self.bytes(&[e.boot]).chs(e.first_chs).bytes(&[e.sys]).chs(e.last_chs);
        self.number(e.starting_lba).number(e.sectors)
    }

    fn header(&mut self, h: &MBRHeader) -> &mut Self {
        self.bytes(&h.bootstrap_code).bytes(&h.disk_signature).bytes(&h.copy_protected);
        self.entry(&h.partition_1).entry(&h.partition_2).entry(&h.partition_3).entry(&h.partition_4);
        self.bytes(&h.boot_signature)
    }

    /// An absent value is zeros.
    fn slot(&mut self, l: &LogicalPartition) -> &mut Self {
        self.entry(&l.partition).number(l.absolute_ebr_lba).number(l.ebr_sectors.unwrap_or(0));
        self.chs(l.ebr_first_chs).chs(l.ebr_last_chs.unwrap_or(CHS::empty())).bytes(&l.bootstrap_code);
        self.bytes(&l.mark)
    }
}

/// The same bytes taken one behind the other.
struct Takes<'a>(&'a [u8]);

impl Takes<'_> {
    fn bytes<const N: usize>(&mut self) -> [u8; N] {
        let (here, behind) = self.0.split_at(N);
        self.0 = behind;
        here.try_into().expect("split at this length")
    }

    fn byte(&mut self) -> u8 {
        let [byte] = self.bytes();
        byte
    }

    fn number(&mut self) -> u32 {
        u32::from_le_bytes(self.bytes())
    }

    fn chs(&mut self) -> CHS {
        CHS { cylinder: u16::from_le_bytes(self.bytes()), head: self.byte(), sector: self.byte() }
    }

    fn entry(&mut self) -> MBRPartitionEntry {
        MBRPartitionEntry {
            boot: self.byte(),
            first_chs: self.chs(),
            sys: self.byte(),
            last_chs: self.chs(),
            starting_lba: self.number(),
            sectors: self.number(),
        }
    }

    fn header(&mut self) -> MBRHeader {
        MBRHeader {
            bootstrap_code: self.bytes(),
            disk_signature: self.bytes(),
            copy_protected: self.bytes(),
            partition_1: self.entry(),
            partition_2: self.entry(),
            partition_3: self.entry(),
            partition_4: self.entry(),
            boot_signature: self.bytes(),
        }
    }

    /// The bytes of an absent value are taken too.
    fn slot(&mut self, tag: u8) -> LogicalPartition {
        LogicalPartition {
            partition: self.entry(),
            absolute_ebr_lba: self.number(),
            ebr_sectors: Some(self.number()).filter(|_| tag & EBR_SECTORS != 0),
            ebr_first_chs: self.chs(),
            ebr_last_chs: Some(self.chs()).filter(|_| tag & EBR_LAST != 0),
            bootstrap_code: self.bytes(),
            mark: self.bytes(),
        }
    }
}

/// The table's block. Of more logical partitions than it holds it has the count, by which the archive refuses it.
pub fn of_table(t: &MBR) -> Block {
    let mut block = [0; BLOCK];
    let (slots, tags) = block.split_at_mut(TAGS);
    let count = u32::try_from(t.logical_partitions.len()).unwrap_or(u32::MAX);
    let mut puts = Puts(slots);
    puts.number(t.sector_size).number(t.disk_size).number(t.align).number(count);
    puts.bytes(&t.cylinders.to_le_bytes()).bytes(&[t.heads, t.sectors]).header(&t.header);
    for (l, place) in t.logical_partitions.iter().zip(tags) {
        puts.slot(l);
        *place = tag(l);
    }
    block
}

/// The table of a block that the archive has filled.
pub fn to_table(block: &Block) -> MBR {
    let (slots, tags) = block.split_at(TAGS);
    let mut takes = Takes(slots);
    let [sector_size, disk_size, align, count] = [(); 4].map(|()| takes.number());
    let (cylinders, heads, sectors) = (u16::from_le_bytes(takes.bytes()), takes.byte(), takes.byte());
    let header = takes.header();
    let logical_partitions = tags[..count as usize].iter().map(|&tag| takes.slot(tag)).collect();
    MBR { sector_size, header, logical_partitions, align, cylinders, heads, sectors, disk_size }
}

pub fn of_header(h: &MBRHeader) -> [u8; HEADER] {
    let mut bytes = [0; HEADER];
    Puts(&mut bytes).header(h);
    bytes
}

pub fn to_header(bytes: &[u8; HEADER]) -> MBRHeader {
    Takes(bytes).header()
}

pub fn of_logical(l: &LogicalPartition) -> [u8; LONE_SLOT] {
    let mut bytes = [0; LONE_SLOT];
    Puts(&mut bytes).slot(l).bytes(&[tag(l)]);
    bytes
}

pub fn to_logical(bytes: &[u8; LONE_SLOT]) -> LogicalPartition {
    Takes(bytes).slot(bytes[SLOT])
}
