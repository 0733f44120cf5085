//! mbrman's tables with the marks of their logical partitions, which mbrman does not carry.

use std::ops::{Deref, DerefMut};

use mbrman::MBR;

use crate::adapter::Extract;

pub type Mark = [u8; 32];

pub const NO_MARK: Mark = [0; 32];

/// A table, and a mark for each of its logical partitions.
#[derive(Clone, PartialEq)]
pub struct Table {
    pub mbr: MBR,
    pub marks: Vec<Mark>,
}

impl Table {
    pub fn unmarked(mbr: MBR) -> Table {
        let marks = vec![NO_MARK; mbr.logical_partitions.len()];
        Table { mbr, marks }
    }

    /// The table that this disk reads as: bytes 478 to 509 of each EBR.
    pub fn of_disk(mbr: MBR, disk: &Extract) -> Table {
        let mark = |lba: u32| disk.records.get(&lba).map_or(NO_MARK, |r| r[478..510].try_into().unwrap());
        let marks = mbr.logical_partitions.iter().map(|l| mark(l.absolute_ebr_lba)).collect();
        Table { mbr, marks }
    }

    /// The same marks with another table.
    pub fn with(&self, mbr: MBR) -> Table {
        Table { mbr, marks: self.marks.clone() }
    }
}

impl Deref for Table {
    type Target = MBR;

    fn deref(&self) -> &MBR {
        &self.mbr
    }
}

impl DerefMut for Table {
    fn deref_mut(&mut self) -> &mut MBR {
        &mut self.mbr
    }
}
