use std::io::{ErrorKind, Read, Seek, Write};
use std::ops::{Index, IndexMut};

use crate::error::{expected, Result};
use crate::extract::{self, Extract};
use crate::{archive, block, disk, MBRPartitionEntry};

/// The header of a table: the record in sector 0.
#[derive(Debug, Clone, PartialEq, Eq)]
pub struct MBRHeader {
    /// Code.
    pub bootstrap_code: [u8; 440],
    /// Disk signature.
    pub disk_signature: [u8; 4],
    /// `[0x5a, 0x5a]` if protected, `[0x00, 0x00]` if not.
    pub copy_protected: [u8; 2],
    /// Partition 1.
    pub partition_1: MBRPartitionEntry,
    /// Partition 2.
    pub partition_2: MBRPartitionEntry,
    /// Partition 3.
    pub partition_3: MBRPartitionEntry,
    /// Partition 4.
    pub partition_4: MBRPartitionEntry,
    /// Boot signature: 55 AA.
    pub boot_signature: [u8; 2],
}

impl MBRHeader {
    /// A header without partitions.
    pub fn new(disk_signature: [u8; 4]) -> MBRHeader {
        let new = archive::new_from(&extract::front(512, 0), disk_signature);
        block::to_table(&expected(new)).header
    }

    /// Is the table marked as copy-protected? None for a mark that is neither.
    pub fn is_copy_protected(&self) -> Option<bool> {
        match self.copy_protected {
            [0x00, 0x00] => Some(false),
            [0x5a, 0x5a] => Some(true),
            _ => None,
        }
    }

    /// The primary entry with a number from 1 to 4.
    pub fn get(&self, i: usize) -> Option<&MBRPartitionEntry> {
        match i {
            1 => Some(&self.partition_1),
            2 => Some(&self.partition_2),
            3 => Some(&self.partition_3),
            4 => Some(&self.partition_4),
            _ => None,
        }
    }

    /// The primary entry with a number from 1 to 4, to be changed.
    pub fn get_mut(&mut self, i: usize) -> Option<&mut MBRPartitionEntry> {
        match i {
            1 => Some(&mut self.partition_1),
            2 => Some(&mut self.partition_2),
            3 => Some(&mut self.partition_3),
            4 => Some(&mut self.partition_4),
            _ => None,
        }
    }

    /// The four primary entries with their numbers.
    pub fn iter(&self) -> impl Iterator<Item = (usize, &MBRPartitionEntry)> {
        (1..).zip([&self.partition_1, &self.partition_2, &self.partition_3, &self.partition_4])
    }

    /// The four primary entries with their numbers, to be changed.
    pub fn iter_mut(&mut self) -> impl Iterator<Item = (usize, &mut MBRPartitionEntry)> {
        (1..).zip([&mut self.partition_1, &mut self.partition_2, &mut self.partition_3, &mut self.partition_4])
    }

    /// Reads the header in the reader's first 512 bytes.
    ///
    /// # Errors
    /// 2 if there are fewer; 3, 4; I/O.
    pub fn read_from<R>(reader: &mut R) -> Result<MBRHeader>
    where
        R: Read + Seek + ?Sized,
    {
        let x = match disk::read_at(reader, 0) {
            Ok(record) => Extract::new(512, 1)?.with(0, &record)?.into_bytes(),
            Err(e) if e.kind() == ErrorKind::UnexpectedEof => extract::front(512, 0),
            Err(e) => return Err(e.into()),
        };
        archive::read_header(&x).map(|bytes| block::to_header(&bytes))
    }

    /// Writes the header to the writer's first 512 bytes.
    ///
    /// # Errors
    /// 3, 4, and then nothing was written; I/O.
    pub fn write_into<W>(&self, writer: &mut W) -> Result<()>
    where
        W: Write + Seek + ?Sized,
    {
        let new = archive::write_header(&block::of_header(self), &extract::front(512, 1))?;
        Extract::made(new).write_into(writer)
    }
}

impl Index<usize> for MBRHeader {
    type Output = MBRPartitionEntry;

    fn index(&self, i: usize) -> &MBRPartitionEntry {
        self.get(i).unwrap_or_else(|| panic!("there is no primary partition {i}"))
    }
}

impl IndexMut<usize> for MBRHeader {
    fn index_mut(&mut self, i: usize) -> &mut MBRPartitionEntry {
        self.get_mut(i).unwrap_or_else(|| panic!("there is no primary partition {i}"))
    }
}
