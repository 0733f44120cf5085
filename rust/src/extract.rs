use std::io::{Read, Seek, Write};

use crate::disk::{self, Record};
use crate::error::{expected, Result};
use crate::{archive, block, MBR};

/// The boot sectors of a disk as bytes: sector size, number of sectors, and the first 512 bytes of some sectors. A sector
/// without a record reads as zeros.
#[derive(Debug, Clone, PartialEq, Eq)]
pub struct Extract {
    bytes: Vec<u8>,
}

/// The bytes of an extract without records, good or not.
pub(crate) fn front(sector_size: u32, disk_size: u32) -> Vec<u8> {
    [sector_size, disk_size, 0, 24, 24, 24].iter().flat_map(|n| n.to_le_bytes()).collect()
}

impl Extract {
    /// An extract without records.
    ///
    /// # Errors
    /// 1 for a sector size that is no power of two from 512 to 4,096.
    pub fn new(sector_size: u32, disk_size: u32) -> Result<Extract> {
        Extract::of_bytes(front(sector_size, disk_size))
    }

    /// The extract that these bytes are.
    ///
    /// # Errors
    /// 1 where they break a rule.
    pub fn of_bytes(bytes: Vec<u8>) -> Result<Extract> {
        archive::extract_check(&bytes)?;
        Ok(Extract { bytes })
    }

    /// An extract that the archive has answered.
    pub(crate) fn made(bytes: Vec<u8>) -> Extract {
        Extract { bytes }
    }

    /// Collects all that reading the table of this disk looks at, and no other sector. The disk has as many sectors as
    /// are whole, at most 4,294,967,295.
    ///
    /// # Errors
    /// 1 as for [`Extract::new`]; I/O.
    pub fn collect<R>(reader: &mut R, sector_size: u32) -> Result<Extract>
    where
        R: Read + Seek + ?Sized,
    {
        let mut x = Extract::new(sector_size, disk::sectors(reader, sector_size)?)?;
        while let Some(lba) = x.wanted()? {
            let record = disk::read_at(reader, disk::place(lba, sector_size))?;
            x = x.with(lba, &record)?;
        }
        Ok(x)
    }

    /// The sector that reading looks at first and the extract has no record for.
    pub fn wanted(&self) -> Result<Option<u32>> {
        archive::wanted(&self.bytes)
    }

    /// The extract with this record laid over it.
    ///
    /// # Errors
    /// 1 for a record that is not 512 bytes; 2, 22.
    pub fn with(&self, lba: u32, record: &[u8]) -> Result<Extract> {
        archive::lay_over(&self.bytes, lba, record).map(Extract::made)
    }

    /// The record of a sector, if the extract has one.
    ///
    /// # Errors
    /// 2 for a sector at or past the disk's end.
    pub fn look_up(&self, lba: u32) -> Result<Option<&Record>> {
        Ok(archive::look_up(&self.bytes, lba)?.map(|at| self.record_at(at)))
    }

    /// The table that the extract reads as.
    ///
    /// # Errors
    /// 2 to 7 of reading.
    pub fn read(&self) -> Result<MBR> {
        archive::read(&self.bytes).map(|b| block::to_table(&b))
    }

    /// The listing of the table, or `refused` and a number, as text.
    pub fn listing(&self) -> String {
        let text = expected(archive::listing(&self.bytes));
        String::from_utf8(text).expect("a listing is ASCII")
    }

    /// Puts every record at its sector, in ascending order, and flushes the writer after each.
    ///
    /// # Errors
    /// I/O.
    pub fn write_into<W>(&self, writer: &mut W) -> Result<()>
    where
        W: Write + Seek + ?Sized,
    {
        for (lba, record) in self.records() {
            disk::write_at(writer, disk::place(lba, self.sector_size()), record)?;
            writer.flush()?;
        }
        Ok(())
    }

    /// The sector size in bytes.
    pub fn sector_size(&self) -> u32 {
        self.number_at(0)
    }

    /// The disk's size in sectors.
    pub fn disk_size(&self) -> u32 {
        self.number_at(4)
    }

    /// The records with their sectors, in ascending order.
    pub fn records(&self) -> impl Iterator<Item = (u32, &Record)> {
        let n = self.number_at(8) as usize;
        (0..n).map(move |i| (self.number_at(24 + 4 * i), self.record_at(24 + 4 * n + 512 * i)))
    }

    /// The extract's bytes.
    pub fn as_bytes(&self) -> &[u8] {
        &self.bytes
    }

    /// The extract's bytes.
    pub fn into_bytes(self) -> Vec<u8> {
        self.bytes
    }

    fn number_at(&self, at: usize) -> u32 {
        u32::from_le_bytes(self.bytes[at..at + 4].try_into().expect("four bytes"))
    }

    fn record_at(&self, at: usize) -> &Record {
        self.bytes[at..at + 512].try_into().expect("a record's length")
    }
}
