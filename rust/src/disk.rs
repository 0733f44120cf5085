//! The adapter between byte streams and sectors.

use std::fs::File;
use std::io::{Cursor, Read, Result, Seek, SeekFrom, Write};

/// The first 512 bytes of a sector.
pub type Record = [u8; 512];

/// A disk or image that can be changed and whose writes can be waited for.
pub trait Medium: Read + Write + Seek {
    /// Returns when all that was written is on the medium.
    fn sync(&mut self) -> Result<()>;
}

/// Waits for the device (`sync_data`).
impl Medium for File {
    fn sync(&mut self) -> Result<()> {
        self.sync_data()
    }
}

/// Memory is its own medium.
impl<T> Medium for Cursor<T>
where
    Cursor<T>: Read + Write + Seek,
{
    fn sync(&mut self) -> Result<()> {
        self.flush()
    }
}

impl<M: Medium + ?Sized> Medium for &mut M {
    fn sync(&mut self) -> Result<()> {
        (**self).sync()
    }
}

/// The number of whole sectors, at most 4,294,967,295. A sector size of 0, which every extract refuses, gives 0.
pub fn sectors<S: Seek + ?Sized>(seeker: &mut S, sector_size: u32) -> Result<u32> {
    let whole = seeker.seek(SeekFrom::End(0))?.checked_div(u64::from(sector_size)).unwrap_or(0);
    Ok(u32::try_from(whole).unwrap_or(u32::MAX))
}

/// Where a sector begins.
pub fn place(lba: u32, sector_size: u32) -> u64 {
    u64::from(lba) * u64::from(sector_size)
}

pub fn read_at<R: Read + Seek + ?Sized>(reader: &mut R, at: u64) -> Result<Record> {
    let mut record = [0; 512];
    reader.seek(SeekFrom::Start(at))?;
    reader.read_exact(&mut record)?;
    Ok(record)
}

pub fn write_at<W: Write + Seek + ?Sized>(writer: &mut W, at: u64, record: &Record) -> Result<()> {
    writer.seek(SeekFrom::Start(at))?;
    writer.write_all(record)
}
