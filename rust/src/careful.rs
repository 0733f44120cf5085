use std::io;

use crate::disk::{self, Medium, Record};
use crate::error::{Error, Result};
use crate::extract::Extract;
use crate::{archive, MBR};

/// What a careful push is asked for.
#[derive(Debug, Clone, Copy, PartialEq, Eq)]
pub struct Request {
    /// Alignment in sectors.
    pub align: u32,
    /// The disk's geometry: cylinders, heads, sectors. Zeros for none; then no address is computed.
    pub geometry: (u16, u8, u8),
    /// The new partition's type.
    pub sys: u8,
    /// Where its EBR goes, rounded up to the alignment.
    pub starting_lba: u32,
    /// Sectors of EBR and partition together, rounded up to the alignment.
    pub sectors: u32,
}

/// Adds a logical partition on a disk so that at every moment, also if the drive is pulled, the disk reads as the table
/// before or the one after, provided that the medium stores the first 512 bytes of a sector whole or not at all. The
/// stores are put one by one, each on the medium and read back before the next. Answers the table as it reads afterwards.
///
/// The new partition goes behind the others or into a gap between two: it starts at or after the end of the one before
/// it, which for a first EBR without a partition is the sector behind that EBR, and ends by the EBR of the next (21).
/// The numbers of the partitions behind it grow by one.
///
/// # Errors
/// Reading's, 20, 23, push's, 12, 21, and then nothing was written. I/O: after a write that fails the sector's old bytes
/// are put back, and the error says so if that fails too. What is on a medium that cannot be synced, or where a sector
/// does not read back as it was written, nobody knows: read it again.
pub fn careful_push<M>(medium: &mut M, sector_size: u32, request: &Request) -> Result<MBR>
where
    M: Medium + ?Sized,
{
    let Request { align, geometry, sys, starting_lba, sectors } = *request;
    carry_out(medium, sector_size, |x| archive::careful_push(x, align, geometry, (sys, starting_lba, sectors)))
}

/// Removes the logical partition with a number, 5 and up, in the same way: one store. A first EBR without a partition has
/// number 5.
///
/// # Errors
/// Reading's, 20, 17, and then nothing was written. I/O as in [`careful_push`].
pub fn careful_remove<M>(medium: &mut M, sector_size: u32, number: usize) -> Result<MBR>
where
    M: Medium + ?Sized,
{
    let number = u32::try_from(number).unwrap_or(u32::MAX);
    carry_out(medium, sector_size, |x| archive::careful_remove(x, number))
}

fn carry_out<M>(medium: &mut M, sector_size: u32, change: impl FnOnce(&[u8]) -> Result<Vec<u8>>) -> Result<MBR>
where
    M: Medium + ?Sized,
{
    let stores = change(Extract::collect(medium, sector_size)?.as_bytes())?;
    for store in stores.chunks_exact(archive::STORE) {
        let (lba, record) = store.split_at(4);
        let lba = u32::from_le_bytes(lba.try_into().expect("four bytes"));
        put(medium, disk::place(lba, sector_size), record.try_into().expect("a record's length"))?;
    }
    MBR::read_from(medium, sector_size)
}

/// One store: written, on the medium, read back.
fn put<M: Medium + ?Sized>(medium: &mut M, at: u64, record: &Record) -> Result<()> {
    let old = disk::read_at(medium, at)?;
    if let Err(e) = disk::write_at(medium, at, record) {
        return Err(Error::Io(put_back(medium, at, &old, e)));
    }
    medium.sync()?;
    if disk::read_at(medium, at)? != *record {
        return Err(Error::Io(io::Error::other("a sector does not read back as it was written")));
    }
    Ok(())
}

/// After a write that failed and may have been cut short.
fn put_back<M: Medium + ?Sized>(medium: &mut M, at: u64, old: &Record, e: io::Error) -> io::Error {
    match disk::write_at(medium, at, old).and_then(|()| medium.sync()) {
        Ok(()) => e,
        Err(_) => io::Error::new(e.kind(), format!("a write failed ({e}), and its sector could not be put back")),
    }
}
