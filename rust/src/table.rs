use std::io::{Read, Seek, Write};
use std::ops::{Index, IndexMut};

use crate::error::{expected, Result};
use crate::extract::{front, Extract};
use crate::archive::Block;
use crate::{archive, block, disk, LogicalPartition, MBRHeader, MBRPartitionEntry};

/// A table: its header, its logical partitions, and what is known of the disk.
///
/// Every function that computes asks the proved archive, and a refusal leaves the table as it was. With more than
/// [`LOGICALS`](crate::LOGICALS) logical partitions all of these but `check_geometry` and `get_cylinder_size` refuse (6).
#[derive(Debug, Clone, PartialEq, Eq)]
pub struct MBR {
    /// Sector size of the disk in bytes: 512, 1,024, 2,048 or 4,096.
    pub sector_size: u32,
    /// The header.
    pub header: MBRHeader,
    /// The logical partitions, at most [`LOGICALS`](crate::LOGICALS).
    pub logical_partitions: Vec<LogicalPartition>,
    /// Alignment of partitions in sectors.
    pub align: u32,
    /// Geometry: cylinders; 0 for none.
    pub cylinders: u16,
    /// Geometry: heads; 0 for none.
    pub heads: u8,
    /// Geometry: sectors of a track; 0 for none.
    pub sectors: u8,
    /// Size of the disk in sectors.
    pub disk_size: u32,
}

/// A partition number as the archive takes it; those that do not fit are no partition's.
fn number(i: usize) -> u32 {
    u32::try_from(i).unwrap_or(u32::MAX)
}

/// Reading and writing.
impl MBR {
    /// A table without partitions for this disk.
    ///
    /// # Errors
    /// 1 for a sector size that is no power of two from 512 to 4,096; I/O.
    pub fn new_from<S>(seeker: &mut S, sector_size: u32, disk_signature: [u8; 4]) -> Result<MBR>
    where
        S: Seek,
    {
        let x = front(sector_size, disk::sectors(seeker, sector_size)?);
        archive::new_from(&x, disk_signature).map(|b| block::to_table(&b))
    }

    /// Reads the table of a disk.
    ///
    /// # Errors
    /// 1 as in [`MBR::new_from`]; 2 to 7; I/O.
    pub fn read_from<R>(reader: &mut R, sector_size: u32) -> Result<MBR>
    where
        R: Read + Seek + ?Sized,
    {
        Extract::collect(reader, sector_size)?.read()
    }

    /// Takes the disk's size over; the sector size stays.
    ///
    /// # Errors
    /// 6; 1 as in [`MBR::new_from`]; I/O.
    pub fn update_from<S>(&mut self, seeker: &mut S) -> Result<()>
    where
        S: Seek + ?Sized,
    {
        let x = front(self.sector_size, disk::sectors(seeker, self.sector_size)?);
        self.changed(|b| archive::update_from(b, &x))
    }

    /// Writes the table: the header and every EBR, each flushed. With a complete geometry the logical partitions'
    /// addresses are computed; the first one's EBR is put where the extended partition starts.
    ///
    /// The table's own `sector_size` and `disk_size` say where sectors are and which of them there are.
    ///
    /// # Errors
    /// 6, 1, 3, 4, 2, 7, 13, 14, 18, and then nothing was written. I/O; then some records may be written.
    pub fn write_into<W>(&mut self, writer: &mut W) -> Result<()>
    where
        W: Write + Seek + ?Sized,
    {
        let x = front(self.sector_size, self.disk_size);
        let mut b = block::of_table(self);
        let new = archive::write_into(&mut b, &x)?;
        Extract::made(new).write_into(writer)?;
        *self = block::to_table(&b);
        Ok(())
    }
}

/// Entries.
impl MBR {
    /// All entries with their numbers: the four primary ones, used or not, from 1 on, and the logical ones from 5 on.
    pub fn iter(&self) -> impl Iterator<Item = (usize, &MBRPartitionEntry)> {
        self.header.iter().chain((5..).zip(self.logical_partitions.iter().map(|l| &l.partition)))
    }

    /// The same, to be changed.
    pub fn iter_mut(&mut self) -> impl Iterator<Item = (usize, &mut MBRPartitionEntry)> {
        self.header.iter_mut().chain((5..).zip(self.logical_partitions.iter_mut().map(|l| &mut l.partition)))
    }

    /// The entry with a number.
    pub fn get(&self, i: usize) -> Option<&MBRPartitionEntry> {
        match i.checked_sub(5) {
            Some(place) => self.logical_partitions.get(place).map(|l| &l.partition),
            None => self.header.get(i),
        }
    }

    /// The entry with a number, to be changed.
    pub fn get_mut(&mut self, i: usize) -> Option<&mut MBRPartitionEntry> {
        match i.checked_sub(5) {
            Some(place) => self.logical_partitions.get_mut(place).map(|l| &mut l.partition),
            None => self.header.get_mut(i),
        }
    }

    /// The number of entries, the four primary ones always counted.
    pub fn len(&self) -> usize {
        4 + self.logical_partitions.len()
    }

    /// Always false.
    pub fn is_empty(&self) -> bool {
        false
    }

    /// The number of the partition at a sector; the extended one is never answered.
    ///
    /// # Panics
    /// Where [`MBR::try_find_at_sector`] refuses.
    pub fn find_at_sector(&self, sector: u32) -> Option<usize> {
        expected(self.try_find_at_sector(sector))
    }

    /// As [`MBR::find_at_sector`].
    ///
    /// # Errors
    /// 6, 7.
    pub fn try_find_at_sector(&self, sector: u32) -> Result<Option<usize>> {
        Ok(archive::find_at_sector(&block::of_table(self), sector)?.map(|n| n as usize))
    }

    /// Is the table sound: what the careful changes ask of the table on a disk? The first logical partition may be an EBR
    /// without a partition: type 0, the start its EBR's place, no sectors.
    ///
    /// # Errors
    /// 6.
    pub fn is_sound(&self) -> Result<bool> {
        archive::is_sound(&block::of_table(self))
    }
}

/// Changes.
impl MBR {
    /// Adds a logical partition behind the others. Its EBR is at `starting_lba`, the partition one alignment further;
    /// `sectors` counts both. Start and size are rounded up to the alignment.
    ///
    /// # Errors
    /// 8, 7, 9, 10, 11, 12, 13, 14, 6.
    pub fn push(&mut self, sys: u8, starting_lba: u32, sectors: u32) -> Result<&mut LogicalPartition> {
        let number = self.changed(|b| archive::push(b, sys, starting_lba, sectors))?;
        Ok(&mut self.logical_partitions[number as usize - 5])
    }

    /// Removes the logical partition with a number, 5 and up; those behind it move up by one.
    ///
    /// # Panics
    /// Where [`MBR::try_remove`] refuses.
    pub fn remove(&mut self, index: usize) -> LogicalPartition {
        expected(self.try_remove(index))
    }

    /// As [`MBR::remove`].
    ///
    /// # Errors
    /// 6, 17.
    pub fn try_remove(&mut self, index: usize) -> Result<LogicalPartition> {
        let mut b = block::of_table(self);
        archive::remove(&mut b, number(index))?;
        let removed = self.logical_partitions.swap_remove(index - 5);
        *self = block::to_table(&b);
        Ok(removed)
    }

    /// Removes the partition at a sector, primary or logical.
    ///
    /// # Errors
    /// 6, 7, 15.
    pub fn remove_at_sector(&mut self, sector: u32) -> Result<()> {
        self.changed(|b| archive::remove_at_sector(b, sector))
    }

    /// A change of the table as a block.
    fn changed<T>(&mut self, change: impl FnOnce(&mut Block) -> Result<T>) -> Result<T> {
        let mut b = block::of_table(self);
        let answer = change(&mut b)?;
        *self = block::to_table(&b);
        Ok(answer)
    }
}

/// Geometry and free sectors.
impl MBR {
    /// Is the geometry complete: cylinders 1 to 1,023, heads at least 1, sectors 1 to 63?
    pub fn check_geometry(&self) -> bool {
        expected(archive::check_geometry(&block::of_table(&self.front())))
    }

    /// Sectors of a cylinder.
    pub fn get_cylinder_size(&self) -> u32 {
        expected(archive::get_cylinder_size(&block::of_table(&self.front())))
    }

    /// The table without its logical partitions, for what does not look at them.
    fn front(&self) -> MBR {
        MBR { header: self.header.clone(), logical_partitions: Vec::new(), ..*self }
    }

    /// The free runs, each as start and length, aligned, as mbrman finds them. In the extended partition it offers used
    /// sectors too: hold what is chosen against [`MBR::find_at_sector`].
    ///
    /// # Panics
    /// Where [`MBR::try_find_free_sectors`] refuses.
    pub fn find_free_sectors(&self) -> Vec<(u32, u32)> {
        expected(self.try_find_free_sectors())
    }

    /// As [`MBR::find_free_sectors`].
    ///
    /// # Errors
    /// 6, 7.
    pub fn try_find_free_sectors(&self) -> Result<Vec<(u32, u32)>> {
        archive::find_free_sectors(&block::of_table(self))
    }

    /// The start of the first free run of at least this size.
    ///
    /// # Panics
    /// Where [`MBR::try_find_first_place`] refuses.
    pub fn find_first_place(&self, size: u32) -> Option<u32> {
        expected(self.try_find_first_place(size))
    }

    /// As [`MBR::find_first_place`].
    ///
    /// # Errors
    /// 6, 7.
    pub fn try_find_first_place(&self, size: u32) -> Result<Option<u32>> {
        archive::find_first_place(&block::of_table(self), size)
    }

    /// The last aligned place in the last free run of at least this size.
    ///
    /// # Panics
    /// Where [`MBR::try_find_last_place`] refuses.
    pub fn find_last_place(&self, size: u32) -> Option<u32> {
        expected(self.try_find_last_place(size))
    }

    /// As [`MBR::find_last_place`].
    ///
    /// # Errors
    /// 6, 7.
    pub fn try_find_last_place(&self, size: u32) -> Result<Option<u32>> {
        archive::find_last_place(&block::of_table(self), size)
    }

    /// The start of the smallest free run of at least this size.
    ///
    /// # Panics
    /// Where [`MBR::try_find_optimal_place`] refuses.
    pub fn find_optimal_place(&self, size: u32) -> Option<u32> {
        expected(self.try_find_optimal_place(size))
    }

    /// As [`MBR::find_optimal_place`].
    ///
    /// # Errors
    /// 6, 7.
    pub fn try_find_optimal_place(&self, size: u32) -> Result<Option<u32>> {
        archive::find_optimal_place(&block::of_table(self), size)
    }

    /// The size of the largest partition that fits a free run.
    ///
    /// # Errors
    /// 6, 7, 16.
    pub fn get_maximum_partition_size(&self) -> Result<u32> {
        archive::get_maximum_partition_size(&block::of_table(self))
    }

    /// The size to which the partition with a number can grow.
    ///
    /// # Errors
    /// 6, 7, 15.
    pub fn get_maximum_partition_size_for(&mut self, i: usize) -> Result<u32> {
        archive::get_maximum_partition_size_for(&block::of_table(self), number(i))
    }
}

impl Index<usize> for MBR {
    type Output = MBRPartitionEntry;

    fn index(&self, i: usize) -> &MBRPartitionEntry {
        self.get(i).unwrap_or_else(|| panic!("there is no partition {i}"))
    }
}

impl IndexMut<usize> for MBR {
    fn index_mut(&mut self, i: usize) -> &mut MBRPartitionEntry {
        self.get_mut(i).unwrap_or_else(|| panic!("there is no partition {i}"))
    }
}
