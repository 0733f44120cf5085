//! mbrman's signatures: this compiles only while they hold.

use std::fs::File;
use std::ops::{Index, IndexMut};

use crumbvessel::{Error, LogicalPartition, MBRHeader, MBRPartitionEntry, Result, CHS, MBR};

type Entry = MBRPartitionEntry;

#[test]
fn of_tables() {
    let _: fn(&mut File, u32, [u8; 4]) -> Result<MBR> = MBR::new_from;
    let _: fn(&mut File, u32) -> Result<MBR> = MBR::read_from;
    let _: fn(&mut MBR, &mut File) -> Result<()> = MBR::update_from;
    let _: fn(&mut MBR, &mut File) -> Result<()> = MBR::write_into;
    let _: fn(&MBR, usize) -> Option<&Entry> = MBR::get;
    let _: fn(&mut MBR, usize) -> Option<&mut Entry> = MBR::get_mut;
    let _: fn(&MBR) -> usize = MBR::len;
    let _: fn(&MBR) -> bool = MBR::is_empty;
    let _: fn(&MBR) -> bool = MBR::check_geometry;
    let _: fn(&MBR) -> u32 = MBR::get_cylinder_size;
    let _: fn(&MBR, u32) -> Option<usize> = MBR::find_at_sector;
    let _: fn(&mut MBR, u32) -> Result<()> = MBR::remove_at_sector;
    let _: fn(&MBR) -> Vec<(u32, u32)> = MBR::find_free_sectors;
    let _: fn(&MBR, u32) -> Option<u32> = MBR::find_first_place;
    let _: fn(&MBR, u32) -> Option<u32> = MBR::find_last_place;
    let _: fn(&MBR, u32) -> Option<u32> = MBR::find_optimal_place;
    let _: fn(&MBR) -> Result<u32> = MBR::get_maximum_partition_size;
    let _: fn(&mut MBR, usize) -> Result<u32> = MBR::get_maximum_partition_size_for;
    let _: fn(&mut MBR, u8, u32, u32) -> Result<&mut LogicalPartition> = MBR::push;
    let _: fn(&mut MBR, usize) -> LogicalPartition = MBR::remove;
    let _: fn(&mut LogicalPartition, u16, u8, u8) -> Result<()> = LogicalPartition::update_chs;
    let _ = |t: &mut MBR| t.iter().count() + t.iter_mut().count();
}

#[test]
fn of_headers_entries_and_addresses() {
    let _: fn([u8; 4]) -> MBRHeader = MBRHeader::new;
    let _: fn(&mut File) -> Result<MBRHeader> = MBRHeader::read_from;
    let _: fn(&MBRHeader, &mut File) -> Result<()> = MBRHeader::write_into;
    let _: fn(&MBRHeader) -> Option<bool> = MBRHeader::is_copy_protected;
    let _: fn(&MBRHeader, usize) -> Option<&Entry> = MBRHeader::get;
    let _: fn(&mut MBRHeader, usize) -> Option<&mut Entry> = MBRHeader::get_mut;
    let _ = |h: &mut MBRHeader| h.iter().count() + h.iter_mut().count();
    let _: fn() -> Entry = Entry::empty;
    let _: [fn(&Entry) -> bool; 4] = [Entry::is_used, Entry::is_unused, Entry::is_extended, Entry::is_active];
    let _: fn(u16, u8, u8) -> CHS = CHS::new;
    let _: fn() -> CHS = CHS::empty;
    let _: fn(u32, u16, u8, u8) -> Result<CHS> = CHS::from_lba_exact;
    let _: fn(u32, u16, u8, u8) -> Result<CHS> = CHS::from_lba_aligned;
    let _: fn(CHS, u8, u8) -> u32 = CHS::to_lba;
    let _: fn(CHS) -> bool = CHS::is_empty;
    let _: fn(CHS, u16, u8, u8) -> bool = CHS::is_valid;
}

#[test]
fn of_traits() {
    fn indexed<T: Index<usize, Output = Entry> + IndexMut<usize>>() {}
    fn plain<T: Clone + Eq + std::fmt::Debug>() {}
    fn error<T: std::error::Error + From<std::io::Error> + Send + Sync + 'static>() {}
    indexed::<MBR>();
    indexed::<MBRHeader>();
    plain::<(MBR, MBRHeader, Entry, LogicalPartition, CHS)>();
    error::<Error>();
}
