//! The examples in mbrman's documentation (its licence is in NOTICE), with what they answer, in our own arrangement.
//! Where mbrman's read a file we read disk K.

mod common;
use common::{disk_k, entry, logical, new_table, zeros};

use crumbvessel::{Error, MBRPartitionEntry, MBR};

#[test]
fn partitions_are_read_and_iterated() {
    let mbr = MBR::read_from(&mut disk_k(512), 512).unwrap();
    assert_eq!(mbr.header.disk_signature, [0; 4]);
    let used: Vec<_> = mbr.iter().filter(|(_, p)| p.is_used()).collect();
    let found: Vec<_> = used.iter().map(|(i, p)| (*i, p.sys, p.sectors * mbr.sector_size, p.starting_lba)).collect();
    assert_eq!(found, [(1, 0x05, 16384 * 512, 4096), (5, 0x83, 2048 * 512, 6144)]);
}

#[test]
fn a_primary_partition_is_created_and_deleted() {
    let mut mbr = MBR::read_from(&mut disk_k(512), 512).unwrap();
    let free = mbr.iter().find(|(_, p)| p.is_unused()).map(|(i, _)| i).unwrap();
    assert_eq!(free, 2);
    let sectors = mbr.get_maximum_partition_size().unwrap();
    assert_eq!(sectors, 8192);
    let starting_lba = mbr.find_optimal_place(sectors).unwrap();
    assert_eq!(starting_lba, 12288);
    mbr[free] = entry(0x83, starting_lba, sectors);
    assert!(mbr[free].is_used());
    mbr[free] = MBRPartitionEntry::empty();
    assert!(mbr[free].is_unused());
}

#[test]
fn an_empty_disk_gets_a_table() {
    let mut disk = zeros(100, 512);
    let mut mbr = MBR::new_from(&mut disk, 512, [0xff; 4]).unwrap();
    mbr.write_into(&mut disk).unwrap();
    let bytes = disk.get_ref();
    assert!(bytes[..440].iter().all(|&b| b == 0) && bytes[440..444] == [0xff; 4]);
    assert!(bytes[444..510].iter().all(|&b| b == 0) && bytes[510..512] == [0x55, 0xaa]);
    assert!(bytes[512..].iter().all(|&b| b == 0));
    assert_eq!(MBR::read_from(&mut disk, 512).unwrap(), mbr);
}

#[test]
fn a_logical_partition_is_pushed_and_written() {
    let mut disk = zeros(100, 512);
    let mut mbr = MBR::new_from(&mut disk, 512, [0xff; 4]).unwrap();
    mbr[1] = entry(0x0f, 1, mbr.disk_size - 1);
    // With the alignment of a new table there is no room, which mbrman's example does not look at.
    let refused = mbr.push(0x83, 1, mbr.disk_size - 1);
    assert!(matches!(refused, Err(Error::NotEnoughSectorsToCreateLogicalPartition)));
    mbr.align = 1;
    let new = mbr.push(0x83, 1, mbr.disk_size - 1).unwrap();
    assert_eq!((new.absolute_ebr_lba, new.partition.starting_lba, new.partition.sectors), (1, 2, 98));
    mbr.write_into(&mut disk).unwrap();
    assert_eq!(MBR::read_from(&mut disk, 512).unwrap(), mbr);
}

#[test]
fn a_logical_partition_made_by_hand_is_written() {
    let mut disk = zeros(100, 512);
    let mut mbr = MBR::new_from(&mut disk, 512, [0xff; 4]).unwrap();
    mbr[1] = entry(0x0f, 1, mbr.disk_size - 1);
    mbr.logical_partitions.push(logical(1, 2, mbr.disk_size - 2, None));
    mbr.write_into(&mut disk).unwrap();
    let read = MBR::read_from(&mut disk, 512).unwrap();
    assert_eq!(read.logical_partitions, mbr.logical_partitions);
    assert_eq!(read.align, 1);
}

#[test]
fn free_sectors_and_places_are_found() {
    let mut mbr = new_table(100);
    mbr[1] = entry(0x83, 6, mbr.disk_size - 11);
    assert_eq!(mbr.find_free_sectors(), vec![(1, 5), (mbr.disk_size - 5, 5)]);
    mbr[1] = entry(0x83, 6, mbr.disk_size - 6);
    assert_eq!(mbr.find_first_place(5), Some(1));
    mbr[1] = entry(0x83, 6, 5);
    assert_eq!(mbr.find_last_place(5), Some(mbr.disk_size - 5));
    mbr[1] = entry(0x83, 11, mbr.disk_size - 11 - 5);
    assert_eq!(mbr.find_optimal_place(5), Some(mbr.disk_size - 5));
}

#[test]
fn maximum_sizes_are_found() {
    let mut mbr = new_table(100);
    assert_eq!(mbr.get_maximum_partition_size().unwrap_or(0), mbr.disk_size - 1);
    mbr[1] = entry(0x83, mbr.find_optimal_place(1).unwrap(), 1);
    assert_eq!(mbr.get_maximum_partition_size_for(1).unwrap(), mbr.disk_size - 1);
}
