//! The mark of an EBR, its bytes 478 to 509: carried from reading, stored again by careful changes, zeros when written.

mod common;
use common::disk_k;

use crumbvessel::{careful_push, careful_remove, Request, MBR};

const FIRST: [u8; 32] = [0xa1; 32];
const SECOND: [u8; 32] = [0xb2; 32];
const NONE: [u8; 32] = [0; 32];

/// The mark in the sector of an EBR.
fn at(lba: usize) -> std::ops::Range<usize> {
    512 * lba + 478..512 * lba + 510
}

fn marks(t: &MBR) -> Vec<[u8; 32]> {
    t.logical_partitions.iter().map(|l| l.mark).collect()
}

#[test]
fn careful_changes_keep_marks() {
    let mut disk = disk_k(512);
    disk.get_mut()[at(4096)].copy_from_slice(&FIRST);
    assert_eq!(marks(&MBR::read_from(&mut disk, 512).unwrap()), [FIRST]);
    let request = Request { align: 2048, geometry: (0, 0, 0), sys: 0x83, starting_lba: 8192, sectors: 4096 };
    assert_eq!(marks(&careful_push(&mut disk, 512, &request).unwrap()), [FIRST, NONE]);
    disk.get_mut()[at(8192)].copy_from_slice(&SECOND);
    assert_eq!(marks(&careful_remove(&mut disk.clone(), 512, 6).unwrap()), [FIRST]);
    // The second goes to the extended partition's start with its mark.
    assert_eq!(marks(&careful_remove(&mut disk, 512, 5).unwrap()), [SECOND]);
    assert_eq!(disk.get_ref()[at(4096)], SECOND);
}

#[test]
fn writing_writes_zeros_and_leaves_the_table() {
    let mut disk = disk_k(512);
    disk.get_mut()[at(4096)].copy_from_slice(&FIRST);
    let mut t = MBR::read_from(&mut disk, 512).unwrap();
    assert_eq!(t.push(0x83, 8192, 4096).unwrap().mark, NONE);
    t.logical_partitions[1].mark = SECOND;
    t.write_into(&mut disk).unwrap();
    assert_eq!(marks(&t), [FIRST, SECOND]);
    assert_eq!(marks(&MBR::read_from(&mut disk, 512).unwrap()), [NONE, NONE]);
    assert_eq!(t.remove(5).mark, FIRST);
    assert_eq!(marks(&t), [SECOND]);
    t.logical_partitions[0].update_chs(1023, 255, 63).unwrap();
    assert_eq!(marks(&t), [SECOND]);
}
