//! The proved library's functions, from the archive.

use crate::c::*;

pub const LOGICALS: usize = 24;
pub const HEADER: usize = 446 + 4 * 18 + 2;
pub const SLOT: usize = 34 + 446 + 32;
pub const SLOTS: usize = 20 + HEADER;
pub const TAGS: usize = SLOTS + SLOT * LOGICALS;
pub const BLOCK: usize = TAGS + LOGICALS;
pub const RUNS: usize = 8 * (LOGICALS + 6);
pub const STORES: usize = 2 * (4 + 512);

pub fn read(x: &[u8], out: &mut [u8]) -> u64 {
    u64::from(unsafe { cv_read(x.as_ptr(), x.len(), out.as_mut_ptr(), out.len()) }) << 32
}

pub fn push(b: &mut [u8], sys: u8, start: u32, sectors: u32) -> u64 {
    unsafe { cv_push(b.as_mut_ptr(), b.len(), sys, start, sectors) }
}

pub fn remove(b: &mut [u8], number: u32) -> u64 {
    u64::from(unsafe { cv_remove(b.as_mut_ptr(), b.len(), number) }) << 32
}

pub fn find(b: &[u8], sector: u32) -> u64 {
    unsafe { cv_find_at_sector(b.as_ptr(), b.len(), sector) }
}

pub fn write(b: &mut [u8], x: &[u8], out: &mut [u8]) -> u64 {
    unsafe { cv_write_into(b.as_mut_ptr(), b.len(), x.as_ptr(), x.len(), out.as_mut_ptr(), out.len()) }
}

pub fn careful_push(x: &[u8], align: u32, g: (u16, u8, u8), sys: u8, start: u32, sectors: u32, out: &mut [u8]) -> u64 {
    unsafe { cv_careful_push(x.as_ptr(), x.len(), align, g.0, g.1, g.2, sys, start, sectors, out.as_mut_ptr(), out.len()) }
}

pub fn free(b: &[u8], out: &mut [u8]) -> u64 {
    unsafe { cv_find_free_sectors(b.as_ptr(), b.len(), out.as_mut_ptr(), out.len()) }
}
