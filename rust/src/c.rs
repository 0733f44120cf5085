//! The functions of include/crumbvessel.h. The comparison and the benchmark take this file too, and each uses some of them.
#![allow(dead_code)]

extern "C" {
    pub fn cv_chs_from_lba_exact(lba: u32, cylinders: u16, heads: u8, sectors: u8) -> u64;
    pub fn cv_chs_from_lba_aligned(lba: u32, cylinders: u16, heads: u8, sectors: u8) -> u64;
    pub fn cv_chs_to_lba(cylinder: u16, head: u8, sector: u8, heads: u8, sectors: u8) -> u64;
    pub fn cv_chs_is_valid(c: u16, h: u8, s: u8, cylinders: u16, heads: u8, sectors: u8) -> bool;
    pub fn cv_chs_to_bytes(cylinder: u16, head: u8, sector: u8) -> u32;
    pub fn cv_chs_from_bytes(a: u8, b: u8, c: u8) -> u64;
    pub fn cv_is_extended(sys: u8) -> bool;
    pub fn cv_extract_check(x: *const u8, n: usize) -> u8;
    pub fn cv_look_up(x: *const u8, n: usize, lba: u32) -> u64;
    pub fn cv_look_up_answer(x: *const u8, n: usize, lba: u32) -> u8;
    pub fn cv_wanted(x: *const u8, n: usize) -> u64;
    pub fn cv_lay_over(x: *const u8, n: usize, lba: u32, r: *const u8, m: usize, out: *mut u8, room: usize) -> u64;
    pub fn cv_listing(x: *const u8, n: usize, out: *mut u8, room: usize) -> u64;
    pub fn cv_careful_push(
        x: *const u8,
        n: usize,
        align: u32,
        cylinders: u16,
        heads: u8,
        track: u8,
        sys: u8,
        start: u32,
        sectors: u32,
        out: *mut u8,
        room: usize,
    ) -> u64;
    pub fn cv_careful_remove(x: *const u8, n: usize, number: u32, out: *mut u8, room: usize) -> u64;
    pub fn cv_read(x: *const u8, n: usize, out: *mut u8, room: usize) -> u8;
    pub fn cv_push(b: *mut u8, n: usize, sys: u8, start: u32, sectors: u32) -> u64;
    pub fn cv_remove(b: *mut u8, n: usize, number: u32) -> u8;
    pub fn cv_len(b: *const u8, n: usize) -> u64;
    pub fn cv_get(b: *const u8, n: usize, number: u32, out: *mut u8, room: usize) -> u8;
    pub fn cv_check_geometry(b: *const u8, n: usize) -> u64;
    pub fn cv_get_cylinder_size(b: *const u8, n: usize) -> u64;
    pub fn cv_is_sound(b: *const u8, n: usize) -> u64;
    pub fn cv_find_at_sector(b: *const u8, n: usize, sector: u32) -> u64;
    pub fn cv_remove_at_sector(b: *mut u8, n: usize, sector: u32) -> u8;
    pub fn cv_new_from(x: *const u8, n: usize, disk_signature: u32, out: *mut u8, room: usize) -> u8;
    pub fn cv_update_from(b: *mut u8, n: usize, x: *const u8, m: usize) -> u8;
    pub fn cv_find_free_sectors(b: *const u8, n: usize, out: *mut u8, room: usize) -> u64;
    pub fn cv_find_first_place(b: *const u8, n: usize, size: u32) -> u64;
    pub fn cv_find_last_place(b: *const u8, n: usize, size: u32) -> u64;
    pub fn cv_find_optimal_place(b: *const u8, n: usize, size: u32) -> u64;
    pub fn cv_get_maximum_partition_size(b: *const u8, n: usize) -> u64;
    pub fn cv_get_maximum_partition_size_for(b: *const u8, n: usize, number: u32) -> u64;
    pub fn cv_write_into(b: *mut u8, n: usize, x: *const u8, m: usize, out: *mut u8, room: usize) -> u64;
    pub fn cv_read_header(x: *const u8, n: usize, out: *mut u8, room: usize) -> u8;
    pub fn cv_write_header(h: *const u8, n: usize, x: *const u8, m: usize, out: *mut u8, room: usize) -> u64;
    pub fn cv_update_chs(slot: *mut u8, n: usize, cylinders: u16, heads: u8, sectors: u8) -> u8;
}
