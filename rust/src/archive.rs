//! The functions of include/crumbvessel.h, each safe: slices for addresses and lengths, `Result` for answers. All unsafe
//! code of this crate is here. Every lent output is of the length that its function asks for.

use crate::c;
use crate::chs::CHS;
use crate::error::{Error, Result};

/// The most logical partitions of a table.
pub const LOGICALS: usize = 24;
/// The most records of an extract.
pub const RECORDS: usize = 64;
/// The bytes of an entry in a block.
const ENTRY: usize = 18;
pub const HEADER: usize = 446 + 4 * ENTRY + 2;
/// The bytes of a mark.
pub const MARK: usize = 32;
pub const SLOT: usize = ENTRY + 16 + 446 + MARK;
/// Where the slots of a block begin, and where its tags do.
const SLOTS: usize = 20 + HEADER;
pub const TAGS: usize = SLOTS + SLOT * LOGICALS;
pub const BLOCK: usize = TAGS + LOGICALS;
/// A slot and its tag.
pub const LONE_SLOT: usize = SLOT + 1;
pub const STORE: usize = 4 + 512;
/// The bytes of the most runs.
const RUNS: usize = 8 * (LOGICALS + 6);
const LISTING: usize = 64 * (LOGICALS + 8);
/// The largest extract.
const EXTRACT: usize = 24 + RECORDS * STORE;
const NOTHING: u64 = 255;

pub type Block = [u8; BLOCK];

/// What an 8-bit answer says.
fn status(number: u8) -> Result<()> {
    match number {
        0 => Ok(()),
        n => Err(Error::of_number(n).unwrap_or_else(|| panic!("the archive answered {n}, which this crate rules out"))),
    }
}

/// What a 64-bit answer says.
fn value(answer: u64) -> Result<u32> {
    status((answer >> 32) as u8).map(|()| answer as u32)
}

/// What a 64-bit answer says that may be nothing.
fn found(answer: u64) -> Result<Option<u32>> {
    match answer >> 32 {
        NOTHING => Ok(None),
        _ => value(answer).map(Some),
    }
}

/// A block that a function fills.
fn filled<T>(fill: impl FnOnce(&mut Block) -> Result<T>) -> Result<(T, Block)> {
    let mut out = [0; BLOCK];
    fill(&mut out).map(|value| (value, out))
}

/// Bytes that a function fills as far as it answers.
fn filled_to(room: usize, fill: impl FnOnce(&mut [u8]) -> u64) -> Result<Vec<u8>> {
    let mut out = vec![0; room];
    let length = value(fill(&mut out))?;
    out.truncate(length as usize);
    Ok(out)
}

/// One or two stores that a function fills.
fn stores(fill: impl FnOnce(&mut [u8]) -> u64) -> Result<Vec<u8>> {
    let mut out = vec![0; 2 * STORE];
    let count = value(fill(&mut out))?;
    out.truncate(count as usize * STORE);
    Ok(out)
}

fn address(answer: u64) -> Result<CHS> {
    value(answer).map(|v| CHS::new((v >> 16) as u16, (v >> 8) as u8, v as u8))
}

pub fn chs_from_lba_exact(lba: u32, cylinders: u16, heads: u8, sectors: u8) -> Result<CHS> {
    address(unsafe { c::cv_chs_from_lba_exact(lba, cylinders, heads, sectors) })
}

pub fn chs_from_lba_aligned(lba: u32, cylinders: u16, heads: u8, sectors: u8) -> Result<CHS> {
    address(unsafe { c::cv_chs_from_lba_aligned(lba, cylinders, heads, sectors) })
}

pub fn chs_to_lba(a: CHS, heads: u8, sectors: u8) -> Result<u32> {
    value(unsafe { c::cv_chs_to_lba(a.cylinder, a.head, a.sector, heads, sectors) })
}

pub fn chs_is_valid(a: CHS, cylinders: u16, heads: u8, sectors: u8) -> bool {
    unsafe { c::cv_chs_is_valid(a.cylinder, a.head, a.sector, cylinders, heads, sectors) }
}

pub fn chs_to_bytes(a: CHS) -> [u8; 3] {
    let [first, second, third, _] = unsafe { c::cv_chs_to_bytes(a.cylinder, a.head, a.sector) }.to_le_bytes();
    [first, second, third]
}

pub fn chs_from_bytes([first, second, third]: [u8; 3]) -> Result<CHS> {
    address(unsafe { c::cv_chs_from_bytes(first, second, third) })
}

pub fn is_extended(sys: u8) -> bool {
    unsafe { c::cv_is_extended(sys) }
}

pub fn extract_check(x: &[u8]) -> Result<()> {
    status(unsafe { c::cv_extract_check(x.as_ptr(), x.len()) })
}

/// The offset of the sector's record in the extract.
pub fn look_up(x: &[u8], lba: u32) -> Result<Option<usize>> {
    status(unsafe { c::cv_look_up_answer(x.as_ptr(), x.len(), lba) })?;
    Ok(found(unsafe { c::cv_look_up(x.as_ptr(), x.len(), lba) })?.map(|at| at as usize))
}

pub fn wanted(x: &[u8]) -> Result<Option<u32>> {
    found(unsafe { c::cv_wanted(x.as_ptr(), x.len()) })
}

pub fn lay_over(x: &[u8], lba: u32, record: &[u8]) -> Result<Vec<u8>> {
    filled_to(x.len() + STORE, |out| unsafe {
        c::cv_lay_over(x.as_ptr(), x.len(), lba, record.as_ptr(), record.len(), out.as_mut_ptr(), out.len())
    })
}

pub fn listing(x: &[u8]) -> Result<Vec<u8>> {
    filled_to(LISTING, |out| unsafe { c::cv_listing(x.as_ptr(), x.len(), out.as_mut_ptr(), out.len()) })
}

pub fn careful_push(
    x: &[u8],
    align: u32,
    (cylinders, heads, track): (u16, u8, u8),
    (sys, start, sectors): (u8, u32, u32),
) -> Result<Vec<u8>> {
    stores(|out| unsafe {
        let (room, out) = (out.len(), out.as_mut_ptr());
        c::cv_careful_push(x.as_ptr(), x.len(), align, cylinders, heads, track, sys, start, sectors, out, room)
    })
}

pub fn careful_remove(x: &[u8], number: u32) -> Result<Vec<u8>> {
    stores(|out| unsafe { c::cv_careful_remove(x.as_ptr(), x.len(), number, out.as_mut_ptr(), out.len()) })
}

pub fn read(x: &[u8]) -> Result<Block> {
    let fill = |out: &mut Block| status(unsafe { c::cv_read(x.as_ptr(), x.len(), out.as_mut_ptr(), BLOCK) });
    filled(fill).map(|((), out)| out)
}

/// The new partition's number.
pub fn push(b: &mut Block, sys: u8, start: u32, sectors: u32) -> Result<u32> {
    value(unsafe { c::cv_push(b.as_mut_ptr(), BLOCK, sys, start, sectors) })
}

pub fn remove(b: &mut Block, number: u32) -> Result<()> {
    status(unsafe { c::cv_remove(b.as_mut_ptr(), BLOCK, number) })
}

pub fn remove_at_sector(b: &mut Block, sector: u32) -> Result<()> {
    status(unsafe { c::cv_remove_at_sector(b.as_mut_ptr(), BLOCK, sector) })
}

pub fn new_from(x: &[u8], disk_signature: [u8; 4]) -> Result<Block> {
    let signature = u32::from_le_bytes(disk_signature);
    let fill =
        |out: &mut Block| status(unsafe { c::cv_new_from(x.as_ptr(), x.len(), signature, out.as_mut_ptr(), BLOCK) });
    filled(fill).map(|((), out)| out)
}

pub fn update_from(b: &mut Block, x: &[u8]) -> Result<()> {
    status(unsafe { c::cv_update_from(b.as_mut_ptr(), BLOCK, x.as_ptr(), x.len()) })
}

pub fn check_geometry(b: &Block) -> Result<bool> {
    value(unsafe { c::cv_check_geometry(b.as_ptr(), BLOCK) }).map(|v| v == 1)
}

pub fn get_cylinder_size(b: &Block) -> Result<u32> {
    value(unsafe { c::cv_get_cylinder_size(b.as_ptr(), BLOCK) })
}

pub fn is_sound(b: &Block) -> Result<bool> {
    value(unsafe { c::cv_is_sound(b.as_ptr(), BLOCK) }).map(|v| v == 1)
}

pub fn find_at_sector(b: &Block, sector: u32) -> Result<Option<u32>> {
    found(unsafe { c::cv_find_at_sector(b.as_ptr(), BLOCK, sector) })
}

pub fn find_free_sectors(b: &Block) -> Result<Vec<(u32, u32)>> {
    let mut out = [0; RUNS];
    let count = value(unsafe { c::cv_find_free_sectors(b.as_ptr(), BLOCK, out.as_mut_ptr(), RUNS) })?;
    let number = |at: usize| u32::from_le_bytes([out[at], out[at + 1], out[at + 2], out[at + 3]]);
    Ok((0..count as usize).map(|i| (number(8 * i), number(8 * i + 4))).collect())
}

pub fn find_first_place(b: &Block, size: u32) -> Result<Option<u32>> {
    found(unsafe { c::cv_find_first_place(b.as_ptr(), BLOCK, size) })
}

pub fn find_last_place(b: &Block, size: u32) -> Result<Option<u32>> {
    found(unsafe { c::cv_find_last_place(b.as_ptr(), BLOCK, size) })
}

pub fn find_optimal_place(b: &Block, size: u32) -> Result<Option<u32>> {
    found(unsafe { c::cv_find_optimal_place(b.as_ptr(), BLOCK, size) })
}

pub fn get_maximum_partition_size(b: &Block) -> Result<u32> {
    value(unsafe { c::cv_get_maximum_partition_size(b.as_ptr(), BLOCK) })
}

pub fn get_maximum_partition_size_for(b: &Block, number: u32) -> Result<u32> {
    value(unsafe { c::cv_get_maximum_partition_size_for(b.as_ptr(), BLOCK, number) })
}

/// The new extract; the table becomes what writing leaves.
pub fn write_into(b: &mut Block, x: &[u8]) -> Result<Vec<u8>> {
    filled_to(EXTRACT, |out| unsafe {
        c::cv_write_into(b.as_mut_ptr(), BLOCK, x.as_ptr(), x.len(), out.as_mut_ptr(), out.len())
    })
}

pub fn read_header(x: &[u8]) -> Result<[u8; HEADER]> {
    let mut out = [0; HEADER];
    status(unsafe { c::cv_read_header(x.as_ptr(), x.len(), out.as_mut_ptr(), HEADER) })?;
    Ok(out)
}

pub fn write_header(h: &[u8; HEADER], x: &[u8]) -> Result<Vec<u8>> {
    filled_to(EXTRACT, |out| unsafe {
        c::cv_write_header(h.as_ptr(), HEADER, x.as_ptr(), x.len(), out.as_mut_ptr(), out.len())
    })
}

pub fn update_chs(slot: &mut [u8; LONE_SLOT], cylinders: u16, heads: u8, sectors: u8) -> Result<()> {
    status(unsafe { c::cv_update_chs(slot.as_mut_ptr(), LONE_SLOT, cylinders, heads, sectors) })
}
