//! How deep a call goes: the stack below is painted, and what is left of the paint is looked at.

use std::hint::black_box;

/// More than any call needs, and less than a thread has.
const DEPTH: usize = 512 * 1024;
const PAINT: u8 = 0xa5;

/// Paints the stack below the caller, and says where the paint begins.
#[inline(never)]
fn paint() -> usize {
    let mut room = [0u8; DEPTH];
    black_box(&mut room).fill(PAINT);
    black_box(room.as_ptr() as usize)
}

/// The lowest place without paint.
#[inline(never)]
fn reached(low: usize) -> usize {
    let mut at = low;
    // SAFETY: the stack of this thread, which was written by `paint`.
    while unsafe { (at as *const u8).read_volatile() } == PAINT {
        at += 1;
    }
    at
}

/// Bytes of stack that a call uses.
#[inline(never)]
pub fn used(f: &mut dyn FnMut() -> u64) -> usize {
    let here = 0u8;
    let low = paint();
    black_box(f());
    black_box(&here) as *const u8 as usize - reached(low)
}
