//! memcpy and memmove that count: the archive calls libc's, and finds these instead.

use std::arch::asm;
use std::sync::atomic::{AtomicU64, Ordering::Relaxed};

/// A copy of at least so many bytes counts as one of a table.
const LARGE: usize = 4096;

static LARGE_COPIES: AtomicU64 = AtomicU64::new(0);
static BYTES: AtomicU64 = AtomicU64::new(0);

/// How many large copies, and bytes in all copies, since the last time.
pub fn taken() -> (u64, u64) {
    (LARGE_COPIES.swap(0, Relaxed), BYTES.swap(0, Relaxed))
}

fn note(n: usize) {
    LARGE_COPIES.fetch_add(u64::from(n >= LARGE), Relaxed);
    BYTES.fetch_add(n as u64, Relaxed);
}

/// # Safety
/// As libc's.
#[no_mangle]
pub unsafe extern "C" fn memcpy(to: *mut u8, from: *const u8, n: usize) -> *mut u8 {
    note(n);
    asm!("rep movsb", inout("rcx") n => _, inout("rdi") to => _, inout("rsi") from => _, options(nostack));
    to
}

/// # Safety
/// As libc's.
#[no_mangle]
pub unsafe extern "C" fn memmove(to: *mut u8, from: *const u8, n: usize) -> *mut u8 {
    note(n);
    if (to as usize).wrapping_sub(from as usize) >= n {
        asm!("rep movsb", inout("rcx") n => _, inout("rdi") to => _, inout("rsi") from => _, options(nostack));
    } else {
        let (a, b) = (to.wrapping_add(n).wrapping_sub(1), from.wrapping_add(n).wrapping_sub(1));
        asm!("std", "rep movsb", "cld", inout("rcx") n => _, inout("rdi") a => _, inout("rsi") b => _, options(nostack));
    }
    to
}
