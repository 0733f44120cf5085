//! mbrman and the proved library on the same inputs.
//!
//!     bench time      nanoseconds a call, medians, both sides in turn
//!     bench calls     one measured call each, for callgrind; prints their labels in this order
//!     bench where     the address of what is measured there, for an emulator that writes a line for each instruction
//!     bench stack     bytes of stack that a call uses
//!     bench copies    large copies in one call (built with the feature `copies`)

#[path = "../../rust/src/c.rs"]
mod c;
#[cfg(feature = "copies")]
mod copies;
mod disk;
mod lines;
mod ours;
mod stack;

use std::hint::black_box;
use std::time::Instant;

use lines::Line;

/// A round lasts so many nanoseconds, and there are so many of them.
const ROUND: u64 = 300_000;
const ROUNDS: usize = 201;

fn main() {
    let mut lines = lines::all();
    for l in &mut lines {
        let (a, b) = ((l.ours)(), (l.theirs)());
        assert_eq!(a, b, "{} {}", l.operation, l.input);
    }
    match std::env::args().nth(1).as_deref() {
        Some("time") => lines.iter_mut().for_each(time),
        Some("calls") => lines.iter_mut().for_each(calls),
        Some("where") => println!("{:p}", measured_call as *const ()),
        Some("stack") => lines.iter_mut().for_each(deep),
        #[cfg(feature = "copies")]
        Some("copies") => lines.iter_mut().for_each(copied),
        _ => panic!("usage: bench time | calls | where | stack | copies"),
    }
}

/// Nanoseconds of so many calls.
fn lasts(f: &mut dyn FnMut() -> u64, times: u64) -> u64 {
    let start = Instant::now();
    for _ in 0..times {
        black_box(f());
    }
    start.elapsed().as_nanos() as u64
}

/// How many calls fill a round.
fn fill(f: &mut dyn FnMut() -> u64) -> u64 {
    let mut times = 1;
    while lasts(f, times) < ROUND {
        times *= 2;
    }
    times
}

fn median(mut values: Vec<f64>) -> f64 {
    values.sort_by(f64::total_cmp);
    values[values.len() / 2]
}

fn time(l: &mut Line) {
    let times = [fill(&mut l.ours), fill(&mut l.theirs)];
    let mut found = [Vec::new(), Vec::new()];
    for _ in 0..ROUNDS {
        found[0].push(lasts(&mut l.ours, times[0]) as f64 / times[0] as f64);
        found[1].push(lasts(&mut l.theirs, times[1]) as f64 / times[1] as f64);
    }
    let [ours, theirs] = found.map(median);
    println!("{}|{}|{ours:.0}|{theirs:.0}|{:.2}", l.operation, l.input, theirs / ours);
}

/// What callgrind counts.
#[no_mangle]
#[inline(never)]
fn measured_call(f: &mut dyn FnMut() -> u64) -> u64 {
    black_box(f())
}

fn calls(l: &mut Line) {
    for (side, f) in [("ours", &mut l.ours), ("mbrman", &mut l.theirs)] {
        black_box(measured_call(f));
        println!("{}|{}|{side}", l.operation, l.input);
    }
}

fn deep(l: &mut Line) {
    println!("{}|{}|{}|{}", l.operation, l.input, stack::used(&mut l.ours), stack::used(&mut l.theirs));
}

#[cfg(feature = "copies")]
fn copied(l: &mut Line) {
    for (side, f) in [("ours", &mut l.ours), ("mbrman", &mut l.theirs)] {
        copies::taken();
        black_box(f());
        let (large, bytes) = copies::taken();
        println!("{}|{}|{side}|{large}|{bytes}", l.operation, l.input);
    }
}
