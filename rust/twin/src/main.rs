//! Runs one text of calls against mbrman and against the crate crumbvessel, from the same seeds, and holds what they say
//! to each other: answers as their `Debug` text, errors and panics as document 01's numbers.

mod disk;
mod numbers;
#[macro_use]
mod side;

use std::collections::BTreeMap;

side!(theirs, mbrman, crate::numbers::of_mbrman, {});
side!(ours, crumbvessel, crate::numbers::of_crumbvessel, { mark: [0x5e; 32], });

/// Is it the same, or a difference that docs/DIFFERENCES.md and docs/MIGRATING.md list?
fn same(theirs: &str, ours: &str) -> bool {
    match (theirs, ours) {
        // mbrman forms an EBR's place in bytes in 32 bits.
        ("write: refused 7", "write: refused 2") => true,
        _ => theirs == ours,
    }
}

/// The text without the marks of logical partitions, which mbrman drops.
fn without_marks(text: &str) -> String {
    let mut parts = text.split(", mark: [");
    let first = parts.next().unwrap_or_default().to_string();
    parts.fold(first, |said, part| said + part.split_once(']').map_or("", |(_, behind)| behind))
}

fn main() {
    numbers::keep_panics();
    let words: Vec<u64> = std::env::args().skip(1).filter_map(|w| w.parse().ok()).collect();
    let [cases, first] = words[..] else { panic!("twin CASES SEED") };
    let mut counts = BTreeMap::<String, [u64; 2]>::new();
    for seed in first..first + cases {
        let (theirs, ours) = (theirs::case(seed), ours::case(seed));
        assert_eq!(theirs.len(), ours.len(), "seed {seed}");
        for (theirs, ours) in theirs.iter().zip(ours.iter().map(|ours| without_marks(ours))) {
            if !same(theirs, &ours) {
                println!("seed {seed}\nmbrman      {theirs}\ncrumbvessel {ours}");
                std::process::exit(1);
            }
            let call = ours.split(':').next().unwrap_or_default();
            counts.entry(call.to_string()).or_default()[usize::from(ours.contains("refused "))] += 1;
        }
    }
    for (call, [answered, refused]) in &counts {
        println!("rust/twin: {call}: {answered} answered, {refused} refused");
    }
    println!("rust/twin: {} answers held to mbrman's, none differs", counts.values().flatten().sum::<u64>());
}
