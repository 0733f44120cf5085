//! Holds mbrman itself to answers of the second program.
//!
//!     compare answers < cases             the crate's answers; `WORD -` where it has none
//!     compare digest < cases              the same, of each answer its checksum
//!     compare held CASES ANSWERS [BIN]    the same, held to answers of the second program; with the folder of the
//!                                         proved case programs their answers too
//!     compare cases SEED COUNT            seeded cases, at least so many
//!     compare ours BIN SEED COUNT         the crate and the proved case programs on seeded cases
//!     compare archive SEED COUNT          the crate and the proved library's archive in one process
//!
//! The last is there, and `held` holds the archive's answers to the second program's too, where it was built with the
//! feature `archive`.

mod adapter;
#[cfg(feature = "archive")]
mod archive;
#[cfg(feature = "archive")]
mod block;
#[cfg(feature = "archive")]
#[path = "../../../rust/src/c.rs"]
mod c;
mod crate_side;
#[cfg(feature = "archive")]
mod extracts;
mod generate;
mod given;
mod marked;
mod ours;
mod refusal;
mod text;

use std::collections::BTreeMap;
use std::io::{Read, Write};
use std::process::ExitCode;

use crate_side::{careful_alone, Crate};
use ours::Ours;

fn main() -> ExitCode {
    refusal::keep_panics();
    let args: Vec<String> = std::env::args().skip(1).collect();
    let args: Vec<&str> = args.iter().map(String::as_str).collect();
    match args[..] {
        ["answers"] => answers(|said| said.to_string()),
        ["digest"] => answers(|said| text::checksum(said.as_bytes()).to_string()),
        ["cases", seed, count] => cases(seed.parse().expect("a seed"), count.parse().expect("a count")),
        ["held", cases, answers] => return held(cases, answers, None),
        ["held", cases, answers, bin] => return held(cases, answers, Some(bin)),
        #[cfg(feature = "archive")]
        ["archive", seed, count] => return in_one(seed.parse().expect("a seed"), count.parse().expect("a count")),
        ["ours", bin, seed, count] => return ours(bin, seed.parse().expect("a seed"), count.parse().expect("a count")),
        _ => {
            eprintln!("usage: compare answers | digest | held CASES ANSWERS [BIN] | cases SEED COUNT | ours BIN SEED COUNT");
            return ExitCode::FAILURE;
        }
    }
    ExitCode::SUCCESS
}

fn answers(shown: impl Fn(&str) -> String) {
    let mut text = String::new();
    std::io::stdin().read_to_string(&mut text).expect("standard input");
    let mut out = std::io::BufWriter::new(std::io::stdout());
    let mut side = Crate::default();
    for line in text.lines() {
        if let Some((word, said)) = side.answer(line) {
            writeln!(out, "{word} {}", said.map_or("-".to_string(), |s| shown(&s))).expect("standard output");
        }
    }
}

fn cases(seed: u64, count: u64) {
    let mut out = std::io::BufWriter::new(std::io::stdout());
    let mut rng = generate::Rng::new(seed);
    let mut answered = 0;
    while answered < count {
        let mut cases = generate::Cases::default();
        generate::more(&mut rng, &mut cases);
        answered += cases.answered;
        writeln!(out, "# part").expect("standard output");
        for line in cases.lines {
            writeln!(out, "{line}").expect("standard output");
        }
    }
}

/// What was compared, by command: equal, not for the crate, other.
#[derive(Default)]
struct Tally {
    counts: BTreeMap<String, [u64; 3]>,
    shown: u64,
}

impl Tally {
    fn count(&mut self, word: &str, which: usize) {
        self.counts.entry(word.to_string()).or_default()[which] += 1;
    }

    /// Prints the first differences.
    fn other(&mut self, line: &str, ours: &str, theirs: &str) {
        self.count(line.split(' ').next().unwrap(), 2);
        self.shown += 1;
        if self.shown <= 10 {
            show(line, ours, theirs);
        }
    }

    fn say(&self, side: &Crate) -> ExitCode {
        for (word, [equal, none, other]) in &self.counts {
            println!("count {word} {equal} {none} {other}");
        }
        for (name, n) in &side.carried {
            println!("carried {n} {name}");
        }
        if self.shown > 0 { ExitCode::FAILURE } else { ExitCode::SUCCESS }
    }
}

fn proved(programs: Option<Ours>, tally: &mut Tally) {
    let Some(mut programs) = programs else { return };
    programs.pause(true);
    for [line, answer, expected] in &programs.other {
        tally.other(line, &format!("(ours) {answer}"), &format!("(other) {expected}"));
    }
    println!("proved {}", programs.equal);
}

/// Fails on a difference.
fn held(cases: &str, answers: &str, bin: Option<&str>) -> ExitCode {
    let read = |path: &str| std::fs::read_to_string(path).expect(path);
    let (cases, answers) = (read(cases), read(answers));
    let mut second = answers.lines();
    let mut side = Crate::default();
    let mut tally = Tally::default();
    let mut programs = bin.map(Ours::new);
    #[cfg(feature = "archive")]
    let (mut library, mut linked) = (archive::Archive::default(), 0);
    for line in cases.lines() {
        #[cfg(feature = "archive")]
        let in_archive = library.answer(line).and_then(|(_, said)| said);
        if let (true, Some(p)) = (line.starts_with("# part"), &mut programs) {
            p.pause(false);
        }
        let Some((word, said)) = side.answer(line) else {
            if let (true, Some(p)) = (["x", "xp", "o"].contains(&line.split(' ').next().unwrap()), &mut programs) {
                p.change(line);
            }
            continue;
        };
        let theirs = second.next().expect("the second program answers every case");
        if let Some(p) = &mut programs {
            p.ask(word, line, theirs.to_string());
        }
        #[cfg(feature = "archive")]
        if let Some(ours) = in_archive {
            linked += 1;
            if theirs.strip_prefix(word) != Some(&format!(" {ours}")) {
                tally.other(line, &format!("(archive) {word} {ours}"), &format!("(second) {theirs}"));
            }
        }
        match said {
            None => tally.count(word, 1),
            Some(said) if theirs.strip_prefix(word) == Some(&format!(" {said}")) => tally.count(word, 0),
            Some(said) if careful_alone(word, &said, &theirs[word.len() + 1..]) => tally.count(word, 1),
            Some(said) => tally.other(line, &format!("(crate) {word} {said}"), &format!("(second) {theirs}")),
        }
    }
    assert!(second.next().is_none(), "the second program answers no more than the cases");
    #[cfg(feature = "archive")]
    println!("archive {linked}");
    proved(programs, &mut tally);
    tally.say(&side)
}

/// The crate and the proved programs; what is not for the crate is left out.
fn ours(bin: &str, seed: u64, count: u64) -> ExitCode {
    let mut rng = generate::Rng::new(seed);
    let mut side = Crate::default();
    let mut tally = Tally::default();
    let mut programs = Ours::new(bin);
    while tally.counts.values().map(|c| c[0]).sum::<u64>() < count {
        let mut cases = generate::Cases::default();
        generate::more(&mut rng, &mut cases);
        for line in &cases.lines {
            match side.answer(line) {
                None if line.starts_with("t ") => {}
                None => programs.change(line),
                Some((word, None)) => tally.count(word, 1),
                Some((word, _)) if word.starts_with("t_") || word == "after_push" => {}
                Some((word, Some(said))) => {
                    tally.count(word, 0);
                    programs.ask(word, line, format!("{word} {said}"));
                }
            }
        }
        programs.pause(false);
    }
    proved(Some(programs), &mut tally);
    tally.say(&side)
}

/// The crate and the archive; what one of them has no answer for is left out.
#[cfg(feature = "archive")]
fn in_one(seed: u64, count: u64) -> ExitCode {
    let mut rng = generate::Rng::new(seed);
    let (mut side, mut ours) = (Crate::default(), archive::Archive::default());
    let (mut tally, mut held) = (Tally::default(), 0);
    while held < count {
        let mut cases = generate::Cases::default();
        generate::more(&mut rng, &mut cases);
        for line in &cases.lines {
            let (theirs, ours) = (side.answer(line), ours.answer(line));
            let (Some((word, Some(theirs))), Some((_, Some(ours)))) = (theirs, ours) else { continue };
            if careful_alone(word, &theirs, &ours) {
                continue;
            }
            held += 1;
            if theirs != ours {
                tally.other(line, &format!("(archive) {word} {ours}"), &format!("(crate) {word} {theirs}"));
            }
        }
        held += extracts::held(&mut rng, &mut side);
        held += extracts::blocks(&mut rng);
    }
    println!("archive {held}");
    tally.say(&side)
}

/// A difference from its first other word on; the first word says whose answer it is.
fn show(line: &str, ours: &str, theirs: &str) {
    let (a, b): (Vec<&str>, Vec<&str>) = (ours.split(' ').collect(), theirs.split(' ').collect());
    let same = 1 + a.iter().zip(&b).skip(1).take_while(|(a, b)| a == b).count();
    for words in [&a, &b] {
        let rest = words.iter().skip(same).take(8).copied().collect::<Vec<_>>().join(" ");
        println!("{} {rest}   (from word {same} on)", words[0]);
    }
    println!("  in {line}");
}
