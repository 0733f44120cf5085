//! The proved library's answers: the case programs, each run on the lines that are for it.

use std::io::Write;
use std::path::PathBuf;
use std::process::{Command, Stdio};

/// A program reads at most so many bytes.
const MOST: usize = 393216;

const NUMBERS5: [&str; 12] = ["get", "len", "find", "remove", "remove_at", "check_geometry", "cylinder_size", "update_chs",
    "push", "push_all", "new_from", "update_from"];
const NUMBERS6: [&str; 8] =
    ["free", "first_place", "last_place", "best_place", "most", "most_for", "free_into", "update_lent"];
const NUMBERS7: [&str; 3] = ["write_table", "write_header", "read_o"];
const PROGRAMS: [&str; 6] = ["case_records", "case_reading", "case_tables", "case_free", "case_writing", "case_careful"];

/// The program that has a command.
fn owner(word: &str) -> Option<usize> {
    match word {
        "read" | "read_header" | "wanted" => Some(1),
        _ if ["chs_", "entry_", "mbr_", "ebr_", "extract_"].iter().any(|p| word.starts_with(p)) => Some(0),
        _ if NUMBERS5.contains(&word) => Some(2),
        _ if NUMBERS6.contains(&word) => Some(3),
        _ if NUMBERS7.contains(&word) => Some(4),
        _ if word.starts_with("careful_") => Some(5),
        _ => None,
    }
}

#[derive(Default)]
struct Part {
    text: String,
    /// Lines that change X or O and were not needed yet.
    waiting: Vec<String>,
    asked: Vec<(String, String)>,
}

pub struct Ours {
    bin: PathBuf,
    parts: [Part; 6],
    /// Answers that were compared.
    pub equal: u64,
    /// The line, the program's answer, the other one.
    pub other: Vec<[String; 3]>,
}

impl Ours {
    pub fn new(bin: &str) -> Ours {
        Ours { bin: bin.into(), parts: Default::default(), equal: 0, other: Vec::new() }
    }

    /// A line that changes X or O.
    pub fn change(&mut self, line: &str) {
        for part in &mut self.parts {
            // A new X or O starts the lines anew.
            if line.starts_with("x ") {
                part.waiting.retain(|l| l.starts_with('o'));
            }
            if line.starts_with("o ") {
                part.waiting.retain(|l| !l.starts_with('o'));
            }
            part.waiting.push(line.to_string());
        }
    }

    /// A command and the answer that is expected, its word included. At least the lines from the last change of X
    /// and O on have been told.
    pub fn ask(&mut self, word: &str, line: &str, expected: String) {
        let Some(k) = owner(word) else { return };
        let part = &mut self.parts[k];
        for waiting in part.waiting.drain(..) {
            part.text.push_str(&waiting);
            part.text.push('\n');
        }
        part.text.push_str(line);
        part.text.push('\n');
        part.asked.push((line.to_string(), expected));
    }

    /// The end of cases that belong together: runs what has become long, or all. The next line gives X and O anew.
    pub fn pause(&mut self, all: bool) {
        for k in 0..self.parts.len() {
            if all || self.parts[k].text.len() > MOST / 2 {
                self.run(k);
            }
        }
    }

    fn run(&mut self, k: usize) {
        let part = std::mem::take(&mut self.parts[k]);
        if part.asked.is_empty() {
            return;
        }
        assert!(part.text.len() < MOST, "too many cases for one run");
        let program = self.bin.join(PROGRAMS[k]);
        let mut child = Command::new(program).stdin(Stdio::piped()).stdout(Stdio::piped()).spawn().expect("a case program");
        child.stdin.take().unwrap().write_all(part.text.as_bytes()).expect("a case program's input");
        let output = child.wait_with_output().expect("a case program's output");
        let said = String::from_utf8(output.stdout).expect("text");
        let mut said = said.lines();
        for (line, expected) in part.asked {
            let answer = said.next().expect("a case program answers every line");
            if answer == expected {
                self.equal += 1;
            } else {
                self.other.push([line, answer.to_string(), expected]);
            }
        }
        assert!(said.next().is_none(), "a case program answers no more than the lines");
    }
}
