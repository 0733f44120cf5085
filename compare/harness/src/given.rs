//! What case lines work on: X, the lent input; O, the lent output; T, a table by value.

use crate::marked::Table;
use crate::text::Words;

#[derive(Default)]
pub struct Given {
    pub x: Vec<u8>,
    pub o: Vec<u8>,
    pub t: Option<Table>,
}

impl Given {
    /// Takes a line that only changes what later ones work on; false: it is a command.
    pub fn change(&mut self, line: &str) -> bool {
        let mut words = Words::of(line);
        match words.word() {
            "#" => {}
            "x" => self.x = vec![0; words.usize()],
            "xp" => {
                let at = words.usize();
                for (i, pair) in words.word().as_bytes().chunks(2).enumerate() {
                    let pair = std::str::from_utf8(pair).unwrap();
                    self.x[at + i] = u8::from_str_radix(pair, 16).expect("hex");
                }
            }
            "o" => {
                let length = words.usize();
                self.o = vec![words.u8(); length];
            }
            "t" => self.t = Some(words.table()),
            _ => return false,
        }
        true
    }

    /// X without its last bytes, and these, so many.
    pub fn parted(&self, length: usize) -> (Vec<u8>, Vec<u8>) {
        let (x, last) = self.x.split_at(self.x.len().saturating_sub(length));
        (x.to_vec(), last.to_vec())
    }
}
