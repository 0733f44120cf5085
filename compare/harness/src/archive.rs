//! The proved library in this process: the archive that `./build` makes, answering case lines. None: there is no
//! function for C that answers such a line.

use mbrman::MBR;

use crate::adapter::Extract;
use crate::block::{self, BLOCK};
use crate::c::*;
use crate::given::Given;
use crate::marked::{Table, NO_MARK};
use crate::text::{self, Words};

type Said = Option<String>;

/// A lent output is filled with this, so that a byte that should stay is seen to stay.
const FILL: u8 = 0xe7;

/// Bytes of a store.
const STORE: usize = 516;

/// An answer of 64 bits: the value, or a refusal's number in the upper half.
fn packed(answer: u64, shown: impl Fn(u32) -> String) -> String {
    match answer >> 32 {
        0 => shown(answer as u32),
        255 => "none".to_string(),
        k => format!("refused {k}"),
    }
}

fn number(answer: u64) -> Said {
    Some(packed(answer, |n| n.to_string()))
}

fn address(answer: u64) -> Said {
    Some(packed(answer, |n| format!("{} {} {}", n >> 16, n >> 8 & 255, n & 255)))
}

/// A call that writes a table to a lent block, which must stay as it was if the call refuses.
fn block_of(call: impl FnOnce(*mut u8, usize) -> u64) -> Result<Table, u64> {
    let mut out = vec![FILL; BLOCK];
    let answer = call(out.as_mut_ptr(), BLOCK);
    if answer >> 32 != 0 {
        assert!(out.iter().all(|&b| b == FILL), "a refusal has written to a block");
        return Err(answer >> 32);
    }
    Ok(block::table(&out, None))
}

/// A call that changes the table of a block in place: its value and the table afterwards. A refusal leaves the block as
/// it was.
fn changed(b: &[u8], call: impl FnOnce(*mut u8, usize) -> u64) -> Result<(u32, Table), u64> {
    let mut after = b.to_vec();
    let answer = call(after.as_mut_ptr(), after.len());
    if answer >> 32 != 0 {
        assert!(after == b, "a refusal has changed a block");
        return Err(answer >> 32);
    }
    Ok((answer as u32, block::table(&after, Some(b))))
}

#[derive(Default)]
pub struct Archive {
    given: Given,
    /// O is not what the last command left, as the archive has none for it.
    stale: bool,
}

impl Archive {
    /// Nothing for a line that only changes what later ones work on.
    pub fn answer<'a>(&mut self, line: &'a str) -> Option<(&'a str, Said)> {
        if self.given.change(line) {
            return None;
        }
        let mut words = Words::of(line);
        let word = words.word();
        let said = self.command(word, words);
        if word.contains("write_") {
            self.stale = said.is_none();
        }
        Some((word, said))
    }

    fn command(&mut self, word: &str, mut w: Words) -> Said {
        if let Some(name) = word.strip_prefix("t_") {
            let t = self.given.t.clone().expect("a table");
            return self.on_table(name, &t, w, &self.given.x.clone());
        }
        let x = &self.given.x;
        match word {
            "read" => Some(read(x).map_or_else(|k| format!("refused {k}"), |t| text::table(&t))),
            "read_header" => self.read_header(),
            "wanted" => number(unsafe { cv_wanted(x.as_ptr(), x.len()) }),
            "new_from" => self.new_from(w),
            "read_o" if self.stale => None,
            "read_o" => {
                let o = &self.given.o[..w.usize()];
                Some(read(o).map_or_else(|k| format!("refused {k}"), |t| text::table(&t)))
            }
            "extract_lay" => self.lay(w),
            "extract_find" => self.look_up(w.u32()),
            "careful_push" => self.careful_push(w),
            "after_push" => self.after_push(w),
            "careful_remove" => {
                let (x, o, number) = (&self.given.x, &mut self.given.o, w.word().parse::<u32>().ok()?);
                let answer = unsafe { cv_careful_remove(x.as_ptr(), x.len(), number, o.as_mut_ptr(), o.len()) };
                self.lent(answer)
            }
            _ if word.starts_with("chs_") => chs(word, w),
            "entry_boot" | "entry_empty" | "entry_is" => None,
            _ if ["mbr_", "ebr_", "extract_"].iter().any(|p| word.starts_with(p)) => None,
            _ => self.on_read_table(word, w),
        }
    }

    /// An answer, then O's length and checksum.
    fn lent(&self, answer: u64) -> Said {
        let o = &self.given.o;
        Some(format!("{} {} {}", packed(answer, |n| n.to_string()), o.len(), text::checksum(o)))
    }

    fn careful_push(&mut self, mut w: Words) -> Said {
        let (x, o) = (&self.given.x, &mut self.given.o);
        let (align, cylinders, heads, track) = (w.u32(), w.u16(), w.u8(), w.u8());
        let (sys, start, sectors) = (w.u8(), w.u32(), w.u32());
        let answer = unsafe {
            cv_careful_push(x.as_ptr(), x.len(), align, cylinders, heads, track, sys, start, sectors, o.as_mut_ptr(), o.len())
        };
        self.lent(answer)
    }

    /// The table that is read once the stores of a careful push are laid over X, with the alignment and geometry of the push.
    fn after_push(&mut self, w: Words) -> Said {
        let mut numbers = Words(w.0.clone());
        let given = std::mem::replace(&mut self.given.o, vec![FILL; 2 * STORE]);
        let said = self.careful_push(w)?;
        let stores = std::mem::replace(&mut self.given.o, given);
        if said.starts_with("refused") {
            return Some(said.split(' ').take(2).collect::<Vec<_>>().join(" "));
        }
        let n: usize = said.split(' ').next()?.parse().ok()?;
        let mut disk = Extract::of(&self.given.x)?;
        for store in stores.chunks(STORE).take(n) {
            disk.records.insert(u32::from_le_bytes(store[..4].try_into().unwrap()), store[4..].to_vec());
        }
        if disk.records.len() > 64 {
            return None;
        }
        let (align, cylinders, heads, sectors) = (numbers.u32(), numbers.u16(), numbers.u8(), numbers.u8());
        let t = read(&disk.bytes()).expect("a disk after a careful push is read");
        let mut t = t;
        (t.mbr.align, t.mbr.cylinders, t.mbr.heads, t.mbr.sectors) = (align, cylinders, heads, sectors);
        Some(text::table(&t))
    }

    fn lay(&mut self, mut w: Words) -> Said {
        let lba = w.u32();
        let (x, record) = self.given.parted(w.usize());
        let o = &mut self.given.o;
        let answer =
            unsafe { cv_lay_over(x.as_ptr(), x.len(), lba, record.as_ptr(), record.len(), o.as_mut_ptr(), o.len()) };
        self.lent(answer)
    }

    fn look_up(&self, lba: u32) -> Said {
        let x = &self.given.x;
        let (at, says) = unsafe { (cv_look_up(x.as_ptr(), x.len(), lba), cv_look_up_answer(x.as_ptr(), x.len(), lba)) };
        let record = if at >> 32 == 0 { &x[at as usize..][..512] } else { &[] };
        Some(format!("{} {} {says}", record.len(), text::checksum(record)))
    }

    fn read_header(&self) -> Said {
        let x = &self.given.x;
        let mut out = vec![FILL; block::HEADER_LENGTH];
        let k = unsafe { cv_read_header(x.as_ptr(), x.len(), out.as_mut_ptr(), out.len()) };
        assert!(k == 0 || out.iter().all(|&b| b == FILL), "a refusal has written to a header");
        Some(if k == 0 { text::header(&block::header(&out)) } else { format!("refused {k}") })
    }

    fn new_from(&self, mut w: Words) -> Said {
        let x = &self.given.x;
        let signature = u32::from_le_bytes([w.u8(), w.u8(), w.u8(), w.u8()]);
        let made = block_of(|out, n| u64::from(unsafe { cv_new_from(x.as_ptr(), x.len(), signature, out, n) }) << 32);
        Some(made.map_or_else(|k| format!("refused {k}"), |t| text::table(&t)))
    }

    /// The commands whose line starts with alignment, geometry, count and D: the table is read from X.
    fn on_read_table(&mut self, word: &str, mut w: Words) -> Said {
        let (align, cylinders, heads, sectors) = (w.u32(), w.u16(), w.u8(), w.u8());
        let (count, disk_size) = (w.usize(), w.u32());
        let last = if ["update_from", "write_table", "write_header"].contains(&word) { w.usize() } else { 0 };
        let (x, second) = self.given.parted(last);
        let t = match read(&x) {
            Ok(t) => t,
            Err(k) => return Some(format!("refused {k}")),
        };
        let Table { mbr, mut marks } = t;
        let mut mbr = MBR { align, cylinders, heads, sectors, disk_size, ..mbr };
        mbr.logical_partitions.resize(count, crate::crate_side::no_logical());
        marks.resize(count, NO_MARK);
        let t = Table { mbr, marks };
        match word {
            "push" => {
                let said = self.on_table("push", &t, w, &second)?;
                let refused = said.starts_with("refused");
                Some(if refused { said.split(' ').take(2).collect::<Vec<_>>().join(" ") } else { said })
            }
            "push_all" => self.on_table("push", &t, w, &second),
            "update_lent" => self.on_table("update_chs", &t, w, &second),
            "write_table" => {
                let t = crate::crate_side::edited(t, w);
                let (answer, after) = self.write(&t, &second);
                Some(format!("{} {}", self.lent(answer)?, text::table(&after)))
            }
            "write_header" => self.write_header(&crate::crate_side::edited(t, w), &second),
            "free_into" => None,
            _ => self.on_table(word, &t, w, &second),
        }
    }

    fn on_table(&mut self, word: &str, t: &Table, mut w: Words, x: &[u8]) -> Said {
        let b = block::of_table(t);
        let (p, n) = (b.as_ptr(), b.len());
        unsafe {
            match word {
                "find" => number(cv_find_at_sector(p, n, w.u32())),
                "remove" => self.remove(t, &b, w.word().parse().ok()?),
                "push" => {
                    let (sys, start, sectors) = (w.u8(), w.u32(), w.u32());
                    Some(match changed(&b, |p, n| cv_push(p, n, sys, start, sectors)) {
                        Ok((number, after)) => format!("{number} {}", text::table(&after)),
                        Err(k) => format!("refused {k} {}", text::table(t)),
                    })
                }
                "write" => {
                    let (answer, after) = self.write(t, x);
                    let shown = packed(answer, |length| format!("done {length}"));
                    let o = &self.given.o;
                    Some(format!("{shown} {} {} {}", text::table(&after), o.len(), text::checksum(o)))
                }
                "write_header" => self.write_header(t, x),
                "sound" => Some(packed(cv_is_sound(p, n), |n| text::truth(n == 1))),
                _ => places(word, &b, &mut w).or_else(|| looks(word, t, &b, &mut w)).or_else(|| edits(word, t, &b, w, x)),
            }
        }
    }

    fn remove(&mut self, t: &Table, b: &[u8], number: u32) -> Said {
        let done = changed(b, |p, n| u64::from(unsafe { cv_remove(p, n, number) }) << 32);
        Some(match done {
            Ok((_, after)) => {
                let (removed, mark) = block::logical(&block::lone(b, number as usize - 5));
                format!("done {} {}", text::logical(&removed, &mark), text::table(&after))
            }
            Err(k) => format!("refused {k} {}", text::table(t)),
        })
    }

    /// The answer, and the table afterwards.
    fn write(&mut self, t: &Table, x: &[u8]) -> (u64, Table) {
        let (b, o) = (block::of_table(t), &mut self.given.o);
        let call = |p, n| unsafe { cv_write_into(p, n, x.as_ptr(), x.len(), o.as_mut_ptr(), o.len()) };
        match changed(&b, call) {
            Ok((length, after)) => (length.into(), after),
            Err(k) => (k << 32, t.clone()),
        }
    }

    fn write_header(&mut self, t: &Table, x: &[u8]) -> Said {
        let (b, o) = (block::of_table(t), &mut self.given.o);
        let h = &b[block::HEADER..][..block::HEADER_LENGTH];
        let answer = unsafe { cv_write_header(h.as_ptr(), h.len(), x.as_ptr(), x.len(), o.as_mut_ptr(), o.len()) };
        self.lent(answer)
    }

    /// What the archive says of a whole extract: the listing, the sector that is wanted, the check, what
    /// looking up a sector answers.
    pub fn of_extract(x: &[u8], lba: u32) -> (String, u64, u8, u8) {
        let mut out = vec![FILL; 2048 + x.len() % 7];
        unsafe {
            let n = cv_listing(x.as_ptr(), x.len(), out.as_mut_ptr(), out.len()) as usize;
            assert!(out[n..].iter().all(|&b| b == FILL), "the listing has written behind its end");
            let listing = String::from_utf8(out[..n].to_vec()).expect("text");
            let wanted = cv_wanted(x.as_ptr(), x.len());
            (listing, wanted, cv_extract_check(x.as_ptr(), x.len()), cv_look_up_answer(x.as_ptr(), x.len(), lba))
        }
    }
}

/// The table that an extract reads as.
fn read(x: &[u8]) -> Result<Table, u64> {
    block_of(|out, n| u64::from(unsafe { cv_read(x.as_ptr(), x.len(), out, n) }) << 32)
}

fn chs(word: &str, mut w: Words) -> Said {
    unsafe {
        match word {
            "chs_exact" => address(cv_chs_from_lba_exact(w.u32(), w.u16(), w.u8(), w.u8())),
            "chs_aligned" => address(cv_chs_from_lba_aligned(w.u32(), w.u16(), w.u8(), w.u8())),
            "chs_to_lba" => number(cv_chs_to_lba(w.u16(), w.u8(), w.u8(), w.u8(), w.u8())),
            "chs_is_valid" => Some(text::truth(cv_chs_is_valid(w.u16(), w.u8(), w.u8(), w.u16(), w.u8(), w.u8()))),
            "chs_to_bytes" => Some(text::hex(&cv_chs_to_bytes(w.u16(), w.u8(), w.u8()).to_le_bytes()[..3])),
            "chs_of_bytes" => address(cv_chs_from_bytes(w.u8(), w.u8(), w.u8())),
            _ => None,
        }
    }
}

fn places(word: &str, b: &[u8], w: &mut Words) -> Said {
    let (p, n) = (b.as_ptr(), b.len());
    unsafe {
        match word {
            "first_place" => number(cv_find_first_place(p, n, w.u32())),
            "last_place" => number(cv_find_last_place(p, n, w.u32())),
            "best_place" => number(cv_find_optimal_place(p, n, w.u32())),
            "most" => number(cv_get_maximum_partition_size(p, n)),
            "most_for" => number(cv_get_maximum_partition_size_for(p, n, w.word().parse().ok()?)),
            "free" => {
                let mut out = vec![FILL; 240];
                let answer = cv_find_free_sectors(p, n, out.as_mut_ptr(), out.len());
                let count = if answer >> 32 == 0 { answer as usize } else { 0 };
                assert!(out[8 * count..].iter().all(|&b| b == FILL), "bytes behind the runs are written");
                let word = |at: usize| u32::from_le_bytes(out[at..at + 4].try_into().unwrap());
                let runs: Vec<_> = (0..count).map(|i| (word(8 * i), word(8 * i + 4))).collect();
                Some(packed(answer, |_| text::runs(&runs)))
            }
            _ => None,
        }
    }
}

fn looks(word: &str, _: &Table, b: &[u8], w: &mut Words) -> Said {
    let (p, n) = (b.as_ptr(), b.len());
    unsafe {
        match word {
            "len" => number(cv_len(p, n)),
            "check_geometry" => Some(packed(cv_check_geometry(p, n), |n| text::truth(n == 1))),
            "cylinder_size" => number(cv_get_cylinder_size(p, n)),
            "get" => {
                let mut out = [FILL; 20];
                let k = cv_get(p, n, w.word().parse().ok()?, out.as_mut_ptr(), out.len());
                let written = if k == 0 { 18 } else { 0 };
                assert!(out[written..].iter().all(|&b| b == FILL), "bytes behind the entry are written");
                Some(match k {
                    0 => text::entry(&block::entry(&out)),
                    255 => "none".to_string(),
                    k => format!("refused {k}"),
                })
            }
            _ => None,
        }
    }
}

/// Whether a type is an extended one.
pub fn is_extended(sys: u8) -> bool {
    unsafe { cv_is_extended(sys) }
}

fn edits(word: &str, t: &Table, b: &[u8], mut w: Words, x: &[u8]) -> Said {
    match word {
        "remove_at" | "update_from" => {
            let done = changed(b, |p, n| {
                let k = unsafe {
                    match word {
                        "remove_at" => cv_remove_at_sector(p, n, w.u32()),
                        _ => cv_update_from(p, n, x.as_ptr(), x.len()),
                    }
                };
                u64::from(k) << 32
            });
            Some(match done {
                Ok((_, after)) => format!("done {}", text::table(&after)),
                Err(k) => format!("refused {k} {}", text::table(t)),
            })
        }
        "update_chs" => {
            let mut slot = block::lone(b, w.usize());
            let k = unsafe { cv_update_chs(slot.as_mut_ptr(), slot.len(), t.cylinders, t.heads, t.sectors) };
            let first = if k == 0 { "done".to_string() } else { format!("refused {k}") };
            let (l, mark) = block::logical(&slot);
            Some(format!("{first} {}", text::logical(&l, &mark)))
        }
        _ => None,
    }
}

/// What every function that takes a block says of this one, with the number in the lower half: a block that is none is
/// refused by all alike. Nothing that is lent to them may change.
pub fn refusals(b: &[u8], x: &[u8]) -> [(&'static str, u64); 17] {
    let mut given = b.to_vec();
    let (p, n) = (given.as_mut_ptr(), given.len());
    let mut out = vec![FILL; BLOCK];
    let (q, m) = (out.as_mut_ptr(), BLOCK);
    let (y, l) = (x.as_ptr(), x.len());
    let said = unsafe {
        [
            ("find_at_sector", cv_find_at_sector(p, n, 1) >> 32),
            ("push", cv_push(p, n, 0x83, 1, 1) >> 32),
            ("remove", cv_remove(p, n, 5).into()),
            ("len", cv_len(p, n) >> 32),
            ("get", cv_get(p, n, 1, q, m).into()),
            ("check_geometry", cv_check_geometry(p, n) >> 32),
            ("get_cylinder_size", cv_get_cylinder_size(p, n) >> 32),
            ("is_sound", cv_is_sound(p, n) >> 32),
            ("remove_at_sector", cv_remove_at_sector(p, n, 1).into()),
            ("update_from", cv_update_from(p, n, y, l).into()),
            ("find_free_sectors", cv_find_free_sectors(p, n, q, m) >> 32),
            ("find_first_place", cv_find_first_place(p, n, 1) >> 32),
            ("find_last_place", cv_find_last_place(p, n, 1) >> 32),
            ("find_optimal_place", cv_find_optimal_place(p, n, 1) >> 32),
            ("get_maximum_partition_size", cv_get_maximum_partition_size(p, n) >> 32),
            ("get_maximum_partition_size_for", cv_get_maximum_partition_size_for(p, n, 5) >> 32),
            ("write_into", cv_write_into(p, n, y, l, q, m) >> 32),
        ]
    };
    assert!(given == b && out.iter().all(|&b| b == FILL), "a refusal has written");
    said
}

/// What reading and a new table say if the lent output is no block.
pub fn short_outputs(x: &[u8], length: usize) -> [(u64, u64); 2] {
    let mut out = vec![FILL; length];
    let (q, m) = (out.as_mut_ptr(), length);
    let own = |r: Result<Table, u64>| r.map_or_else(|k| k, |_| 101);
    let (y, l) = (x.as_ptr(), x.len());
    let made = block_of(|o, n| u64::from(unsafe { cv_new_from(y, l, 1, o, n) }) << 32);
    let said = [
        (unsafe { cv_read(y, l, q, m) }.into(), own(read(x))),
        (unsafe { cv_new_from(y, l, 1, q, m) }.into(), own(made)),
    ];
    assert!(out.iter().all(|&b| b == FILL), "a refusal has written");
    said
}
