//! The crate's answers to case lines. None: the crate has no such operation, or the case is outside of what it
//! can answer (document 01's 1, 6 by count, 19).
//!
//! Where the crate and document 01 are known to differ the answer is carried over to document 01's side, and the
//! difference is counted by its name: see `Carried`.

use std::collections::BTreeMap;
use std::io::Cursor;

use bincode::config::legacy;
use bincode::serde::{decode_from_std_read, encode_into_std_write};
use mbrman::{LogicalPartition, MBRHeader, MBRPartitionEntry, BOOT_ACTIVE, BOOT_INACTIVE, CHS, MBR};

use crate::adapter::{Disk, Extract, RECORD};
use crate::given::Given;
use crate::marked::{Table, NO_MARK};
use crate::refusal::{plain, run, Operation, Refused};
use crate::text::{self, Words};

pub const LOGICALS: usize = 24;

/// The differences that were met, by name: how often.
pub type Carried = BTreeMap<&'static str, u64>;

#[derive(Default)]
pub struct Crate {
    given: Given,
    pub carried: Carried,
}

type Said = Option<String>;

fn refused(r: &Refused) -> String {
    format!("refused {}", r.number)
}

fn said(answer: Result<String, Refused>) -> Said {
    Some(answer.unwrap_or_else(|r| refused(&r)))
}

pub fn no_logical() -> LogicalPartition {
    LogicalPartition {
        partition: MBRPartitionEntry::empty(),
        absolute_ebr_lba: 0,
        ebr_sectors: None,
        ebr_first_chs: CHS::empty(),
        ebr_last_chs: None,
        bootstrap_code: [0; 446],
    }
}

impl Crate {
    fn carry(&mut self, name: &'static str) {
        *self.carried.entry(name).or_default() += 1;
    }

    /// The word of the line and its answer; nothing for a line that only changes what later ones work on.
    pub fn answer<'a>(&mut self, line: &'a str) -> Option<(&'a str, Said)> {
        if self.given.change(line) {
            return None;
        }
        let mut words = Words::of(line);
        let word = words.word();
        Some((word, self.command(word, words)))
    }

    fn command(&mut self, word: &str, mut w: Words) -> Said {
        if let Some(name) = word.strip_prefix("t_") {
            let t = self.given.t.clone().expect("a table");
            return self.on_table(name, t, w);
        }
        match word {
            "read" => said(self.read(&self.given.x.clone())?.map(|t| text::table(&t))),
            "read_header" => {
                let mut disk = Disk::new(Extract::of(&self.given.x)?);
                said(run(Operation::Read, || MBRHeader::read_from(&mut disk)).map(|h| text::header(&h)))
            }
            "wanted" => Some(self.wanted(&self.given.x.clone())?.map_or("none".to_string(), |lba| lba.to_string())),
            "new_from" => {
                let mut disk = Disk::new(Extract::of(&self.given.x)?);
                let size = disk.extract.sector_size;
                let signature = [w.u8(), w.u8(), w.u8(), w.u8()];
                said(run(Operation::Read, || MBR::new_from(&mut disk, size, signature)).map(|t| text::table(&Table::unmarked(t))))
            }
            _ if word.starts_with("chs_") => chs_command(word, w),
            "entry_boot" => Some(format!("{BOOT_ACTIVE} {BOOT_INACTIVE}")),
            "entry_empty" => Some(text::entry(&MBRPartitionEntry::empty())),
            "entry_is" => {
                let e = w.entry();
                let tests = [e.is_used(), e.is_unused(), e.is_extended(), e.is_active()];
                Some(tests.map(text::truth).join(" "))
            }
            _ if word.starts_with("mbr_") => self.record_command(word, w),
            "read_o" => {
                let x = self.given.o[..w.usize()].to_vec();
                said(self.read(&x)?.map(|t| text::table(&t)))
            }
            "after_push" => self.after_push(w),
            _ if ["ebr_", "extract_", "careful_"].iter().any(|p| word.starts_with(p)) => None,
            _ => self.on_read_table(word, w),
        }
    }

    fn record_command(&mut self, word: &str, mut w: Words) -> Said {
        match word {
            "mbr_new" => Some(text::header(&MBRHeader::new([w.u8(), w.u8(), w.u8(), w.u8()]))),
            "mbr_get" => {
                let h = w.header(&self.given.x);
                Some(text::found(h.get(w.usize())))
            }
            "mbr_copy" => {
                let mark = w.header(&self.given.x).is_copy_protected();
                Some(mark.map_or("neither", |m| if m { "yes" } else { "no" }).to_string())
            }
            "mbr_read" => said(self.header_of_x()?.map(|h| text::header(&h))),
            "mbr_write" => {
                let h = w.header(&self.given.x);
                self.write_record(&h)
            }
            "mbr_again" => match self.header_of_x()? {
                Ok(h) => self.write_record(&h),
                Err(r) => Some(refused(&r)),
            },
            _ => None,
        }
    }

    fn header_of_x(&self) -> Option<Result<MBRHeader, Refused>> {
        if self.given.x.len() != RECORD {
            return None;
        }
        Some(run(Operation::Read, || MBRHeader::read_from(&mut Cursor::new(&self.given.x[..]))))
    }

    fn write_record(&mut self, h: &MBRHeader) -> Said {
        let mut out = Cursor::new(vec![0; RECORD]);
        let answer = run(Operation::Write, || h.write_into(&mut out));
        let first = match answer {
            Err(r) => refused(&r),
            Ok(()) if self.given.o.len() < RECORD => return None,
            Ok(()) => {
                self.given.o[..RECORD].copy_from_slice(&out.into_inner());
                "done".to_string()
            }
        };
        Some(format!("{first} {}", self.lent()))
    }

    /// Reading with document 01's capacity: the 25th EBR is 6 once it was read without 2, 3 or 4.
    pub fn read(&mut self, x: &[u8]) -> Option<Result<Table, Refused>> {
        let mut disk = Disk::new(Extract::of(x)?);
        let size = disk.extract.sector_size;
        let answer = run(Operation::Read, || MBR::read_from(&mut disk, size));
        let ebrs = disk.sought.len().saturating_sub(1);
        let last_failed = matches!(&answer, Err(r) if (2..=4).contains(&r.number));
        if ebrs > LOGICALS + 1 || ebrs == LOGICALS + 1 && !last_failed {
            self.carry("a 25th logical partition: the crate goes on");
            return Some(Err(Refused { number: 6, panic: None }));
        }
        let answer = answer.map(|t| Table::of_disk(t, &disk.extract));
        if answer.as_ref().is_ok_and(|t| t.marks.iter().any(|mark| *mark != NO_MARK)) {
            self.carry("reading an EBR's bytes 478 to 509: the crate drops them");
        }
        Some(answer)
    }

    /// The first sector that the crate seeks in reading and that is on the disk and has no record; of a chain as long as
    /// document 01 lets it be.
    pub fn wanted(&mut self, x: &[u8]) -> Option<Option<u32>> {
        let mut disk = Disk::new(Extract::of(x)?);
        let size = disk.extract.sector_size;
        let _ = run(Operation::Read, || MBR::read_from(&mut disk, size));
        let looked = disk.sought.iter().take(LOGICALS + 2).filter(|&&lba| lba < u64::from(disk.extract.disk_size));
        Some(looked.map(|&lba| lba as u32).find(|lba| !disk.extract.records.contains_key(lba)))
    }

    /// The commands whose line starts with alignment, geometry, count and D: the table is read from X.
    fn on_read_table(&mut self, word: &str, mut w: Words) -> Said {
        let (align, cylinders, heads, sectors) = (w.u32(), w.u16(), w.u8(), w.u8());
        let (count, disk_size) = (w.usize(), w.u32());
        let last = if ["update_from", "write_table", "write_header"].contains(&word) { w.usize() } else { 0 };
        let (x, second) = self.given.parted(last);
        let t = match self.read(&x)? {
            Ok(t) => t,
            Err(r) => return Some(refused(&r)),
        };
        let Table { mbr, mut marks } = t;
        let mut mbr = MBR { align, cylinders, heads, sectors, disk_size, ..mbr };
        mbr.logical_partitions.resize(count, no_logical());
        marks.resize(count, NO_MARK);
        let t = Table { mbr, marks };
        match word {
            "update_from" => self.update_from(t, &second),
            "push" => match self.push(&t, &mut w)? {
                Ok((after, number)) => Some(format!("{number} {}", text::table(&after))),
                Err(r) => Some(refused(&r)),
            },
            "push_all" => self.on_table("push", t, w),
            "write_table" | "write_header" => self.write_edited(word, edited(t, w), &second),
            _ => self.on_table(word, t, w),
        }
    }

    fn on_table(&mut self, word: &str, t: Table, mut w: Words) -> Said {
        if t.logical_partitions.len() > LOGICALS {
            return None;
        }
        match word {
            "get" => Some(text::found(t.get(w.usize()))),
            "len" => Some(t.len().to_string()),
            "find" => {
                let sector = w.u32();
                said(plain(|| t.find_at_sector(sector)).map(text::none_or))
            }
            "remove" => self.remove(t, w.usize()),
            "remove_at" => {
                let (mut after, sector) = (t.clone(), w.u32());
                let answer = run(Operation::Remove, || after.remove_at_sector(sector));
                if after.logical_partitions.len() < t.logical_partitions.len() {
                    after.marks.remove(t.find_at_sector(sector).expect("it was found") - 5);
                }
                self.changed(answer, t, after)
            }
            "check_geometry" => Some(text::truth(t.check_geometry())),
            "cylinder_size" => said(plain(|| t.get_cylinder_size()).map(|n| n.to_string())),
            "update_chs" => self.update_chs(t, w.usize()),
            "push" => match self.push(&t, &mut w)? {
                Ok((after, number)) => Some(format!("{number} {}", text::table(&after))),
                Err(r) => Some(format!("{} {}", refused(&r), text::table(&t))),
            },
            "update_from" => self.update_from(t, &self.given.x.clone()),
            "write" => {
                let (said, after) = self.write(t, &self.given.x.clone())?;
                let shown = said.map_or_else(|k| format!("refused {k}"), |length| format!("done {length}"));
                Some(format!("{shown} {} {}", text::table(&after), self.lent()))
            }
            "write_header" => self.write_header(t, &self.given.x.clone()),
            "free_into" => Some(free_into(t, w)),
            "sound" => None,
            "update_lent" => self.update_chs(t, w.usize()),
            _ => places(word, t, w),
        }
    }

    /// What the call says, and the table, which a refusal must leave as it was.
    fn changed(&mut self, answer: Result<(), Refused>, given: Table, after: Table) -> Said {
        Some(match answer {
            Ok(()) => format!("done {}", text::table(&after)),
            Err(r) => {
                assert!(given == after, "a refused change has changed the table");
                format!("{} {}", refused(&r), text::table(&given))
            }
        })
    }

    fn remove(&mut self, t: Table, number: usize) -> Said {
        let mut after = t.clone();
        Some(match run(Operation::Remove, || Ok(after.remove(number))) {
            Ok(l) => {
                let mark = after.marks.remove(number - 5);
                format!("done {} {}", text::logical(&l, &mark), text::table(&after))
            }
            Err(r) => {
                assert!(t == after, "a refused removal has changed the table");
                format!("{} {}", refused(&r), text::table(&t))
            }
        })
    }

    fn update_chs(&mut self, t: Table, at: usize) -> Said {
        let (given, mark) = (&t.logical_partitions[at], &t.marks[at]);
        let mut l = given.clone();
        Some(match run(Operation::Other, || l.update_chs(t.cylinders, t.heads, t.sectors)) {
            Ok(()) => format!("done {}", text::logical(&l, mark)),
            Err(r) => {
                if l != *given {
                    self.carry("update_chs, refused half way: some addresses are changed");
                }
                format!("{} {}", refused(&r), text::logical(given, mark))
            }
        })
    }

    fn push(&mut self, t: &Table, w: &mut Words) -> Option<Result<(Table, usize), Refused>> {
        if t.logical_partitions.len() > LOGICALS {
            return None;
        }
        let mut after = t.clone();
        let (sys, start, sectors) = (w.u8(), w.u32(), w.u32());
        let answer = run(Operation::Other, || after.push(sys, start, sectors).map(|l| l.clone()));
        Some(match answer {
            Ok(_) if after.logical_partitions.len() > LOGICALS => {
                self.carry("push of a 25th logical partition: the crate takes it");
                Err(Refused { number: 6, panic: None })
            }
            Ok(l) => {
                assert!(after.logical_partitions.last() == Some(&l), "push answers the last one");
                let number = after.len();
                after.marks.push(NO_MARK);
                Ok((after, number))
            }
            Err(r) => {
                assert!(*t == after, "a refused push has changed the table");
                Err(r)
            }
        })
    }

    /// The table after a careful push, as document 02 has it by the crate: what it reads, its push, the last partition moved to
    /// its place in the order, the first-place rule.
    fn after_push(&mut self, mut w: Words) -> Said {
        let (align, cylinders, heads, sectors) = (w.u32(), w.u16(), w.u8(), w.u8());
        let mut t = match self.read(&self.given.x.clone())? {
            Ok(t) => t,
            Err(r) => return Some(refused(&r)),
        };
        (t.mbr.align, t.mbr.cylinders, t.mbr.heads, t.mbr.sectors) = (align, cylinders, heads, sectors);
        Some(match self.push(&t, &mut w)? {
            Ok((after, _)) => text::table(&in_place(after)),
            Err(r) => refused(&r),
        })
    }

    /// The crate keeps its sector size; where the extract's is another one it is given that one first.
    fn update_from(&mut self, t: Table, x: &[u8]) -> Said {
        if t.logical_partitions.len() > LOGICALS {
            return None;
        }
        let mut disk = Disk::new(Extract::of(x)?);
        let mut after = t.clone();
        if after.sector_size != disk.extract.sector_size {
            self.carry("update_from another sector size: the crate keeps its own");
            after.sector_size = disk.extract.sector_size;
        }
        let answer = run(Operation::Other, || after.update_from(&mut disk));
        self.changed(answer, t, after)
    }

    /// O's length and checksum.
    fn lent(&self) -> String {
        format!("{} {}", self.given.o.len(), text::checksum(&self.given.o))
    }

    /// The commands of the program case_writing; a count over 24 is document 01's alone.
    fn write_edited(&mut self, word: &str, t: Table, x: &[u8]) -> Said {
        if t.logical_partitions.len() > LOGICALS {
            return None;
        }
        if word == "write_header" {
            return self.write_header(t, x);
        }
        let (said, after) = self.write(t, x)?;
        let shown = said.map_or_else(|k| format!("refused {k}"), |length| length.to_string());
        Some(format!("{shown} {} {}", self.lent(), text::table(&after)))
    }

    /// The new extract's length or a refusal's number, and the table afterwards.
    fn write(&mut self, given: Table, x: &[u8]) -> Option<(Result<usize, u32>, Table)> {
        let extract = Extract::of(x)?;
        if given.sector_size != extract.sector_size {
            self.carry("writing to another sector size: the crate uses its table's");
        }
        let mut disk = Disk::new(extract.clone());
        let mut after = given.with(MBR { sector_size: extract.sector_size, ..given.mbr.clone() });
        let mut answer = run(Operation::Write, || after.write_into(&mut disk));
        if matches!(&answer, Err(r) if r.panic.as_deref() == Some("attempt to multiply with overflow")) {
            self.carry("writing, an EBR's place in bytes beyond u32: the crate panics");
            disk = Disk::by_sector(extract.clone());
            after = given.with(MBR { sector_size: 1, ..given.mbr.clone() });
            answer = run(Operation::Write, || after.write_into(&mut disk));
        }
        after.sector_size = given.sector_size;
        if answer.is_err() {
            if disk.extract != extract {
                self.carry("writing refused: the crate has stored records before");
            }
            if after != given {
                self.carry("writing refused: the crate has changed its table before");
            }
        }
        let said = self.laid(answer, &disk.extract);
        let table = if said.is_ok() { after } else { given };
        Some((said, table))
    }

    fn write_header(&mut self, t: Table, x: &[u8]) -> Said {
        let mut disk = Disk::new(Extract::of(x)?);
        let answer = run(Operation::Write, || t.header.write_into(&mut disk));
        let first = match self.laid(answer, &disk.extract) {
            Ok(length) => length.to_string(),
            Err(number) => format!("refused {number}"),
        };
        Some(format!("{first} {}", self.lent()))
    }

    /// The disk after the stores as an extract in O: 22 and 19 are document 01's own.
    fn laid(&mut self, answer: Result<(), Refused>, disk: &Extract) -> Result<usize, u32> {
        answer.map_err(|r| r.number)?;
        let bytes = disk.bytes();
        if disk.records.len() > 64 {
            self.carry("writing, a 65th record: the crate knows no extract");
            return Err(22);
        }
        if self.given.o.len() < bytes.len() {
            self.carry("writing, lent output too short: the crate knows none");
            return Err(19);
        }
        self.given.o[..bytes.len()].copy_from_slice(&bytes);
        Ok(bytes.len())
    }
}

/// The table after a push, the last partition moved behind those whose EBRs are at or below its own; then the first one's EBR
/// at the extended partition's start, without link fields.
fn in_place(mut t: Table) -> Table {
    let new = t.logical_partitions.pop().expect("push has put one");
    let mark = t.marks.pop().expect("push has put one");
    let at = t.logical_partitions.iter().filter(|l| l.absolute_ebr_lba <= new.absolute_ebr_lba).count();
    t.logical_partitions.insert(at, new);
    t.marks.insert(at, mark);
    let extended = text::entries(&t.header).into_iter().find(|e| e.is_extended()).expect("push asks for one").clone();
    let first = &mut t.logical_partitions[0];
    first.absolute_ebr_lba = extended.starting_lba;
    (first.ebr_sectors, first.ebr_first_chs, first.ebr_last_chs) = (None, extended.first_chs, None);
    t
}

/// Is this a refusal that the careful push has and the crate's reading and push have not?
pub fn careful_alone(word: &str, crate_said: &str, other: &str) -> bool {
    let refused = |said: &str, numbers: &[&str]| numbers.iter().any(|n| said.strip_prefix("refused ") == Some(n));
    let before_push = refused(other, &["20", "23"]) && !refused(crate_said, &["2", "3", "4", "5"]);
    let after_push = refused(other, &["12", "21"]) && !crate_said.starts_with("refused");
    word == "after_push" && (before_push || after_push)
}

/// Edits of three numbers each: a partition's number (0 is the header's signature), a field and its value. See
/// ../../../second/answers.py.
pub fn edited(mut t: Table, w: Words) -> Table {
    let numbers: Vec<u32> = w.0.map(|n| n.parse().expect("a number")).collect();
    for edit in numbers.chunks(3) {
        let (number, field, value) = (edit[0] as usize, edit[1], edit[2]);
        match (number, field) {
            (_, 0) => {}
            (0, _) => t.header.boot_signature = [(value % 256) as u8, (value / 256) as u8],
            (_, 1..=4) => {
                let e = t.get_mut(number).expect("a partition");
                match field {
                    1 => e.boot = value as u8,
                    2 => e.sys = value as u8,
                    3 => e.starting_lba = value,
                    _ => e.sectors = value,
                }
            }
            _ => edited_link(&mut t.logical_partitions[number - 5], field, value),
        }
    }
    t
}

fn edited_link(l: &mut LogicalPartition, field: u32, value: u32) {
    match field {
        5 => l.absolute_ebr_lba = value,
        6 => l.ebr_sectors = Some(value),
        7 => l.ebr_sectors = None,
        8 => l.ebr_last_chs = None,
        _ => l.ebr_last_chs = Some(l.ebr_first_chs),
    }
}

/// Thirty equal runs are lent: the answer, and the list afterwards. mbrman makes a list of its own.
fn free_into(t: Table, mut w: Words) -> String {
    let mut lent = vec![(w.u32(), w.u32()); 30];
    let answer = plain(|| t.find_free_sectors()).map(|runs| {
        lent[..runs.len()].copy_from_slice(&runs);
        runs.len().to_string()
    });
    let first = answer.unwrap_or_else(|r| refused(&r));
    let numbers = lent.iter().map(|(start, length)| format!(" {start} {length}"));
    format!("{first}{}", numbers.collect::<String>())
}

fn places(word: &str, mut t: Table, mut w: Words) -> Said {
    said(match word {
        "free" => plain(|| t.find_free_sectors()).map(|runs| text::runs(&runs)),
        "first_place" => plain(|| t.find_first_place(w.u32())).map(text::none_or),
        "last_place" => plain(|| t.find_last_place(w.u32())).map(text::none_or),
        "best_place" => plain(|| t.find_optimal_place(w.u32())).map(text::none_or),
        "most" => run(Operation::Other, || t.get_maximum_partition_size()).map(|n| n.to_string()),
        "most_for" => run(Operation::Other, || t.get_maximum_partition_size_for(w.usize())).map(|n| n.to_string()),
        _ => panic!("no such command: {word}"),
    })
}

fn chs_command(word: &str, mut w: Words) -> Said {
    match word {
        "chs_new" => Some(text::chs(&w.chs())),
        "chs_empty" => Some(text::chs(&CHS::empty())),
        "chs_exact" | "chs_aligned" => {
            let (lba, cylinders, heads, sectors) = (w.u32(), w.u16(), w.u8(), w.u8());
            let f = if word == "chs_exact" { CHS::from_lba_exact } else { CHS::from_lba_aligned };
            said(run(Operation::Other, || f(lba, cylinders, heads, sectors)).map(|c| text::chs(&c)))
        }
        "chs_to_lba" => {
            let (c, heads, sectors) = (w.chs(), w.u8(), w.u8());
            said(plain(|| c.to_lba(heads, sectors)).map(|n| n.to_string()))
        }
        "chs_is_empty" => Some(text::truth(w.chs().is_empty())),
        "chs_is_valid" => {
            let c = w.chs();
            Some(text::truth(c.is_valid(w.u16(), w.u8(), w.u8())))
        }
        "chs_to_bytes" => {
            let mut out = Vec::new();
            encode_into_std_write(w.chs(), &mut out, legacy()).expect("a vector takes all");
            Some(text::hex(&out))
        }
        "chs_of_bytes" => {
            let bytes = [w.u8(), w.u8(), w.u8()];
            let c: CHS = decode_from_std_read(&mut &bytes[..], legacy()).expect("three bytes");
            Some(text::chs(&c))
        }
        _ => None,
    }
}
