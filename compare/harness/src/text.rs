//! Values of case lines, and answers as the second program prints them.

use mbrman::{LogicalPartition, MBRHeader, MBRPartitionEntry, CHS, MBR};

use crate::marked::{Mark, Table};

pub fn checksum(bytes: &[u8]) -> u64 {
    bytes.iter().fold(0, |total, &byte| (total * 31 + u64::from(byte)) % 4294967291)
}

pub fn truth(b: bool) -> String {
    if b { "yes" } else { "no" }.to_string()
}

pub fn hex(bytes: &[u8]) -> String {
    bytes.iter().map(|b| format!("{b:02x}")).collect::<Vec<_>>().join(" ")
}

pub fn chs(c: &CHS) -> String {
    format!("{} {} {}", c.cylinder, c.head, c.sector)
}

pub fn entry(e: &MBRPartitionEntry) -> String {
    format!("{} {} {} {} {} {}", e.boot, chs(&e.first_chs), e.sys, chs(&e.last_chs), e.starting_lba, e.sectors)
}

pub fn found(e: Option<&MBRPartitionEntry>) -> String {
    e.map_or("none".to_string(), entry)
}

pub fn none_or<T: ToString>(value: Option<T>) -> String {
    value.map_or("none".to_string(), |v| v.to_string())
}

pub fn entries(h: &MBRHeader) -> [&MBRPartitionEntry; 4] {
    [&h.partition_1, &h.partition_2, &h.partition_3, &h.partition_4]
}

pub fn header(h: &MBRHeader) -> String {
    let marks = [&h.disk_signature[..], &h.copy_protected, &h.boot_signature].concat();
    let entries = entries(h).map(entry).join(" ");
    format!("{} {} {entries}", checksum(&h.bootstrap_code), hex(&marks))
}

pub fn logical(l: &LogicalPartition, mark: &Mark) -> String {
    format!(
        "{} {} {} {} {} {} {}",
        entry(&l.partition),
        l.absolute_ebr_lba,
        none_or(l.ebr_sectors),
        chs(&l.ebr_first_chs),
        none_or(l.ebr_last_chs.as_ref().map(chs)),
        checksum(&l.bootstrap_code),
        checksum(mark)
    )
}

pub fn table(t: &Table) -> String {
    let mut said = format!(
        "{} {} {} {} {} {} {} {}",
        t.sector_size,
        t.disk_size,
        t.align,
        t.cylinders,
        t.heads,
        t.sectors,
        t.logical_partitions.len(),
        header(&t.header)
    );
    for (l, mark) in t.logical_partitions.iter().zip(&t.marks).take(24) {
        said.push(' ');
        said.push_str(&logical(l, mark));
    }
    said
}

pub fn runs(runs: &[(u32, u32)]) -> String {
    let numbers = runs.iter().map(|(start, length)| format!(" {start} {length}"));
    format!("{}{}", runs.len(), numbers.collect::<String>())
}

/// The numbers of a line, taken one after the other.
pub struct Words<'a>(pub std::str::Split<'a, char>);

impl<'a> Words<'a> {
    pub fn of(line: &'a str) -> Words<'a> {
        Words(line.split(' '))
    }

    pub fn word(&mut self) -> &'a str {
        self.0.next().expect("a line has too few words")
    }

    pub fn u32(&mut self) -> u32 {
        self.word().parse().expect("a number")
    }

    pub fn usize(&mut self) -> usize {
        self.word().parse().expect("a number")
    }

    pub fn u16(&mut self) -> u16 {
        self.u32().try_into().expect("16 bits")
    }

    pub fn u8(&mut self) -> u8 {
        self.u32().try_into().expect("8 bits")
    }

    pub fn chs(&mut self) -> CHS {
        CHS::new(self.u16(), self.u8(), self.u8())
    }

    pub fn entry(&mut self) -> MBRPartitionEntry {
        MBRPartitionEntry {
            boot: self.u8(),
            first_chs: self.chs(),
            sys: self.u8(),
            last_chs: self.chs(),
            starting_lba: self.u32(),
            sectors: self.u32(),
        }
    }

    pub fn header(&mut self, code: &[u8]) -> MBRHeader {
        let mut bootstrap_code = [0; 440];
        let n = code.len().min(440);
        bootstrap_code[..n].copy_from_slice(&code[..n]);
        MBRHeader {
            bootstrap_code,
            disk_signature: [self.u8(), self.u8(), self.u8(), self.u8()],
            copy_protected: [self.u8(), self.u8()],
            boot_signature: [self.u8(), self.u8()],
            partition_1: self.entry(),
            partition_2: self.entry(),
            partition_3: self.entry(),
            partition_4: self.entry(),
        }
    }

    /// A table as a line of `t` has it: see compare/second.py.
    pub fn table(&mut self) -> Table {
        let (sector_size, disk_size, align) = (self.u32(), self.u32(), self.u32());
        let (cylinders, heads, sectors) = (self.u16(), self.u8(), self.u8());
        let count = self.u32();
        let code = code(self.u32(), 440);
        let header = self.header(&code);
        let (logical_partitions, marks) = (0..count).map(|_| self.logical()).unzip();
        let mbr = MBR { sector_size, header, logical_partitions, align, cylinders, heads, sectors, disk_size };
        Table { mbr, marks }
    }

    fn logical(&mut self) -> (LogicalPartition, Mark) {
        let partition = self.entry();
        let absolute_ebr_lba = self.u32();
        let ebr_sectors = match self.word() {
            "none" => None,
            n => Some(n.parse().expect("a number")),
        };
        let ebr_first_chs = self.chs();
        let ebr_last_chs = match self.word() {
            "none" => None,
            n => Some(CHS::new(n.parse().expect("a number"), self.u8(), self.u8())),
        };
        let mut bootstrap_code = [0; 446];
        bootstrap_code.copy_from_slice(&code(self.u32(), 446));
        let mark = code(self.u32(), 32).try_into().expect("32 bytes");
        (LogicalPartition { partition, absolute_ebr_lba, ebr_sectors, ebr_first_chs, ebr_last_chs, bootstrap_code }, mark)
    }
}

/// Code, or a mark, that is told from others by its first and last byte.
pub fn code(number: u32, length: usize) -> Vec<u8> {
    let mut code = vec![0; length];
    code[0] = (number % 256) as u8;
    code[length - 1] = (number * 3 % 256) as u8;
    code
}

/// The line of `t` for a table, with the numbers of its marks.
pub fn table_line(t: &MBR, mut mark: impl FnMut() -> u32) -> String {
    let h = &t.header;
    let mut words = vec!["t".to_string()];
    let fields = [t.sector_size, t.disk_size, t.align, t.cylinders.into(), t.heads.into(), t.sectors.into()];
    words.extend(fields.map(|n| n.to_string()));
    words.push(t.logical_partitions.len().to_string());
    words.push(h.bootstrap_code[0].to_string());
    let marks = [&h.disk_signature[..], &h.copy_protected, &h.boot_signature].concat();
    words.extend(marks.iter().map(u8::to_string));
    words.extend(entries(h).map(entry));
    for l in &t.logical_partitions {
        words.push(entry(&l.partition));
        words.push(l.absolute_ebr_lba.to_string());
        words.push(none_or(l.ebr_sectors));
        words.push(chs(&l.ebr_first_chs));
        words.push(none_or(l.ebr_last_chs.as_ref().map(chs)));
        words.push(l.bootstrap_code[0].to_string());
        words.push(mark().to_string());
    }
    words.join(" ")
}
