//! Seeded cases: sound tables and disks, damaged ones, and numbers at the limits.

use mbrman::{LogicalPartition, MBRHeader, MBRPartitionEntry, CHS, MBR};

use crate::adapter::{Disk, Extract, RECORD};
#[cfg(feature = "archive")]
use crate::block::{BLOCK, TAGS};
use crate::refusal::{run, Operation};
use crate::text;

const BIG: u32 = u32::MAX;
const EXTENDED: [u8; 5] = [0x05, 0x0f, 0x85, 0xc5, 0xd5];

/// Numbers that are the same on every machine.
pub struct Rng(u64);

impl Rng {
    pub fn new(seed: u64) -> Rng {
        Rng(seed)
    }

    fn next(&mut self) -> u64 {
        self.0 = self.0.wrapping_add(0x9e3779b97f4a7c15);
        let z = (self.0 ^ self.0 >> 30).wrapping_mul(0xbf58476d1ce4e5b9);
        let z = (z ^ z >> 27).wrapping_mul(0x94d049bb133111eb);
        z ^ z >> 31
    }

    fn below(&mut self, n: u64) -> u32 {
        (self.next() % n) as u32
    }

    fn of<T: Clone>(&mut self, choices: &[T]) -> T {
        choices[self.below(choices.len() as u64) as usize].clone()
    }

    fn one_in(&mut self, n: u64) -> bool {
        self.below(n) == 0
    }

    fn byte(&mut self) -> u8 {
        self.below(256) as u8
    }

    fn any(&mut self) -> u32 {
        let shift = self.below(32);
        self.next() as u32 >> shift
    }

    fn edge(&mut self) -> u32 {
        let edges = [0, 0, 1, 1, 2, 3, 62, 63, 64, 511, 512, 1023, 1024, 1025, 2047, 2048, 2049, 4096, 16383, 16384, 16385,
            32768, 65535, 65536, 1048575, 1048576, 8388607, 8388608, 16450559, 16450560, 1 << 30, (1 << 31) - 1, 1 << 31,
            (1 << 31) + 1, BIG - 2048, BIG - 2047, BIG - 1, BIG];
        if self.one_in(4) { self.any() } else { self.of(&edges) }
    }

    fn chs(&mut self) -> CHS {
        match self.below(4) {
            0 => CHS::empty(),
            1 => CHS::new(self.below(65536) as u16, self.byte(), self.byte()),
            _ => CHS::new(self.below(1024) as u16, self.byte(), self.below(64) as u8),
        }
    }

    fn geometry(&mut self) -> (u16, u8, u8) {
        match self.below(10) {
            0..=2 => (0, 0, 0),
            3..=5 => (1023, 255, 63),
            6 => self.of(&[(1024, 255, 63), (1023, 255, 64), (0, 2, 3), (10, 0, 3), (10, 2, 0), (65535, 255, 255)]),
            7 => (self.below(1024) as u16, self.byte(), self.below(64) as u8),
            8 => self.of(&[(10, 2, 3), (1023, 16, 63), (1, 1, 1), (1023, 1, 1), (1022, 255, 63), (500, 64, 32)]),
            _ => (self.below(65536) as u16, self.byte(), self.byte()),
        }
    }

    fn sys(&mut self) -> u8 {
        match self.below(6) {
            0 => self.of(&EXTENDED),
            1 => self.byte(),
            2 => 0,
            _ => 0x83,
        }
    }

    fn flag(&mut self) -> u8 {
        if self.one_in(3) { self.of(&[1, 0x7f, 0x81, 0xff, 0x40]) } else { self.of(&[0, 0x80]) }
    }
}

// ---------------------------------------------------------------- tables

fn entry(rng: &mut Rng, sys: u8, start: u32, sectors: u32) -> MBRPartitionEntry {
    let (first_chs, last_chs) = (rng.chs(), rng.chs());
    MBRPartitionEntry { boot: rng.of(&[0, 0, 0x80]), first_chs, sys, last_chs, starting_lba: start, sectors }
}

fn entry_mut(h: &mut MBRHeader, i: u32) -> &mut MBRPartitionEntry {
    match i % 4 {
        0 => &mut h.partition_1,
        1 => &mut h.partition_2,
        2 => &mut h.partition_3,
        _ => &mut h.partition_4,
    }
}

/// Sectors of a piece: one, some multiple of the alignment, or any few.
fn size(rng: &mut Rng, align: u32) -> u64 {
    u64::from(match rng.below(4) {
        0 => 1,
        1 => 1 + rng.below(200),
        _ => align * (1 + rng.below(8)),
    })
}

fn gap(rng: &mut Rng, align: u32) -> u64 {
    u64::from(if rng.one_in(2) { 0 } else { align * rng.below(4) })
}

/// The logical partitions of an extended partition at X, and its end. Now and then the first is an EBR without a partition, and
/// now and then there are holes, as where partitions were removed.
fn chain(rng: &mut Rng, x: u64, n: u32, align: u32) -> (Vec<LogicalPartition>, u64) {
    let mut found = Vec::new();
    let mut at = x;
    let holes = rng.one_in(3);
    for k in 0..n {
        let empty = k == 0 && rng.one_in(5);
        let start = at + if empty { 0 } else if rng.one_in(4) { 1 } else { u64::from(align) };
        let end = start + if empty { 0 } else { size(rng, align) };
        let link = (end - at).max(1) + gap(rng, align);
        let last = rng.chs();
        let mut bootstrap_code = [0; 446];
        bootstrap_code.copy_from_slice(&text::code(rng.of(&[0, 0, k + 1, 255]), 446));
        found.push(LogicalPartition {
            partition: entry(rng, if empty { 0 } else { 0x83 }, start as u32, (end - start) as u32),
            absolute_ebr_lba: at as u32,
            ebr_sectors: (k > 0).then_some(link as u32),
            ebr_first_chs: rng.chs(),
            ebr_last_chs: (k > 0).then_some(last),
            bootstrap_code,
        });
        at += link + gap(rng, align);
        if holes && rng.one_in(2) {
            at += u64::from(align) * u64::from(2 + rng.below(4));
        }
    }
    (found, at + size(rng, align))
}

/// A sound table but for the CHS bounds, with up to so many logical partitions.
fn sound(rng: &mut Rng, most: u32) -> MBR {
    let any = 1 + rng.below(100);
    let align = rng.of(&[1, 1, 2, 8, 63, 64, 2048, 2048, 2048, 4096, 16384, any]);
    let n = rng.of(&[0, 1, 2, 3, 8, most - 1, most]).min(most);
    let n = if rng.one_in(2) { n } else { rng.below(u64::from(most) + 1) };
    // Where the first partition starts: most often low, else so high that the last ends near 2^32.
    let high = rng.one_in(6);
    let room = 4 * 12 * 16384 + 32 * 20 * u64::from(align.max(200));
    let low = u64::from(align) * u64::from(1 + rng.below(3));
    let mut at = if high { u64::from(BIG) - room } else { low };
    let mut header = MBRHeader::new([rng.byte(), rng.byte(), rng.byte(), rng.byte()]);
    header.copy_protected = rng.of(&[[0, 0], [0x5a, 0x5a], [0, 0x5a], [1, 2]]);
    header.bootstrap_code.copy_from_slice(&text::code(rng.of(&[0, 7, 255]), 440));
    let (used, first) = (rng.of(&[0, 1, 1, 1, 2, 2, 3, 4]), rng.below(4));
    let extended = if rng.one_in(8) { 9 } else { rng.below(u64::from(used.max(1))) };
    let mut logical_partitions = Vec::new();
    for i in 0..used {
        let end = if i == extended {
            let (logicals, end) = chain(rng, at, n, align);
            logical_partitions = logicals;
            end
        } else {
            at + size(rng, align)
        };
        let sys = if i == extended { rng.of(&EXTENDED) } else { 0x83 };
        *entry_mut(&mut header, first + i) = entry(rng, sys, at as u32, (end - at) as u32);
        at = end + gap(rng, align);
    }
    let disk_size = at + rng.of(&[0, 0, 1, 1000]);
    let (cylinders, heads, sectors) = rng.geometry();
    let sector_size = rng.of(&[512, 512, 1024, 4096]);
    let disk_size = disk_size.min(u64::from(BIG)) as u32;
    MBR { sector_size, header, logical_partitions, align, cylinders, heads, sectors, disk_size }
}

/// A number near one of the table's.
fn near(rng: &mut Rng, t: &MBR) -> u32 {
    let mut numbers = vec![t.disk_size, t.align];
    for e in text::entries(&t.header) {
        numbers.extend([e.starting_lba, e.starting_lba.wrapping_add(e.sectors), e.sectors]);
    }
    if !t.logical_partitions.is_empty() {
        let l = &t.logical_partitions[rng.below(t.logical_partitions.len() as u64) as usize];
        let start = l.partition.starting_lba;
        let end = start.wrapping_add(l.partition.sectors);
        for _ in 0..4 {
            numbers.extend([start, end, l.absolute_ebr_lba, l.absolute_ebr_lba.wrapping_add(l.ebr_sectors.unwrap_or(0))]);
        }
    }
    let delta = rng.of(&[0, 0, 0, 0, 1, BIG, 2, BIG - 1, t.align, t.align.wrapping_neg(), t.align.wrapping_mul(2)]);
    match rng.below(8) {
        0 => rng.edge(),
        1 => BIG.wrapping_sub(rng.of(&numbers)).wrapping_add(delta),
        _ => rng.of(&numbers).wrapping_add(delta),
    }
}

fn change_entry(rng: &mut Rng, t: &MBR, e: &mut MBRPartitionEntry) {
    match rng.below(7) {
        0 => e.boot = rng.flag(),
        1 => e.sys = rng.sys(),
        2 => e.first_chs = rng.chs(),
        3 => e.last_chs = rng.chs(),
        4 => e.starting_lba = near(rng, t),
        _ => e.sectors = near(rng, t),
    }
}

fn change_logical(rng: &mut Rng, t: &MBR, l: &mut LogicalPartition) {
    match rng.below(12) {
        0 => l.absolute_ebr_lba = near(rng, t),
        1 => l.ebr_sectors = Some(near(rng, t)),
        2 => l.ebr_sectors = None,
        3 => l.ebr_last_chs = None,
        4 => l.ebr_first_chs = rng.chs(),
        5 => l.ebr_sectors = Some(rng.below(2)),
        6 => l.ebr_last_chs = Some(rng.chs()),
        7 => l.absolute_ebr_lba = rng.of(&t.logical_partitions).absolute_ebr_lba,
        8 => {
            l.partition.boot = rng.flag();
            l.absolute_ebr_lba = t.disk_size.saturating_add(rng.below(3)).saturating_sub(1);
        }
        _ => change_entry(rng, t, &mut l.partition),
    }
}

fn change_table(rng: &mut Rng, t: &mut MBR) {
    let copy = t.clone();
    let n = t.logical_partitions.len() as u64;
    match rng.below(16) {
        14 => {
            // The extended partition at 0, or at the end of the numbers.
            let i = (0..4).find(|&i| entry_mut(&mut t.header, i).is_extended()).unwrap_or(0);
            entry_mut(&mut t.header, i).starting_lba = rng.of(&[0, 0, BIG, BIG - 1]);
        }
        15 => {
            // An unused entry whose end is beyond u32, and perhaps no free run.
            let sectors = 1 + rng.below(9);
            let unused = entry(rng, 0, BIG, sectors);
            *entry_mut(&mut t.header, rng.below(4)) = unused;
            t.align = rng.of(&[t.align, BIG, 1 << 31]);
        }
        0 => t.align = near(rng, &copy),
        1 => t.align = rng.edge(),
        2 => t.disk_size = near(rng, &copy),
        3 => (t.cylinders, t.heads, t.sectors) = rng.geometry(),
        4 => t.header.boot_signature = rng.of(&[[0x55, 0xaa], [0xaa, 0x55], [0, 0]]),
        5 => t.sector_size = rng.of(&[512, 1024, 2048, 4096]),
        6 if n > 0 => t.logical_partitions.truncate(rng.below(n) as usize),
        7 if n > 1 => t.logical_partitions.swap(0, rng.below(n) as usize),
        8..=11 if n > 0 => {
            let at = rng.below(n) as usize;
            let mut l = copy.logical_partitions[at].clone();
            change_logical(rng, &copy, &mut l);
            t.logical_partitions[at] = l;
        }
        _ => {
            let i = rng.below(4);
            let mut e = entry_mut(&mut t.header, i).clone();
            change_entry(rng, &copy, &mut e);
            *entry_mut(&mut t.header, i) = e;
        }
    }
}

fn table(rng: &mut Rng) -> MBR {
    let mut t = sound(rng, 24);
    if rng.one_in(2) {
        for _ in 0..rng.of(&[1, 1, 2, 3, 6, 12]) {
            change_table(rng, &mut t);
        }
    }
    t
}

// ---------------------------------------------------------------- disks

/// The disk that a table is written to; the empty disk where the crate refuses.
fn written(t: &MBR) -> Extract {
    let empty = Extract { sector_size: t.sector_size, disk_size: t.disk_size, records: Default::default() };
    let mut disk = Disk::by_sector(empty);
    let mut copy = MBR { sector_size: 1, cylinders: 0, ..t.clone() };
    let _ = run(Operation::Write, || copy.write_into(&mut disk));
    disk.extract
}

/// Marks of random bytes in some of the EBRs, which the crate writes as zeros.
fn mark(rng: &mut Rng, t: &MBR, disk: &mut Extract) {
    for l in &t.logical_partitions {
        let Some(record) = disk.records.get_mut(&l.absolute_ebr_lba).filter(|_| l.absolute_ebr_lba > 0) else { continue };
        match rng.below(4) {
            0 => record[478..510].iter_mut().for_each(|byte| *byte = rng.byte()),
            1 => record[478 + rng.below(32) as usize] = rng.byte(),
            _ => {}
        }
    }
}

fn change_record(rng: &mut Rng, t: &MBR, place: u32, record: &mut [u8]) {
    let at = 446 + 16 * rng.of(&[0, 0, 1, 1, 2, 3]) as usize;
    let mut put = |at: usize, bytes: &[u8]| record[at..at + bytes.len()].copy_from_slice(bytes);
    let x = text::entries(&t.header).into_iter().find(|e| e.is_extended()).map_or(0, |e| e.starting_lba);
    match rng.below(10) {
        9 => put(470, &(place.wrapping_sub(x)).wrapping_add(rng.of(&[0, 0, 1, BIG])).to_le_bytes()),
        0 => put(at, &[rng.flag()]),
        1 => put(at + 4, &[rng.sys()]),
        2 => put(at + 1 + rng.below(3) as usize, &[rng.byte()]),
        3 => put(at + 5 + rng.below(3) as usize, &[rng.byte()]),
        4 => put(at + 8, &near(rng, t).to_le_bytes()),
        5 | 6 => put(at + 8, &near(rng, t).wrapping_sub(x).to_le_bytes()),
        7 => put(at + 12, &near(rng, t).to_le_bytes()),
        _ if rng.one_in(2) => put(at + 8, &near(rng, t).wrapping_sub(x).to_le_bytes()),
        _ => put(510, &rng.of(&[[0, 0], [0xaa, 0x55], [0x55, 0xab]])),
    }
}

fn change_disk(rng: &mut Rng, t: &MBR, disk: &mut Extract) {
    let places: Vec<u32> = disk.records.keys().copied().collect();
    let Some(&first) = places.first() else { return };
    let later = if places.len() > 1 { &places[1..] } else { &places[..] };
    let place = if rng.one_in(8) { first } else { rng.of(later) };
    match rng.below(10) {
        _ if place == first && !rng.one_in(6) => change_record(rng, t, place, disk.records.get_mut(&place).unwrap()),
        0 => drop(disk.records.remove(&place)),
        1 => drop(disk.records.insert(place, vec![0; RECORD])),
        2 => {
            disk.disk_size = near(rng, t);
            disk.records.retain(|&lba, _| lba < disk.disk_size);
        }
        3 => {
            // A record elsewhere, as a link may lead there.
            let (to, record) = (near(rng, t), disk.records[&place].clone());
            if to < disk.disk_size && disk.records.len() < 64 {
                disk.records.insert(to, record);
            }
        }
        _ => change_record(rng, t, place, disk.records.get_mut(&place).unwrap()),
    }
}

// ---------------------------------------------------------------- case lines

/// Case lines, and how many of them are answered.
#[derive(Default)]
pub struct Cases {
    pub lines: Vec<String>,
    pub answered: u64,
}

impl Cases {
    fn case(&mut self, line: String) {
        self.lines.push(line);
        self.answered += 1;
    }

    /// X becomes these bytes; runs of zeros are left out.
    pub fn lend(&mut self, x: &[u8]) {
        self.lines.push(format!("x {}", x.len()));
        let mut at = 0;
        while at < x.len() {
            if x[at] == 0 {
                at += 1;
                continue;
            }
            let mut end = at + 1;
            while end < x.len() && x[end..x.len().min(end + 8)].iter().any(|&b| b != 0) {
                end += 1;
            }
            let hex: String = x[at..end].iter().map(|b| format!("{b:02x}")).collect();
            self.lines.push(format!("xp {at} {hex}"));
            at = end;
        }
    }
}

/// A geometry, a sector near one of its limits, and an address.
pub fn chs_numbers(rng: &mut Rng) -> ((u16, u8, u8), u32, CHS) {
    let (cylinders, heads, sectors) = rng.geometry();
    let whole = u32::from(heads) * u32::from(sectors);
    let ends = [rng.edge(), whole.wrapping_mul(1024), whole.wrapping_mul(u32::from(cylinders) + 1), whole, rng.any()];
    let lba = rng.of(&ends).wrapping_add(rng.of(&[0, 0, 1, BIG]));
    let c = match rng.below(3) {
        0 => rng.chs(),
        _ => {
            let delta = [0, 0, 0, 1, u16::MAX];
            let moved = |n: u8, d: u16| n.wrapping_add(d as u8);
            CHS::new(cylinders.wrapping_add(rng.of(&delta)), moved(heads, rng.of(&delta)), moved(sectors, rng.of(&delta)))
        }
    };
    ((cylinders, heads, sectors), lba, c)
}

fn chs_cases(rng: &mut Rng, out: &mut Cases) {
    for _ in 0..4 {
        let ((cylinders, heads, sectors), lba, c) = chs_numbers(rng);
        out.case(format!("chs_exact {lba} {cylinders} {heads} {sectors}"));
        out.case(format!("chs_aligned {lba} {cylinders} {heads} {sectors}"));
        out.case(format!("chs_to_lba {} {heads} {sectors}", text::chs(&c)));
        out.case(format!("chs_is_valid {} {cylinders} {heads} {sectors}", text::chs(&c)));
        out.case(format!("chs_to_bytes {}", text::chs(&c)));
        out.case(format!("chs_of_bytes {} {} {}", rng.byte(), rng.byte(), rng.byte()));
        out.case(format!("chs_new {}", text::chs(&c)));
        out.case(format!("chs_is_empty {}", text::chs(&c)));
    }
}

fn header_words(t: &MBR) -> String {
    let line = text::table_line(t, || 0);
    line.split(' ').skip(9).take(48).collect::<Vec<_>>().join(" ")
}

fn record_cases(rng: &mut Rng, out: &mut Cases) {
    let t = table(rng);
    let mut record = written(&sound(rng, 2)).records.remove(&0).unwrap_or(vec![0; RECORD]);
    for _ in 0..rng.below(4) {
        change_record(rng, &t, 0, &mut record);
    }
    out.lend(&record);
    let length = rng.of(&[512, 512, 513, 600, 511, 0]);
    out.lines.push(format!("o {length} {}", rng.byte()));
    out.case("mbr_read".to_string());
    out.case("mbr_again".to_string());
    let words = header_words(&t);
    out.case(format!("mbr_write {words}"));
    out.case(format!("mbr_copy {words}"));
    out.case(format!("mbr_get {words} {}", rng.of(&[0, 1, 2, 3, 4, 5, BIG])));
    let i = rng.below(4);
    let mut t = t;
    out.case(format!("entry_is {}", text::entry(entry_mut(&mut t.header, i))));
    out.case(format!("mbr_new {} {} {} {}", rng.byte(), rng.byte(), rng.byte(), rng.byte()));
}

/// A disk, sound or damaged, and a table near it.
fn any_disk(rng: &mut Rng) -> (MBR, Extract) {
    let most = rng.of(&[24, 24, 24, 27]);
    let t = if rng.one_in(3) { table(rng) } else { sound(rng, most) };
    let mut disk = written(&t);
    mark(rng, &t, &mut disk);
    for _ in 0..rng.of(&[0, 1, 1, 1, 2, 3, 5]) {
        change_disk(rng, &t, &mut disk);
    }
    (t, disk)
}

/// The bytes of an extract with one rule broken, or perhaps none.
fn broken(rng: &mut Rng, mut x: Vec<u8>) -> Vec<u8> {
    match rng.below(4) {
        0 => x.truncate(rng.below(x.len() as u64 + 1) as usize),
        1 => x.push(rng.byte()),
        _ => {
            let at = 4 * rng.below(6 + (x.len() as u64 - 24) / 516) as usize;
            let old = u32::from_le_bytes(x[at..at + 4].try_into().unwrap());
            let moved = old.wrapping_add(rng.of(&[1, BIG, 4, 512, 516]));
            x[at..at + 4].copy_from_slice(&rng.of(&[moved, moved, 0, BIG]).to_le_bytes());
        }
    }
    x
}

/// The bytes of an extract, now and then broken; a sector; a record, now and then of another length.
#[cfg(feature = "archive")]
pub fn disk_numbers(rng: &mut Rng) -> (Vec<u8>, u32, Vec<u8>) {
    let (t, disk) = any_disk(rng);
    let mut x = target(rng, &t, Some(disk)).bytes();
    if rng.one_in(5) {
        x = broken(rng, x);
    }
    let length = rng.of(&[RECORD, RECORD, RECORD, RECORD, RECORD, RECORD - 1, RECORD + 1, 0]);
    (x, near(rng, &t), vec![rng.byte(); length])
}

/// A table; an extract, now and then broken; a length that no block has.
#[cfg(feature = "archive")]
pub fn block_numbers(rng: &mut Rng) -> (MBR, Vec<u8>, usize) {
    let t = table(rng);
    let mut x = written(&t).bytes();
    if rng.one_in(5) {
        x = broken(rng, x);
    }
    (t, x, rng.of(&[0, 1, 540, BLOCK - 1, BLOCK + 1, 2 * BLOCK]))
}

/// Breaks one or two rules of a block: its length, its count, a tag, of a slot in use or not.
#[cfg(feature = "archive")]
pub fn break_block(rng: &mut Rng, b: &mut Vec<u8>) {
    for _ in 0..1 + rng.below(2) {
        match rng.below(4) {
            0 if b.len() == BLOCK => b.resize(rng.of(&[0, 16, 540, BLOCK - 1, BLOCK + 1, 2 * BLOCK]), 0),
            1 if b.len() >= 16 => b[12..16].copy_from_slice(&rng.of(&[25, 26, 255, 256, BIG]).to_le_bytes()),
            _ if b.len() >= BLOCK => {
                let at = TAGS + rng.below(24) as usize;
                b[at] = rng.of(&[4, 5, 128, 255]);
            }
            _ => {}
        }
    }
}

/// Reading a disk; then the table that it reads as, if any.
fn disk_cases(rng: &mut Rng, out: &mut Cases) {
    let (t, disk) = any_disk(rng);
    out.lend(&disk.bytes());
    out.case("read".to_string());
    out.case("read_header".to_string());
    out.case(format!("new_from {} {} {} {}", rng.byte(), rng.byte(), rng.byte(), rng.byte()));
    out.case("extract_check".to_string());
    out.case(format!("extract_find {}", near(rng, &t)));
    let size = disk.sector_size;
    let answer = run(Operation::Read, || MBR::read_from(&mut Disk::new(disk.clone()), size));
    let Ok(mut t) = answer else { return };
    if t.logical_partitions.len() > 24 {
        return;
    }
    match rng.below(4) {
        0 => {
            (t.cylinders, t.heads, t.sectors) = rng.geometry();
            own_cases(rng, out, &t, Some(disk));
        }
        1 | 2 => read_cases(rng, out, &t, &disk),
        _ => {}
    }
}

/// An extract for a table to be written to.
fn target(rng: &mut Rng, t: &MBR, disk: Option<Extract>) -> Extract {
    let mut disk = match disk {
        Some(disk) => disk,
        None if rng.one_in(3) => written(t),
        None => Extract { sector_size: t.sector_size, disk_size: t.disk_size, records: Default::default() },
    };
    if rng.one_in(10) {
        change_disk(rng, t, &mut disk);
    }
    if rng.one_in(10) {
        // A disk that ends before, at or after an EBR, or at once.
        disk.disk_size = t.logical_partitions.last().map_or(0, |l| l.absolute_ebr_lba.saturating_add(rng.below(3)).saturating_sub(1));
        disk.disk_size *= u32::from(!rng.one_in(3));
        disk.records.retain(|&lba, _| lba < disk.disk_size);
    }
    if rng.one_in(10) {
        let sector_size = rng.of(&[512, 1024, 2048, 4096]);
        disk.sector_size = sector_size;
    }
    if rng.one_in(12) && disk.disk_size > 0 {
        // Near 64 records, so that some more are too many.
        for _ in 0..rng.of(&[30, 60, 64, 80]) {
            let lba = rng.below(u64::from(disk.disk_size));
            if disk.records.len() < 64 {
                disk.records.entry(lba).or_insert(vec![0; RECORD]);
            }
        }
    }
    disk
}

/// A command on T, or on the table that X reads as, with what t has of alignment, geometry, count and D.
fn on(read: bool, word: &str, t: &MBR, args: &str) -> String {
    let space = if args.is_empty() { "" } else { " " };
    if !read {
        return format!("t_{word}{space}{args}");
    }
    let word = if word == "push" { "push_all" } else { word };
    let count = t.logical_partitions.len();
    let given = [t.align, t.cylinders.into(), t.heads.into(), t.sectors.into(), count as u32, t.disk_size];
    format!("{word} {}{space}{args}", given.map(|n| n.to_string()).join(" "))
}

/// What is asked of every table.
fn table_cases(rng: &mut Rng, out: &mut Cases, t: &MBR, read: bool) {
    let n = t.logical_partitions.len() as u32;
    for word in ["len", "check_geometry", "cylinder_size", "free", "most"] {
        out.case(on(read, word, t, ""));
    }
    for _ in 0..3 {
        for word in ["find", "remove_at", "first_place", "last_place", "best_place"] {
            out.case(on(read, word, t, &near(rng, t).to_string()));
        }
        for word in ["get", "remove", "most_for"] {
            let number = rng.of(&[0, 1, 2, 3, 4, 5, 6, n + 3, n + 4, n + 5, BIG]);
            out.case(on(read, word, t, &number.to_string()));
        }
        if (1..25).contains(&n) {
            out.case(on(read, "update_chs", t, &rng.below(u64::from(n)).to_string()));
        }
        for _ in 0..3 {
            let sectors = match rng.below(3) {
                0 => near(rng, t),
                _ => t.align.wrapping_mul(1 + rng.below(6)).wrapping_add(rng.of(&[0, 0, 1, BIG])),
            };
            out.case(on(read, "push", t, &format!("{} {} {sectors}", rng.sys(), near(rng, t))));
        }
    }
}

/// The commands on the table that X reads as, handed in with other numbers now and then.
fn read_cases(rng: &mut Rng, out: &mut Cases, read: &MBR, disk: &Extract) {
    let mut t = read.clone();
    (t.cylinders, t.heads, t.sectors) = rng.geometry();
    match rng.below(8) {
        0 => t.align = near(rng, read),
        1 => t.align = rng.edge(),
        2 => t.disk_size = near(rng, read),
        3 | 4 => t.align = rng.of(&[1, 2, 8, 63, 2048]),
        _ => {}
    }
    if rng.one_in(12) {
        let count = rng.of(&[0, 1, 2, 23, 24, 24, 25]);
        let empty = chain(rng, 0, 1, 1).0.remove(0);
        let none = LogicalPartition { partition: MBRPartitionEntry::empty(), absolute_ebr_lba: 0, ..empty };
        t.logical_partitions.resize(count, none);
    }
    table_cases(rng, out, &t, true);
    let mut second = disk.clone();
    second.sector_size = rng.of(&[disk.sector_size, 512, 4096]);
    change_disk(rng, &t, &mut second);
    let second = second.bytes();
    let mut both = disk.bytes();
    both.extend(&second);
    out.lend(&both);
    out.case(on(true, "update_from", &t, &second.len().to_string()));
}

/// The commands on T.
fn own_cases(rng: &mut Rng, out: &mut Cases, t: &MBR, disk: Option<Extract>) {
    out.lines.push(text::table_line(t, || rng.of(&[0, 0, 94, 255])));
    out.case("t_sound".to_string());
    table_cases(rng, out, t, false);
    let disk = target(rng, t, disk);
    out.lend(&disk.bytes());
    out.case("t_update_from".to_string());
    for word in ["t_write", "t_write_header"] {
        lend_out(rng, out, &disk);
        out.case(word.to_string());
    }
}

/// O, most often long enough.
fn lend_out(rng: &mut Rng, out: &mut Cases, disk: &Extract) {
    let length = 24 + 516 * (disk.records.len() + 25) + rng.below(9) as usize;
    let length = if rng.one_in(12) { rng.below(length as u64) as usize } else { length };
    out.lines.push(format!("o {length} {}", rng.byte()));
}

/// Writing of one table with several changes of its logical partitions.
fn write_cases(rng: &mut Rng, out: &mut Cases) {
    let most = rng.of(&[2, 3, 24]);
    let sound = sound(rng, most);
    for _ in 0..8 {
        let mut t = sound.clone();
        (t.cylinders, t.heads, t.sectors) = rng.geometry();
        for _ in 0..rng.of(&[0, 1, 2, 3, 5]) {
            let n = t.logical_partitions.len() as u64;
            if n == 0 || rng.one_in(6) {
                change_table(rng, &mut t);
                continue;
            }
            let at = if rng.one_in(2) { 0 } else { rng.below(n) as usize };
            let mut l = t.logical_partitions[at].clone();
            change_logical(rng, &t, &mut l);
            t.logical_partitions[at] = l;
        }
        let disk = target(rng, &t, None);
        out.lines.push(text::table_line(&t, || rng.of(&[0, 0, 94, 255])));
        out.lend(&disk.bytes());
        lend_out(rng, out, &disk);
        out.case("t_write".to_string());
    }
}

/// Up to four edits of a table that was read: a partition's number, a field, a value.
fn edits(rng: &mut Rng, t: &MBR) -> String {
    let mut words = String::new();
    for _ in 0..rng.of(&[0, 0, 1, 1, 2, 3, 4]) {
        let n = t.logical_partitions.len() as u32;
        let number = if n > 0 && !rng.one_in(4) { 5 + rng.below(u64::from(n)) } else { rng.below(5) };
        let field = match number {
            0 => 1,
            1..=4 => 1 + rng.below(4),
            _ => 1 + rng.below(9),
        };
        let value = match field {
            _ if number == 0 => rng.of(&[0xaa55, 0x55aa, 0, 0xab55]),
            1 => rng.flag().into(),
            2 => rng.sys().into(),
            _ => near(rng, t),
        };
        words += &format!(" {number} {field} {value}");
    }
    words
}

/// Writing of the table that a disk reads as, over another extract, and the header alone; what was written, read.
fn written_cases(rng: &mut Rng, out: &mut Cases) {
    let (_, disk) = any_disk(rng);
    let size = disk.sector_size;
    let Ok(mut t) = run(Operation::Read, || MBR::read_from(&mut Disk::new(disk.clone()), size)) else { return };
    if t.logical_partitions.len() > 24 {
        return;
    }
    for _ in 0..4 {
        (t.cylinders, t.heads, t.sectors) = rng.geometry();
        let same = rng.one_in(2).then(|| disk.clone());
        let over = target(rng, &t, same);
        let (x, old) = (disk.bytes(), over.bytes());
        if x.len() + old.len() > 65536 {
            continue;
        }
        out.lend(&[x, old.clone()].concat());
        let args = format!("{}{}", old.len(), edits(rng, &t));
        let header = on(true, "write_header", &t, &args);
        let table = on(true, "write_table", &t, &args);
        lend_out(rng, out, &over);
        out.case(header);
        lend_out(rng, out, &over);
        out.case(table);
    }
}

/// The end of a logical partition, that of one without sectors being behind its EBR, and the EBR of the next one, or the
/// extended partition's end.
fn space_behind(t: &MBR, i: usize, end: u32) -> (u32, u32) {
    let l = &t.logical_partitions[i];
    let last = l.partition.starting_lba.wrapping_add(l.partition.sectors.max(u32::from(!l.partition.is_used())));
    (last, t.logical_partitions.get(i + 1).map_or(end, |m| m.absolute_ebr_lba))
}

/// A request of a careful push: near the place behind a partition, half of the time the last one, or anywhere.
fn request(rng: &mut Rng, t: &MBR) -> String {
    let align = match rng.below(6) {
        0 => rng.of(&[1, 2, 8, 63, 64, 2048]),
        1 => if rng.one_in(4) { rng.edge() } else { near(rng, t) },
        _ => t.align,
    };
    let extended = text::entries(&t.header).into_iter().find(|e| e.is_extended());
    let (x, end) = extended.map_or((0, 0), |e| (e.starting_lba, e.starting_lba.wrapping_add(e.sectors)));
    let n = t.logical_partitions.len();
    let (last, limit) = match n {
        0 => (x, end),
        _ if rng.one_in(2) => space_behind(t, n - 1, end),
        _ => space_behind(t, rng.below(n as u64) as usize, end),
    };
    let start = match rng.below(4) {
        0 => near(rng, t),
        1 => last.wrapping_add(align.wrapping_mul(rng.below(4))).wrapping_add(rng.of(&[0, 1, BIG])),
        _ => last,
    };
    let sectors = match rng.below(6) {
        0 => near(rng, t),
        4 | 5 => limit.wrapping_sub(start).wrapping_add(rng.of(&[0, 0, 1, BIG])),
        1 => align.wrapping_mul(1 + rng.below(6)).wrapping_add(rng.of(&[0, 1, BIG])),
        _ => align.wrapping_mul(2 + rng.below(2)),
    };
    let geometry = if rng.one_in(2) { (0, 0, 0) } else { rng.geometry() };
    let sys = if rng.one_in(4) { rng.sys() } else { 0x83 };
    format!("{align} {} {} {} {sys} {start} {sectors}", geometry.0, geometry.1, geometry.2)
}

/// Puts one number of a written table at a limit of the rules for a sound one, or just past it.
fn at_limit(rng: &mut Rng, t: &MBR, disk: &mut Extract) {
    let number = |r: &[u8], at: usize| u32::from_le_bytes(r[at..at + 4].try_into().unwrap());
    let n = t.logical_partitions.len() as u64;
    let more = rng.of(&[0, 0, 1, BIG]);
    let extended = text::entries(&t.header).into_iter().find(|e| e.is_extended());
    let first = rng.one_in(3);
    let ebr = (n > 0 && !rng.one_in(3)).then(|| if first { 0 } else { rng.below(n) as usize });
    let place = ebr.map_or(0, |i| t.logical_partitions[i].absolute_ebr_lba);
    let d = disk.disk_size;
    let Some(record) = disk.records.get_mut(&place) else { return };
    let mut put = |at: usize, value: u32| record[at..at + 4].copy_from_slice(&value.to_le_bytes());
    let (Some(i), Some(e)) = (ebr, extended) else {
        let at = 446 + 16 * rng.below(4) as usize;
        let start = number(record, at + 8);
        return match rng.below(4) {
            0 => record[at + 8..at + 12].fill(0),
            3 => record[at + 4] = rng.of(&EXTENDED),
            1 => record[at + 12..at + 16].fill(0),
            _ => record[at + 12..at + 16].copy_from_slice(&d.wrapping_sub(start).wrapping_add(more).to_le_bytes()),
        };
    };
    let end = e.starting_lba.wrapping_add(e.sectors);
    let next = t.logical_partitions.get(i + 1);
    let l = &t.logical_partitions[i].partition;
    match (rng.below(7), next) {
        (0, _) => record[450] = rng.of(&[0, 5, 0x83]),
        (1, _) => put(458, 0),
        (2, _) => put(454, more & 1),
        (3, _) => put(458, next.map_or(end, |m| m.absolute_ebr_lba).wrapping_sub(l.starting_lba).wrapping_add(more)),
        (4, Some(_)) => put(474, more & 1),
        (5, Some(m)) => put(474, end.wrapping_sub(m.absolute_ebr_lba).wrapping_add(more)),
        (_, Some(m)) => {
            let covers = m.partition.starting_lba.wrapping_add(m.partition.sectors).wrapping_sub(m.absolute_ebr_lba);
            put(474, covers.wrapping_add(more));
        }
        _ => {}
    }
}

/// Careful changes of a disk, most often a sound one; now and then of an extract that is none.
fn careful_cases(rng: &mut Rng, out: &mut Cases) {
    let mut t = if rng.one_in(5) { table(rng) } else { sound(rng, 24) };
    if !text::entries(&t.header).iter().any(|e| e.is_extended()) {
        t = sound(rng, 24);
    }
    let mut disk = written(&t);
    mark(rng, &t, &mut disk);
    for _ in 0..rng.of(&[0, 0, 0, 0, 1, 1, 2]) {
        change_disk(rng, &t, &mut disk);
    }
    if rng.one_in(2) {
        at_limit(rng, &t, &mut disk);
    }
    let mut x = disk.bytes();
    if rng.one_in(20) {
        x = broken(rng, x);
    }
    out.lend(&x);
    let n = t.logical_partitions.len() as u32;
    for k in 0..10 {
        let any = rng.below(1033);
        let room = if rng.one_in(8) { rng.of(&[1031, 1031, 516, any]) } else { 1032 + rng.below(9) };
        out.lines.push(format!("o {room} {}", rng.byte()));
        if k % 2 == 0 || k == 9 {
            let request = request(rng, &t);
            out.case(format!("careful_push {request}"));
            out.case(format!("after_push {request}"));
        } else {
            let inside = 5 + rng.below(u64::from(n.max(1)));
            let number = rng.of(&[inside, inside, 5, n + 4, n + 5, rng.0 as u32 % 7, BIG]);
            out.case(format!("careful_remove {number}"));
        }
    }
}

/// Some more cases that belong together: they give anew what they work on.
pub fn more(rng: &mut Rng, out: &mut Cases) {
    match rng.below(24) {
        0 => chs_cases(rng, out),
        1 => record_cases(rng, out),
        2..=6 => disk_cases(rng, out),
        7 => write_cases(rng, out),
        8..=11 => written_cases(rng, out),
        12..=17 => careful_cases(rng, out),
        _ => {
            let t = table(rng);
            own_cases(rng, out, &t, None);
        }
    }
}
