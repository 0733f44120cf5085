//! Disks for the tests.
#![allow(dead_code)]

use std::collections::BTreeMap;
use std::io::{Cursor, Error, Read, Result, Seek, SeekFrom, Write};

use crumbvessel::{Extract, LogicalPartition, MBRPartitionEntry, Medium, Record, BOOT_INACTIVE, CHS, MBR};

pub fn entry(sys: u8, starting_lba: u32, sectors: u32) -> MBRPartitionEntry {
    let empty = CHS::empty();
    MBRPartitionEntry { boot: BOOT_INACTIVE, first_chs: empty, sys, last_chs: empty, starting_lba, sectors }
}

/// A first logical partition, or with link sectors a later one.
pub fn logical(ebr: u32, start: u32, sectors: u32, link: Option<u32>) -> LogicalPartition {
    LogicalPartition {
        partition: entry(0x83, start, sectors),
        absolute_ebr_lba: ebr,
        ebr_sectors: link,
        ebr_first_chs: CHS::empty(),
        ebr_last_chs: link.map(|_| CHS::empty()),
        bootstrap_code: [0; 446],
        mark: [0; 32],
    }
}

/// A disk of zeros in memory.
pub fn zeros(sectors: usize, sector_size: usize) -> Cursor<Vec<u8>> {
    Cursor::new(vec![0; sectors * sector_size])
}

/// A table for a disk of zeros, aligned to single sectors.
pub fn new_table(sectors: usize) -> MBR {
    let mut mbr = MBR::new_from(&mut zeros(sectors, 512), 512, [0xff; 4]).unwrap();
    mbr.align = 1;
    mbr
}

/// A record with one entry.
fn record(sys: u8, start: u32, sectors: u32) -> Record {
    let mut record = [0; 512];
    record[450] = sys;
    record[454..458].copy_from_slice(&start.to_le_bytes());
    record[458..462].copy_from_slice(&sectors.to_le_bytes());
    record[510..].copy_from_slice(&[0x55, 0xaa]);
    record
}

/// The records of document 01's disk K.
fn records_k() -> [(usize, Record); 2] {
    [(0, record(0x05, 4096, 16384)), (4096, record(0x83, 2048, 2048))]
}

/// Disk K in memory. What a sector of more than 512 bytes holds behind its record is sevens.
pub fn disk_k(sector_size: usize) -> Cursor<Vec<u8>> {
    let mut disk = zeros(20480, sector_size);
    for (lba, record) in records_k() {
        disk.get_mut()[lba * sector_size..][..512].copy_from_slice(&record);
    }
    for lba in [0, 4096, 8192] {
        disk.get_mut()[lba * sector_size..][512..sector_size].fill(7);
    }
    disk
}

/// Disk K as a disk that notes.
pub fn noted_k() -> Noted {
    noted(records_k())
}

/// Disk K with a first EBR that has no partition.
pub fn noted_empty() -> Noted {
    noted([(0, record(0x05, 4096, 16384)), (4096, record(0, 0, 0))])
}

fn noted<const N: usize>(records: [(usize, Record); N]) -> Noted {
    let mut disk = Noted::new(20480 * 512);
    for (lba, record) in records {
        disk.bytes.extend((512 * lba as u64..).zip(record));
    }
    disk
}

/// Disk K's table.
pub fn table_k() -> MBR {
    MBR::read_from(&mut disk_k(512), 512).unwrap()
}

/// What the disk lists as.
pub fn listing<D: Read + Seek>(disk: &mut D, sector_size: u32) -> String {
    Extract::collect(disk, sector_size).unwrap().listing()
}

#[derive(Debug, Clone, Copy, PartialEq, Eq)]
pub enum Event {
    /// Bytes read at a place.
    Read(u64, usize),
    /// Bytes written at a place.
    Write(u64, usize),
    Flush,
    Sync,
}

/// A disk in memory that notes what is done to it, and fails when told to. Sectors are only kept where they were
/// written, so that it may be of any size.
pub struct Noted {
    pub size: u64,
    pub bytes: BTreeMap<u64, u8>,
    pub events: Vec<Event>,
    /// The write that fails, counted from 1, and how many bytes of it are stored.
    pub fails: Option<(usize, usize)>,
    /// Does every write after it fail too?
    pub dies: bool,
    pub sync_fails: bool,
    /// Are writes lost although they succeed?
    pub forgets: bool,
    writes: usize,
    at: u64,
}

impl Noted {
    pub fn new(size: u64) -> Noted {
        Noted {
            size,
            bytes: BTreeMap::new(),
            events: Vec::new(),
            fails: None,
            dies: false,
            sync_fails: false,
            forgets: false,
            writes: 0,
            at: 0,
        }
    }

    /// Writes and flushes only.
    pub fn changes(&self) -> Vec<Event> {
        self.events.iter().copied().filter(|e| !matches!(e, Event::Read(..))).collect()
    }

    /// How many writes there were.
    pub fn writes(&self) -> usize {
        self.writes
    }

    fn store(&mut self, bytes: &[u8]) {
        if !self.forgets {
            self.bytes.extend((self.at..).zip(bytes.iter().copied()));
        }
        self.at += bytes.len() as u64;
    }
}

impl Seek for Noted {
    fn seek(&mut self, to: SeekFrom) -> Result<u64> {
        self.at = match to {
            SeekFrom::Start(at) => at,
            SeekFrom::End(by) => self.size.checked_add_signed(by).unwrap(),
            SeekFrom::Current(by) => self.at.checked_add_signed(by).unwrap(),
        };
        Ok(self.at)
    }
}

impl Read for Noted {
    fn read(&mut self, out: &mut [u8]) -> Result<usize> {
        let n = out.len().min(self.size.saturating_sub(self.at) as usize);
        self.events.push(Event::Read(self.at, n));
        for byte in &mut out[..n] {
            *byte = self.bytes.get(&self.at).copied().unwrap_or(0);
            self.at += 1;
        }
        Ok(n)
    }
}

impl Write for Noted {
    fn write(&mut self, bytes: &[u8]) -> Result<usize> {
        self.writes += 1;
        match self.fails {
            Some((which, stored)) if which == self.writes => {
                self.store(&bytes[..stored]);
                Err(Error::other("the disk fails"))
            }
            Some((which, _)) if self.dies && which < self.writes => Err(Error::other("the disk is gone")),
            _ if self.at + bytes.len() as u64 > self.size => Err(Error::other("past the disk")),
            _ => {
                self.events.push(Event::Write(self.at, bytes.len()));
                self.store(bytes);
                Ok(bytes.len())
            }
        }
    }

    fn flush(&mut self) -> Result<()> {
        self.events.push(Event::Flush);
        Ok(())
    }
}

impl Medium for Noted {
    fn sync(&mut self) -> Result<()> {
        self.events.push(Event::Sync);
        match self.sync_fails {
            true => Err(Error::other("the disk cannot be flushed")),
            false => Ok(()),
        }
    }
}
