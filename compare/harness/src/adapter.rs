//! Document 01's adapter: the disk that an extract stands for, as the crate reads and writes it.

use std::collections::BTreeMap;
use std::io::{Error, ErrorKind, Read, Result, Seek, SeekFrom, Write};

pub const RECORD: usize = 512;

/// An extract that keeps document 01's rules, taken apart.
#[derive(Clone, PartialEq, Eq, Debug)]
pub struct Extract {
    pub sector_size: u32,
    pub disk_size: u32,
    pub records: BTreeMap<u32, Vec<u8>>,
}

fn number(bytes: &[u8], at: usize) -> u32 {
    u32::from_le_bytes(bytes[at..at + 4].try_into().unwrap())
}

impl Extract {
    /// None where a rule is broken.
    pub fn of(bytes: &[u8]) -> Option<Extract> {
        if bytes.len() < 24 {
            return None;
        }
        let (sector_size, disk_size) = (number(bytes, 0), number(bytes, 4));
        let n = number(bytes, 8) as usize;
        if ![512, 1024, 2048, 4096].contains(&sector_size) || n > 64 {
            return None;
        }
        let offsets = [number(bytes, 12), number(bytes, 16), number(bytes, 20)];
        if offsets != [24, 24 + 4 * n as u32, 24 + 516 * n as u32] || bytes.len() != 24 + 516 * n {
            return None;
        }
        let mut records = BTreeMap::new();
        for i in 0..n {
            let lba = number(bytes, 24 + 4 * i);
            let above = records.last_key_value().map_or(true, |(&last, _)| lba > last);
            if lba >= disk_size || !above {
                return None;
            }
            let at = 24 + 4 * n + RECORD * i;
            records.insert(lba, bytes[at..at + RECORD].to_vec());
        }
        Some(Extract { sector_size, disk_size, records })
    }

    pub fn bytes(&self) -> Vec<u8> {
        let n = self.records.len() as u32;
        let head = [self.sector_size, self.disk_size, n, 24, 24 + 4 * n, 24 + 516 * n];
        let mut bytes: Vec<u8> = head.iter().flat_map(|v| v.to_le_bytes()).collect();
        bytes.extend(self.records.keys().flat_map(|lba| lba.to_le_bytes()));
        bytes.extend(self.records.values().flatten());
        bytes
    }
}

/// The disk, with a place. Every sector that was sought from the start is noted.
pub struct Disk {
    pub extract: Extract,
    pub sought: Vec<u64>,
    /// Bytes that a seek to one number goes on by: the sector size, or 1 where sectors are sought by their number.
    unit: u64,
    at: u64,
}

impl Disk {
    pub fn new(extract: Extract) -> Disk {
        let unit = u64::from(extract.sector_size);
        Disk { extract, sought: Vec::new(), unit, at: 0 }
    }

    /// The same disk for a table whose sector size is 1: a seek names a sector. Where an EBR's place in bytes
    /// leaves u32, the crate can still be run in this way.
    pub fn by_sector(extract: Extract) -> Disk {
        Disk { unit: 1, ..Disk::new(extract) }
    }

    fn sector(&self) -> u64 {
        self.at / u64::from(self.extract.sector_size)
    }

    fn offset(&self) -> usize {
        (self.at % u64::from(self.extract.sector_size)) as usize
    }

    fn on_disk(&self) -> bool {
        self.sector() < u64::from(self.extract.disk_size)
    }
}

impl Seek for Disk {
    fn seek(&mut self, to: SeekFrom) -> Result<u64> {
        let size = u64::from(self.extract.sector_size);
        match to {
            SeekFrom::Start(place) => {
                self.sought.push(place / self.unit);
                self.at = place / self.unit * size + place % self.unit;
                Ok(place)
            }
            SeekFrom::End(0) => {
                self.at = u64::from(self.extract.disk_size) * size;
                Ok(u64::from(self.extract.disk_size) * self.unit)
            }
            _ => Err(Error::new(ErrorKind::Unsupported, "the crate never seeks so")),
        }
    }
}

impl Read for Disk {
    fn read(&mut self, out: &mut [u8]) -> Result<usize> {
        if out.is_empty() || !self.on_disk() {
            return Ok(0);
        }
        let (lba, offset) = (self.sector() as u32, self.offset());
        let n = out.len().min(self.extract.sector_size as usize - offset);
        for (i, byte) in out[..n].iter_mut().enumerate() {
            let record = self.extract.records.get(&lba);
            *byte = record.and_then(|r| r.get(offset + i)).copied().unwrap_or(0);
        }
        self.at += n as u64;
        Ok(n)
    }
}

impl Write for Disk {
    fn write(&mut self, bytes: &[u8]) -> Result<usize> {
        if bytes.is_empty() {
            return Ok(0);
        }
        if !self.on_disk() {
            return Err(Error::new(ErrorKind::WriteZero, "past the disk"));
        }
        let (lba, offset) = (self.sector() as u32, self.offset());
        if offset >= RECORD {
            return Err(Error::new(ErrorKind::Unsupported, "the crate never writes past a record"));
        }
        let n = bytes.len().min(RECORD - offset);
        let record = self.extract.records.entry(lba).or_insert_with(|| vec![0; RECORD]);
        record[offset..offset + n].copy_from_slice(&bytes[..n]);
        self.at += n as u64;
        Ok(n)
    }

    fn flush(&mut self) -> Result<()> {
        Ok(())
    }
}

#[cfg(test)]
mod tests {
    use super::*;

    fn disk(sector_size: u32) -> Disk {
        let records = BTreeMap::from([(3, vec![7; RECORD])]);
        Disk::new(Extract { sector_size, disk_size: 5, records })
    }

    #[test]
    fn records_zeros_and_the_end() {
        for size in [512, 1024, 4096] {
            let mut d = disk(size);
            assert_eq!(d.seek(SeekFrom::End(0)).unwrap(), 5 * u64::from(size));
            for (lba, first, rest) in [(0, 0, 0), (3, 7, 0), (4, 0, 0)] {
                d.seek(SeekFrom::Start(lba * u64::from(size))).unwrap();
                let mut record = [9; RECORD];
                d.read_exact(&mut record).unwrap();
                assert_eq!(record, [first; RECORD]);
                let mut next = [9];
                let n = d.read(&mut next).unwrap();
                assert!(if lba == 4 && size == 512 { n == 0 } else { n == 1 && next[0] == rest });
            }
            d.seek(SeekFrom::Start(5 * u64::from(size))).unwrap();
            assert_eq!(d.read(&mut [0]).unwrap(), 0);
            assert!(d.write(&[0]).is_err());
            assert_eq!(d.sought, [0, 3, 4, 5]);
        }
    }

    #[test]
    fn what_is_written_is_read_back_and_nothing_else_changes() {
        for mut d in [disk(2048), Disk::by_sector(disk(2048).extract)] {
            let unit = d.unit;
            d.seek(SeekFrom::Start(2 * unit)).unwrap();
            d.write_all(&[1; 500]).unwrap();
            d.write_all(&[2; 12]).unwrap();
            let mut record = vec![1; 500];
            record.extend([2; 12]);
            assert_eq!(d.extract.records, BTreeMap::from([(2, record), (3, vec![7; RECORD])]));
        }
    }

    #[test]
    fn an_extract_and_its_bytes() {
        let e = disk(1024).extract;
        assert_eq!(Extract::of(&e.bytes()), Some(e.clone()));
        let good = e.bytes();
        for (at, value) in [(0, 511u32), (0, 8192), (4, 3), (8, 65), (12, 25), (16, 27), (20, 539)] {
            let mut bad = good.clone();
            bad[at..at + 4].copy_from_slice(&value.to_le_bytes());
            assert_eq!(Extract::of(&bad), None);
        }
        assert_eq!(Extract::of(&good[..good.len() - 1]), None);
    }
}
