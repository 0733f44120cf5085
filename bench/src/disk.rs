//! An extract as the disk that mbrman reads and writes, made to cost little: a search for each seek, a copy for each
//! read and write.

use std::io::{Error, ErrorKind, Read, Result, Seek, SeekFrom, Write};

const RECORD: usize = 512;

#[derive(Clone)]
pub struct Disk {
    sector_size: u64,
    disk_size: u64,
    lbas: Vec<u32>,
    records: Vec<[u8; RECORD]>,
    /// Which record, and the place in it; none: zeros.
    record: Option<usize>,
    offset: usize,
}

impl Disk {
    /// Of records in ascending order.
    pub fn new(sector_size: u32, disk_size: u32, records: &[(u32, [u8; RECORD])]) -> Disk {
        Disk {
            sector_size: sector_size.into(),
            disk_size: disk_size.into(),
            lbas: records.iter().map(|r| r.0).collect(),
            records: records.iter().map(|r| r.1).collect(),
            record: None,
            offset: 0,
        }
    }

    /// The bytes of the extract.
    pub fn bytes(&self) -> Vec<u8> {
        let n = self.lbas.len() as u32;
        let head = [self.sector_size as u32, self.disk_size as u32, n, 24, 24 + 4 * n, 24 + 516 * n];
        let mut bytes: Vec<u8> = head.iter().chain(&self.lbas).flat_map(|v| v.to_le_bytes()).collect();
        bytes.extend(self.records.iter().flatten());
        bytes
    }
}

impl Seek for Disk {
    #[cfg_attr(feature = "separate", inline(never))]
    fn seek(&mut self, to: SeekFrom) -> Result<u64> {
        let place = match to {
            SeekFrom::Start(place) => place,
            SeekFrom::End(0) => self.disk_size * self.sector_size,
            _ => return Err(Error::from(ErrorKind::Unsupported)),
        };
        let lba = place / self.sector_size;
        if lba < self.disk_size {
            self.record = self.lbas.binary_search(&(lba as u32)).ok();
            self.offset = (place % self.sector_size) as usize;
        } else {
            self.record = None;
            self.offset = RECORD;
        }
        Ok(place)
    }
}

impl Read for Disk {
    #[cfg_attr(feature = "separate", inline(never))]
    fn read(&mut self, out: &mut [u8]) -> Result<usize> {
        let n = out.len().min(RECORD - self.offset);
        match self.record {
            Some(i) => out[..n].copy_from_slice(&self.records[i][self.offset..self.offset + n]),
            None => out[..n].fill(0),
        }
        self.offset += n;
        Ok(n)
    }
}

impl Write for Disk {
    #[cfg_attr(feature = "separate", inline(never))]
    fn write(&mut self, bytes: &[u8]) -> Result<usize> {
        let n = bytes.len().min(RECORD - self.offset);
        let Some(i) = self.record else { return Err(Error::from(ErrorKind::WriteZero)) };
        self.records[i][self.offset..self.offset + n].copy_from_slice(&bytes[..n]);
        self.offset += n;
        Ok(n)
    }

    fn flush(&mut self) -> Result<()> {
        Ok(())
    }
}
