//! Random numbers, and a disk in memory that does not grow.

use std::io::{Cursor, Error, Read, Result, Seek, SeekFrom, Write};

pub struct Rng(u64);

impl Rng {
    pub fn new(seed: u64) -> Rng {
        let mut rng = Rng(seed.wrapping_mul(0x9e37_79b9_7f4a_7c15) | 1);
        for _ in 0..4 {
            rng.next();
        }
        rng
    }

    fn next(&mut self) -> u64 {
        self.0 ^= self.0 << 13;
        self.0 ^= self.0 >> 7;
        self.0 ^= self.0 << 17;
        self.0.wrapping_mul(0x2545_f491_4f6c_dd1d) >> 16
    }

    pub fn below(&mut self, n: u32) -> u32 {
        (self.next() % u64::from(n)) as u32
    }

    pub fn byte(&mut self) -> u8 {
        self.below(256) as u8
    }

    /// Once in n times.
    pub fn once_in(&mut self, n: u32) -> bool {
        self.below(n) == 0
    }

    pub fn one_of<T: Copy>(&mut self, all: &[T]) -> T {
        all[self.below(all.len() as u32) as usize]
    }

    /// A sector or a size, often near an end.
    pub fn sector(&mut self, disk_size: u32) -> u32 {
        let near = [0, 1, disk_size, disk_size.wrapping_sub(1), disk_size + 1, u32::MAX, u32::MAX - 1];
        match self.below(3) {
            0 => self.one_of(&near),
            1 => self.below(disk_size + 2) / 8 * 8,
            _ => self.below(disk_size + 1),
        }
    }
}

#[derive(Clone)]
pub struct Disk(Cursor<Vec<u8>>);

impl Disk {
    pub fn new(bytes: u32) -> Disk {
        Disk(Cursor::new(vec![0; bytes as usize]))
    }

    /// The record at a byte, if it is on the disk.
    pub fn record(&mut self, at: u64) -> Option<&mut [u8]> {
        let at = at as usize;
        self.0.get_mut().get_mut(at..at + 512)
    }

    /// All bytes that are not 0, with their places.
    pub fn text(&self) -> String {
        let filled = self.0.get_ref().iter().enumerate().filter(|(_, b)| **b != 0);
        format!("bytes: {:?}", filled.collect::<Vec<_>>())
    }
}

impl Seek for Disk {
    fn seek(&mut self, to: SeekFrom) -> Result<u64> {
        self.0.seek(to)
    }
}

impl Read for Disk {
    fn read(&mut self, out: &mut [u8]) -> Result<usize> {
        self.0.read(out)
    }
}

impl Write for Disk {
    fn write(&mut self, bytes: &[u8]) -> Result<usize> {
        if self.0.position() + bytes.len() as u64 > self.0.get_ref().len() as u64 {
            return Err(Error::other("past the disk"));
        }
        self.0.write(bytes)
    }

    fn flush(&mut self) -> Result<()> {
        Ok(())
    }
}
