use crate::archive;
use crate::error::{expected, Result};

/// A CHS address (cylinder, head, sector).
#[derive(Debug, Copy, Clone, PartialEq, Eq)]
pub struct CHS {
    /// Cylinder.
    pub cylinder: u16,
    /// Head.
    pub head: u8,
    /// Sector, counted from 1.
    pub sector: u8,
}

impl CHS {
    /// The address with these three numbers, which are not checked.
    pub fn new(cylinder: u16, head: u8, sector: u8) -> CHS {
        CHS { cylinder, head, sector }
    }

    /// The address 0/0/0, for disks on which nothing uses CHS.
    pub fn empty() -> CHS {
        CHS::new(0, 0, 0)
    }

    /// The address of a sector in this geometry.
    ///
    /// # Errors
    /// 7 without heads or sectors; 13, 14.
    pub fn from_lba_exact(lba: u32, cylinders: u16, heads: u8, sectors: u8) -> Result<CHS> {
        archive::chs_from_lba_exact(lba, cylinders, heads, sectors)
    }

    /// The beginning of the cylinder that begins at this sector, or of the next one.
    ///
    /// # Errors
    /// 7 for sector 0 and without heads or sectors; 13, 14.
    pub fn from_lba_aligned(lba: u32, cylinders: u16, heads: u8, sectors: u8) -> Result<CHS> {
        archive::chs_from_lba_aligned(lba, cylinders, heads, sectors)
    }

    /// The sector of the address.
    ///
    /// # Panics
    /// Where [`CHS::try_to_lba`] refuses, as for 0/0/0.
    pub fn to_lba(self, heads: u8, sectors: u8) -> u32 {
        expected(self.try_to_lba(heads, sectors))
    }

    /// As [`CHS::to_lba`].
    ///
    /// # Errors
    /// 7 where the sum before the minus one is 0.
    pub fn try_to_lba(self, heads: u8, sectors: u8) -> Result<u32> {
        archive::chs_to_lba(self, heads, sectors)
    }

    /// Is it 0/0/0?
    pub fn is_empty(self) -> bool {
        self == CHS::empty()
    }

    /// Is it an address of this geometry?
    pub fn is_valid(self, cylinders: u16, heads: u8, sectors: u8) -> bool {
        archive::chs_is_valid(self, cylinders, heads, sectors)
    }

    /// Its three bytes in an entry. Higher bits of cylinder and sector are dropped.
    pub fn to_bytes(self) -> [u8; 3] {
        archive::chs_to_bytes(self)
    }

    /// The address in three bytes of an entry.
    pub fn from_bytes(bytes: [u8; 3]) -> CHS {
        expected(archive::chs_from_bytes(bytes))
    }
}
