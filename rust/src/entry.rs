use crate::{archive, CHS};

/// Boot flag of a bootable partition.
pub const BOOT_ACTIVE: u8 = 0x80;
/// Boot flag of a partition that is not bootable.
pub const BOOT_INACTIVE: u8 = 0x00;

/// A partition entry.
#[derive(Debug, Clone, PartialEq, Eq)]
pub struct MBRPartitionEntry {
    /// Boot flag.
    pub boot: u8,
    /// CHS address of the first sector.
    pub first_chs: CHS,
    /// Partition type; 0 for an unused entry.
    pub sys: u8,
    /// CHS address of the last sector.
    pub last_chs: CHS,
    /// First sector, counted from the disk's beginning.
    pub starting_lba: u32,
    /// Number of sectors.
    pub sectors: u32,
}

impl MBRPartitionEntry {
    /// An unused entry.
    pub fn empty() -> MBRPartitionEntry {
        MBRPartitionEntry {
            boot: BOOT_INACTIVE,
            first_chs: CHS::empty(),
            sys: 0,
            last_chs: CHS::empty(),
            starting_lba: 0,
            sectors: 0,
        }
    }

    /// Is the type other than 0?
    pub fn is_used(&self) -> bool {
        self.sys > 0
    }

    /// Is the type 0?
    pub fn is_unused(&self) -> bool {
        !self.is_used()
    }

    /// Is it of an extended type: 05, 0F, 85, C5 or D5?
    pub fn is_extended(&self) -> bool {
        archive::is_extended(self.sys)
    }

    /// Is it bootable?
    pub fn is_active(&self) -> bool {
        self.boot == BOOT_ACTIVE
    }
}
