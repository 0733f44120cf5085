use crate::archive::MARK;
use crate::error::Result;
use crate::{archive, block, MBRPartitionEntry, CHS};

/// A logical partition with what its EBR and the link to it hold.
#[derive(Debug, Clone, PartialEq, Eq)]
pub struct LogicalPartition {
    /// Its entry.
    pub partition: MBRPartitionEntry,
    /// The sector of its EBR, counted from the disk's beginning.
    pub absolute_ebr_lba: u32,
    /// Sectors of the link to it; the first logical partition has none.
    pub ebr_sectors: Option<u32>,
    /// First CHS address of the link to it; for the first logical partition the extended one's.
    pub ebr_first_chs: CHS,
    /// Last CHS address of the link to it; the first logical partition has none.
    pub ebr_last_chs: Option<CHS>,
    /// The EBR's code.
    pub bootstrap_code: [u8; 446],
    /// The EBR's bytes 478 to 509, which mbrman drops. Careful changes write them back, [`MBR::write_into`](crate::MBR)
    /// writes zeros; a new partition has zeros.
    pub mark: [u8; MARK],
}

impl LogicalPartition {
    /// Computes its four addresses in this geometry.
    ///
    /// # Errors
    /// 7, 13, 14; then all four stay as they were.
    pub fn update_chs(&mut self, cylinders: u16, heads: u8, sectors: u8) -> Result<()> {
        let mut slot = block::of_logical(self);
        archive::update_chs(&mut slot, cylinders, heads, sectors)?;
        *self = block::to_logical(&slot);
        Ok(())
    }
}
