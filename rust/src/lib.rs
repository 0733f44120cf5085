//! MBR partition tables: Crumbvessel, a proved rewrite of mbrman 0.6.1, with mbrman's names and signatures.
//!
//! What this crate computes it asks of an archive whose every function is proved to answer what its contract says; the Rust
//! code here turns tables into their bytes and back, reads, and writes. For a program that uses mbrman see
//! docs/MIGRATING.md. New are [`careful_push`] and [`careful_remove`], changes of a disk that survive a pulled drive.
//!
//! ```
//! use crumbvessel::{MBRPartitionEntry, BOOT_INACTIVE, CHS, MBR};
//!
//! let mut disk = std::io::Cursor::new(vec![0; 100 * 512]);
//! let mut mbr = MBR::new_from(&mut disk, 512, [0xff; 4])?;
//! mbr.align = 1;
//! mbr[1] = MBRPartitionEntry {
//!     boot: BOOT_INACTIVE,
//!     first_chs: CHS::empty(),
//!     sys: 0x0f,
//!     last_chs: CHS::empty(),
//!     starting_lba: 1,
//!     sectors: mbr.disk_size - 1,
//! };
//! mbr.push(0x83, 1, 40)?;
//! mbr.write_into(&mut disk)?;
//! assert_eq!(MBR::read_from(&mut disk, 512)?[5].starting_lba, 2);
//! # Ok::<(), crumbvessel::Error>(())
//! ```

#![deny(missing_docs)]

mod archive;
mod block;
mod c;
mod careful;
mod chs;
mod disk;
mod entry;
mod error;
mod extract;
mod header;
mod logical;
mod table;

pub use archive::{LOGICALS, RECORDS};
pub use careful::{careful_push, careful_remove, Request};
pub use chs::CHS;
pub use disk::{Medium, Record};
pub use entry::{MBRPartitionEntry, BOOT_ACTIVE, BOOT_INACTIVE};
pub use error::{Error, Result};
pub use extract::Extract;
pub use header::MBRHeader;
pub use logical::LogicalPartition;
pub use table::MBR;
