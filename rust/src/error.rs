use std::{error, fmt, io};

/// The result of reading, writing or changing a table.
pub type Result<T> = std::result::Result<T, Error>;

macro_rules! refusals {
    ($($number:literal $name:ident $text:literal;)*) => {
        /// An error: a refusal of the library, or an I/O error of the reader or writer.
        #[derive(Debug)]
        #[non_exhaustive]
        pub enum Error {
            $(#[doc = concat!("Refusal ", $number, ": ", $text, ".")] $name,)*
            /// The reader or writer failed. No refusal.
            Io(io::Error),
        }

        impl Error {
            /// The refusal's number; 0 for an I/O error.
            pub fn number(&self) -> u8 {
                match self {
                    $(Error::$name => $number,)*
                    Error::Io(_) => 0,
                }
            }

            /// The refusal with a number, if there is one.
            pub fn of_number(number: u8) -> Option<Error> {
                match number {
                    $($number => Some(Error::$name),)*
                    _ => None,
                }
            }

            fn text(&self) -> &'static str {
                match self {
                    $(Error::$name => $text,)*
                    Error::Io(_) => "generic I/O error",
                }
            }
        }
    };
}

refusals! {
    1 BadExtract "the extract breaks a rule, as by its sector size";
    2 PastDisk "a record at or past the disk's end";
    3 InvalidSignature "invalid MBR signature";
    4 InvalidBootFlag "partition has invalid boot flag";
    5 InconsistentEBR "inconsistent extended boot record";
    6 TooManyLogicals "more than 24 logical partitions";
    7 Arithmetic "arithmetic leaves 32 bits or divides by zero, or there is no alignment";
    8 NoExtendedPartition "no extended partition";
    9 NotEnoughSectorsToCreateLogicalPartition "not enough sectors to create a logical partition";
    10 EBRStartsBeforeExtendedPartition "EBR starts before the extended partition";
    11 EBRStartsTooCloseToTheEndOfExtendedPartition "EBR starts too close to the end of the extended partition";
    12 EBREndsAfterExtendedPartition "EBR ends after the extended partition";
    13 LBAExceedsMaximumCHS "exceeded the maximum limit of CHS";
    14 LBAExceedsMaximumCylinders "exceeded the maximum number of cylinders on disk";
    15 PartitionNotFound "partition not found";
    16 NoSpaceLeft "no space left";
    17 NoSuchLogical "no logical partition with this number";
    18 MissingLinkFields "a later logical partition lacks its link fields";
    19 OutputTooShort "the lent output is too short";
    20 NotSound "the table on the disk is not sound";
    21 NoGap "no gap for the new partition there: it would overlap a partition or an EBR, or stand before the first or \
              between an EBR and its partition";
    22 TooManyRecords "more than 64 records";
    23 BadRequest "a careful push of type 0 or extended, or with more than 63 sectors in a geometry";
}

impl fmt::Display for Error {
    fn fmt(&self, f: &mut fmt::Formatter<'_>) -> fmt::Result {
        f.write_str(self.text())
    }
}

impl error::Error for Error {
    fn source(&self) -> Option<&(dyn error::Error + 'static)> {
        match self {
            Error::Io(e) => Some(e),
            _ => None,
        }
    }
}

impl From<io::Error> for Error {
    fn from(e: io::Error) -> Error {
        Error::Io(e)
    }
}

/// The value, where mbrman's signature has no `Result`.
///
/// # Panics
/// With the refusal's number.
#[track_caller]
pub(crate) fn expected<T>(answer: Result<T>) -> T {
    match answer {
        Ok(value) => value,
        Err(e) => panic!("refused {}: {e}", e.number()),
    }
}
