//! The crate's errors and panics as document 01's numbers. This is the whole table.

use std::cell::RefCell;
use std::panic::{catch_unwind, AssertUnwindSafe};

use mbrman::Error;

/// What an operation can panic about beside arithmetic.
#[derive(Clone, Copy, PartialEq)]
pub enum Operation {
    Read,
    Write,
    Remove,
    Other,
}

pub fn of_error(e: &Error) -> u32 {
    match e {
        Error::Io(_) | Error::Deserialize(_) | Error::Serialize(_) => 2,
        Error::InvalidSignature => 3,
        Error::InvalidBootFlag => 4,
        Error::InconsistentEBR => 5,
        Error::NoExtendedPartition => 8,
        Error::NotEnoughSectorsToCreateLogicalPartition => 9,
        Error::EBRStartsBeforeExtendedPartition => 10,
        Error::EBRStartsTooCloseToTheEndOfExtendedPartition => 11,
        Error::EBREndsAfterExtendedPartition => 12,
        Error::LBAExceedsMaximumCHS => 13,
        Error::LBAExceedsMaximumCylinders => 14,
        Error::PartitionNotFound => 15,
        Error::NoSpaceLeft => 16,
        other => panic!("an error that document 01 does not know: {other:?}"),
    }
}

const NONE: &str = "called `Option::unwrap()` on a `None` value";

/// None: a panic that the table does not have.
fn of_panic(operation: Operation, message: &str) -> Option<u32> {
    if message.starts_with("attempt to ") || message == "align must be greater than 0" {
        return Some(7);
    }
    match operation {
        Operation::Read if message == NONE => Some(7),
        Operation::Write if message == NONE => Some(18),
        Operation::Remove if message == "logical partitions start at 5" => Some(17),
        Operation::Remove if message.starts_with("removal index ") => Some(17),
        _ => None,
    }
}

pub struct Refused {
    pub number: u32,
    /// The panic's message, if it was one.
    pub panic: Option<String>,
}

thread_local! {
    static MESSAGE: RefCell<Option<String>> = const { RefCell::new(None) };
    static CAUGHT: RefCell<bool> = const { RefCell::new(false) };
}

/// Keeps the messages of panics that are caught, and prints the others.
pub fn keep_panics() {
    let plain = std::panic::take_hook();
    std::panic::set_hook(Box::new(move |info| {
        if CAUGHT.with(|c| *c.borrow()) {
            let payload = info.payload();
            let text = payload.downcast_ref::<&str>().map(|s| s.to_string());
            let text = text.or_else(|| payload.downcast_ref::<String>().cloned());
            MESSAGE.with(|m| *m.borrow_mut() = text);
        } else {
            plain(info);
        }
    }));
}

/// Runs the crate and maps what it says.
pub fn run<T>(operation: Operation, f: impl FnOnce() -> mbrman::Result<T>) -> Result<T, Refused> {
    CAUGHT.with(|c| *c.borrow_mut() = true);
    let said = catch_unwind(AssertUnwindSafe(f));
    CAUGHT.with(|c| *c.borrow_mut() = false);
    match said {
        Ok(Ok(value)) => Ok(value),
        Ok(Err(e)) => Err(Refused { number: of_error(&e), panic: None }),
        Err(_) => {
            let message = MESSAGE.with(|m| m.borrow_mut().take()).unwrap_or_default();
            match of_panic(operation, &message) {
                Some(number) => Err(Refused { number, panic: Some(message) }),
                None => panic!("a panic that the table does not have: {message}"),
            }
        }
    }
}

/// As `run`, for what cannot answer an error.
pub fn plain<T>(f: impl FnOnce() -> T) -> Result<T, Refused> {
    run(Operation::Other, || Ok(f()))
}
