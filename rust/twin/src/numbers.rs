//! Errors and panics as document 01's numbers.

use std::cell::RefCell;
use std::fmt::Debug;
use std::panic::{catch_unwind, set_hook, AssertUnwindSafe};

thread_local! {
    static MESSAGE: RefCell<String> = const { RefCell::new(String::new()) };
}

/// Keeps the messages of panics instead of printing them; those that no table knows end the program.
pub fn keep_panics() {
    set_hook(Box::new(|info| {
        let payload = info.payload();
        let text = payload.downcast_ref::<&str>().map(|s| s.to_string());
        let text = text.or_else(|| payload.downcast_ref::<String>().cloned()).unwrap_or_default();
        if text.starts_with("unknown") || text.starts_with("twin") || text.starts_with("assertion") {
            eprintln!("{text}");
            std::process::abort();
        }
        MESSAGE.with(|m| *m.borrow_mut() = text);
    }));
}

/// What an operation says: its value, or the number that the table gives its error or panic.
pub fn said<T: Debug, E: Debug>(number: fn(&str, &str) -> u32, call: &str, f: impl FnOnce() -> Result<T, E>) -> String {
    match catch_unwind(AssertUnwindSafe(f)) {
        Ok(Ok(value)) => format!("{call}: {value:?}"),
        Ok(Err(e)) => format!("{call}: refused {}", number(call, &format!("{e:?}"))),
        Err(_) => format!("{call}: refused {}", MESSAGE.with(|m| number(call, &m.borrow()))),
    }
}

pub fn of_mbrman(call: &str, text: &str) -> u32 {
    match text.split(['(', ' ']).next().unwrap_or_default() {
        "Io" | "Deserialize" | "Serialize" => 2,
        "attempt" | "align" => 7,
        "removal" | "logical" => 17,
        "called" if call == "write" => 18,
        "called" => 7,
        name => named(name).unwrap_or_else(|| panic!("unknown: {text}")),
    }
}

/// The writer's own error is 2 for mbrman too.
pub fn of_crumbvessel(_: &str, text: &str) -> u32 {
    match text.split(['(', ' ', ':']).collect::<Vec<_>>()[..] {
        ["refused", number, ..] => number.parse().expect("a number"),
        ["Io", ..] => 2,
        [name, ..] => named(name).unwrap_or_else(|| panic!("unknown: {text}")),
        [] => panic!("unknown: no text"),
    }
}

/// The number of a variant, by the crate's own table.
fn named(name: &str) -> Option<u32> {
    let number = |n: &u8| crumbvessel::Error::of_number(*n).is_some_and(|e| format!("{e:?}") == name);
    (1..=23).find(number).map(u32::from)
}
