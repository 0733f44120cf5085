//! What the archive says of whole extracts, held to what mbrman reads and to the adapter's own extracts; and of blocks that
//! are none, held to the rule of include/crumbvessel.h.

use crate::adapter::{Extract, RECORD};
use crate::archive::{self, Archive};
use crate::block::{self, BLOCK};
use crate::crate_side::Crate;
use crate::generate::{self, Rng};
use crate::marked::Table;
use crate::refusal::Refused;
use crate::text;

fn upper(number: u32) -> u64 {
    u64::from(number) << 32
}

fn listing(read: Result<Table, Refused>) -> String {
    let t = match read {
        Ok(t) => t,
        Err(r) => return format!("refused {}\n", r.number),
    };
    let mut text = format!("disk {} align {} logical {}\n", t.disk_size, t.align, t.logical_partitions.len());
    for (number, e) in t.iter().filter(|(_, e)| e.is_used()) {
        text += &format!("{number} {:02X} {:02X} {} {}\n", e.sys, e.boot, e.starting_lba, e.sectors);
        assert!(archive::is_extended(e.sys) == e.is_extended(), "the type {}", e.sys);
    }
    text
}

/// What lay-over says, and O afterwards.
fn laid(extract: Option<&Extract>, lba: u32, record: &[u8], mut o: Vec<u8>) -> String {
    let answer = match extract.filter(|_| record.len() == RECORD) {
        None => Err(1),
        Some(e) if lba >= e.disk_size => Err(2),
        Some(e) => {
            let mut new = e.clone();
            new.records.insert(lba, record.to_vec());
            let bytes = new.bytes();
            match () {
                _ if new.records.len() > 64 => Err(22),
                _ if o.len() < bytes.len() => Err(19),
                _ => {
                    o[..bytes.len()].copy_from_slice(&bytes);
                    Ok(bytes.len())
                }
            }
        }
    };
    let first = answer.map_or_else(|k| format!("refused {k}"), |length| length.to_string());
    format!("{first} {} {}", o.len(), text::checksum(&o))
}

/// Five answers about one extract.
pub fn held(rng: &mut Rng, side: &mut Crate) -> u64 {
    let (x, lba, record) = generate::disk_numbers(rng);
    let extract = Extract::of(&x);
    let read = side.read(&x).unwrap_or(Err(Refused { number: 1, panic: None }));
    let (list, wanted, check, look) = Archive::of_extract(&x, lba);
    assert_eq!(list, listing(read), "the listing of {x:?}");
    assert_eq!(wanted, side.wanted(&x).map_or(upper(1), |w| w.map_or(upper(255), u64::from)), "wanted by {x:?}");
    assert_eq!(check, u8::from(extract.is_none()), "check of {x:?}");
    assert_eq!(look, extract.as_ref().map_or(1, |e| if lba < e.disk_size { 0 } else { 2 }), "look up {lba} in {x:?}");
    let mut cases = generate::Cases::default();
    let both = [&x[..], &record].concat();
    let room = x.len() + 516 + x.len() % 3 - 1;
    cases.lend(&both);
    cases.lines.push(format!("o {room} {}", x.len() as u8));
    cases.lines.push(format!("extract_lay {lba} {}", record.len()));
    let mut ours = Archive::default();
    let said = cases.lines.iter().filter_map(|line| ours.answer(line)).last().and_then(|(_, said)| said);
    assert_eq!(said, Some(laid(extract.as_ref(), lba, &record, vec![x.len() as u8; room])), "lay over {x:?} at {lba}");
    5
}

/// The first of 101, 6 and 102 that holds of a block.
fn refusal(b: &[u8]) -> u64 {
    if b.len() != BLOCK {
        return 101;
    }
    if u32::from_le_bytes(b[12..16].try_into().unwrap()) > 24 {
        return 6;
    }
    if b[block::TAGS..].iter().any(|&tag| tag > 3) { 102 } else { 0 }
}

/// Blocks with one or two rules broken: every function says the same of them. Outputs that are no block.
pub fn blocks(rng: &mut Rng) -> u64 {
    let (t, x, length) = generate::block_numbers(rng);
    let mut b = block::of_table(&Table::unmarked(t));
    generate::break_block(rng, &mut b);
    let mut held = 0;
    if refusal(&b) != 0 {
        for (name, said) in archive::refusals(&b, &x) {
            assert_eq!(said, refusal(&b), "{name} of a block that is none");
            held += 1;
        }
    }
    for (said, expected) in archive::short_outputs(&x, length) {
        assert_eq!(said, expected, "an output of {length} bytes, for {x:?}");
        held += 1;
    }
    held
}
