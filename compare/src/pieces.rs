//! Compares our scans, fed in pieces, with a second account of their rules over the joined bytes, with quick-xml's own parsers fed the same pieces, and with what its
//! reader makes of the bytes in one piece.

mod account;
mod bench;
mod examples;
mod faults;
mod listed;
mod shrink;
mod summary;
mod theirs;

use crate::contents;
use crate::inputs::{self, Amount};
use crate::ours::{LONGEST, TOO_LONG};
use crate::run::{self, Tells};
use bench::Bench;
use std::path::PathBuf;

pub use listed::TAGS;

/// The slots of a scan.
const STATE: usize = 0;
const COUNT: usize = 1;
const LEFT: usize = 2;
const SEEN: usize = 3;
const SLOTS: usize = sporebasket::lent::SCAN_SLOTS;

/// The states.
const CLOSED: usize = 0;
pub const PIECE: usize = 1;
const OPENED: usize = 2;
const BANG: usize = 3;
pub const TAG: usize = 4;
const SINGLE_QUOTED: usize = 5;
const DOUBLE_QUOTED: usize = 6;
pub const PI: usize = 7;
pub const COMMENT: usize = 8;
pub const CDATA: usize = 9;
const REFERENCE: usize = 10;
pub const TEXT: usize = 11;
const STATES: [&str; 12] = [
    "closed",
    "piece",
    "opened",
    "bang",
    "tag",
    "single quoted",
    "double quoted",
    "instruction",
    "comment",
    "character data",
    "reference",
    "text",
];

/// The states that a scan is made in.
const MADE: [usize; 6] = [PIECE, TAG, PI, COMMENT, CDATA, TEXT];

/// The refusal of numbers that no feeding leads to, beside `TOO_LONG`.
const BAD_STATE: usize = 17;

/// The bytes of a comment's opener.
const OPENER: usize = 4;

type Scan = [usize; SLOTS];

/// A part of a content by its ends.
type Span = (usize, usize);

/// By the account and the rules as they are.
fn sound() -> Bench {
    Bench::new(&account::SOUND, &theirs::SOUND)
}

/// Runs every input, or those of the files: true if nothing differs but what is listed, and everything was seen that should be.
pub fn compare(amount: Amount, seed: u64, files: Vec<PathBuf>) -> bool {
    let listed = contents::as_listed("pieces", &examples::refuted());
    let of_files = !files.is_empty();
    let families = if of_files { inputs::marks_of_files(files) } else { inputs::pieces(amount, seed) };
    let tells = Tells {
        line: contents::line,
        shrink: |kept, difference| shrink::shrink(&mut sound(), kept, difference),
        show: |kept, difference| shrink::show(&mut sound(), kept, difference),
    };
    run::ends(&families, sound, summary::print, &tells, !of_files) && listed
}

/// Tries every wrong account of ours and of the crate's by the quick inputs: true if all are noticed.
pub fn faults(seed: u64) -> bool {
    contents::faults("pieces", &faults::all(), &inputs::pieces(Amount::Quick, seed), Bench::new)
}
