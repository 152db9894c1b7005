//! Compares our reading of attributes with a second account of its rules, and with quick-xml's own `Attributes` on the same contents.

mod account;
mod bench;
mod examples;
mod faults;
mod listed;
mod record;
mod shrink;
mod summary;
mod theirs;

use crate::contents;
use crate::inputs::{self, Amount};
use crate::run::{self, Tells};
use bench::Bench;
use std::path::PathBuf;

pub use listed::TAGS;
pub use record::record;

/// The slots of an answer.
const FOUND: usize = 0;
const NAME_FROM: usize = 1;
const NAME_TO: usize = 2;
const VALUE_FROM: usize = 3;
const VALUE_TO: usize = 4;
const NEXT: usize = 5;
const PLACE: usize = 6;
const QUOTE: usize = 7;
const FIRST: usize = 8;
const SLOTS: usize = 9;

/// The refusals.
const BAD_STATE: usize = 17;
const NO_SPACE: usize = 19;
const NO_NAME: usize = 20;
const NO_EQUALS: usize = 21;
const NO_QUOTE: usize = 22;
const LESS_THAN: usize = 23;
const DUPLICATE: usize = 24;

/// A part of a content by its ends.
type Span = (usize, usize);

/// By the account and the rules as they are.
fn sound() -> Bench {
    Bench::new(&account::SOUND, &theirs::SOUND)
}

/// Runs every input, or those of the files: true if nothing differs but what is listed, and everything was seen that should be.
pub fn compare(amount: Amount, seed: u64, files: Vec<PathBuf>) -> bool {
    let listed = contents::as_listed("attributes", &examples::refuted());
    let of_files = !files.is_empty();
    let families = if of_files { inputs::tags_of_files(files) } else { inputs::attributes(amount, seed) };
    let tells = Tells {
        line: contents::line,
        shrink: |kept, difference| shrink::shrink(&mut sound(), kept, difference),
        show: |kept, difference| shrink::show(&mut sound(), kept, difference),
    };
    run::ends(&families, sound, summary::print, &tells, !of_files) && listed
}

/// Tries every wrong account of ours and of the crate's by the quick inputs: true if all are noticed.
pub fn faults(seed: u64) -> bool {
    contents::faults("attributes", &faults::all(), &inputs::attributes(Amount::Quick, seed), Bench::new)
}
