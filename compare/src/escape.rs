//! Compares our references as characters, one and in a whole text, with a second account of their rules, and with quick-xml's own `unescape` on the same contents.

mod account;
mod bench;
mod examples;
mod faults;
mod listed;
mod record;
mod shrink;
mod summary;
mod theirs;

use crate::contents;
use crate::inputs::{self, Amount};
use crate::run::{self, Tells};
use bench::Bench;
use std::path::PathBuf;

pub use account::number;
pub use listed::{is_of_the_crate, TAGS};
pub use record::record;

/// The slots of an answer.
const WRITTEN: usize = 0;
const PLACE: usize = 1;
const SLOTS: usize = 2;

/// The refusals.
const BAD_STATE: usize = 17;
const NO_REFERENCE: usize = 25;
const NO_CHARACTER: usize = 26;
const NO_ROOM: usize = 27;

/// By the account and the rules as they are.
fn sound() -> Bench {
    Bench::new(&account::SOUND, &theirs::SOUND)
}

/// Runs every input, or those of the files: true if nothing differs but what is listed, and everything was seen that should be.
pub fn compare(amount: Amount, seed: u64, files: Vec<PathBuf>) -> bool {
    let listed = contents::as_listed("escape", &examples::refuted());
    let of_files = !files.is_empty();
    let families = if of_files { inputs::texts_of_files(files) } else { inputs::escape(amount, seed) };
    let tells = Tells {
        line: contents::line,
        shrink: |kept, difference| shrink::shrink(&mut sound(), kept, difference),
        show: |kept, difference| shrink::show(&mut sound(), kept, difference),
    };
    run::ends(&families, sound, summary::print, &tells, !of_files) && listed
}

/// Tries every wrong account of ours and of the crate's by the quick inputs: true if all are noticed.
pub fn faults(seed: u64) -> bool {
    contents::faults("escape", &faults::all(), &inputs::escape(Amount::Quick, seed), Bench::new)
}
