//! Compares the column reader with a second account over quick-xml's own events.

mod account;
mod bench;
mod faults;
mod shrink;
mod summary;

use crate::inputs::{self, Amount, Family};
use crate::ours::{
    DEFAULT, DOCTYPE, ENCODING, END, EOF, LONGEST, MISMATCHED, MOST_NAMES, REF, STACK_FULL, START, TEXT, TOO_LONG, UNMATCHED_END,
};
use crate::run::{self, Tells};
use bench::Bench;
use std::path::PathBuf;

/// The slots of an answer.
const COUNT: usize = 0;
const LOWER: usize = 1;
const NUMBER: usize = 2;
const PIECE_FROM: usize = 4;
const SLOTS: usize = 10;

/// The refusals of the column reader alone, and that of an answer with too few slots.
const BAD_STATE: usize = 17;
const BAD_TIME: usize = 30;
const COLUMN_FULL: usize = 31;

/// By the account as it is.
fn sound() -> Bench {
    Bench::new(&account::SOUND)
}

/// Runs every input, or those of the files: true if nothing differs and everything was seen that should be.
pub fn compare(amount: Amount, seed: u64, files: Vec<PathBuf>) -> bool {
    let of_files = !files.is_empty();
    let families = if of_files { inputs::of_files(files) } else { inputs::columns(amount, seed) };
    let tells = Tells {
        line: shrink::line,
        shrink: |kept, difference| shrink::shrink(&mut sound(), kept, difference),
        show: |kept, difference| shrink::show(&mut sound(), kept, difference),
    };
    run::ends(&families, sound, summary::print, &tells, !of_files)
}

/// Tries every wrong account by the quick inputs: true if all are noticed.
pub fn faults(seed: u64) -> bool {
    let accounts: Vec<_> = faults::ALL.iter().copied().flatten().collect();
    let families: Vec<Family> = inputs::columns(Amount::Quick, seed);
    let notice = |account: &&'static account::Account| run::Worker::new(Bench::new(account), true).notice(&families);
    let noticed = crate::faults::all_of(&accounts, |account| account.name, notice);
    println!("columns: {noticed} of {} wrong accounts noticed", accounts.len());
    noticed == accounts.len()
}
