//! Compares what one program writes down over the crate and over the Rust package in its place. The program is compare/swap/program, which the packages
//! compare/swap/theirs and compare/swap/ours compile.

mod bench;
mod facts;
mod lines;
mod references;
mod show;
mod summary;

use crate::check::PANIC;
use crate::inputs::{self, Amount};
use crate::run::{self, Worker};
use bench::Bench;
use std::panic::catch_unwind;
use std::path::PathBuf;

/// Runs every input, or those of the files: true if nothing differs but what is listed, and everything was seen that should be.
pub fn compare(amount: Amount, seed: u64, files: Vec<PathBuf>) -> bool {
    let fixed = fixed_alike();
    let of_files = !files.is_empty();
    let families = if of_files { inputs::of_files(files) } else { inputs::swap(amount, seed) };
    let (tallies, found) = run::run(&families, Bench::default);
    let named: Vec<_> = families.iter().map(|family| family.name).zip(tallies).collect();
    let all = summary::print(&named);
    for (kept, difference) in &found {
        if *difference == PANIC {
            println!("a side panicked: {}", show::line(kept));
            continue;
        }
        let mut bench = Bench::default();
        let kept = show::shrink(&mut bench, kept, *difference);
        show::show(&mut bench, &kept);
    }
    let missing = if of_files { Vec::new() } else { all.missing() };
    missing.iter().for_each(|what| println!("never seen: {what}"));
    println!("{}", all.line(!fixed));
    fixed && all.differences == 0 && all.inputs > 0 && missing.is_empty()
}

/// Looks for one difference by the quick inputs, and says where it is: true if there is one.
pub fn notice(seed: u64) -> bool {
    if !fixed_alike() {
        println!("noticed without a document");
        return true;
    }
    match Worker::new(Bench::default(), true).notice(&inputs::swap(Amount::Quick, seed)) {
        Some((inputs, family)) => println!("noticed after {inputs} inputs, by \"{family}\""),
        None => {
            println!("NOT noticed");
            return false;
        }
    }
    true
}

/// Whether what needs no document is the same on both sides; the first line that is not is shown.
fn fixed_alike() -> bool {
    let Ok((ours, theirs)) = catch_unwind(fixed) else {
        println!("a side panicked without a document");
        return false;
    };
    let differs = ours.lines().zip(theirs.lines()).find(|(ours, theirs)| ours != theirs);
    if let Some((ours, theirs)) = differs {
        println!("difference without a document:");
        println!("    ours       {ours}");
        println!("    the crate  {theirs}");
    }
    ours == theirs
}

/// What needs no document, ours and the crate's.
fn fixed() -> (String, String) {
    let (mut ours, mut theirs) = (String::new(), String::new());
    swap_ours::write_fixed(&mut ours);
    swap_theirs::write_fixed(&mut theirs);
    (ours, theirs)
}
