//! Makes a content that shows a difference smaller, and prints it with what the sides say.

use super::account::Step;
use super::bench::FIELDS;
use super::theirs::Ruled;
use super::*;
use crate::check::Difference;
use crate::contents::{self, Kept};

/// The smallest input found on which the sides still differ in one of these fields.
pub fn shrink(bench: &mut Bench, kept: &Kept, difference: Difference) -> (Kept, Difference) {
    contents::shrink(bench, kept, difference, b"a ='\"<", b"a")
}

/// Prints an input, what differs, and what the sides answer.
pub fn show(bench: &mut Bench, kept: &Kept, difference: Difference) {
    contents::show(bench, kept, difference, "the attributes", &FIELDS);
    if let Some(asked) = &bench.asked {
        println!("  {}", asked.words);
        println!("    ours         {} {:?}", asked.ours.0, asked.ours.1);
        println!("    the account  {} {:?}", asked.wanted.0, asked.wanted.1);
    }
    bench.reading.steps.iter().for_each(|step| println!("    the account  {}", said(step)));
    let Ok(content) = std::str::from_utf8(&kept.content) else { return };
    for checks in [true, false] {
        let name = bench.reading.name;
        let words = if checks { "with checks" } else { "without" };
        theirs::items(content, name, checks).take(40).for_each(|item| println!("    the crate {words}  {item:?}"));
        let ruled = Ruled { rules: &theirs::SOUND, content: content.as_bytes(), checks, at: Some(name), names: Vec::new() };
        ruled.take(40).for_each(|item| println!("    its rules {words}  {item:?}"));
    }
}

/// An answer in words.
fn said(step: &Step) -> String {
    match step.number {
        0 if step.found() => format!("at {}: name {:?}, value {:?}", step.at, step.name(), step.value()),
        0 => format!("at {}: none", step.at),
        number => format!("at {}: {number} at {}, quote {}, first {}", step.at, step.slots[PLACE], step.slots[QUOTE], step.slots[FIRST]),
    }
}
