//! Makes a content that shows a difference smaller, and prints it with what the sides say.

use super::bench::FIELDS;
use super::*;
use crate::check::Difference;
use crate::contents::{self, shown, Kept};

/// The smallest input found on which the sides still differ in one of these fields.
pub fn shrink(bench: &mut Bench, kept: &Kept, difference: Difference) -> (Kept, Difference) {
    contents::shrink(bench, kept, difference, b"a&#x;1", b"a1")
}

/// Prints an input, what differs, and what the sides answer.
pub fn show(bench: &mut Bench, kept: &Kept, difference: Difference) {
    contents::show(bench, kept, difference, "references", &FIELDS);
    if let Some(asked) = &bench.asked {
        println!("  {}", asked.words);
        println!("    ours         {} {:?} |{}|", asked.ours.0, asked.ours.1, shown(&asked.ours.2));
        println!("    the account  {} {:?} |{}|", asked.wanted.0, asked.wanted.1, shown(&asked.wanted.2));
    }
    let reading = &bench.reading;
    println!("    the account  |{}|, refused {:?}", shown(&reading.bytes), reading.refused);
    let Ok(content) = std::str::from_utf8(&kept.content) else { return };
    println!("    the crate    {:?}", theirs::given(content));
    let mut ruled = Vec::new();
    let end = theirs::SOUND.read(content.as_bytes(), &mut ruled);
    println!("    its rules    |{}|, {end:?}", shown(&ruled));
}
