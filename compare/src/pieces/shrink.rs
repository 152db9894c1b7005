//! Makes a content that shows a difference smaller, and prints it with what the sides say.

use super::bench::FIELDS;
use super::*;
use crate::check::Difference;
use crate::contents::Kept;

/// The content up to the last of these ends, with a bar at each of the others.
pub fn cut(content: &[u8], ends: &[usize]) -> Vec<u8> {
    let starts = std::iter::once(0).chain(ends.iter().copied());
    starts.zip(ends).map(|(from, &to)| &content[from..to]).collect::<Vec<_>>().join(&b'|')
}

/// The smallest input found on which the sides still differ in one of these fields.
pub fn shrink(bench: &mut Bench, kept: &Kept, difference: Difference) -> (Kept, Difference) {
    contents::shrink(bench, kept, difference, b"<>!-?[]&;'\"a", b"a")
}

/// Prints an input, what differs, and what the sides say.
pub fn show(bench: &mut Bench, kept: &Kept, difference: Difference) {
    contents::show(bench, kept, difference, "pieces", &FIELDS);
    bench.asked.iter().for_each(|words| println!("  {words}"));
}
