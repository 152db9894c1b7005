//! Makes an input that shows a difference smaller, and prints it with the lines that differ.

use super::bench::{Bench, Kept};
use super::summary::Tally;
use crate::check::Difference;
use crate::ours::{DEFAULT, LETTERS};
use crate::run::Runs;
use crate::shrink::{cuts, least};
use crate::trace::{escaped, letters};

/// Documents are shown up to so many bytes.
const SHOWN: usize = 4_000;
/// So many lines before the one that differs.
const BEFORE: usize = 6;

/// Smaller inputs, the much smaller ones first.
fn smaller(kept: &Kept) -> impl Iterator<Item = Kept> + '_ {
    let settings = kept.settings;
    let cut = cuts(&kept.document).map(move |document| Kept { document, settings });
    let bits = (0..LETTERS.len()).filter(move |bit| (settings ^ DEFAULT) >> bit & 1 == 1);
    let plain = bits.map(move |bit| Kept { settings: settings ^ 1 << bit, ..kept.clone() });
    let places = (0..kept.document.len().min(200)).filter(|&at| !b"a<>/&-!? ".contains(&kept.document[at]));
    let same = places.map(|at| {
        let mut next = kept.clone();
        next.document[at] = b'a';
        next
    });
    cut.chain(plain).chain(same)
}

/// The smallest input found in which lines of the same sort differ.
pub fn shrink(bench: &mut Bench, kept: &Kept, difference: Difference) -> Kept {
    let again = |next: &Kept| bench.run(&next.case(), &mut Tally::default()).err();
    least((kept.clone(), difference), |kept| Box::new(smaller(kept)), |kept| 100 * kept.document.len(), again).0
}

/// An input on a line.
pub fn line(kept: &Kept) -> String {
    match kept.document.len() {
        0..=SHOWN => format!("{} {}", letters(kept.settings), escaped(&kept.document)),
        length => format!("{} and {length} bytes", letters(kept.settings)),
    }
}

/// Prints an input, what is written before the lines that differ, and these.
pub fn show(bench: &mut Bench, kept: &Kept) {
    let Err(differ) = bench.compare(&kept.case(), &mut Tally::default()) else { return };
    println!("difference in line {} of ours and {} of the crate's:", differ.ours, differ.theirs);
    println!("  {}", line(kept));
    last(&bench.ours, differ.ours).for_each(|line| println!("    ours       {line}"));
    last(&bench.theirs, differ.theirs).for_each(|line| println!("    the crate  {line}"));
}

/// The lines up to this one, of which some are left.
fn last(text: &str, number: usize) -> impl Iterator<Item = &str> {
    text.lines().take(number).skip(number.saturating_sub(BEFORE))
}
