//! Makes an input that shows a difference smaller, and prints it with what both sides say.

use super::bench::{Kept, Memory, Room, FIELDS};
use super::*;
use crate::check::Difference;
use crate::run::Runs;
use crate::shrink::{cuts, least};
use crate::trace::escaped;

/// Documents are shown up to so many bytes, columns and stacks up to so many slots.
const SHOWN: usize = 4_000;
const SLOTS_SHOWN: usize = 40;

/// Smaller inputs, the much smaller ones first.
fn smaller(kept: &Kept) -> impl Iterator<Item = Kept> + '_ {
    let room = kept.room;
    let cut = cuts(&kept.document).map(move |document| Kept { document, room });
    let rooms = [
        (room.stack > 0).then(|| Room { stack: room.stack / 2, ..room }),
        (room.stack > 0).then(|| Room { stack: room.stack - 1, ..room }),
        (room.column > 0).then(|| Room { column: room.column / 2, ..room }),
        (room.column > 0).then(|| Room { column: room.column - 1, ..room }),
        (room.answer > SLOTS).then(|| Room { answer: SLOTS, ..room }),
        (room.fill > 1).then(|| Room { fill: room.fill / 2, ..room }),
    ];
    let less = rooms.into_iter().flatten().map(|room| Kept { room, ..kept.clone() });
    let places = (0..kept.document.len().min(200)).filter(|&at| !b"a0:<>/t".contains(&kept.document[at]));
    let same = places.map(|at| {
        let mut next = kept.clone();
        next.document[at] = if kept.document[at].is_ascii_digit() { b'0' } else { b'a' };
        next
    });
    cut.chain(less).chain(same)
}

/// The smallest input found on which the two sides still differ in one of these fields.
pub fn shrink(bench: &mut Bench, kept: &Kept, difference: Difference) -> (Kept, Difference) {
    let again = |next: &Kept| bench.run(&next.case(), &mut summary::Tally::default()).err();
    least((kept.clone(), difference), |kept| Box::new(smaller(kept)), |kept| kept.document.len(), again)
}

/// An input on a line: the slots of stack, column and answer, what fills them, and the document.
pub fn line(kept: &Kept) -> String {
    let Room { stack, column, answer, fill } = kept.room;
    let document = match kept.document.len() {
        0..=SHOWN => escaped(&kept.document),
        length => format!("({length} bytes)"),
    };
    format!("stack {stack}, column {column}, answer {answer}, filled by {fill}: {document}")
}

/// Prints an input, what differs, and what both sides answer.
pub fn show(bench: &mut Bench, kept: &Kept, difference: Difference) {
    let fields: Vec<&str> = (0..FIELDS.len()).filter(|i| difference.fields >> i & 1 == 1).map(|i| FIELDS[i]).collect();
    println!("difference in the column: {}", fields.join(", "));
    println!("  {}", line(kept));
    let (returned, wanted) = bench.both(&kept.case());
    let mut before = Memory::default();
    before.fill(&kept.room);
    println!("    ours         {}", said(returned, &bench.ours, &before));
    println!("    the account  {}", said(wanted, &bench.wanted, &before));
}

/// What a side answered and what it left, with the margins; a dot for a slot that is as it was.
fn said(returned: usize, memory: &Memory, before: &Memory) -> String {
    let slot = |(now, before): (&usize, &usize)| if now == before { ".".into() } else { now.to_string() };
    let some = |now: &[usize], before: &[usize]| now.iter().zip(before).take(SLOTS_SHOWN).map(slot).collect::<Vec<_>>().join(" ");
    let [answer, column, stack] = [(&memory.answer, &before.answer), (&memory.column, &before.column), (&memory.stack, &before.stack)]
        .map(|(now, before)| some(now, before));
    format!("{returned}, answer {answer}, column {column}, stack {stack}")
}
