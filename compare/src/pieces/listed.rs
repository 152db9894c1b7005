//! The differences that docs/DIFFERENCES.md lists of the crate's parsers fed in pieces, each with when it is due, by the bytes and the cutting.

use super::theirs::{ends, hyphens, Pieces, Said, Scanner};
use super::*;

pub const COUNT: usize = 5;
pub const TAGS: [&str; COUNT] = ["comment-end", "pi-nothing", "comment-seen-one", "comment-seen-two", "comment-opener"];
const END: usize = 0;
const NOTHING: usize = 1;
const SEEN_ONE: usize = 2;
const SEEN_TWO: usize = 3;
const OPENER_COUNTS: usize = 4;

/// A piece that a scanner of the crate was fed, which had not found its end before, and what ours says of it.
pub struct Told<'a> {
    pub scanner: &'a Scanner,
    pub content: &'a [u8],
    /// The pieces before.
    pub before: &'a Pieces,
    pub piece: Span,
    pub ours: Said,
}

/// The row by which the crate says something else of the piece than ours, none where it has to say the same. What it says exactly is what the rules of `theirs`
/// tell.
pub fn due(told: &Told) -> Option<usize> {
    match told.scanner {
        Scanner::Element(_) | Scanner::Bang(_) => None,
        Scanner::Pi(_) => forgets(told).then_some(NOTHING),
        Scanner::Whole(_) | Scanner::Behind(_) => of_a_comment(told),
    }
}

/// A `?` is forgotten behind a piece without bytes: it is kept no more, or its `>` did not close.
fn forgets(told: &Told) -> bool {
    let (from, to) = told.piece;
    match told.ours {
        Said::Found(place) => place < from || place == from && told.before.empty,
        Said::Open(_) => from == to && told.content[..to].ends_with(b"?"),
    }
}

fn of_a_comment(told: &Told) -> Option<usize> {
    let (content, (from, to)) = (told.content, told.piece);
    let whole = matches!(told.scanner, Scanner::Whole(_));
    let before = told.before.of(told.scanner);
    let doubled = one_taken_for_two(content, &before.latest).filter(|_| content[from..to].starts_with(b">"));
    if doubled.is_some() {
        return doubled;
    }
    if whole && (from..to.min(OPENER + 2)).any(|at| content[..=at].ends_with(b"-->")) {
        return Some(OPENER_COUNTS);
    }
    let Said::Open(seen) = told.ours else { return Some(END) };
    let after = told.before.then(told.piece).of(told.scanner);
    let at_the_end = content[..to].iter().rev().take(2).take_while(|&&b| b == b'-').count();
    one_taken_for_two(content, &after.latest).or((whole && at_the_end != seen).then_some(OPENER_COUNTS))
}

/// The row by which the one hyphen that the latest piece ends in is taken for two, since the piece before ended in one too: another byte stands between.
fn one_taken_for_two(content: &[u8], pieces: &[Span]) -> Option<usize> {
    let (from, to) = pieces[0];
    let one = to - from > 1 && ends(content, pieces, 0, b"-") && !ends(content, pieces, 0, b"--");
    match hyphens(content, &pieces[1..]) {
        1 if one => Some(SEEN_ONE),
        2 if one => Some(SEEN_TWO),
        _ => None,
    }
}
