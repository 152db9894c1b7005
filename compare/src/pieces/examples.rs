//! The pieces that docs/DIFFERENCES.md names, with what both sides say of the last of them.

use super::listed::Told;
use super::theirs::Pieces;
use super::theirs::Said::{self, Found, Open};
use super::*;
use sporebasket::lent;

/// A scan, which of the crate's scanners stands beside it, the pieces, what ours and the crate say behind them, and the row by which they differ.
struct Example(usize, usize, &'static [&'static str], Said, Said, Option<&'static str>);

/// The scanners beside a comment: fed with the opener, without it, and `BangType`.
const WHOLE: usize = 0;
const BEHIND: usize = 1;
const BANG_TYPE: usize = 2;

const ALL: &[Example] = &[
    Example(COMMENT, BEHIND, &["<!--", "a-->"], Found(7), Found(8), Some("comment-end")),
    Example(COMMENT, BEHIND, &["<!--", "-", "x-"], Open(1), Open(2), Some("comment-seen-one")),
    Example(COMMENT, BEHIND, &["<!--", "-", "x-", ">"], Open(0), Found(8), Some("comment-seen-one")),
    Example(COMMENT, BEHIND, &["<!--", "--", "x-"], Open(1), Open(2), Some("comment-seen-two")),
    Example(COMMENT, BEHIND, &["<!--", "--", "x-", ">"], Open(0), Found(9), Some("comment-seen-two")),
    Example(COMMENT, BEHIND, &["<!--", "-", "-", ">"], Found(6), Found(7), Some("comment-end")),
    Example(COMMENT, WHOLE, &["-->"], Open(0), Found(3), Some("comment-opener")),
    Example(COMMENT, WHOLE, &["<!-->"], Open(0), Found(5), Some("comment-opener")),
    Example(COMMENT, WHOLE, &["<!--->"], Open(0), Found(6), Some("comment-opener")),
    Example(COMMENT, WHOLE, &["<!--"], Open(0), Open(2), Some("comment-opener")),
    Example(COMMENT, WHOLE, &["<!-", "-->"], Open(0), Found(6), Some("comment-opener")),
    Example(COMMENT, WHOLE, &["<!---->"], Found(6), Found(7), Some("comment-end")),
    Example(COMMENT, BANG_TYPE, &["<!-->"], Open(0), Open(0), None),
    Example(COMMENT, BANG_TYPE, &["<!--", "-", "x-", "->"], Found(8), Found(8), None),
    Example(PI, 0, &["?", ""], Open(1), Open(0), Some("pi-nothing")),
    Example(PI, 0, &["<?a?", "", ">"], Found(4), Open(0), Some("pi-nothing")),
    Example(PI, 0, &["<?a?", "", "> ?>"], Found(4), Found(7), Some("pi-nothing")),
    Example(PI, 0, &["<?a?", ">"], Found(4), Found(4), None),
    Example(TAG, 0, &["<a b='>", "\">", "'", ">"], Found(10), Found(10), None),
    Example(CDATA, 0, &["<![CDATA[a]", "", "]", ">"], Found(12), Found(12), None),
];

/// The pieces for which a side does not say what is listed, or for which another row is due; and tags without an example.
pub fn refuted() -> Vec<String> {
    let refuted = ALL.iter().filter(|example| !holds(example));
    let mut refuted: Vec<String> = refuted.map(|example| example.2.join("|")).collect();
    let without = |tag: &&&str| !ALL.iter().any(|example| example.5 == Some(**tag));
    refuted.extend(TAGS.iter().filter(without).map(|tag| tag.to_string()));
    refuted
}

fn holds(&Example(made, which, pieces, ours, theirs, row): &Example) -> bool {
    let (content, mut scan) = (pieces.concat(), [0; SLOTS]);
    let Some(mut scanner) = theirs::beside(made)[which] else { return false };
    let (mut before, mut from, mut last) = (Pieces::default(), 0, None);
    let mut numbers = vec![lent::scan(made, &mut scan)];
    for piece in pieces {
        let (content, span) = (content.as_bytes(), (from, from + piece.len()));
        numbers.push(lent::feed(piece.as_bytes(), &mut scan));
        let ours = scanner.ours(&scan);
        let row = listed::due(&Told { scanner: &scanner, content, before: &before, piece: span, ours });
        last = Some((ours, scanner.feed(content, span), row.map(|row| TAGS[row])));
        (before, from) = (before.then(span), span.1);
    }
    numbers.iter().all(|&number| number == 0) && last == Some((ours, theirs, row))
}
