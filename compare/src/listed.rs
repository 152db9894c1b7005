//! The differences that are listed in docs/DIFFERENCES.md, each with exactly what the crate says in the place of ours.

use crate::check::{first_ill, is_white, Before, Case};
use crate::ours::*;
use crate::theirs::{Seen, Theirs};

/// How many bytes `<!--` has.
const OPENER: usize = 4;

/// A call in which the two sides differ.
pub struct Told<'a> {
    pub case: &'a Case<'a>,
    pub answer: &'a [usize],
    pub before: &'a Before,
    pub theirs: &'a Theirs<'a>,
    pub seen: &'a Seen,
}

/// A row: its tag in docs/DIFFERENCES.md, the only fields that differ, when they do, and what both sides then say.
struct Row {
    tag: &'static str,
    fields: u64,
    due: fn(&Told) -> bool,
    holds: fn(&Told) -> bool,
}

const ROWS: [Row; 3] = [
    Row { tag: "dangling-trim", fields: 1 << CONTENT_TO, due: is_dangling, holds: dangling_trim },
    Row { tag: "hyphen-place", fields: 1 << PLACE, due: is_behind_a_hyphen, holds: hyphen_place },
    Row { tag: "encoding-place", fields: 1 << PLACE, due: is_ill_formed, holds: encoding_place },
];

pub const COUNT: usize = ROWS.len();
pub const TAGS: [&str; COUNT] = [ROWS[0].tag, ROWS[1].tag, ROWS[2].tag];

/// The row of a call in which the sides differ in these fields, none where they are alike and have to be; an error if they should not differ so.
pub fn which(fields: u64, told: &Told) -> Result<Option<usize>, ()> {
    match ROWS.iter().position(|row| (row.due)(told)) {
        Some(row) if ROWS[row].fields == fields && (ROWS[row].holds)(told) => Ok(Some(row)),
        None if fields == 0 => Ok(None),
        _ => Err(()),
    }
}

/// The piece of our answer.
fn piece<'a>(told: &Told<'a>) -> &'a [u8] {
    told.case.document.get(told.answer[PIECE_FROM]..told.answer[PIECE_TO]).unwrap_or_default()
}

/// Text of a dangling `&` that ends in white space, with `allow_dangling_amp` and `trim_text_end`.
fn is_dangling(told: &Told) -> bool {
    told.answer[KIND] == TEXT
        && told.case.settings & TRIM_END != 0
        && piece(told).starts_with(b"&")
        && piece(told).last().is_some_and(|&b| is_white(b))
}

/// A comment that is refused for two hyphens, with a lone one before them.
fn is_behind_a_hyphen(told: &Told) -> bool {
    told.answer[NUMBER] == DOUBLE_HYPHEN && lone_and_pair(piece(told)).is_some()
}

/// In a comment with a lone hyphen before the first two in a row: where the last lone one and the two stand, counted from its start.
fn lone_and_pair(comment: &[u8]) -> Option<(usize, usize)> {
    let content = comment.get(OPENER..)?;
    let pair = content.windows(2).position(|bytes| bytes == b"--")?;
    let lone = content[..pair].iter().rposition(|&b| b == b'-')?;
    Some((OPENER + lone, OPENER + pair))
}

/// Ill-formed UTF-8, but for the first byte of a document, or the first behind a byte order mark, with no refusal before.
fn is_ill_formed(told: &Told) -> bool {
    told.answer[NUMBER] == ENCODING && first_ill(told.case.document) != their_ill(told)
}

/// The place that the crate tells of ill-formed UTF-8: the start of markup; in text and in a reference none, so that of the refusal before stays, or 0.
fn their_ill(told: &Told) -> usize {
    let start = told.before.start(told.case, told.theirs.mark);
    if told.case.document.get(start) == Some(&b'<') {
        return start;
    }
    told.before.place + told.theirs.mark
}

/// Our content is the whole piece, the crate's is without the white space at its end.
fn dangling_trim(told: &Told) -> bool {
    let from = told.answer[PIECE_FROM];
    let kept = piece(told).iter().rposition(|&b| !is_white(b)).map_or(0, |last| last + 1);
    told.case.settings & DANGLING != 0 && told.answer[CONTENT_TO] == told.answer[PIECE_TO] && told.seen.content == Some((from, from + kept))
}

/// Our place is the first of the two, the crate's as far behind the opener as they are behind the lone one.
fn hyphen_place(told: &Told) -> bool {
    let Some((lone, pair)) = lone_and_pair(piece(told)) else { return false };
    let from = told.answer[PIECE_FROM];
    told.answer[PLACE] == from + pair && told.theirs.place() + told.theirs.mark == from + OPENER + (pair - lone - 1)
}

/// The crate's place is what `their_ill` says. Ours is held to Rust's own check wherever 13 comes, listed or not.
fn encoding_place(told: &Told) -> bool {
    told.theirs.place() + told.theirs.mark == their_ill(told)
}
