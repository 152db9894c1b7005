//! Faults of what is laid out, each with what the layout has to say of it by itself, before the crate is asked.

use super::{act, flag, Call, Fault};
use crate::check::{COUNT, DROPPED, ORDER};
use crate::ours::*;

pub struct Laid {
    pub fault: Fault,
    /// What fails: just this.
    pub fields: u64,
}

/// A piece is out of order or not up to the position, and a byte is in two parts or in none.
const fn misplaced(fault: Fault) -> Laid {
    Laid { fault, fields: ORDER | COUNT }
}

/// A byte between two pieces is in no part.
const fn dropped(fault: Fault) -> Laid {
    Laid { fault, fields: DROPPED | COUNT }
}

/// Each byte is in one part, and yet a piece has bytes that are not its own.
const fn taken(fault: Fault) -> Laid {
    Laid { fault, fields: ORDER }
}

/// Each byte before the position is in one part, and yet bytes are left.
const fn left(fault: Fault) -> Laid {
    Laid { fault, fields: DROPPED }
}

/// White space that the next call skips.
fn skips_next(c: &Call) -> bool {
    let next = c.document.get(c.state[POSITION]);
    c.on(TRIM_START) && c.state[PHASE] == TEXT_PHASE && next.is_some_and(|b| b" \t\r\n".contains(b))
}

/// White space was skipped, or a byte order mark.
fn skipped(c: &Call) -> bool {
    c.answer[PIECE_FROM] > c.before[POSITION]
}

/// Text with a byte, right behind a reference.
fn behind_a_reference(c: &Call) -> bool {
    c.kind() == TEXT && c.before[PHASE] == TEXT_PHASE && c.document[..c.before[POSITION]].ends_with(b";") && !c.content().is_empty()
}

/// The End of an expanded empty element.
fn expanded(c: &Call) -> bool {
    c.kind() == END && c.piece().is_empty()
}

/// A text without its first byte.
fn late(c: &mut Call) {
    c.answer[PIECE_FROM] += 1;
    c.answer[CONTENT_FROM] += 1;
}

pub const ALL: &[Laid] = &[
    dropped(act("a text starts a byte late", |c| c.kind() == TEXT && !c.content().is_empty(), late)),
    dropped(act("a text behind a reference starts a byte late", behind_a_reference, late)),
    dropped(act("a text loses a byte with its white space", |c| c.kind() == TEXT && skipped(c) && !c.content().is_empty(), late)),
    dropped(flag("white space is skipped though not asked for", |s| s | TRIM_START)),
    dropped(act("a refusal stands empty behind its piece", |c| c.number() > 0, |c| c.answer[PIECE_FROM] = c.answer[PIECE_TO])),
    misplaced(act("a refusal is empty though the position moves", |c| c.number() > 0, |c| c.answer[PIECE_TO] = c.answer[PIECE_FROM])),
    misplaced(act("a comment ends before its `>`", |c| c.kind() == COMMENT, |c| c.answer[PIECE_TO] -= 1)),
    misplaced(act(
        "the position behind a reference is a byte further",
        |c| c.kind() == REF && c.state[POSITION] < c.document.len(),
        |c| c.state[POSITION] += 1,
    )),
    misplaced(act("white space that is skipped is in the piece before it too", skips_next, |c| c.answer[PIECE_TO] += 1)),
    misplaced(act(
        "the position does not count what is skipped",
        |c| skipped(c) && !c.piece().is_empty(),
        |c| c.state[POSITION] = c.before[POSITION] + c.piece().len(),
    )),
    misplaced(act(
        "a byte order mark is in the first piece",
        |c| c.before[PHASE] == INIT && c.document.starts_with(ORDER_MARK),
        |c| c.answer[PIECE_FROM] = 0,
    )),
    misplaced(act(
        "the position does not count a byte order mark",
        |c| c.before[PHASE] == INIT && c.document.starts_with(ORDER_MARK) && c.piece().is_empty(),
        |c| c.state[POSITION] -= ORDER_MARK.len(),
    )),
    misplaced(act(
        "a tag begins with the byte before it",
        |c| c.kind() == START && c.answer[PIECE_FROM] > 0 && !skipped(c),
        |c| c.answer[PIECE_FROM] -= 1,
    )),
    misplaced(act("the End of an expanded empty element has the `>` before it", expanded, |c| c.answer[PIECE_FROM] -= 1)),
    taken(act(
        "the End of an expanded empty element has the byte behind it",
        |c| expanded(c) && c.state[POSITION] < c.document.len(),
        |c| c.go(c.answer[PIECE_TO] + 1, TEXT_PHASE),
    )),
    taken(act("Eof takes what a refusal left", |c| c.kind() == EOF, |c| c.go(c.document.len(), DONE))),
    left(act(
        "Eof in the place of the last text",
        |c| c.kind() == TEXT && c.state[PHASE] == DONE,
        |c| {
            c.event(EOF, 0, (0, 0), 0);
            c.state[PHASE] = DONE;
        },
    )),
    misplaced(act("a piece ends before it starts", |c| c.kind() == PI, |c| c.answer.swap(PIECE_FROM, PIECE_TO))),
    misplaced(act("a piece goes past the document", |c| c.eofs > 0, |c| c.go(c.document.len() + 1, DONE))),
];
