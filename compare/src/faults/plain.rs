//! Faults of the plain engine: of each slot by itself, with what the comparison has to say of it, and others, of which some show in a large stack, in a long piece or in
//! changed states.

use super::{bare, beside, turned, Call, Fault};
use crate::check::{PLAIN, RETURNED, SLOT, STACK, STATE_BITS};
use crate::ours::*;
use crate::rows::BAD_STATE;

pub struct Slot {
    pub fault: Fault,
    /// What differs: just this.
    pub fields: u64,
}

fn is_event(c: &Call) -> bool {
    c.number() == 0 && c.kind() != EOF
}

fn is_refusal(c: &Call) -> bool {
    c.number() > 0 && c.number() != BAD_STATE
}

fn is_eof(c: &Call) -> bool {
    c.kind() == EOF
}

fn is_bad(c: &Call) -> bool {
    c.number() == BAD_STATE
}

impl Call<'_> {
    /// Spoils a slot of the stack, if it is lent.
    fn spoil(&mut self, slot: usize) {
        if let Some(slot) = self.stack.get_mut(slot) {
            *slot ^= 1
        }
    }

    /// The latest open name has this slot, which is above all where none is.
    fn innermost(&self) -> usize {
        (2 * self.state[DEPTH]).wrapping_sub(2)
    }
}

/// A fault of one slot, of the answers that `$is` takes.
macro_rules! slot {
    ($is:ident, $what:literal, $of:literal, $field:expr, $spoil:expr) => {
        Slot {
            fault: beside(concat!("plain: ", $what, " of ", $of), |c| {
                if $is(c) {
                    ($spoil as fn(&mut Call))(c)
                }
            }),
            fields: $field << PLAIN,
        }
    };
}

/// The faults of each slot, of the answers that `$is` takes.
macro_rules! slots {
    ($is:ident, $of:literal) => {
        &[
            slot!($is, "kind", $of, 1 << KIND, |c| c.answer[KIND] ^= 1),
            slot!($is, "number", $of, 1 << NUMBER, |c| c.answer[NUMBER] ^= 1),
            slot!($is, "place", $of, 1 << PLACE, |c| c.answer[PLACE] += 1),
            slot!($is, "start of the piece", $of, 1 << PIECE_FROM, |c| c.answer[PIECE_FROM] += 1),
            slot!($is, "end of the piece", $of, 1 << PIECE_TO, |c| c.answer[PIECE_TO] += 1),
            slot!($is, "start of the content", $of, 1 << CONTENT_FROM, |c| c.answer[CONTENT_FROM] += 1),
            slot!($is, "end of the content", $of, 1 << CONTENT_TO, |c| c.answer[CONTENT_TO] += 1),
            slot!($is, "name length", $of, 1 << NAME, |c| c.answer[NAME] += 1),
            slot!($is, "start of the name expected", $of, 1 << EXPECTED_FROM, |c| c.answer[EXPECTED_FROM] += 1),
            slot!($is, "end of the name expected", $of, 1 << EXPECTED_TO, |c| c.answer[EXPECTED_TO] += 1),
            slot!($is, "start of the name found", $of, 1 << FOUND_FROM, |c| c.answer[FOUND_FROM] += 1),
            slot!($is, "end of the name found", $of, 1 << FOUND_TO, |c| c.answer[FOUND_TO] += 1),
            slot!($is, "number returned", $of, RETURNED, |c| c.returned = Some(c.answer[NUMBER] + 1)),
            slot!($is, "phase", $of, 1 << (STATE_BITS + PHASE), |c| c.state[PHASE] ^= 1),
            slot!($is, "position", $of, 1 << (STATE_BITS + POSITION), |c| c.state[POSITION] += 1),
            slot!($is, "depth", $of, 1 << (STATE_BITS + DEPTH), |c| c.state[DEPTH] += 1),
            slot!($is, "length", $of, 1 << (STATE_BITS + LENGTH), |c| c.state[LENGTH] += 1),
            slot!($is, "settings", $of, 1 << (STATE_BITS + SETTINGS), |c| c.state[SETTINGS] ^= 1),
            slot!($is, "mark", $of, 1 << (STATE_BITS + MARK), |c| c.state[MARK] ^= 1),
            slot!($is, "the latest open name's start", $of, STACK, |c| c.spoil(c.innermost())),
            slot!($is, "the latest open name's end", $of, STACK, |c| c.spoil(c.innermost().wrapping_add(1))),
            slot!($is, "the first slot of the stack", $of, STACK, |c| c.spoil(0)),
            slot!($is, "the slot above the open names", $of, STACK, |c| c.spoil(2 * c.state[DEPTH])),
            slot!($is, "the last slot of the stack", $of, STACK, |c| c.spoil(c.stack.len().wrapping_sub(1))),
            slot!($is, "the slot behind the answer", $of, SLOT, |c| c.answer[ANSWER_SLOTS..].iter_mut().take(1).for_each(|slot| *slot = 0)),
            slot!($is, "the slot behind the state", $of, SLOT, |c| c.state[STATE_SLOTS..].iter_mut().take(1).for_each(|slot| *slot = 0)),
        ]
    };
}

pub const SLOTS: &[&[Slot]] = &[slots!(is_event, "an event"), slots!(is_refusal, "a refusal"), slots!(is_eof, "Eof")];

pub const OTHERS: &[&[Fault]] = &[FLAGS, STACKS, PIECES];

const FLAGS: &[Fault] = &[
    turned("plain: allow_dangling_amp ignored", |s| s & !DANGLING),
    turned("plain: allow_unmatched_ends ignored", |s| s & !UNMATCHED),
    turned("plain: check_comments ignored", |s| s & !COMMENTS),
    turned("plain: check_end_names ignored", |s| s & !NAMES),
    turned("plain: expand_empty_elements ignored", |s| s & !EXPAND),
    turned("plain: trim_markup_names_in_closing_tags ignored", |s| s & !TRIM_NAMES),
    turned("plain: trim_text_start ignored", |s| s & !TRIM_START),
    turned("plain: trim_text_end ignored", |s| s & !TRIM_END),
    turned("plain: check_open_names ignored", |s| s & !OPEN_NAMES),
];

const STACKS: &[Fault] = &[
    beside("plain: a name in the middle of many is lost", |c| {
        if c.state[DEPTH] > 1_000 {
            c.spoil(c.state[DEPTH])
        }
    }),
    beside("plain: the third name is lost where as many are open as may be", |c| {
        if c.state[DEPTH] == MOST_NAMES {
            c.spoil(4)
        }
    }),
    beside("plain: a slot far above the open names is written", |c| {
        if c.stack.len() > 1_000 && c.state[DEPTH] == 1 {
            c.spoil(600)
        }
    }),
    beside("plain: an expanded empty element stays on the stack", |c| {
        if c.kind() == END && c.piece().is_empty() {
            c.state[DEPTH] += 1
        }
    }),
    beside("plain: 10 keeps the name open", |c| {
        if c.number() == MISMATCHED {
            c.state[DEPTH] += 1
        }
    }),
    beside("plain: 15 opens the name", |c| {
        if c.number() == STACK_FULL {
            c.state[DEPTH] += 1
        }
    }),
];

const PIECES: &[Fault] = &[
    beside("plain: names of more than 255 bytes in a byte", |c| c.answer[NAME] &= 255),
    beside("plain: places in 16 bits", |c| c.answer[PLACE] &= 65_535),
    beside("plain: positions in 28 bits", |c| c.state[POSITION] &= (1 << 28) - 1),
    beside("plain: place of 13 is that of the piece", |c| {
        if c.number() == ENCODING {
            c.answer[PLACE] = c.answer[PIECE_FROM]
        }
    }),
    beside("plain: place of 9 is the last pair of hyphens", |c| {
        let last = c.piece().windows(2).rposition(|bytes| bytes == b"--").unwrap_or_default();
        if c.number() == DOUBLE_HYPHEN {
            c.answer[PLACE] = c.answer[PIECE_FROM] + last
        }
    }),
    beside("plain: a byte order mark is in the first piece", |c| {
        if c.before[PHASE] == INIT && c.document.starts_with(ORDER_MARK) {
            c.answer[PIECE_FROM] = 0
        }
    }),
    beside("plain: a vertical tab ends a name", |c| {
        let name = c.content().iter().take(c.answer[NAME]).take_while(|&&b| b != 0x0B).count();
        c.answer[NAME] = name
    }),
    beside("plain: a carriage return at the end of text is kept", |c| {
        if c.kind() == TEXT && c.on(TRIM_END) && c.document.get(c.answer[CONTENT_TO]) == Some(&b'\r') {
            c.answer[CONTENT_TO] += 1
        }
    }),
    beside("plain: 13 for a surrogate alone is let through", |c| {
        if c.number() == ENCODING {
            c.accept(3, |bytes| bytes[0] == 0xED && bytes[1] >= 0xA0)
        }
    }),
    beside("plain: the second Eof turns the mark off", |c| {
        if c.kind() == EOF && c.before[PHASE] == DONE {
            c.state[MARK] = 0
        }
    }),
];

/// Those that no run shows.
pub const STRAYS: &[Fault] = &[
    beside("plain: 17 writes the position", |c| {
        if is_bad(c) {
            c.state[POSITION] = 0
        }
    }),
    beside("plain: 17 writes the stack", |c| {
        if is_bad(c) {
            c.spoil(0)
        }
    }),
    beside("plain: 17 has the position for its place", |c| {
        if is_bad(c) {
            c.answer[PLACE] = c.state[POSITION]
        }
    }),
    beside("plain: 17 leaves a slot of the answer as it was", |c| {
        if is_bad(c) {
            c.answer[FOUND_TO] = crate::check::CANARY
        }
    }),
    beside("plain: a phase above the last is the last", |c| {
        if c.before[PHASE] == DONE + 1 && is_bad(c) {
            c.returned = Some(0)
        }
    }),
    beside("plain: the greatest depth of all is none", |c| {
        if c.before[DEPTH] == usize::MAX && is_bad(c) {
            c.state[DEPTH] = 0
        }
    }),
    beside("plain: twice a depth runs over", |c| {
        if c.before[DEPTH] == 1 << 63 && is_bad(c) {
            c.returned = Some(0)
        }
    }),
    beside("plain: 17 for a mark above 1", |c| {
        if c.before[MARK] == usize::MAX {
            c.refuse(BAD_STATE, 0)
        }
    }),
    beside("plain: 17 behind the end, in Done", |c| {
        if c.before[PHASE] == DONE && c.before[POSITION] < c.document.len() && c.kind() == EOF && c.before[MARK] == 0 {
            c.returned = Some(BAD_STATE)
        }
    }),
    bare("plain: 0 where slots are too few", |c| c.returned = Some(0)),
    bare("plain: an answer that is too short is written", |c| c.answer.iter_mut().for_each(|slot| *slot = 0)),
    bare("plain: a state that is too short is written", |c| c.state.iter_mut().take(1).for_each(|slot| *slot ^= 1)),
];
