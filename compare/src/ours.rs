//! Our side: the functions of the Rust package over slices, and the numbers that they write.

use sporebasket::lent;

/// The limits, which the archive is held to.
pub use sporebasket::lent::{LONGEST, MOST_NAMES};

/// The settings, a bit each, and the letter of each in a recorded case.
pub const DANGLING: u16 = 1;
pub const UNMATCHED: u16 = 2;
pub const COMMENTS: u16 = 4;
pub const NAMES: u16 = 8;
pub const EXPAND: u16 = 16;
pub const TRIM_NAMES: u16 = 32;
pub const TRIM_START: u16 = 64;
pub const TRIM_END: u16 = 128;
/// The one that the crate has not.
pub const OPEN_NAMES: u16 = 256;
pub const DEFAULT: u16 = NAMES | TRIM_NAMES;
/// All that the crate has: on, and turned over from the default.
pub const THEIR_ALL: u16 = OPEN_NAMES - 1;
pub const TURNED: u16 = THEIR_ALL ^ DEFAULT;
pub const LETTERS: [char; 9] = ['a', 'u', 'c', 'n', 'x', 'm', 's', 'e', 'o'];

/// The slots of a state.
pub const PHASE: usize = 0;
pub const POSITION: usize = 1;
pub const DEPTH: usize = 2;
pub const LENGTH: usize = 3;
pub const SETTINGS: usize = 4;
pub const MARK: usize = 5;
pub const STATE_SLOTS: usize = lent::STATE_SLOTS;

/// The phases.
pub const INIT: usize = 0;
pub const TEXT_PHASE: usize = 1;
pub const MARKUP_PHASE: usize = 2;
pub const REF_PHASE: usize = 3;
pub const DONE: usize = 5;
pub const PHASES: [&str; 6] = ["init", "text", "markup", "ref", "empty", "done"];

/// The slots of an answer.
pub const KIND: usize = 0;
pub const NUMBER: usize = 1;
pub const PLACE: usize = 2;
pub const PIECE_FROM: usize = 3;
pub const PIECE_TO: usize = 4;
pub const CONTENT_FROM: usize = 5;
pub const CONTENT_TO: usize = 6;
pub const NAME: usize = 7;
pub const EXPECTED_FROM: usize = 8;
pub const EXPECTED_TO: usize = 9;
pub const FOUND_FROM: usize = 10;
pub const FOUND_TO: usize = 11;
pub const ANSWER_SLOTS: usize = lent::ANSWER_SLOTS;

/// The slots of a row of an open name, and how many slots tell how many rows were filled.
pub const ROW_START: usize = 0;
pub const ROW_END: usize = 1;
pub const ROW_DEPTH: usize = 2;
pub const ROW_SLOTS: usize = lent::ROW_SLOTS;
pub const FILLED_SLOTS: usize = lent::FILLED_SLOTS;

/// The kinds of an event.
pub const START: usize = 1;
pub const END: usize = 2;
pub const EMPTY: usize = 3;
pub const TEXT: usize = 4;
pub const REF: usize = 5;
pub const COMMENT: usize = 6;
pub const CDATA: usize = 7;
pub const DECL: usize = 8;
pub const PI: usize = 9;
pub const EOF: usize = 10;
pub const KINDS: [&str; 11] = ["refused", "start", "end", "empty", "text", "ref", "comment", "cdata", "decl", "pi", "eof"];

/// The refusals that the comparison has to do with by number.
pub const DOUBLE_HYPHEN: usize = 9;
pub const MISMATCHED: usize = 10;
pub const UNMATCHED_END: usize = 11;
pub const ENCODING: usize = 13;
pub const DOCTYPE: usize = 14;
pub const STACK_FULL: usize = 15;
pub const TOO_LONG: usize = 16;
pub const UNCLOSED: usize = 18;

/// The bytes that a document may begin with and that are in no piece.
pub const ORDER_MARK: &[u8] = b"\xEF\xBB\xBF";

/// Whether a refusal of this number ends a run.
pub fn ends_run(number: usize) -> bool {
    matches!(number, 1..=8 | ENCODING..=STACK_FULL)
}

/// Whether an answer of this kind and number turns a reader's mark on: Eof, 18 and the refusals that end a run.
pub fn marks(kind: usize, number: usize) -> bool {
    kind == EOF || ends_run(number) || number == UNCLOSED
}

/// How many names a stack holds.
pub fn capacity(slots: usize) -> usize {
    (slots / lent::NAME_SLOTS).min(MOST_NAMES)
}

/// What plays our side: the archive itself, or one with a fault put in.
pub trait Engine {
    fn make(&mut self, document: &[u8], settings: usize, state: &mut [usize]) -> usize;
    fn read(&mut self, document: &[u8], stack: &mut [usize], state: &mut [usize], answer: &mut [usize]) -> usize;
    /// The same call by the plain engine.
    fn plain(&mut self, document: &[u8], stack: &mut [usize], state: &mut [usize], answer: &mut [usize]) -> usize;
    /// The part of the document that is handed out for a span: the number answered, and the part's two ends.
    fn content(&mut self, document: &[u8], from: usize, to: usize) -> (usize, Part);
    /// Fills a list with the rows of the open names, and writes how many: the number answered.
    fn rows(&mut self, stack: &[usize], state: &[usize], rows: &mut [usize], filled: &mut [usize]) -> usize;
    /// Writes the row of the open name of a depth: the number answered.
    fn row(&mut self, stack: &[usize], state: &[usize], depth: usize, row: &mut [usize]) -> usize;
}

pub type Part = [usize; lent::PART_SLOTS];

pub struct Archive;

impl Engine for Archive {
    fn make(&mut self, document: &[u8], settings: usize, state: &mut [usize]) -> usize {
        lent::new(document, settings, state)
    }

    fn read(&mut self, document: &[u8], stack: &mut [usize], state: &mut [usize], answer: &mut [usize]) -> usize {
        lent::read_event(document, stack, state, answer)
    }

    fn plain(&mut self, document: &[u8], stack: &mut [usize], state: &mut [usize], answer: &mut [usize]) -> usize {
        lent::plain_read_event(document, stack, state, answer)
    }

    fn content(&mut self, document: &[u8], from: usize, to: usize) -> (usize, Part) {
        let mut part = [usize::MAX; lent::PART_SLOTS];
        (lent::content(document, from, to, &mut part), part)
    }

    fn rows(&mut self, stack: &[usize], state: &[usize], rows: &mut [usize], filled: &mut [usize]) -> usize {
        lent::open_rows(stack, state, rows, filled)
    }

    fn row(&mut self, stack: &[usize], state: &[usize], depth: usize, row: &mut [usize]) -> usize {
        lent::open_row(stack, state, depth, row)
    }
}

/// The settings that the archive gives a reader by default.
pub fn default_settings() -> usize {
    lent::default_settings()
}
