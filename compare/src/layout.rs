//! No byte set twice, none dropped: what the pieces of a run's answers have to be to each other, to the position that is left and to the bytes of the document. Besides
//! these only the settings and an answer's kind and number are looked at. The parts of a layout are a byte order mark that the document begins with, white space that `trim_text_start` skips, and the piece of each answer.

use crate::check::{is_white, Case, COUNT, DROPPED, ORDER};
use crate::ours::*;

/// The bits of a word, each for a byte.
const WORD: usize = u64::BITS as usize;

/// The layout of one run.
#[derive(Default)]
pub struct Layout {
    /// Where the parts so far end.
    end: usize,
    /// A refusal came that ends a run: the position stays.
    refused: bool,
    /// The answer before is the Start of an expanded empty element: an empty piece is due.
    expanded: bool,
    /// A bit for each byte of the document: a piece holds it. And whether two pieces hold one.
    held: Vec<u64>,
    twice: bool,
    /// Of this run.
    laid: Laid,
}

/// Counts of what was laid out.
#[derive(Clone, Default)]
pub struct Laid {
    runs: u64,
    calls: u64,
    /// Those before the position at a run's end.
    bytes: u64,
    white: u64,
    marks: u64,
    empty: u64,
    /// Runs that a refusal ended before the document's end.
    left: u64,
    /// Runs that are not laid out as they have to be.
    pub failed: u64,
}

impl Layout {
    /// A fresh reader over a document.
    pub fn begin(&mut self, document: &[u8]) {
        let words = document.len() / WORD + 1;
        if self.held.len() < words {
            self.held.resize(words, 0);
        }
        self.held[..words].fill(0);
        *self = Self { held: std::mem::take(&mut self.held), ..Self::default() };
    }

    /// An answer, and the position that it leaves: what fails, 0 for nothing.
    pub fn told(&mut self, case: &Case, answer: &[usize], position: usize) -> u64 {
        if self.laid.calls == 0 {
            self.end = order_mark(case.document);
            self.laid.marks += (self.end > 0) as u64;
        }
        self.laid.calls += 1;
        let fields = self.follows(case, answer, position);
        if fields != 0 {
            return fields | self.count(case, position);
        }
        0
    }

    /// The piece follows the parts so far, with nothing but white space between, and ends at the position.
    fn follows(&mut self, case: &Case, answer: &[usize], position: usize) -> u64 {
        let (from, to) = (answer[PIECE_FROM], answer[PIECE_TO]);
        let Some(piece) = case.document.get(from..to) else { return ORDER };
        let between = case.document.get(self.end..from).unwrap_or_default();
        let skipped = between.is_empty() || case.settings & TRIM_START != 0 && between.iter().all(|&b| is_white(b));
        let whole = answer[KIND] != EOF || self.refused || to == case.document.len();
        let stays = !self.refused || to == self.end;
        let expands = !self.expanded || piece.is_empty();
        let mut fields = 0;
        if from < self.end || to != position || !stays || !expands {
            fields |= ORDER;
        }
        if !skipped || !whole {
            fields |= DROPPED;
        }
        self.hold(from, to);
        self.end = to;
        self.refused |= ends_run(answer[NUMBER]);
        self.expanded = answer[KIND] == START && piece.ends_with(b"/>");
        self.laid.white += !between.is_empty() as u64;
        self.laid.empty += piece.is_empty() as u64;
        fields
    }

    /// The bytes of a piece are held by it.
    fn hold(&mut self, from: usize, to: usize) {
        let mut at = from;
        while at < to {
            let end = (at / WORD * WORD + WORD).min(to);
            let bits = below(end - at) << (at % WORD);
            let word = &mut self.held[at / WORD];
            self.twice |= *word & bits != 0;
            *word |= bits;
            at = end;
        }
    }

    /// Counts by the bytes, whatever the order of the pieces: each byte before the position is in one part, and none behind it in any.
    fn count(&self, case: &Case, position: usize) -> u64 {
        let mark = order_mark(case.document);
        let one = |at: usize| {
            let held = self.held[at / WORD] >> (at % WORD) & 1 == 1;
            if at < mark || at >= position {
                return !held;
            }
            held || case.settings & TRIM_START != 0 && is_white(case.document[at])
        };
        let word = |(i, &held): (usize, &u64)| {
            let first = i * WORD;
            let bits = |end: usize| below(end.saturating_sub(first).min(WORD));
            held == bits(position) & !bits(mark) || (first..case.document.len().min(first + WORD)).all(one)
        };
        let words = &self.held[..case.document.len() / WORD + 1];
        let within = mark <= position && position <= case.document.len();
        if self.twice || !within || !words.iter().enumerate().all(word) {
            return COUNT;
        }
        0
    }

    /// The run is over, at this position: what fails, 0 for nothing.
    pub fn over(&mut self, case: &Case, position: usize, all: &mut Laid) -> u64 {
        self.laid.runs = 1;
        self.laid.bytes = position as u64;
        self.laid.left = (self.refused && position < case.document.len()) as u64;
        all.add(&self.laid);
        self.count(case, position)
    }
}

impl Laid {
    pub fn add(&mut self, other: &Laid) {
        self.runs += other.runs;
        self.calls += other.calls;
        self.bytes += other.bytes;
        self.white += other.white;
        self.marks += other.marks;
        self.empty += other.empty;
        self.left += other.left;
        self.failed += other.failed;
    }

    /// What no run has shown.
    pub fn missing(&self) -> impl Iterator<Item = String> {
        let seen = [(self.white, "skipped white space"), (self.marks, "a byte order mark"), (self.empty, "an empty piece")];
        let left = (self.left, "bytes left behind a refusal");
        seen.into_iter().chain([left]).filter(|(count, _)| *count == 0).map(|(_, what)| format!("{what} in a layout"))
    }

    pub fn line(&self) -> String {
        let Self { runs, calls, bytes, white, marks, empty, left, failed } = self;
        format!(
            "layout: {runs} runs, {calls} calls, {bytes} bytes laid out; {white} parts of white space, {marks} byte order marks, {empty} empty pieces; \
             {left} runs ended by a refusal with bytes left; {failed} differences"
        )
    }
}

/// How many bytes of a byte order mark a document begins with: all or none.
fn order_mark(document: &[u8]) -> usize {
    if document.starts_with(ORDER_MARK) {
        return ORDER_MARK.len();
    }
    0
}

/// So many bits, from the lowest on.
fn below(count: usize) -> u64 {
    match count {
        0 => 0,
        _ => u64::MAX >> (WORD - count),
    }
}
