//! The layout of a document: in which part of it each byte stands.

use crate::config::Config;
use crate::raw::{answer, state, ANSWER_SLOTS, STATE_SLOTS};
use crate::reader::ReaderBy;
use std::error;
use std::fmt;
use std::ops::Range;

/// The account of a run: no byte is set twice, and none dropped.
///
/// Each byte before the reader's position is in exactly one part: the byte order mark, white space that [`trim_text_start`](Config::trim_text_start) skips, or the piece of one answer, be it
/// an event or a refusal. At end of file that is every byte, unless a refusal ended the run. This is proved of every run (docs/PROMISES.md). An account lays the parts out by
/// the answers and the document's bytes alone, and holds them to the reader's position and its setting.
///
/// It is told each answer by [`add`](Layout::add), once, right after the call:
///
/// ```
/// use sporebasket::events::Event;
/// use sporebasket::ext::Layout;
/// use sporebasket::Reader;
///
/// let page = "\u{feff}<t>\n  <r n=\"1\"/>06:15</t>";
/// let mut reader = Reader::from_str(page);
/// reader.config_mut().trim_text_start = true;
/// let mut layout = Layout::new(page.as_bytes());
/// loop {
///     let answer = reader.read_event();
///     layout.add(&reader)?;
///     if answer? == Event::Eof {
///         break;
///     }
/// }
/// // the page is all there
/// assert!(layout.left().is_empty());
/// assert_eq!(layout.to_string(), "28 bytes: 3 mark, 3 white, 22 in 5 pieces");
/// # Ok::<(), Box<dyn std::error::Error>>(())
/// ```
///
/// [`read_to_end`](ReaderBy::read_to_end), [`read_text`](ReaderBy::read_text) and the like make many calls, of which an account would be told the last alone: they are not for a reader that is
/// held to one. An account takes as many bytes as the document has.
#[derive(Clone)]
pub struct Layout<'a> {
    document: &'a [u8],
    /// Where the last part ends.
    end: usize,
    /// Where the piece of the refusal ends that ended the run.
    stop: Option<usize>,
    counts: Counts,
    mark: usize,
    white: usize,
    /// The pieces, and the bytes in them.
    pieces: usize,
    set: usize,
}

/// The parts that an answer adds to a layout, in their order. The first two are empty where there is none.
#[derive(Clone, Debug, PartialEq, Eq, Hash)]
#[non_exhaustive]
pub struct Parts {
    /// The byte order mark, before the first piece.
    pub mark: Range<usize>,
    /// White space that was skipped before the piece.
    pub white: Range<usize>,
    /// The piece, which may be empty.
    pub piece: Range<usize>,
}

impl<'a> Layout<'a> {
    /// The account of a run over this document that has not begun.
    pub fn new(document: &'a [u8]) -> Self {
        Layout {
            document,
            end: 0,
            stop: None,
            counts: Counts(vec![0; document.len()]),
            mark: 0,
            white: 0,
            pieces: 0,
            set: 0,
        }
    }

    /// Adds the reader's last answer, and gives its parts, or what is wrong with it. An account that has found a fault says no more: what it answers then has no meaning.
    ///
    /// ```
    /// use sporebasket::ext::Layout;
    ///
    /// let mut reader = sporebasket::Reader::from_str("\n<a>");
    /// reader.config_mut().trim_text_start = true;
    /// let mut layout = Layout::new(b"\n<a>");
    /// reader.read_event()?;
    /// let parts = layout.add(&reader)?;
    /// assert_eq!((parts.mark, parts.white, parts.piece), (0..0, 0..1, 1..4));
    /// // the same answer once more
    /// assert_eq!(layout.add(&reader).unwrap_err().to_string(), "a part ends at byte 4, and the next begins at 1");
    /// # Ok::<(), Box<dyn std::error::Error>>(())
    /// ```
    pub fn add<E>(&mut self, reader: &ReaderBy<&[u8], E>) -> Result<Parts, LayoutError> {
        let (answer, state) = reader.last();
        self.add_lent(answer, state)
    }

    /// [`add`](Layout::add) for hosts that lend all memory: the answer of a call, and the state that it left.
    ///
    /// ```
    /// use sporebasket::{ext::Layout, lent};
    ///
    /// let document = b"a<!x>";
    /// let mut layout = Layout::new(document);
    /// let (mut state, mut answer) = ([0; lent::STATE_SLOTS], [0; lent::ANSWER_SLOTS]);
    /// lent::new(document, lent::default_settings(), &mut state);
    /// for _ in 0..3 {
    ///     lent::read_event(document, &mut [], &mut state, &mut answer);
    ///     layout.add_lent(&answer, &state)?;
    /// }
    /// assert_eq!(layout.left(), 1..5);
    /// assert_eq!(layout.to_string(), "5 bytes: 0 mark, 0 white, 1 in 3 pieces, 4 left");
    /// # Ok::<(), sporebasket::ext::LayoutError>(())
    /// ```
    pub fn add_lent(
        &mut self,
        answer: &[usize; ANSWER_SLOTS],
        state: &[usize; STATE_SLOTS],
    ) -> Result<Parts, LayoutError> {
        let (kind, number) = (answer[answer::KIND], answer[answer::NUMBER]);
        // 16 and 17 are told where there is no run, and have no part in one
        let parts = if kind == 0 && matches!(number, 0 | 16 | 17) {
            self.none()
        } else {
            let parts = self.told(answer[answer::PIECE]..answer[answer::PIECE + 1]);
            self.set(&parts, Config::from_bits(state[state::SETTINGS]).trim_text_start)?;
            if self.end != state[state::POSITION] {
                return Err(LayoutError::Position {
                    parts: self.end,
                    reader: state[state::POSITION],
                });
            }
            parts
        };
        if matches!(number, 1..=8 | 13..=15) {
            self.stop.get_or_insert(self.end);
        }
        if kind == EOF {
            self.counts.check(self.stop.unwrap_or(self.document.len()))?;
        }
        Ok(parts)
    }

    /// The bytes that are in no part. After end of file there are none, unless a refusal ended the run: then they are those behind its piece.
    ///
    /// ```
    /// use sporebasket::ext::Layout;
    ///
    /// let mut reader = sporebasket::Reader::from_str("<a><!DOCTYPE b>");
    /// let mut layout = Layout::new(b"<a><!DOCTYPE b>");
    /// for _ in 0..3 {
    ///     let _ = reader.read_event();
    ///     layout.add(&reader)?;
    /// }
    /// assert_eq!(layout.left(), 3..15);
    /// # Ok::<(), sporebasket::ext::LayoutError>(())
    /// ```
    pub fn left(&self) -> Range<usize> {
        self.end..self.document.len()
    }

    /// No parts.
    fn none(&self) -> Parts {
        let here = || self.end..self.end;
        Parts {
            mark: here(),
            white: here(),
            piece: here(),
        }
    }

    /// The parts of an answer, by its piece: what stands between the parts before and the piece was skipped.
    fn told(&self, piece: Range<usize>) -> Parts {
        let mut parts = self.none();
        if self.pieces == 0 && self.document.starts_with(MARK) {
            parts.mark = 0..MARK.len();
        }
        parts.white = parts.mark.end..piece.start.max(parts.mark.end);
        parts.piece = piece;
        parts
    }

    /// Sets parts behind the others.
    fn set(&mut self, parts: &Parts, trim: bool) -> Result<(), LayoutError> {
        let Parts { mark, white, piece } = parts;
        for part in [mark, white, piece] {
            self.follow(part)?;
            self.counts.add(part.clone());
        }
        if let Some(at) = self.document[white.clone()].iter().position(|byte| !is_white(byte)) {
            return Err(LayoutError::NotWhite(white.start + at));
        }
        if !white.is_empty() && !trim {
            return Err(LayoutError::NotAsked(white.start));
        }
        self.mark += mark.len();
        self.white += white.len();
        self.set += piece.len();
        self.pieces += 1;
        Ok(())
    }

    /// A part lies in the document, and begins where the one before it ends.
    fn follow(&mut self, part: &Range<usize>) -> Result<(), LayoutError> {
        let Range { start, end } = *part;
        if start > end || end > self.document.len() {
            return Err(LayoutError::Outside { start, end });
        }
        if start != self.end {
            return Err(LayoutError::Apart { end: self.end, start });
        }
        self.end = end;
        Ok(())
    }
}

/// How many bytes are in each kind of part, and how many are left, where some are or a refusal ended the run.
impl fmt::Display for Layout<'_> {
    fn fmt(&self, f: &mut fmt::Formatter<'_>) -> fmt::Result {
        let Layout { mark, white, set, .. } = self;
        let left = self.left().len();
        let bytes = mark + white + set + left;
        write!(
            f,
            "{bytes} bytes: {mark} mark, {white} white, {set} in {} pieces",
            self.pieces
        )?;
        if left > 0 || self.stop.is_some() {
            write!(f, ", {left} left")?;
        }
        Ok(())
    }
}

impl fmt::Debug for Layout<'_> {
    fn fmt(&self, f: &mut fmt::Formatter<'_>) -> fmt::Result {
        write!(f, "Layout({self})")
    }
}

/// In how many parts each byte is.
#[derive(Clone)]
struct Counts(Vec<u8>);

impl Counts {
    fn add(&mut self, part: Range<usize>) {
        for count in &mut self.0[part] {
            *count = count.saturating_add(1);
        }
    }

    /// Each byte before this place is in one part, and the others are in none.
    fn check(&self, end: usize) -> Result<(), LayoutError> {
        let (before, behind) = self.0.split_at(end);
        for (counts, start, wanted) in [(before, 0, 1), (behind, end, 0)] {
            if let Some(at) = counts.iter().position(|count| *count != wanted) {
                return Err(LayoutError::Count {
                    place: start + at,
                    parts: counts[at],
                    wanted,
                });
            }
        }
        Ok(())
    }
}

/// What is wrong with an answer in a layout. None comes to who adds each answer of a fresh reader.
#[derive(Clone, Copy, Debug, PartialEq, Eq, Hash)]
#[non_exhaustive]
pub enum LayoutError {
    /// A part ends before it begins, or behind the document.
    Outside {
        /// Where it begins.
        start: usize,
        /// Where it ends.
        end: usize,
    },
    /// A part does not begin where the one before it ends.
    Apart {
        /// Where the one before it ends.
        end: usize,
        /// Where it begins.
        start: usize,
    },
    /// This byte was skipped, and is no white space.
    NotWhite(usize),
    /// This byte is white space that was skipped, with `trim_text_start` off.
    NotAsked(usize),
    /// The parts do not end where the reader stands.
    Position {
        /// Where the parts end.
        parts: usize,
        /// Where the reader stands.
        reader: usize,
    },
    /// At end of file a byte is not in as many parts as it should be, counted: in one, or in none behind the refusal that ended the run.
    Count {
        /// The byte.
        place: usize,
        /// In how many parts it is.
        parts: u8,
        /// In how many it should be.
        wanted: u8,
    },
}

impl fmt::Display for LayoutError {
    fn fmt(&self, f: &mut fmt::Formatter<'_>) -> fmt::Result {
        match self {
            LayoutError::Outside { start, end } => {
                write!(f, "a part from byte {start} to {end} does not lie in the document")
            }
            LayoutError::Apart { end, start } => write!(f, "a part ends at byte {end}, and the next begins at {start}"),
            LayoutError::NotWhite(place) => write!(f, "byte {place} was skipped, and is no white space"),
            LayoutError::NotAsked(place) => write!(f, "byte {place} was skipped, and white space was to stay"),
            LayoutError::Position { parts, reader } => {
                write!(f, "the parts end at byte {parts}, and the reader stands at {reader}")
            }
            LayoutError::Count { place, parts, wanted } => {
                write!(f, "byte {place} is in {parts} parts, not in {wanted}")
            }
        }
    }
}

impl error::Error for LayoutError {}

/// The byte order mark.
pub const MARK: &[u8] = b"\xEF\xBB\xBF";

/// Whether a byte is white space.
pub const fn is_white(byte: &u8) -> bool {
    matches!(byte, b' ' | b'\t' | b'\n' | b'\r')
}

/// The kind of end of file.
const EOF: usize = 10;

#[cfg(test)]
mod tests {
    use super::{Counts, Layout, LayoutError, Parts};
    use std::ops::Range;

    /// Sets these parts, as the first of a document, with white space to be skipped.
    fn set(document: &[u8], mark: Range<usize>, white: Range<usize>, piece: Range<usize>) -> Result<(), LayoutError> {
        Layout::new(document).set(&Parts { mark, white, piece }, true)
    }

    #[test]
    fn parts_that_follow_each_other_are_set() {
        assert_eq!(set(b"\xEF\xBB\xBF \t\r\n<a>", 0..3, 3..7, 7..10), Ok(()));
        assert_eq!(set(b" <a>", 0..0, 0..1, 1..1), Ok(()));
        assert_eq!(set(b"", 0..0, 0..0, 0..0), Ok(()));
    }

    #[test]
    fn white_space_that_the_piece_has_too_is_noticed() {
        assert_eq!(
            set(b"  a", 0..0, 0..2, 0..3),
            Err(LayoutError::Apart { end: 2, start: 0 })
        );
        assert_eq!(
            set(b"  a", 0..0, 0..2, 1..3),
            Err(LayoutError::Apart { end: 2, start: 1 })
        );
    }

    #[test]
    fn a_byte_between_two_parts_is_noticed() {
        for (mark, white, piece, end) in [(0..3, 3..5, 6..7, 5), (0..3, 4..5, 5..7, 3), (1..3, 3..5, 5..7, 0)] {
            let start = end + 1;
            let document = b"\xEF\xBB\xBF  ab";
            assert_eq!(
                set(document, mark, white, piece),
                Err(LayoutError::Apart { end, start })
            );
        }
    }

    #[test]
    fn a_part_outside_the_document_is_noticed() {
        let backwards = Range { start: 2, end: 1 };
        for (white, piece) in [(0..0, 0..3), (0..3, 3..3), (0..2, backwards)] {
            assert!(matches!(
                set(b"  ", 0..0, white, piece),
                Err(LayoutError::Outside { .. })
            ));
        }
    }

    /// The fault in the counts of these parts of a document, of which the run sets so many bytes: the byte, and in how many parts it is.
    fn count(length: usize, parts: &[(usize, usize)], end: usize) -> Option<(usize, u8)> {
        let mut counts = Counts(vec![0; length]);
        for (from, to) in parts {
            counts.add(*from..*to);
        }
        match counts.check(end) {
            Ok(()) => None,
            Err(LayoutError::Count { place, parts, wanted }) => {
                assert_eq!(wanted, u8::from(place < end));
                Some((place, parts))
            }
            Err(other) => panic!("{other}"),
        }
    }

    #[test]
    fn every_byte_is_counted_whatever_the_order_of_the_parts() {
        assert_eq!(count(6, &[(0, 3), (3, 3), (3, 6)], 6), None);
        assert_eq!(count(6, &[(3, 6), (0, 3)], 6), None);
        assert_eq!(count(6, &[(0, 2), (2, 4)], 4), None);
        assert_eq!(count(0, &[], 0), None);
        // in none, in two, in many, and behind the end
        assert_eq!(count(6, &[(0, 3), (4, 6)], 6), Some((3, 0)));
        assert_eq!(count(6, &[(0, 3)], 6), Some((3, 0)));
        assert_eq!(count(6, &[(0, 4), (3, 6)], 6), Some((3, 2)));
        assert_eq!(count(1, &[(0, 1); 300], 1), Some((0, 255)));
        assert_eq!(count(6, &[(0, 2), (2, 5)], 4), Some((4, 1)));
    }
}
