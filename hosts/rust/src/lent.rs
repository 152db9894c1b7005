//! The functions of the archive over slices, for hosts that lend all memory themselves. The only unsafe code.
//!
//! Each but [`default_settings`] answers 0 or the number of a refusal, whatever the numbers are that it is lent. `include/sporebasket.h` says
//! what the slots hold. Two of them read events, by the archive's two engines: [`read_event`] and [`plain_read_event`], which answer the same.
//! [`Reader`](crate::Reader), [`Attributes`](crate::events::attributes::Attributes), [`unescape`](crate::escape::unescape), [`read_column`](crate::column::read_column), [`Scan`](crate::feed::Scan) and
//! [`Feeder`](crate::feed::Feeder) keep the memory and give the numbers their names.
//!
//! ```
//! use sporebasket::lent;
//!
//! let document = b"<t>06:15</t>";
//! let mut state = [0; lent::STATE_SLOTS];
//! let mut answer = [0; lent::ANSWER_SLOTS];
//! let mut stack = [0; 64 * lent::NAME_SLOTS];
//! assert_eq!(lent::new(document, lent::default_settings(), &mut state), 0);
//!
//! assert_eq!(lent::read_event(document, &mut stack, &mut state, &mut answer), 0);
//! // a Start (1), no refusal, piece 0..3, content 1..2, and a name of one byte
//! assert_eq!(answer, [1, 0, 0, 0, 3, 1, 2, 1, 0, 0, 0, 0]);
//! // in text (1) at 3, one name open, 12 bytes, the default settings, the mark off
//! assert_eq!(state, [1, 3, 1, 12, 40, 0]);
//! // the open name
//! assert_eq!(stack[..2], [1, 2]);
//! ```
#![allow(unsafe_code)]

use crate::plain::Engine;
use crate::raw::{self, answer as slot};
use std::str;

pub use crate::raw::{
    ANSWER_SLOTS, ATTRIBUTE_SLOTS, COLUMN_SLOTS, FILLED_SLOTS, LONGEST, MOST_NAMES, NAME_SLOTS, PART_SLOTS, ROW_SLOTS,
    SCAN_SLOTS, STATE_SLOTS, UNESCAPE_SLOTS,
};

/// The settings of a reader to which none are given, a bit each.
///
/// ```
/// assert_eq!(sporebasket::lent::default_settings(), 8 + 32);
/// ```
pub fn default_settings() -> usize {
    // SAFETY: it takes nothing.
    unsafe { raw::sporebasket_default_settings() }
}

/// Makes a reader over the document, in the first [`STATE_SLOTS`] slots of the state. Bits of the settings that stand for none do not count, and
/// the mark is off.
///
/// 17: the state has fewer than [`STATE_SLOTS`] slots; else 16: the document is too long. Then nothing is written.
///
/// ```
/// use sporebasket::lent;
///
/// assert_eq!(lent::new(b"<a/>", 8, &mut [0; lent::STATE_SLOTS]), 0);
/// assert_eq!(lent::new(b"<a/>", 8, &mut []), 17);
/// ```
pub fn new(document: &[u8], settings: usize, state: &mut [usize]) -> usize {
    // SAFETY: pointers and counts are those of slices, so no pointer is null; the state is lent exclusively, so it overlaps with nothing.
    unsafe {
        raw::sporebasket_new(
            document.as_ptr(),
            document.len(),
            settings,
            state.as_mut_ptr(),
            state.len(),
        )
    }
}

/// Reads on, and writes the answer, the state after it and, for a Start, its name on the stack.
///
/// Lend each call the same document, and the stack and the state as the call before left them.
///
/// 17, before all else, exactly where one of these is so: the answer has fewer than [`ANSWER_SLOTS`] slots (then it is not written either) or the state
/// fewer than [`STATE_SLOTS`]; the phase is above 5 or the settings above 511; the length is not the document's or above
/// [`LONGEST`]; the position is above the length; the depth is above [`MOST_NAMES`] or half the stack's slots; a name is
/// open, and the start of the latest is above its end, or its end above the position; the phase is `Init` with a position or depth that is not 0,
/// `InsideMarkup` where no `<` is at the position, `InsideRef` where no `&` is there, or `InsideEmpty` with the depth 0. It leaves the stack and the state
/// alone, so it comes again for ever. A state that passes need not be one that calls lead to: of the names the latest alone is looked at, of the document the
/// byte at the position.
///
/// A call opens one name at most. So a stack may be short at first, and where it is full a longer one be lent before the next call, with what
/// the short one held in its first slots: every answer is then as if the longest had been lent from the start. More slots than
/// [`MOST_NAMES`] take hold no more names.
///
/// The mark, the last slot of a state, remembers that the end was told: 0 is off, any other number is on, and none is a reason for 17. Where it is
/// 0, end of file and refusals 1 to 8, 13 to 15 and 18 write 1. No other answer writes there, and 18 is given only where it is off.
///
/// ```
/// use sporebasket::lent;
///
/// let mut answer = [0; lent::ANSWER_SLOTS];
/// // a position past the end
/// let mut state = [1, 9, 0, 4, 40, 0];
/// assert_eq!(lent::read_event(b"<a/>", &mut [], &mut state, &mut answer), 17);
/// assert_eq!(state, [1, 9, 0, 4, 40, 0]);
///
/// // the end of `<a>`, with `check_open_names`: 18 at 1, then end of file (10)
/// let (mut state, mut stack) = ([1, 3, 1, 3, 40 + 256, 0], [1, 2]);
/// assert_eq!(lent::read_event(b"<a>", &mut stack, &mut state, &mut answer), 18);
/// assert_eq!((state, answer[2]), ([5, 3, 1, 3, 40 + 256, 1], 1));
/// assert_eq!(lent::read_event(b"<a>", &mut stack, &mut state, &mut answer), 0);
/// assert_eq!(answer[0], 10);
/// ```
#[inline]
pub fn read_event(document: &[u8], stack: &mut [usize], state: &mut [usize], answer: &mut [usize]) -> usize {
    // SAFETY: pointers and counts are those of slices, so no pointer is null; the three that are written to are lent exclusively, so they
    // overlap neither with each other nor with the document.
    unsafe {
        raw::sporebasket_read_event(
            document.as_ptr(),
            document.len(),
            stack.as_mut_ptr(),
            stack.len(),
            state.as_mut_ptr(),
            state.len(),
            answer.as_mut_ptr(),
            answer.len(),
        )
    }
}

/// [`read_event`] by the plain engine, which takes one byte at a time: whatever it is lent, it answers the same and leaves the same in every slot. That is proved (docs/PROMISES.md). It is slower, and is for
/// the release check.
///
/// Any call of a run may be made by either.
///
/// ```
/// use sporebasket::lent;
///
/// let document = b"<t>06:15</t>";
/// let (mut state, mut stack) = ([0; lent::STATE_SLOTS], [0; lent::NAME_SLOTS]);
/// let mut answer = [0; lent::ANSWER_SLOTS];
/// assert_eq!(lent::new(document, lent::default_settings(), &mut state), 0);
///
/// assert_eq!(lent::plain_read_event(document, &mut stack, &mut state, &mut answer), 0);
/// // a Start (1), piece 0..3, and its name on the stack
/// assert_eq!((&answer[..5], stack), (&[1, 0, 0, 0, 3][..], [1, 2]));
/// // on by the other engine: the text (4), piece 3..8
/// assert_eq!(lent::read_event(document, &mut stack, &mut state, &mut answer), 0);
/// assert_eq!(answer[..5], [4, 0, 0, 3, 8]);
/// ```
#[inline]
pub fn plain_read_event(document: &[u8], stack: &mut [usize], state: &mut [usize], answer: &mut [usize]) -> usize {
    // SAFETY: pointers and counts are those of slices, so no pointer is null; the three that are written to are lent exclusively, so they
    // overlap neither with each other nor with the document.
    unsafe {
        raw::sporebasket_plain_read_event(
            document.as_ptr(),
            document.len(),
            stack.as_mut_ptr(),
            stack.len(),
            state.as_mut_ptr(),
            state.len(),
            answer.as_mut_ptr(),
            answer.len(),
        )
    }
}

/// [`read_event`] by an engine, and the piece of the event as a string, or the number of the refusal.
///
/// The piece of an event is UTF-8, whatever the document, the stack and the state are: that is the theorem `an-event's-piece-is-well-formed` (docs/PROMISES.md), and the events of the two engines are the
/// same. So it is not checked once more, but with the feature `checked`.
#[inline]
pub(crate) fn read_piece<'a, E: Engine>(
    document: &'a [u8],
    stack: &mut [usize],
    state: &mut [usize; STATE_SLOTS],
    answer: &mut [usize; ANSWER_SLOTS],
) -> Result<&'a str, usize> {
    match E::read_event(document, stack, state, answer) {
        0 => {
            let piece = document.get(answer[slot::PIECE]..answer[slot::PIECE + 1]);
            as_str(piece.unwrap_or_default())
        }
        number => Err(number),
    }
}

/// The piece of an event as a string. With the feature `checked` a piece that is not UTF-8 would be told as the archive's fault (17).
#[inline]
fn as_str(piece: &[u8]) -> Result<&str, usize> {
    if cfg!(feature = "checked") {
        return str::from_utf8(piece).map_err(|_| BAD_STATE);
    }
    // SAFETY: it is called for the piece of an event alone, right after the call that gave it, and that is UTF-8: `an-event's-piece-is-well-formed`.
    Ok(unsafe { str::from_utf8_unchecked(piece) })
}

/// The refusal that no reader of this package gives.
const BAD_STATE: usize = 17;

/// Writes the open name of this depth, from 1, the outermost, into the first [`ROW_SLOTS`] slots of the row: its start, its end and its depth. The stack and the state are as [`new`] or a call of [`read_event`]
/// left them.
///
/// 17, with nothing written, exactly where one of these is so: the row has fewer than [`ROW_SLOTS`] slots or the state fewer than [`STATE_SLOTS`]; this depth is 0 or above the state's; the state's is above
/// [`MOST_NAMES`] or half the stack's slots; the start of the name is above its end, or its end above the position. In a run and with enough slots it comes for no depth from 1 to the state's.
///
/// ```
/// use sporebasket::lent;
///
/// let (mut state, mut stack) = ([0; lent::STATE_SLOTS], [0; 2 * lent::NAME_SLOTS]);
/// lent::new(b"<d><t>", lent::default_settings(), &mut state);
/// for _ in 0..2 {
///     lent::read_event(b"<d><t>", &mut stack, &mut state, &mut [0; lent::ANSWER_SLOTS]);
/// }
/// let mut row = [0; lent::ROW_SLOTS];
/// assert_eq!(lent::open_row(&stack, &state, 2, &mut row), 0);
/// assert_eq!(row, [4, 5, 2]);
/// // no name is as deep
/// assert_eq!(lent::open_row(&stack, &state, 3, &mut row), 17);
/// assert_eq!(row, [4, 5, 2]);
/// ```
pub fn open_row(stack: &[usize], state: &[usize], depth: usize, row: &mut [usize]) -> usize {
    // SAFETY: pointers and counts are those of slices, so no pointer is null; the row is lent exclusively, so it overlaps with nothing.
    unsafe {
        raw::sporebasket_open_row(
            stack.as_ptr(),
            stack.len(),
            state.as_ptr(),
            state.len(),
            depth,
            row.as_mut_ptr(),
            row.len(),
        )
    }
}

/// Fills the rows with the open names, the outermost first, each in [`ROW_SLOTS`] slots as [`open_row`] has it, and writes into the answer's first slot how many were filled: as many as names are open, or
/// as there is room for. Slots behind these rows are left alone. The stack and the state are as [`new`] or a call of [`read_event`] left them.
///
/// 17, exactly where one of these is so: the answer has fewer than [`FILLED_SLOTS`] slots (then nothing is written) or the state fewer than [`STATE_SLOTS`]; the state's depth is above [`MOST_NAMES`] or half
/// the stack's slots; of a name for which there is room the start is above its end, or its end above the position. The answer is 0 then, and the rows are left alone. In a run it comes for too few slots alone.
///
/// ```
/// use sporebasket::lent;
///
/// let (mut state, mut stack) = ([0; lent::STATE_SLOTS], [0; 2 * lent::NAME_SLOTS]);
/// lent::new(b"<d><t>", lent::default_settings(), &mut state);
/// for _ in 0..2 {
///     lent::read_event(b"<d><t>", &mut stack, &mut state, &mut [0; lent::ANSWER_SLOTS]);
/// }
/// let (mut rows, mut filled) = ([0; 3 * lent::ROW_SLOTS], [0; lent::FILLED_SLOTS]);
/// assert_eq!(lent::open_rows(&stack, &state, &mut rows, &mut filled), 0);
/// assert_eq!((rows, filled), ([1, 2, 1, 4, 5, 2, 0, 0, 0], [2]));
///
/// // a stack that holds fewer names than are open
/// assert_eq!(lent::open_rows(&stack[..2], &state, &mut rows, &mut filled), 17);
/// assert_eq!(filled, [0]);
/// ```
pub fn open_rows(stack: &[usize], state: &[usize], rows: &mut [usize], answer: &mut [usize]) -> usize {
    // SAFETY: pointers and counts are those of slices, so no pointer is null; the two that are written to are lent exclusively, so they
    // overlap neither with each other nor with what is read.
    unsafe {
        raw::sporebasket_open_rows(
            stack.as_ptr(),
            stack.len(),
            state.as_ptr(),
            state.len(),
            rows.as_mut_ptr(),
            rows.len(),
            answer.as_mut_ptr(),
            answer.len(),
        )
    }
}

/// Writes where the bytes of a span stand in the document: its start and its end, or twice the document's end if it does not lie there.
///
/// 17: the part has too few slots, and nothing is written.
///
/// ```
/// use sporebasket::lent;
///
/// let mut part = [0; lent::PART_SLOTS];
/// assert_eq!(lent::content(b"<a/>", 1, 2, &mut part), 0);
/// assert_eq!(part, [1, 2]);
/// assert_eq!(lent::content(b"<a/>", 2, 1, &mut part), 0);
/// assert_eq!(part, [4, 4]);
/// ```
pub fn content(document: &[u8], from: usize, to: usize, part: &mut [usize]) -> usize {
    // SAFETY: pointers and counts are those of slices, so no pointer is null; the part is lent exclusively, so it overlaps with nothing.
    unsafe {
        raw::sporebasket_content(
            document.as_ptr(),
            document.len(),
            from,
            to,
            part.as_mut_ptr(),
            part.len(),
        )
    }
}

/// Reads one attribute of the tag whose content is this span of the document, of which so many bytes are the name, and writes the answer. The first call of a tag has
/// `at` = from + name, each call after it the place to go on that the answer before told.
///
/// 0: an attribute, or none where only white space is left. The answer's first [`ATTRIBUTE_SLOTS`] slots are 1 for an attribute, its name, its value without the quotes, and
/// where to go on, just behind the closing quote; then, of a refusal, its place, the quote that 22 finds not closed, and where the name of 24 was used first. What an
/// answer has not is 0. Places count in the document.
///
/// 19: no white space behind a value; 20: an empty name; 21: no `=`; 22: no opening or closing quote; 23: a `<` in a value; 24: a name that was read before in this
/// tag. After a refusal there is no place to go on.
///
/// 17, before all else and at 0: the answer has fewer than [`ATTRIBUTE_SLOTS`] slots (then it is not written either); the span does not lie in the document; the length of the name is
/// not the count of the content's bytes before its first white space; or reading from the name does not come to `at`.
///
/// ```
/// use sporebasket::lent;
///
/// let document = b"<r n=\"1\"a>";
/// let mut answer = [0; lent::ATTRIBUTE_SLOTS];
/// assert_eq!(lent::attribute(document, 1, 9, 1, 2, &mut answer), 0);
/// // an attribute (1): the name 3..4, the value 6..7, and on at 8
/// assert_eq!(answer, [1, 3, 4, 6, 7, 8, 0, 0, 0]);
/// // no white space there
/// assert_eq!(lent::attribute(document, 1, 9, 1, 8, &mut answer), 19);
/// assert_eq!(answer, [0, 0, 0, 0, 0, 0, 8, 0, 0]);
/// // in the midst of the value
/// assert_eq!(lent::attribute(document, 1, 9, 1, 6, &mut answer), 17);
/// ```
pub fn attribute(document: &[u8], from: usize, to: usize, name: usize, at: usize, answer: &mut [usize]) -> usize {
    // SAFETY: pointers and counts are those of slices, so no pointer is null; the answer is lent exclusively, so it overlaps with nothing.
    unsafe {
        raw::sporebasket_attribute(
            document.as_ptr(),
            document.len(),
            from,
            to,
            name,
            at,
            answer.as_mut_ptr(),
            answer.len(),
        )
    }
}

/// Looks up the attribute of this name in the tag whose content is this span of the document, of which so many bytes are the name, and writes the answer as [`attribute`] does.
///
/// It is the first attribute whose name has these bytes, none, or the first refusal that is met before it. 17: as [`attribute`] has it, but that no place is handed in.
///
/// ```
/// use sporebasket::lent;
///
/// let document = b"<r n=\"1\" at='06:15' n=''>";
/// let mut answer = [0; lent::ATTRIBUTE_SLOTS];
/// assert_eq!(lent::find_attribute(document, 1, 25, 1, b"at", &mut answer), 0);
/// assert_eq!(answer, [1, 9, 11, 13, 18, 19, 0, 0, 0]);
/// // another name is not there; before that is known `n` is met a second time
/// assert_eq!(lent::find_attribute(document, 1, 25, 1, b"to", &mut answer), 24);
/// assert_eq!(answer, [0, 0, 0, 0, 0, 0, 20, 0, 3]);
/// ```
pub fn find_attribute(
    document: &[u8],
    from: usize,
    to: usize,
    name: usize,
    wanted: &[u8],
    answer: &mut [usize],
) -> usize {
    // SAFETY: pointers and counts are those of slices, so no pointer is null; the answer is lent exclusively, so it overlaps with nothing.
    unsafe {
        raw::sporebasket_find_attribute(
            document.as_ptr(),
            document.len(),
            from,
            to,
            name,
            wanted.as_ptr(),
            wanted.len(),
            answer.as_mut_ptr(),
            answer.len(),
        )
    }
}

/// Writes the character that a reference stands for into the buffer, from `at` on, as UTF-8, and writes the answer. The content is what stands between `&` and `;`: one of `lt`, `gt`, `amp`, `apos` and
/// `quot`, `#` and decimal digits, or `#x` and hexadecimal digits, any number of them.
///
/// 0: the answer's first slot is how many bytes were written, 1 to 4, and the second is 0. Every other byte of the buffer stays.
///
/// The first of these that is so is refused, and the buffer left as it was. 25: the content is none of these; 26: the number is that of no character of XML; 27: the bytes do not fit, or `at` is past the
/// buffer's end. Both slots are 0 then. 17, before all else: the answer has fewer than [`UNESCAPE_SLOTS`] slots, and nothing is written.
///
/// ```
/// use sporebasket::lent;
///
/// let (mut buffer, mut answer) = ([b'.'; 6], [0; lent::UNESCAPE_SLOTS]);
/// assert_eq!(lent::reference(b"#x2192", &mut buffer, 1, &mut answer), 0);
/// assert_eq!((&buffer, answer), (".\u{2192}..".as_bytes().try_into().unwrap(), [3, 0]));
///
/// assert_eq!(lent::reference(b"arr", &mut buffer, 7, &mut answer), 25);
/// assert_eq!(lent::reference(b"#xFFFE", &mut buffer, 7, &mut answer), 26);
/// assert_eq!(lent::reference(b"#x2192", &mut buffer, 4, &mut answer), 27);
/// assert_eq!((&buffer, answer), (".\u{2192}..".as_bytes().try_into().unwrap(), [0, 0]));
/// ```
pub fn reference(content: &[u8], buffer: &mut [u8], at: usize, answer: &mut [usize]) -> usize {
    // SAFETY: pointers and counts are those of slices, so no pointer is null; the two that are written to are lent exclusively, so they
    // overlap neither with each other nor with the content.
    unsafe {
        raw::sporebasket_reference(
            content.as_ptr(),
            content.len(),
            buffer.as_mut_ptr(),
            buffer.len(),
            at,
            answer.as_mut_ptr(),
            answer.len(),
        )
    }
}

/// The character of a reference, by its content, if it is one that [`reference()`] takes.
pub(crate) fn character(content: &str) -> Option<char> {
    let (mut buffer, mut answer) = ([0; 4], [0; UNESCAPE_SLOTS]);
    match reference(content.as_bytes(), &mut buffer, 0, &mut answer) {
        0 => str::from_utf8(buffer.get(..answer[0])?).ok()?.chars().next(),
        _ => None,
    }
}

/// Writes a content with references between into the buffer, from `at` on, and writes the answer: each reference, from `&` to the next `;`, is replaced by its character, and every other byte stands as it is.
///
/// 0: the answer's first slot is how many bytes were written, and the second is 0. Every other byte of the buffer stays. What is written is never longer than the content, and is UTF-8 where the content is.
///
/// The first fault from the left is refused, and the buffer left as it was; the first slot is 0 and the second the fault's place in the content. 25 and 26, at the `&`: as [`reference()`] has them, and 25 where
/// there is no `;`. 27, at the `&` or the byte: what is due does not fit, or the content is empty and `at` past the buffer's end. 17, before all else: the answer has fewer than
/// [`UNESCAPE_SLOTS`] slots, and nothing is written.
///
/// ```
/// use sporebasket::lent;
///
/// let (mut buffer, mut answer) = ([b'.'; 8], [0; lent::UNESCAPE_SLOTS]);
/// assert_eq!(lent::unescape(b"a &lt; b", &mut buffer, 0, &mut answer), 0);
/// assert_eq!((&buffer, answer), (b"a < b...", [5, 0]));
///
/// assert_eq!(lent::unescape(b"ab&zz;", &mut buffer, 0, &mut answer), 25);
/// assert_eq!(answer, [0, 2]);
/// // no room for `b`
/// assert_eq!(lent::unescape(b"ab&zz;", &mut buffer, 7, &mut answer), 27);
/// assert_eq!((&buffer, answer), (b"a < b...", [0, 1]));
/// ```
pub fn unescape(content: &[u8], buffer: &mut [u8], at: usize, answer: &mut [usize]) -> usize {
    // SAFETY: pointers and counts are those of slices, so no pointer is null; the two that are written to are lent exclusively, so they
    // overlap neither with each other nor with the content.
    unsafe {
        raw::sporebasket_unescape(
            content.as_ptr(),
            content.len(),
            buffer.as_mut_ptr(),
            buffer.len(),
            at,
            answer.as_mut_ptr(),
            answer.len(),
        )
    }
}

/// [`unescape`] of a string to one that is as long at most, or the number of the refusal and its place.
///
/// What is written is UTF-8, since the content is: that is the theorem `what-a-call-writes-is-well-formed` (docs/PROMISES.md). So it is not checked once more, but with the feature `checked`.
pub(crate) fn unescaped(content: &str) -> Result<String, (usize, usize)> {
    let (mut buffer, mut answer) = (vec![0; content.len()], [0; UNESCAPE_SLOTS]);
    match unescape(content.as_bytes(), &mut buffer, 0, &mut answer) {
        0 => buffer.truncate(answer[0]),
        number => return Err((number, answer[1])),
    }
    if cfg!(feature = "checked") {
        return Ok(String::from_utf8(buffer).expect("what a string gives is UTF-8"));
    }
    // SAFETY: these are the bytes that the call above wrote for a content that is UTF-8, and those are UTF-8.
    Ok(unsafe { String::from_utf8_unchecked(buffer) })
}

/// Reads the whole document from its start with the default settings, and fills the column with the times within `t`, each as its minutes; writes the answer, and the
/// stack as the calls of a reader do. [`mod@crate::column`] says what a time is.
///
/// The answer's first [`COLUMN_SLOTS`] slots are how many times stand in the column; the first index whose time is lower than the one before it, or 0; and the number,
/// the place, the piece, the expected name and the one found of the refusal that ended the reading, or 0. Slots of the column past the count are left alone, and
/// the times before a refusal stay.
///
/// 30: text or a reference within `t` that is no time; 31: the column is full, and one more time stands there; 15: the stack is full. After 15 or 31 lend a longer one
/// and call again: the document is read from its start. No column needs more slots than a fifth of the document's bytes. 16: the document is too long, and
/// nothing but the answer is written; 17: the answer has too few slots, and nothing is written.
///
/// ```
/// use sporebasket::lent;
///
/// let document = b"<t>23:50</t> <t> 00:10 </t> <t>24:15</t>";
/// let mut answer = [0; lent::COLUMN_SLOTS];
/// let mut stack = [0; lent::NAME_SLOTS];
/// let mut column = [0; 4];
/// assert_eq!(lent::column(document, &mut stack, &mut column, &mut answer), 0);
/// // three times, of which that at index 1 is lower than the one before it
/// assert_eq!((column, &answer[..2]), ([1430, 10, 1455, 0], &[3, 1][..]));
///
/// // a column for two: 31 at 31, the piece of the third
/// assert_eq!(lent::column(document, &mut stack, &mut column[..2], &mut answer), 31);
/// assert_eq!(answer, [2, 1, 31, 31, 31, 36, 0, 0, 0, 0]);
/// ```
pub fn column(document: &[u8], stack: &mut [usize], column: &mut [usize], answer: &mut [usize]) -> usize {
    // SAFETY: pointers and counts are those of slices, so no pointer is null; the three that are written to are lent exclusively, so they
    // overlap neither with each other nor with the document.
    unsafe {
        raw::sporebasket_column(
            document.as_ptr(),
            document.len(),
            stack.as_mut_ptr(),
            stack.len(),
            column.as_mut_ptr(),
            column.len(),
            answer.as_mut_ptr(),
            answer.len(),
        )
    }
}

/// Makes a scan that has taken nothing, in the first [`SCAN_SLOTS`] slots: state, count, left and seen. The states to begin in are 1, a piece that its first bytes tell; 4, a tag; 7, a processing instruction;
/// 8, a comment; 9, a CDATA section; and 11, text.
///
/// 17: any other state, or fewer slots. Then nothing is written.
///
/// ```
/// use sporebasket::lent;
///
/// let mut scan = [9; lent::SCAN_SLOTS];
/// assert_eq!(lent::scan(5, &mut scan), 17);
/// // a comment, with four bytes of its opener to pass
/// assert_eq!(lent::scan(8, &mut scan), 0);
/// assert_eq!(scan, [8, 0, 4, 0]);
/// ```
pub fn scan(state: usize, scan: &mut [usize]) -> usize {
    // SAFETY: pointer and count are those of a slice, so the pointer is not null; the scan is lent exclusively.
    unsafe { raw::sporebasket_scan(state, scan.as_mut_ptr(), scan.len()) }
}

/// Goes on with a scan over the next piece of what it looks through, and writes the scan. Its first slot is then 0 if the byte was found that it looks for, and the second that byte's place, counted from the
/// first byte of the first piece; else the second is how many bytes were taken. After the byte was found pieces of any length change nothing. [`feed`](crate::feed) says what is looked for.
///
/// For any cutting of the same bytes, at most [`LONGEST`] of them, into pieces, empty ones included, the slots at the end are those for the bytes in one piece: that is proved (docs/PROMISES.md).
///
/// 17, before all else: fewer than [`SCAN_SLOTS`] slots, or numbers that no feeding leads to; the header has the rule. 16: the byte was not found, and the bytes with this piece are more than [`LONGEST`]. Both
/// leave the scan as it was.
///
/// ```
/// use sporebasket::lent;
///
/// let mut scan = [0; lent::SCAN_SLOTS];
/// assert_eq!(lent::scan(1, &mut scan), 0);
/// assert_eq!(lent::feed(b"<!--a-", &mut scan), 0);
/// // in a comment (8), of whose closer the last byte may be one
/// assert_eq!(scan, [8, 6, 0, 1]);
/// assert_eq!(lent::feed(b"", &mut scan), 0);
/// assert_eq!(lent::feed(b"->b", &mut scan), 0);
/// // the `>`
/// assert_eq!(scan, [0, 7, 0, 0]);
/// ```
#[inline]
pub fn feed(piece: &[u8], scan: &mut [usize]) -> usize {
    // SAFETY: pointers and counts are those of slices, so no pointer is null; the scan is lent exclusively, so it overlaps with nothing.
    unsafe { raw::sporebasket_feed(piece.as_ptr(), piece.len(), scan.as_mut_ptr(), scan.len()) }
}
