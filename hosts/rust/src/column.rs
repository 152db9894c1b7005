//! The times of a timetable's column.
//!
//! A column is the times that stand within the elements `t` of a document, in its order. It may run past midnight: 24:10 is set after 23:50, and not under
//! the next day's heading.
//!
//! ```
//! use sporebasket::column::{column, read_column};
//!
//! let document = b"<row><t>23:50</t></row><row><t> 24:10<!-- request stop --></t></row>";
//! let times = column(document)?;
//! assert_eq!(times[1].to_string(), "24:10");
//! assert_eq!(times[1].minutes(), 24 * 60 + 10);
//! assert!(times[0] < times[1]);
//!
//! // 24:10 was set as 00:10
//! let set = read_column(b"<t>23:50</t><t>00:10</t>");
//! assert_eq!(set.lower, Some(1));
//! # Ok::<(), sporebasket::column::ColumnError>(())
//! ```
//!
//! - Text is within `t` where the latest open name is `t`: that of `<t>06:15</t>`, not that of `<t><b>06:15</b></t>`.
//! - White space at both ends of it does not count, and text that has nothing else is passed over.
//! - Any other text within `t` is a time, two digits, a colon and two digits from 00:00 to 47:59, or it is refused (30). So is a reference there.
//! - Comments, CDATA sections and whatever stands elsewhere are passed over.
//! - The document is read with the default settings of a [`Reader`](crate::Reader), and the first refusal ends the reading, be it one after which a
//!   [`Reader`](crate::Reader) could go on.
//! - Names that are open at the end are no refusal: of a document that was cut off the times before the cut are given.
//!   [`check_open_names`](crate::reader::Config::check_open_names) of a [`Reader`](crate::Reader) tells such a document.

use crate::errors::{owned, Error, Told};
use crate::ext::ErrorExt;
use crate::lent;
use crate::raw::column::{COUNT, EXPECTED, FOUND, LOWER, NUMBER, PIECE, PLACE};
use crate::raw::{COLUMN_SLOTS, MOST_NAMES, NAME_SLOTS};
use std::error;
use std::fmt;

pub use crate::time::{ParseTimeError, Time};

/// The times of a document's column, in its order; or why it is refused, with the times before that.
///
/// Whether they are in order is not asked here: [`read_column`] tells it.
///
/// ```
/// use sporebasket::column::{column, Time};
///
/// assert_eq!(column(b"<t>06:15</t>")?, [Time::new(6, 15).unwrap()]);
///
/// let error = column(b"<t>06:15</t><t>6:45</t>").unwrap_err();
/// assert_eq!(error.to_string(), "\"6:45\" is not a time from 00:00 to 47:59, at byte 15");
/// assert_eq!(error.times, [Time::new(6, 15).unwrap()]);
/// # Ok::<(), sporebasket::column::ColumnError>(())
/// ```
pub fn column(document: &[u8]) -> Result<Vec<Time>, ColumnError> {
    let Column { times, refusal, .. } = read_column(document);
    match refusal {
        None => Ok(times),
        Some(refusal) => Err(ColumnError { times, refusal }),
    }
}

/// The column of a document: all that can be said of it.
///
/// There is room for as many times as the document has, and for as many open names as [`MOST_NAMES`]. The room is taken as it is
/// needed, and where it was too little the document is read once more, with more of it: all readings together pass over fewer than five times its bytes.
///
/// ```
/// use sporebasket::column::read_column;
///
/// let column = read_column(b"<t>23:35</t><t>23:50</t><t>00:10</t><t>24:25</t></r>");
/// assert_eq!(column.times.len(), 4);
/// assert_eq!(column.lower, Some(2));
/// assert_eq!(column.refusal.map(|refusal| (refusal.number(), refusal.position())), Some((11, 48)));
/// ```
pub fn read_column(document: &[u8]) -> Column {
    let mut room = Room::new(document);
    let mut answer = [0; COLUMN_SLOTS];
    loop {
        let number = lent::column(document, &mut room.stack, &mut room.column, &mut answer);
        if !room.grow(number, answer[PIECE + 1]) {
            break;
        }
    }
    Column {
        times: room
            .column
            .iter()
            .take(answer[COUNT])
            .copied()
            .map(Time::of_slot)
            .collect(),
        lower: Some(answer[LOWER]).filter(|&index| index != 0),
        refusal: Refusal::told(document, &answer),
    }
}

/// What a document's column is.
///
/// ```
/// use sporebasket::column::read_column;
///
/// let column = read_column(b"<t>23:50</t><t>23:50</t><t>24:10</t>");
/// assert_eq!((column.times.len(), column.lower, column.refusal), (3, None, None));
/// ```
#[derive(Clone, Debug, PartialEq, Eq)]
#[non_exhaustive]
pub struct Column {
    /// The times, in the order of the document; where it is refused, those before that.
    pub times: Vec<Time>,
    /// The first index of the times at which one is lower than the one before it; none where they never decrease.
    pub lower: Option<usize>,
    /// What ended the reading before the end of the document, if something did.
    pub refusal: Option<Refusal>,
}

/// What ends the reading of a column before the end of its document, and where.
///
/// ```
/// use sporebasket::column::{read_column, Refusal};
/// use sporebasket::errors::{Error, SyntaxError};
///
/// let refusal = read_column(b"<t>6:15 h\n</t>").refusal;
/// assert_eq!(refusal, Some(Refusal::BadTime { text: "6:15 h\n".into(), position: 3 }));
///
/// let refusal = read_column(b"<t>06:15</t").refusal;
/// let error = Error::Syntax(SyntaxError::UnclosedTag);
/// assert_eq!(refusal, Some(Refusal::Reader { error, position: 8 }));
/// ```
#[derive(Clone, Debug, PartialEq, Eq)]
#[non_exhaustive]
pub enum Refusal {
    /// A refusal of the reader, 1 to 8 and 10 to 16.
    Reader {
        /// What a [`Reader`](crate::Reader) gives there.
        error: Error,
        /// Its place, as [`Reader::error_position`](crate::Reader::error_position) tells it.
        position: u64,
    },
    /// 30: text within `t` that is no time, or a reference there.
    BadTime {
        /// The text as it stands, with its white space, or the whole reference.
        text: String,
        /// Where it begins.
        position: u64,
    },
}

impl Refusal {
    /// The refusal of an answer, if it has one.
    fn told(document: &[u8], answer: &[usize; COLUMN_SLOTS]) -> Option<Self> {
        let bytes = |slot: usize| document.get(answer[slot]..answer[slot + 1]).unwrap_or_default();
        let position = answer[PLACE] as u64;
        Some(match answer[NUMBER] {
            0 => return None,
            BAD_TIME => Refusal::BadTime {
                text: owned(bytes(PIECE)),
                position,
            },
            number => {
                let told = Told {
                    piece: bytes(PIECE),
                    expected: bytes(EXPECTED),
                    found: bytes(FOUND),
                    // for 18 alone, which the default settings do not give
                    latest: &[],
                };
                let error = Error::numbered(number, told);
                Refusal::Reader { error, position }
            }
        })
    }

    /// The number of the refusal: the reader's, or 30.
    ///
    /// ```
    /// let refusal = sporebasket::column::read_column(b"<t>noon</t>").refusal.unwrap();
    /// assert_eq!(refusal.number(), 30);
    /// ```
    pub fn number(&self) -> u8 {
        match self {
            Refusal::Reader { error, .. } => error.number().unwrap_or(BAD_STATE),
            Refusal::BadTime { .. } => BAD_TIME as u8,
        }
    }

    /// The place of the refusal, to be shown to a user. Of 30 it is where the text or the reference begins, white space included.
    ///
    /// ```
    /// let refusal = sporebasket::column::read_column(b"<t> noon</t>").refusal.unwrap();
    /// assert_eq!(refusal.position(), 3);
    /// ```
    pub fn position(&self) -> u64 {
        match self {
            Refusal::Reader { position, .. } | Refusal::BadTime { position, .. } => *position,
        }
    }
}

/// Why a document's column was refused, and the times before that.
///
/// ```
/// use sporebasket::column::column;
/// use sporebasket::Error;
/// use std::error::Error as _;
///
/// let error = column(b"<t>06:15</t><t>06:45</r>").unwrap_err();
/// assert_eq!((error.number(), error.position()), (10, 20));
/// assert_eq!(error.times.len(), 2);
/// assert_eq!(error.to_string(), "ill-formed document: expected `</t>`, but `</r>` was found, at byte 20");
/// // the reader's own
/// let source = error.source().and_then(|source| source.downcast_ref::<Error>());
/// assert!(matches!(source, Some(Error::IllFormed(_))));
/// ```
#[derive(Clone, Debug, PartialEq, Eq)]
#[non_exhaustive]
pub struct ColumnError {
    /// The times before the refusal, in the order of the document.
    pub times: Vec<Time>,
    /// What was refused.
    pub refusal: Refusal,
}

impl ColumnError {
    /// The number of the refusal: the reader's, or 30.
    ///
    /// ```
    /// assert_eq!(sporebasket::column::column(b"<t>24:60</t>").unwrap_err().number(), 30);
    /// ```
    pub fn number(&self) -> u8 {
        self.refusal.number()
    }

    /// The place of the refusal, to be shown to a user.
    ///
    /// ```
    /// assert_eq!(sporebasket::column::column(b"<t>24:60</t>").unwrap_err().position(), 3);
    /// ```
    pub fn position(&self) -> u64 {
        self.refusal.position()
    }
}

impl fmt::Display for Refusal {
    fn fmt(&self, f: &mut fmt::Formatter<'_>) -> fmt::Result {
        match self {
            Refusal::Reader { error, position } => write!(f, "{error}, at byte {position}"),
            Refusal::BadTime { text, position } => {
                let text = text.trim_matches([' ', '\t', '\n', '\r']);
                match text.char_indices().nth(SHOWN) {
                    Some((end, _)) => write!(f, "{:?}..", &text[..end])?,
                    None => write!(f, "{text:?}")?,
                }
                write!(f, " is {ParseTimeError}, at byte {position}")
            }
        }
    }
}

impl fmt::Display for ColumnError {
    fn fmt(&self, f: &mut fmt::Formatter<'_>) -> fmt::Result {
        self.refusal.fmt(f)
    }
}

impl error::Error for Refusal {
    fn source(&self) -> Option<&(dyn error::Error + 'static)> {
        match self {
            Refusal::Reader { error, .. } => Some(error),
            Refusal::BadTime { .. } => None,
        }
    }
}

impl error::Error for ColumnError {
    fn source(&self) -> Option<&(dyn error::Error + 'static)> {
        self.refusal.source()
    }
}

/// How many characters of a text that is no time are told by a message.
const SHOWN: usize = 32;

/// The refusals for want of room, and that of text or a reference within `t`. With room for all times 31 does not come; if it came, it would be told as the
/// archive's fault (17).
const NAME_STACK_FULL: usize = 15;
const COLUMN_FULL: usize = 31;
const BAD_TIME: usize = 30;
const BAD_STATE: u8 = 17;

/// How many names and times there is room for at first.
const FIRST_NAMES: usize = 32;
const FIRST_TIMES: usize = 1024;

/// The memory that the archive is lent.
struct Room {
    stack: Vec<usize>,
    column: Vec<usize>,
    /// As many times as the document can have: each has five bytes.
    most_times: usize,
}

impl Room {
    fn new(document: &[u8]) -> Self {
        let most_times = document.len() / 5;
        Room {
            stack: vec![0; FIRST_NAMES * NAME_SLOTS],
            column: vec![0; FIRST_TIMES.min(most_times)],
            most_times,
        }
    }

    /// Makes more room, if a reading that refused with this number and came so far ended for want of it.
    ///
    /// For names there is then all that can be used. A column becomes longer by as many bytes as were read, eight to a slot. As a time has five, the next reading that
    /// ends there has come at least five eighths farther, and all that end there have together passed over less than three times as many bytes as the last
    /// of them. Slots are 0 as they come from the system, and cost little before they are filled.
    fn grow(&mut self, number: usize, read: usize) -> bool {
        let (room, slots) = match number {
            NAME_STACK_FULL => (&mut self.stack, MOST_NAMES * NAME_SLOTS),
            COLUMN_FULL => {
                let slots = self.column.len() + read / 8 + 1;
                (&mut self.column, slots.min(self.most_times))
            }
            _ => return false,
        };
        let more = room.len() < slots;
        if more {
            *room = vec![0; slots];
        }
        more
    }
}

#[cfg(test)]
mod tests {
    use super::{lent, Refusal, Room, COLUMN_SLOTS, COUNT, FIRST_NAMES, FIRST_TIMES, NUMBER, PIECE};

    /// How many bytes all readings of a document pass over, and the last answer.
    fn passed(document: &str) -> (usize, [usize; COLUMN_SLOTS]) {
        let mut room = Room::new(document.as_bytes());
        let mut answer = [0; COLUMN_SLOTS];
        let mut bytes = document.len();
        loop {
            let number = lent::column(document.as_bytes(), &mut room.stack, &mut room.column, &mut answer);
            let read = answer[PIECE + 1];
            if !room.grow(number, read) {
                return (bytes, answer);
            }
            bytes += read;
            assert!(room.column.len() <= FIRST_TIMES + 3 * read / 8);
        }
    }

    #[test]
    fn readings_for_want_of_room_pass_over_few_bytes() {
        let times = "<t>06:15</t>".repeat(60_000);
        let dense = "<t>".to_owned() + &"06:15<??>".repeat(60_000);
        let far = format!("<!--{}-->", "-".repeat(1_000_000));
        let spaces = format!("<t>06:15{}</t>", " ".repeat(1_000_000));
        let deep = "<a>".repeat(60_000);
        let head = "<t>06:15</t>".repeat(FIRST_TIMES);
        let open = "<a>".repeat(FIRST_NAMES);
        for (count, document) in [
            (60_000, times.clone()),
            (60_000, dense.clone()),
            (60_000, far.clone() + &times),
            (60_000, far.clone() + &dense),
            (60_000, far.clone() + &deep + &times),
            (60_000, far.clone() + &times + &deep),
            (FIRST_TIMES + 60_001, head.clone() + &spaces + &times),
            (60_000, open.clone() + &far + &deep[3 * FIRST_NAMES..] + &times),
            (FIRST_TIMES, head.clone() + &far),
        ] {
            let (bytes, answer) = passed(&document);
            assert_eq!((answer[NUMBER], answer[COUNT]), (0, count));
            assert!(bytes < 5 * document.len(), "{bytes} of {}", document.len());
        }
    }

    #[test]
    fn a_document_with_little_is_read_once() {
        for document in [
            "<t>06:15</t>".repeat(FIRST_TIMES),
            "<t>06:15".repeat(FIRST_NAMES),
            "<a>".repeat(FIRST_NAMES) + "b",
            "<t>06:15".to_owned(),
            String::new(),
        ] {
            assert_eq!(passed(&document).0, document.len());
        }
    }

    #[test]
    fn a_message_has_the_text_cleared_of_white_space_and_not_too_much_of_it() {
        let long = "é".repeat(33);
        for (text, said) in [
            (" \t6:15\r\n", "\"6:15\""),
            ("6\n15", "\"6\\n15\""),
            ("noon o'clock", "\"noon o'clock\""),
            ("\u{a0}06:15", "\"\\u{a0}06:15\""),
            ("&lt;", "\"&lt;\""),
            (&long[2..], &format!("{:?}", "é".repeat(32))),
            (&long, &format!("{:?}..", "é".repeat(32))),
        ] {
            let refusal = Refusal::BadTime {
                text: text.to_owned(),
                position: 7,
            };
            let wanted = format!("{said} is not a time from 00:00 to 47:59, at byte 7");
            assert_eq!(refusal.to_string(), wanted);
        }
    }
}
