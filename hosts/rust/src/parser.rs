//! quick-xml's parsers of markup that comes in pieces, under its names, over the archive's proved scans.
//!
//! A parser is fed piece by piece, and tells where in the latest one the markup ends. Its state is what stands in it, so that it may be copied, and made as it is after any bytes. For bytes in one piece
//! each answers what quick-xml's does. For any cutting, empty pieces included, it answers as for the bytes in one piece; quick-xml's do not: `PiParser(true)` forgets its `?` on an empty piece, and
//! `CommentParser` takes `x-` for `--` after a hyphen or two.
//!
//! [`feed::Scan`](crate::feed::Scan) does more: it counts places from the first piece, knows the opener of a comment, and finds out by itself what markup it is; [`feed::Feeder`](crate::feed::Feeder) reads whole documents.

use crate::errors::SyntaxError;
use crate::feed::State;
use crate::lent::{self, LONGEST, SCAN_SLOTS};
use crate::raw::scan;

/// What finds the end of a piece of markup.
pub trait Parser {
    /// Goes on over the next piece. Gives the place of the end in it, or none if the end is not there yet.
    ///
    /// After the end was found the parser should not be used.
    fn feed(&mut self, bytes: &[u8]) -> Option<usize>;

    /// What is wrong if the input ends before the end was found. The content is what was read up to there, from the `<` on.
    fn eof_error(self, content: &[u8]) -> SyntaxError;
}

/// Finds the `>` of a tag: the first outside of quotes.
///
/// ```
/// use sporebasket::parser::{ElementParser, Parser};
///
/// let mut parser = ElementParser::default();
/// assert_eq!(parser.feed(b"<r n='1"), None);
/// assert_eq!(parser, ElementParser::SingleQ);
/// assert_eq!(parser.feed(b">2"), None);
/// assert_eq!(parser.feed(b"'>06:15"), Some(1));
/// ```
#[derive(Clone, Copy, Debug, Default, Eq, PartialEq)]
pub enum ElementParser {
    /// Outside of quotes.
    #[default]
    Outside,
    /// Within `'`.
    SingleQ,
    /// Within `"`.
    DoubleQ,
}

impl Parser for ElementParser {
    /// The place of the `>` in these bytes.
    fn feed(&mut self, bytes: &[u8]) -> Option<usize> {
        let state = match self {
            Self::Outside => State::Tag,
            Self::SingleQ => State::SingleQuoted,
            Self::DoubleQ => State::DoubleQuoted,
        };
        let fed = fed(state, 0, bytes);
        *self = match fed {
            Err((State::SingleQuoted, _)) => Self::SingleQ,
            Err((State::DoubleQuoted, _)) => Self::DoubleQ,
            _ => Self::Outside,
        };
        fed.ok()
    }

    fn eof_error(self, _content: &[u8]) -> SyntaxError {
        match self {
            Self::Outside => SyntaxError::UnclosedTag,
            Self::SingleQ => SyntaxError::UnclosedSingleQuotedAttributeValue,
            Self::DoubleQ => SyntaxError::UnclosedDoubleQuotedAttributeValue,
        }
    }
}

/// Finds the `?>` of a processing instruction.
///
/// ```
/// use sporebasket::parser::{Parser, PiParser};
///
/// let mut parser = PiParser::default();
/// assert_eq!(parser.feed(b"<?a b?"), None);
/// assert_eq!(parser.feed(b""), None);
/// assert_eq!(parser, PiParser(true));
/// assert_eq!(parser.feed(b">06:15"), Some(0));
/// ```
#[derive(Clone, Copy, Debug, Default, Eq, PartialEq)]
pub struct PiParser(
    /// Whether the last byte that was fed is a `?`.
    pub bool,
);

impl Parser for PiParser {
    /// The place of the `>` in these bytes.
    fn feed(&mut self, bytes: &[u8]) -> Option<usize> {
        match fed(State::Pi, usize::from(self.0), bytes) {
            Ok(place) => Some(place),
            Err((_, seen)) => {
                self.0 = seen == 1;
                None
            }
        }
    }

    /// That of an XML declaration where the content is one, as far as it goes.
    fn eof_error(self, content: &[u8]) -> SyntaxError {
        match content.strip_prefix(b"<?xml") {
            Some([] | [b' ' | b'\t' | b'\n' | b'\r' | b'?', ..]) => SyntaxError::UnclosedXmlDecl,
            _ => SyntaxError::UnclosedPI,
        }
    }
}

/// Finds the `-->` of a comment. It knows nothing of the opener: of `<!-->`, fed whole, it takes both hyphens for the closer's.
///
/// ```
/// use sporebasket::parser::{CommentParser, Parser};
///
/// let mut parser = CommentParser::default();
/// assert_eq!(parser.feed(b"<!--a-"), None);
/// assert_eq!(parser.feed(b"b-"), None);
/// assert_eq!(parser, CommentParser::Seen1);
/// assert_eq!(parser.feed(b"->06:15"), Some(2));
/// ```
#[derive(Clone, Copy, Debug, Default, Eq, PartialEq)]
pub enum CommentParser {
    /// The last byte that was fed is no hyphen.
    #[default]
    Seen0,
    /// The last byte that was fed is a hyphen, and the one before it is none.
    Seen1,
    /// The last two bytes that were fed are hyphens.
    Seen2,
}

impl Parser for CommentParser {
    /// The place behind the `>` in these bytes.
    fn feed(&mut self, bytes: &[u8]) -> Option<usize> {
        match fed(State::Comment, *self as usize, bytes) {
            Ok(place) => Some(place + 1),
            Err((_, seen)) => {
                *self = match seen {
                    0 => Self::Seen0,
                    1 => Self::Seen1,
                    _ => Self::Seen2,
                };
                None
            }
        }
    }

    fn eof_error(self, _content: &[u8]) -> SyntaxError {
        SyntaxError::UnclosedComment
    }
}

/// How many bytes a parser is taken to have been fed before: an opener of four bytes and two marks, so that a scan may be in any of the states above.
const BEFORE: usize = 6;

/// Goes on over these bytes with a scan in this state that has seen so many marks. Gives the place found in them, or the state and the marks seen behind them. There may be more of them than one scan
/// takes: then they are fed in parts, which is the same.
fn fed(state: State, seen: usize, bytes: &[u8]) -> Result<usize, (State, usize)> {
    let mut slots = [0; SCAN_SLOTS];
    slots[scan::STATE] = state as usize;
    slots[scan::SEEN] = seen;
    let mut at = 0;
    loop {
        let part = &bytes[at..];
        let part = &part[..part.len().min(LONGEST - BEFORE)];
        slots[scan::COUNT] = BEFORE;
        lent::feed(part, &mut slots);
        let state = State::numbered(slots[scan::STATE]);
        if state == State::Closed {
            return Ok(at + slots[scan::COUNT] - BEFORE);
        }
        at += part.len();
        if at == bytes.len() {
            return Err((state, slots[scan::SEEN]));
        }
    }
}
