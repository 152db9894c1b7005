//! The crate's side: its slice reader, and what one call of it answers, in our numbers.

use crate::ours::*;
use quick_xml::encoding::EncodingError;
use quick_xml::errors::{Error, IllFormedError, SyntaxError};
use quick_xml::events::Event;
use quick_xml::reader::{Config, Reader};

/// What stands in the crate for 14, which is ours alone: a DOCTYPE's event or error.
pub const THEIR_DOCTYPE: usize = DOCTYPE;
/// An error that the reader is not known to give.
pub const UNKNOWN: usize = 99;

pub struct Theirs<'a> {
    reader: Reader<&'a [u8]>,
    document: &'a [u8],
    /// What a byte order mark adds to the crate's positions.
    pub mark: usize,
}

/// One answer of the crate. Positions are the crate's own, without the byte order mark.
#[derive(Default)]
pub struct Seen {
    pub kind: usize,
    pub number: usize,
    /// Where the content lies in the document, if it is a part of it.
    pub content: Option<(usize, usize)>,
    pub name: usize,
    /// The name of an End that the crate made up, the expected name of 10.
    pub made: String,
    /// The name found of 10 and 11.
    pub found: String,
    /// How many bytes of its piece 13 says are well formed.
    pub good: usize,
}

impl<'a> Theirs<'a> {
    /// A reader of the crate, by the settings that it has.
    pub fn new(document: &'a [u8], settings: u16) -> Self {
        let mut reader = Reader::from_reader(document);
        set(reader.config_mut(), settings);
        let mark = if document.starts_with(ORDER_MARK) { ORDER_MARK.len() } else { 0 };
        Self { reader, document, mark }
    }

    pub fn phase(&self) -> usize {
        self.reader.phase()
    }

    pub fn position(&self) -> usize {
        self.reader.buffer_position() as usize
    }

    /// The place of the last error, 0 before there is one.
    pub fn place(&self) -> usize {
        self.reader.error_position() as usize
    }

    pub fn open_names(&self) -> (&str, &[usize]) {
        self.reader.open_names()
    }

    pub fn depth(&self) -> usize {
        self.reader.open_names().1.len()
    }

    /// What the crate has yet to read.
    pub fn rest(&self) -> &'a [u8] {
        self.reader.get_ref()
    }

    pub fn read(&mut self) -> Seen {
        match self.reader.read_event() {
            Ok(event) => self.event(event),
            Err(error) => refusal(error),
        }
    }

    fn event(&self, event: Event<'a>) -> Seen {
        match &event {
            Event::Start(e) => self.part(START, e, e.name().as_ref().len()),
            Event::Empty(e) => self.part(EMPTY, e, e.name().as_ref().len()),
            Event::Decl(e) => self.part(DECL, e, if e.starts_with("xml") { 3 } else { 0 }),
            Event::PI(e) => self.part(PI, e, e.target().len()),
            Event::End(e) if self.place_of(e).is_some() => self.part(END, e, e.name().as_ref().len()),
            Event::End(e) => Seen { kind: END, name: e.name().as_ref().len(), made: e.to_string(), ..Seen::default() },
            Event::Text(e) => self.part(TEXT, e, 0),
            Event::GeneralRef(e) => self.part(REF, e, 0),
            Event::Comment(e) => self.part(COMMENT, e, 0),
            Event::CData(e) => self.part(CDATA, e, 0),
            Event::DocType(_) => Seen { number: THEIR_DOCTYPE, ..Seen::default() },
            Event::Eof => Seen { kind: EOF, ..Seen::default() },
        }
    }

    /// An event whose content is a part of the document; one that is not has its ends past all bytes, which no answer has.
    fn part(&self, kind: usize, content: &str, name: usize) -> Seen {
        let content = self.place_of(content).unwrap_or((usize::MAX, usize::MAX));
        Seen { kind, content: Some(content), name, ..Seen::default() }
    }

    /// Where a part of the document lies in it, by the addresses.
    fn place_of(&self, content: &str) -> Option<(usize, usize)> {
        let from = (content.as_ptr() as usize).checked_sub(self.document.as_ptr() as usize)?;
        let to = from.checked_add(content.len())?;
        (to <= self.document.len()).then_some((from, to))
    }
}

fn set(config: &mut Config, settings: u16) {
    config.allow_dangling_amp = settings & DANGLING != 0;
    config.allow_unmatched_ends = settings & UNMATCHED != 0;
    config.check_comments = settings & COMMENTS != 0;
    config.check_end_names = settings & NAMES != 0;
    config.expand_empty_elements = settings & EXPAND != 0;
    config.trim_markup_names_in_closing_tags = settings & TRIM_NAMES != 0;
    config.trim_text_start = settings & TRIM_START != 0;
    config.trim_text_end = settings & TRIM_END != 0;
}

/// The crate's own default settings, as our bits.
pub fn default_settings() -> usize {
    let config = Config::default();
    (0..=THEIR_ALL)
        .find(|&settings| {
            let mut other = Config::default();
            set(&mut other, settings);
            other == config
        })
        .map_or(UNKNOWN, usize::from)
}

fn refusal(error: Error) -> Seen {
    let mut seen = Seen::default();
    seen.number = match error {
        Error::Syntax(e) => syntax(e),
        Error::IllFormed(IllFormedError::DoubleHyphenInComment) => DOUBLE_HYPHEN,
        Error::IllFormed(IllFormedError::MismatchedEndTag { expected, found }) => {
            seen.made = expected;
            seen.found = found;
            MISMATCHED
        }
        Error::IllFormed(IllFormedError::UnmatchedEndTag(found)) => {
            seen.found = found;
            UNMATCHED_END
        }
        Error::IllFormed(IllFormedError::UnclosedReference) => 12,
        Error::IllFormed(IllFormedError::MissingDoctypeName) => THEIR_DOCTYPE,
        Error::Encoding(EncodingError::Utf8(e)) => {
            seen.good = e.valid_up_to();
            ENCODING
        }
        _ => UNKNOWN,
    };
    seen
}

fn syntax(error: SyntaxError) -> usize {
    match error {
        SyntaxError::UnclosedTag => 1,
        SyntaxError::UnclosedSingleQuotedAttributeValue => 2,
        SyntaxError::UnclosedDoubleQuotedAttributeValue => 3,
        SyntaxError::UnclosedComment => 4,
        SyntaxError::UnclosedCData => 5,
        SyntaxError::UnclosedPI => 6,
        SyntaxError::UnclosedXmlDecl => 7,
        SyntaxError::InvalidBangMarkup => 8,
        SyntaxError::UnclosedDoctype => THEIR_DOCTYPE,
    }
}
