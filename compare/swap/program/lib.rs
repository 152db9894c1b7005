//! A program over quick-xml's slice reader that writes down all that it is told. One source, compiled over quick-xml and over Sporebasket in its place.
//!
//! What it writes is lines, by their first character:
//!
//! | | |
//! |---|---|
//! | `>`, `<` | something begins, and ends |
//! | `=` | anything that is to be the same |
//! | `@` | `buffer_position`, `error_position` and how many bytes are yet to be read |
//! | `#` | a span |
//! | `!` | an error |
//! | `&` | the text of a dangling `&`, where texts are trimmed at their end |
//! | `%` | a text with a number sign, by the way in which its references are read, and what it gives |

#![forbid(unsafe_code)]

mod attributes;
mod events;
mod fixed;
mod parsers;
pub mod references;

pub use fixed::write_fixed;

use quick_xml::errors::Result;
use quick_xml::events::{BytesText, Event};
use quick_xml::name::QName;
use quick_xml::reader::{Config, Reader, Span};
use quick_xml::Error;
use std::error::Error as _;
use std::fmt::{self, Write};

/// Of so many events of a document everything is written, of the others less.
const WHOLE: usize = 60;
/// So many start tags are looked behind, and after them those whose number is a power of two.
const LOOKED_BEHIND: usize = 5;
/// A longer text is written by its ends, its length and a sum.
const LONG: usize = 600;
/// A buffer is cleared when it has so many bytes.
const FULL: usize = 64;

/// Where lines go.
pub struct Page<'o>(&'o mut String);

impl Page<'_> {
    /// A line. What would end it is written as two characters, and of a long one, but for a dangling `&` and a text with numbers, only some.
    fn line(&mut self, key: char, what: fmt::Arguments) {
        self.0.push(key);
        self.0.push(' ');
        let from = self.0.len();
        self.0.write_fmt(what).expect("a string takes all");
        if self.0.len() - from > LONG && !matches!(key, '&' | '%') {
            let brief = brief(&self.0[from..]);
            self.0.truncate(from);
            self.0.push_str(&brief);
        }
        if self.0[from..].contains('\n') {
            let whole = self.0[from..].replace('\n', "\\n");
            self.0.replace_range(from.., &whole);
        }
        self.0.push('\n');
    }
}

/// A text by its ends, its length and a sum.
fn brief(text: &str) -> String {
    let sum = text.bytes().fold(0xCBF2_9CE4_8422_2325_u64, |sum, b| (sum ^ u64::from(b)).wrapping_mul(0x100_0000_01B3));
    let head: String = text.chars().take(80).collect();
    let tail: String = text.chars().rev().take(80).collect();
    format!("{head} .. {} bytes, sum {sum:x} .. {tail}", text.len())
}

macro_rules! row {
    ($page:expr, $key:literal, $($what:tt)*) => {
        $page.line($key, format_args!($($what)*))
    };
}
pub(crate) use row;

/// Sets the flags of the crate by their bits.
fn set(config: &mut Config, settings: u16) {
    let on = |bit: u16| settings >> bit & 1 == 1;
    config.allow_dangling_amp = on(0);
    config.allow_unmatched_ends = on(1);
    config.check_comments = on(2);
    config.check_end_names = on(3);
    config.expand_empty_elements = on(4);
    config.trim_markup_names_in_closing_tags = on(5);
    config.trim_text_start = on(6);
    config.trim_text_end = on(7);
}

fn open(document: &[u8], settings: u16) -> Reader<&[u8]> {
    let mut reader = match std::str::from_utf8(document) {
        Ok(text) => Reader::from_str(text),
        Err(_) => Reader::from_reader(document),
    };
    set(reader.config_mut(), settings);
    reader
}

/// Reads a document in three ways, and feeds it to the parsers of markup.
pub fn write_document(document: &[u8], settings: u16, out: &mut String) {
    let mut page = Page(out);
    let reader = open(document, settings);
    plain(reader.clone(), &mut page);
    buffered(reader.clone(), &mut page);
    changing(reader, settings, &mut page);
    parsers::write(document, &mut page);
}

fn place<R>(reader: &Reader<R>) -> (u64, u64) {
    (reader.buffer_position(), reader.error_position())
}

fn position(reader: &Reader<&[u8]>, page: &mut Page) {
    let (at, error) = place(reader);
    row!(page, '@', "{at} {error} {}", reader.get_ref().len());
}

fn span(span: Span, page: &mut Page) {
    let std::ops::Range { start, end } = span;
    row!(page, '#', "{start} {end}");
}

fn error(error: &Error, page: &mut Page) {
    row!(page, '!', "{error:?}");
    row!(page, '=', "{error}, {:?}, {error:#?}", error.clone());
    let mut source = error.source();
    while let Some(inner) = source {
        row!(page, '=', "by {inner:?}: {inner}");
        source = inner.source();
    }
}

/// Whether white space at the end of this text is cut off, though it is no text between markup.
fn is_dangling(event: &Event, config: &Config) -> bool {
    config.allow_dangling_amp && config.trim_text_end && matches!(event, Event::Text(e) if e.starts_with('&'))
}

/// An event in one line, or an error.
fn brief_answer(answer: &Result<Event>, config: &Config, page: &mut Page) {
    match answer {
        Ok(event) if is_dangling(event, config) => row!(page, '&', "{:?}", &**event),
        Ok(event) => row!(page, '=', "{event:?}"),
        Err(e) => error(e, page),
    }
}

/// How many calls a document may take: as many as it has bytes, and three with the second end of file.
fn most_calls(reader: &Reader<&[u8]>) -> usize {
    reader.get_ref().len() + 3
}

/// Every event by `read_event`, and what comes behind some of the start tags.
fn plain(mut reader: Reader<&[u8]>, page: &mut Page) {
    row!(page, '>', "read_event");
    row!(page, '=', "{:?}", reader.config());
    position(&reader, page);
    // nothing was opened yet
    if !reader.get_ref().starts_with(b"\xEF\xBB\xBF") {
        behind(&reader, QName("a"), page);
        another(&reader, page);
    }
    let (mut starts, mut ends) = (0, 0);
    for call in 0..most_calls(&reader) {
        let answer = reader.read_event();
        match &answer {
            Ok(event) if call < WHOLE && !is_dangling(event, reader.config()) => events::write(event, page),
            _ => brief_answer(&answer, reader.config(), page),
        }
        position(&reader, page);
        if let Ok(Event::Start(e)) = &answer {
            starts += 1;
            if starts <= LOOKED_BEHIND || usize::is_power_of_two(starts) {
                behind(&reader, e.name(), page);
            }
            if starts == 1 {
                another(&reader, page);
            }
        }
        ends += usize::from(matches!(answer, Ok(Event::Eof)));
        if ends == 2 {
            break;
        }
    }
    row!(page, '=', "{:?}", reader.config());
    row!(page, '=', "{} bytes left", reader.into_inner().len());
    row!(page, '<', "");
}

/// What the three methods tell that read up to an end tag, each over a reader of its own.
fn behind(reader: &Reader<&[u8]>, name: QName, page: &mut Page) {
    apart(reader, "read_to_end", page, |reader, page| {
        end(reader.read_to_end(name), page);
        true
    });
    apart(reader, "read_text", page, |reader, page| {
        match reader.read_text(name) {
            Ok(text) => inner_text(text, page),
            Err(e) => error(&e, page),
        }
        true
    });
    apart(reader, "read_to_end_into", page, |reader, page| {
        let mut buf = b"before".to_vec();
        let answer = reader.read_to_end_into(name, &mut buf);
        if answer.is_ok() {
            row!(page, '=', "{}", buf.escape_ascii());
        }
        let over = is_syntax(&answer);
        end(answer, page);
        !over
    });
}

/// After a syntax error by a method with a buffer nothing more is written: what is then left to be read is listed as a difference.
fn is_syntax<T>(answer: &Result<T>) -> bool {
    matches!(answer, Err(Error::Syntax(_)))
}

/// The same of a name that is seldom there.
fn another(reader: &Reader<&[u8]>, page: &mut Page) {
    apart(reader, "read_to_end of another name", page, |reader, page| {
        end(reader.read_to_end(QName("b:c")), page);
        true
    });
}

fn end(answer: Result<Span>, page: &mut Page) {
    match answer {
        Ok(found) => span(found, page),
        Err(e) => error(&e, page),
    }
}

/// Does something with a copy of the reader and, where that answers true, reads on for two calls.
fn apart<'a>(reader: &Reader<&'a [u8]>, what: &str, page: &mut Page, run: impl FnOnce(&mut Reader<&'a [u8]>, &mut Page) -> bool) {
    row!(page, '>', "{what}");
    let config = reader.config();
    let mut reader = reader.clone();
    if !run(&mut reader, page) {
        row!(page, '<', "");
        return;
    }
    position(&reader, page);
    if reader.config() != config {
        row!(page, '=', "{:?}", reader.config());
    }
    for _ in 0..2 {
        let answer = reader.read_event();
        brief_answer(&answer, reader.config(), page);
        position(&reader, page);
    }
    row!(page, '<', "");
}

fn inner_text(text: BytesText, page: &mut Page) {
    row!(page, '=', "{text:?}");
    references::text(&text, page);
    row!(page, '=', "{:?}", text.into_inner());
}

/// Every event by `read_event_into`, each third by `read_event`, and what the buffer then holds.
fn buffered(mut reader: Reader<&[u8]>, page: &mut Page) {
    row!(page, '>', "read_event_into");
    position(&reader, page);
    let mut buf = b"before".to_vec();
    let mut ends = 0;
    for call in 0..most_calls(&reader) {
        if buf.len() > FULL {
            buf.clear();
        }
        let (from, config) = (buf.len(), reader.config().clone());
        let answer = if call % 3 == 2 { reader.read_event() } else { reader.read_event_into(&mut buf) };
        brief_answer(&answer, &config, page);
        ends += usize::from(matches!(answer, Ok(Event::Eof)));
        if is_syntax(&answer) {
            buf.clear();
            break;
        }
        row!(page, '=', "{from} and {}", buf[from..].escape_ascii());
        position(&reader, page);
        if ends == 2 {
            break;
        }
    }
    row!(page, '=', "{}", buf.escape_ascii());
    row!(page, '<', "");
}

/// Every event by `read_event`, with a flag turned over before each second call.
fn changing(mut reader: Reader<&[u8]>, mut settings: u16, page: &mut Page) {
    row!(page, '>', "changing settings");
    position(&reader, page);
    for call in 0..most_calls(&reader).min(WHOLE) {
        if call % 2 == 1 {
            settings ^= 1 << (call / 2 % 8);
            set(reader.config_mut(), settings);
        }
        let answer = reader.read_event();
        brief_answer(&answer, reader.config(), page);
        position(&reader, page);
        if matches!(answer, Ok(Event::Eof)) {
            break;
        }
    }
    row!(page, '=', "{:?}", reader.config());
    row!(page, '<', "");
}
