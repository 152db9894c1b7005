//! The lines that the examples `events`, `chunks` and `release` print of a document's answers, and what their command lines ask for. Not all want all of it.
#![allow(dead_code)]

use crate::words::{word, WORDS};
use sporebasket::events::Event;
use sporebasket::ext::{ErrorExt, EventExt, WayDown};
use sporebasket::lent::{self, ATTRIBUTE_SLOTS, ROW_SLOTS, UNESCAPE_SLOTS};
use sporebasket::Error;
use std::ffi::OsString;
use std::io::{self, Write};
use std::iter::Peekable;
use std::ops::Range;

/// What is asked for besides the events.
#[derive(Clone, Copy, PartialEq)]
pub enum Asked {
    Nothing,
    CheckOpenNames,
    Attributes,
    References,
    Rows,
}

/// What is asked for, by the first of these words if it is an option, which is then taken.
pub fn asked(words: &mut Peekable<impl Iterator<Item = OsString>>) -> Asked {
    let asked = match words.peek().and_then(|word| word.to_str()) {
        Some("--check-open-names") => Asked::CheckOpenNames,
        Some("--attributes") => Asked::Attributes,
        Some("--references") => Asked::References,
        Some("--rows") => Asked::Rows,
        _ => Asked::Nothing,
    };
    if asked != Asked::Nothing {
        words.next();
    }
    asked
}

/// What an event tells, to be said when the reader can be asked again.
pub struct Told {
    said: &'static str,
    /// None of end of file.
    content: Option<Range<usize>>,
    name: usize,
    is_tag: bool,
    is_reference: bool,
}

impl Told {
    pub fn of(event: &Event) -> Self {
        Told {
            said: word(event),
            content: event.place().map(|place| place.content),
            name: name_len(event),
            is_tag: matches!(event, Event::Start(_) | Event::Empty(_)),
            is_reference: matches!(event, Event::GeneralRef(_)),
        }
    }

    /// The same by the slots of an event's answer.
    pub fn by_slots(answer: &[usize]) -> Self {
        let said = WORDS[answer[0]];
        Told {
            said,
            content: (said != "eof").then_some(answer[5]..answer[6]),
            name: answer[7],
            is_tag: matches!(said, "start" | "empty"),
            is_reference: said == "ref",
        }
    }

    pub fn is_end(&self) -> bool {
        self.content.is_none()
    }

    /// An event has its piece, its content and the length of its name.
    pub fn say(&self, piece: Range<usize>, document: &[u8], asked: Asked, out: &mut impl Write) -> io::Result<()> {
        let Told { said, name, .. } = self;
        let content = self.content.clone().unwrap_or(piece.start..piece.start);
        writeln!(
            out,
            "{said} {} {} {} {} {name}",
            piece.start, piece.end, content.start, content.end
        )?;
        match asked {
            Asked::Attributes if self.is_tag => attributes(document, content, *name, out),
            Asked::References if self.is_reference => character(document, piece, content, out),
            _ => Ok(()),
        }
    }
}

/// A refusal has its number and its place.
pub fn refused(error: &Error, place: u64, out: &mut impl Write) -> io::Result<()> {
    refusal(error.number().unwrap_or_default().into(), place as usize, out)
}

/// The same by its numbers.
pub fn refusal(number: usize, place: usize, out: &mut impl Write) -> io::Result<()> {
    writeln!(out, "refused {number} {place}")
}

/// The open names, the outermost first, have a line each.
pub fn rows(mut way: WayDown, out: &mut impl Write) -> io::Result<()> {
    way.try_for_each(|row| self::row([row.span.start, row.span.end, row.depth], out))
}

/// An open name has where it begins, where it ends, and its depth.
pub fn row([start, end, depth]: [usize; ROW_SLOTS], out: &mut impl Write) -> io::Result<()> {
    writeln!(out, "row {start} {end} {depth}")
}

/// How many bytes of its content are an event's name.
fn name_len(event: &Event) -> usize {
    match event {
        Event::Start(tag) | Event::Empty(tag) => tag.name().as_ref().len(),
        Event::End(tag) => tag.name().as_ref().len(),
        Event::Decl(_) => "xml".len(),
        Event::PI(instruction) => instruction.target().len(),
        _ => 0,
    }
}

/// An attribute has its name and its value; a refusal, after which there is none, its number and its place. All are places in the document, as the archive's own function
/// tells them.
fn attributes(document: &[u8], content: Range<usize>, name: usize, out: &mut impl Write) -> io::Result<()> {
    let mut answer = [0; ATTRIBUTE_SLOTS];
    let mut at = content.start + name;
    loop {
        let number = lent::attribute(document, content.start, content.end, name, at, &mut answer);
        let [found, name_from, name_to, value_from, value_to, next, place, ..] = answer;
        if number != 0 {
            return refusal(number, place, out);
        }
        if found == 0 {
            return Ok(());
        }
        writeln!(out, "attribute {name_from} {name_to} {value_from} {value_to}")?;
        at = next;
    }
}

/// A reference has the bytes of its character; a refusal its number and the place of the reference.
fn character(document: &[u8], piece: Range<usize>, content: Range<usize>, out: &mut impl Write) -> io::Result<()> {
    let (mut buffer, mut answer) = ([0; 4], [0; UNESCAPE_SLOTS]);
    match lent::reference(&document[content], &mut buffer, 0, &mut answer) {
        0 => {
            write!(out, "character")?;
            for byte in &buffer[..answer[0]] {
                write!(out, " {byte:02x}")?;
            }
            writeln!(out)
        }
        number => refusal(number, piece.start, out),
    }
}
