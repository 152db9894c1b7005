//! Prints the outline of a document, from a file or standard input: names and text, indented by depth, and each refusal with its line and column. Below a refusal stands the way down to it: the names that it
//! stands in, the outermost first, each with its line and column.

mod input;

use sporebasket::errors::{Error, Refused};
use sporebasket::events::Event;
use sporebasket::ext::ReaderExt;
use sporebasket::Reader;
use std::io::{self, Write};
use std::{env, fmt, process};

/// A place in the document, with its line and its column, both from 1. A column is a character.
struct Place {
    at: usize,
    line: usize,
    column: usize,
}

impl Place {
    const FIRST: Place = Place {
        at: 0,
        line: 1,
        column: 1,
    };

    /// The place of a byte further on. This one has to stand between two characters.
    fn go_on(&self, document: &[u8], at: usize) -> Place {
        let between = &document[self.at..at];
        let lines = between.iter().filter(|byte| **byte == b'\n').count();
        let (first, rest) = match between.iter().rposition(|byte| *byte == b'\n') {
            Some(end) => (1, &between[end + 1..]),
            None => (self.column, between),
        };
        Place {
            at,
            line: self.line + lines,
            column: first + String::from_utf8_lossy(rest).chars().count(),
        }
    }
}

impl fmt::Display for Place {
    fn fmt(&self, f: &mut fmt::Formatter<'_>) -> fmt::Result {
        write!(f, "{}:{}", self.line, self.column)
    }
}

/// What stands on the line of an event, if it has one.
fn shown(event: &Event) -> Option<String> {
    match event {
        Event::Start(tag) | Event::Empty(tag) => Some(format!("<{}>", tag.name().as_ref())),
        Event::Text(text) if text.is_empty() => None,
        Event::Text(_) | Event::CData(_) => Some(format!("{:?}", &**event)),
        Event::GeneralRef(reference) => Some(format!("&{};", &**reference)),
        _ => None,
    }
}

/// The way down to what was refused last: `in`, and each name with the place of its first byte. It is empty where no name is open.
fn way_down(reader: &Reader<&[u8]>) -> String {
    let document = reader.document();
    // a closing tag that was refused for its name has closed the one that it stands in
    let spans = reader.way_down().map(|row| row.span).chain(reader.expected());
    let (mut way, mut place) = (String::new(), Place::FIRST);
    for span in spans {
        place = place.go_on(document, span.start);
        let name = String::from_utf8_lossy(&document[span]);
        way += &format!("{} <{name}> {place}", if way.is_empty() { "in" } else { " >" });
    }
    way
}

fn outline(document: &[u8], out: &mut impl Write) -> io::Result<()> {
    let mut reader = Reader::from_reader(document);
    reader.config_mut().trim_text(true);
    reader.config_mut().enable_all_checks(true);
    reader.config_mut().check_open_names = true;
    loop {
        let indent = 2 * reader.depth();
        match reader.read_event() {
            Ok(Event::Eof) => break,
            Ok(event) => {
                if let Some(line) = shown(&event) {
                    writeln!(out, "{:indent$}{line}", "")?;
                }
            }
            Err(error) => {
                let place = Place::FIRST.go_on(document, reader.error_position() as usize);
                writeln!(out, "{:indent$}! {place}: {error}", "")?;
                let way = way_down(&reader);
                if !way.is_empty() {
                    writeln!(out, "{:indent$}! {way}", "")?;
                }
                // here no end of file comes
                if matches!(error, Error::Refused(Refused::SliceTooLong)) {
                    break;
                }
            }
        }
    }
    for name in reader.open_names().rev() {
        writeln!(out, "! <{}> is still open", name.as_ref())?;
    }
    Ok(())
}

fn main() {
    let mut out = io::BufWriter::new(io::stdout().lock());
    let done = input::document(env::args_os().nth(1))
        .and_then(|bytes| outline(&bytes, &mut out))
        .and_then(|()| out.flush());
    if let Err(error) = done {
        eprintln!("outline: {error}");
        process::exit(2);
    }
}
