//! Prints the numbers of the trains in a timetable, from a file or standard input: the value of `n` of each element `r` that has one, with its references replaced, a line to
//! each; `refused`, a number and a place, for what is refused; and how many trains there are.

mod input;

use sporebasket::errors::{Error, Refused};
use sporebasket::events::{BytesStart, Event};
use sporebasket::ext::{AttrErrorExt, ErrorExt, EventExt, StrExt};
use sporebasket::name::QName;
use sporebasket::{lent, Reader};
use std::io::{self, Write};
use std::ops::Range;
use std::{env, process};

/// The number of a train, if it has one, or the number of a refusal and its place in the document.
fn number(document: &[u8], tag: &BytesStart) -> Result<Option<String>, (u8, usize)> {
    let content = tag.place().map_or(0..0, |place| place.content);
    let found = tag.try_get_attribute("n");
    let Some(found) = found.map_err(|error| (error.number(), content.start + error.position()))? else {
        return Ok(None);
    };
    let number = found.value.unescaped().map(|number| Some(number.into_owned()));
    number.map_err(|refused| (refused.number, value_start(document, content, tag) + refused.position))
}

/// Where the value of `n` begins in the document.
fn value_start(document: &[u8], content: Range<usize>, tag: &BytesStart) -> usize {
    let mut answer = [0; lent::ATTRIBUTE_SLOTS];
    lent::find_attribute(
        document,
        content.start,
        content.end,
        tag.name().as_ref().len(),
        b"n",
        &mut answer,
    );
    answer[3]
}

fn list(document: &[u8], out: &mut impl Write) -> io::Result<()> {
    let mut reader = Reader::from_reader(document);
    let mut trains = 0;
    loop {
        match reader.read_event() {
            Ok(Event::Start(tag) | Event::Empty(tag)) if tag.name() == QName("r") => match number(document, &tag) {
                Ok(Some(number)) => {
                    writeln!(out, "{number}")?;
                    trains += 1;
                }
                Ok(None) => (),
                Err((number, place)) => writeln!(out, "refused {number} {place}")?,
            },
            Ok(Event::Eof) => break,
            Ok(_) => (),
            Err(error) => {
                let number = error.number().unwrap_or_default();
                writeln!(out, "refused {number} {}", reader.error_position())?;
                // here no end of file comes
                if matches!(error, Error::Refused(Refused::SliceTooLong)) {
                    break;
                }
            }
        }
    }
    writeln!(out, "{trains} trains")
}

fn main() {
    let mut out = io::BufWriter::new(io::stdout().lock());
    let done = input::document(env::args_os().nth(1))
        .and_then(|document| list(&document, &mut out))
        .and_then(|()| out.flush());
    if let Err(error) = done {
        eprintln!("trains: {error}");
        process::exit(2);
    }
}
