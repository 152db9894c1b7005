//! Lists the events of a document, from a file or standard input: a line to each answer, up to the end of file. Before the file's name may stand `--check-open-names`:
//! then a document that ends while names are open is refused (18) before its end of file; `--attributes`: then the attributes of a tag stand behind it, a line to
//! each; `--references`: then the bytes of its character stand behind a reference, in hexadecimal; or `--rows`: then the open names stand behind each refusal and behind the end of file, a line to each.
//!
//! With `--plain` before all that it reads by the plain engine, and prints the same.

mod input;
mod lines;
mod words;

use lines::{Asked, Told};
use sporebasket::errors::{Error, Refused};
use sporebasket::ext::ReaderExt;
use sporebasket::plain::{Engine, Main, Plain};
use sporebasket::reader::ReaderBy;
use std::io::{self, Write};
use std::{env, process};

fn list<E: Engine>(document: &[u8], asked: Asked, out: &mut impl Write) -> io::Result<()> {
    let mut reader = ReaderBy::<_, E>::from_reader(document);
    reader.config_mut().check_open_names = asked == Asked::CheckOpenNames;
    loop {
        match reader.read_event() {
            Ok(event) => {
                let told = Told::of(&event);
                told.say(reader.piece(), document, asked, out)?;
                if told.is_end() {
                    return rows(&reader, asked, out);
                }
            }
            Err(error) => {
                lines::refused(&error, reader.error_position(), out)?;
                rows(&reader, asked, out)?;
                // here no end of file comes
                if matches!(error, Error::Refused(Refused::SliceTooLong)) {
                    return Ok(());
                }
            }
        }
    }
}

/// The open names, if they are asked for.
fn rows<E: Engine>(reader: &ReaderBy<&[u8], E>, asked: Asked, out: &mut impl Write) -> io::Result<()> {
    match asked {
        Asked::Rows => lines::rows(reader.way_down(), out),
        _ => Ok(()),
    }
}

fn main() {
    let mut words = env::args_os().skip(1).peekable();
    let list = match words.next_if(|word| word == "--plain") {
        Some(_) => list::<Plain>,
        None => list::<Main>,
    };
    let asked = lines::asked(&mut words);
    let mut out = io::BufWriter::new(io::stdout().lock());
    let done = input::document(words.next())
        .and_then(|document| list(&document, asked, &mut out))
        .and_then(|()| out.flush());
    if let Err(error) = done {
        eprintln!("events: {error}");
        process::exit(2);
    }
}
