//! Prints the layout of documents, from files or standard input: in which part each byte stands. A line has the kind of a part, its start and its end: `mark` is the byte order mark, `white` white
//! space that was skipped; the others are the pieces of the answers, by the word of the event, or `refused` and the number. Then it says how many bytes are in which parts, and how many are left, if
//! a refusal ended the run; of several files, behind the name of the file. Of a document that is too long it says so.
//!
//! Every run is held to the account that the package keeps: no byte is set twice, and none dropped. If one fails, the program says where, and ends with 1.
//!
//! Before the names of the files may stand, in any order, `--quiet`: then the last line of each file is printed alone; `--trim`: then white space at both ends of text is cut off; `--expand`: then
//! empty elements are expanded; `--checks`: then comments and the names of closing tags are checked; `--check-open-names`: then a document that ends while names are open is refused (18).

mod input;
mod words;

use sporebasket::errors::{Error, Refused};
use sporebasket::events::Event;
use sporebasket::ext::{ErrorExt, Layout, LayoutError};
use sporebasket::Reader;
use std::ffi::{OsStr, OsString};
use std::io::{self, Write};
use std::ops::Range;
use std::{env, fmt, process};
use words::word;

/// What the command line asks for.
#[derive(Default)]
struct Asked {
    quiet: bool,
    trim: bool,
    expand: bool,
    checks: bool,
    check_open_names: bool,
}

impl Asked {
    /// The flag of an option, if this word is one.
    fn flag(&mut self, word: &OsStr) -> Option<&mut bool> {
        match word.to_str()? {
            "--quiet" => Some(&mut self.quiet),
            "--trim" => Some(&mut self.trim),
            "--expand" => Some(&mut self.expand),
            "--checks" => Some(&mut self.checks),
            "--check-open-names" => Some(&mut self.check_open_names),
            _ => None,
        }
    }

    fn reader<'a>(&self, document: &'a [u8]) -> Reader<&'a [u8]> {
        let mut reader = Reader::from_reader(document);
        let config = reader.config_mut();
        config.trim_text(self.trim);
        config.expand_empty_elements = self.expand;
        config.check_open_names = self.check_open_names;
        if self.checks {
            config.enable_all_checks(true);
        }
        reader
    }
}

/// What is asked for, and the files that are named.
fn asked() -> (Asked, Vec<OsString>) {
    let mut asked = Asked::default();
    let mut words = env::args_os().skip(1).peekable();
    while let Some(flag) = words.peek().and_then(|word| asked.flag(word)) {
        *flag = true;
        words.next();
    }
    (asked, words.collect())
}

/// Why a document is not laid out.
enum Failure {
    Read(io::Error),
    Write(io::Error),
    Layout(LayoutError),
    /// Nothing can be read from this byte on.
    Stuck(usize),
}

impl From<io::Error> for Failure {
    fn from(error: io::Error) -> Self {
        Failure::Write(error)
    }
}

impl From<LayoutError> for Failure {
    fn from(error: LayoutError) -> Self {
        Failure::Layout(error)
    }
}

impl fmt::Display for Failure {
    fn fmt(&self, f: &mut fmt::Formatter<'_>) -> fmt::Result {
        match self {
            Failure::Read(error) | Failure::Write(error) => error.fmt(f),
            Failure::Layout(error) => error.fmt(f),
            Failure::Stuck(place) => write!(f, "from byte {place} on nothing can be read"),
        }
    }
}

fn say(kind: &str, part: &Range<usize>, out: &mut impl Write) -> io::Result<()> {
    writeln!(out, "{kind} {} {}", part.start, part.end)
}

/// Prints the parts of a document, and gives what is to be said of them all.
fn lay(document: &[u8], asked: &Asked, out: &mut impl Write) -> Result<String, Failure> {
    let mut reader = asked.reader(document);
    let mut layout = Layout::new(document);
    loop {
        let answer = reader.read_event();
        // 17 does not come from a reader that is as it was left; it would come again for ever
        if let Err(Error::Refused(Refused::BadState)) = answer {
            return Err(Failure::Stuck(layout.left().start));
        }
        let parts = layout.add(&reader)?;
        if !asked.quiet {
            for (kind, part) in [("mark", &parts.mark), ("white", &parts.white)] {
                if !part.is_empty() {
                    say(kind, part, out)?;
                }
            }
            match &answer {
                Ok(event) => say(word(event), &parts.piece, out)?,
                Err(error) => {
                    let kind = format!("refused {}", error.number().unwrap_or_default());
                    say(&kind, &parts.piece, out)?;
                }
            }
        }
        match answer {
            Ok(Event::Eof) => return Ok(layout.to_string()),
            // here no end of file comes
            Err(Error::Refused(Refused::SliceTooLong)) => return Ok("too long: no byte is read".to_owned()),
            _ => (),
        }
    }
}

/// Lays out the document that is named, or standard input.
fn lay_file(file: Option<&OsString>, name: &str, asked: &Asked, out: &mut impl Write) -> Result<(), Failure> {
    let document = input::document(file.cloned()).map_err(Failure::Read)?;
    let said = lay(&document, asked, out)?;
    writeln!(out, "{name}{said}")?;
    Ok(())
}

fn main() {
    let (asked, files) = asked();
    let files: Vec<Option<&OsString>> = if files.is_empty() {
        vec![None]
    } else {
        files.iter().map(Some).collect()
    };
    let mut out = io::BufWriter::new(io::stdout().lock());
    let mut code = 0;
    for file in &files {
        let name = file.map_or_else(String::new, |file| format!("{}: ", file.to_string_lossy()));
        let shown = if files.len() > 1 { name.as_str() } else { "" };
        let laid = lay_file(*file, shown, &asked, &mut out);
        let written = out.flush().map_err(Failure::Write);
        if let Err(failure) = written.and(laid) {
            eprintln!("layout: {name}{failure}");
            code = match failure {
                Failure::Layout(_) | Failure::Stuck(_) => 1,
                Failure::Read(_) if code == 1 => 1,
                Failure::Read(_) => 2,
                Failure::Write(_) => process::exit(2),
            };
        }
    }
    process::exit(code);
}
