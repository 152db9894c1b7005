//! The release check: reads each document that is named by both engines of the archive, the main one and the plain one, call by call, each with memory of its own. After every call it compares the number that was answered, and all slots of
//! the answer, the state and the stack. It prints what the plain engine tells: the lines of the example `events`, with the same options. To standard error it says how many calls were compared.
//!
//! With `--all` before the files it prints no lines, but reads each document with all of the 512 settings, and says how many calls were compared.
//!
//! Where the engines differ it says of the first such call what each of them answered and left, and ends with 1; so it does where no end of file comes by call number length + 2. It ends with 2 where a document can't be read, or is too long for any reader.

mod beside;
mod input;
mod lines;
mod words;

use beside::{Beside, Fault, Lent};
use lines::{Asked, Told};
use sporebasket::lent::{self, FILLED_SLOTS, MOST_NAMES, ROW_SLOTS};
use std::ffi::OsString;
use std::io::{self, Write};
use std::{env, fmt, process};

/// How many settings there are: each of the nine on or off.
const SETTINGS: usize = 512;

/// The bit of `check_open_names`.
const CHECK_OPEN_NAMES: usize = 256;

/// Why a document is not read to its end.
enum Failure {
    Read(io::Error),
    Write(io::Error),
    /// The number of the refusal to make a reader over it.
    Refused(usize),
    Fault(Fault),
}

impl From<io::Error> for Failure {
    fn from(error: io::Error) -> Self {
        Failure::Write(error)
    }
}

impl fmt::Display for Failure {
    fn fmt(&self, f: &mut fmt::Formatter<'_>) -> fmt::Result {
        match self {
            Failure::Read(error) | Failure::Write(error) => error.fmt(f),
            Failure::Refused(number) => write!(f, "refused {number}"),
            Failure::Fault(fault) => fault.fmt(f),
        }
    }
}

/// Reads a document by both engines, and hands on what the plain one answered and left. Gives how many calls were compared.
fn compare(document: &[u8], settings: usize, mut told: impl FnMut(&Lent) -> io::Result<()>) -> Result<usize, Failure> {
    let engines = (lent::read_event, lent::plain_read_event);
    let mut beside = Beside::new(document, settings, MOST_NAMES, engines).map_err(Failure::Refused)?;
    while let Some(plain) = beside.call().map_err(Failure::Fault)? {
        told(plain)?;
    }
    Ok(beside.calls())
}

/// The lines of an answer.
fn say(document: &[u8], plain: &Lent, asked: Asked, out: &mut impl Write) -> io::Result<()> {
    let [_, number, place, from, to, ..] = plain.answer;
    if number != 0 {
        lines::refusal(number, place, out)?;
        return rows(plain, asked, out);
    }
    let told = Told::by_slots(&plain.answer);
    told.say(from..to, document, asked, out)?;
    match told.is_end() {
        true => rows(plain, asked, out),
        false => Ok(()),
    }
}

/// The open names, if they are asked for.
fn rows(plain: &Lent, asked: Asked, out: &mut impl Write) -> io::Result<()> {
    if asked != Asked::Rows {
        return Ok(());
    }
    let (mut rows, mut filled) = (vec![[0; ROW_SLOTS]; plain.state[2]], [0; FILLED_SLOTS]);
    lent::open_rows(&plain.stack, &plain.state, rows.as_flattened_mut(), &mut filled);
    rows.into_iter()
        .take(filled[0])
        .try_for_each(|row| lines::row(row, out))
}

/// Reads a document with the settings that are asked for, and lists what the plain engine tells.
fn list(document: &[u8], asked: Asked, out: &mut impl Write) -> Result<usize, Failure> {
    let checked = if asked == Asked::CheckOpenNames {
        CHECK_OPEN_NAMES
    } else {
        0
    };
    compare(document, lent::default_settings() | checked, |plain| {
        say(document, plain, asked, out)
    })
}

/// Reads a document with all settings.
fn with_all(document: &[u8]) -> Result<usize, Failure> {
    (0..SETTINGS)
        .map(|settings| compare(document, settings, |_| Ok(())))
        .sum()
}

/// Reads the document that is named, and says how many calls were compared. One that is too long is told as `events` tells it, and is a failure: no engine read it.
fn check(file: &OsString, asked: Option<Asked>, out: &mut impl Write) -> Result<(), Failure> {
    let name = file.to_string_lossy();
    let document = input::document(Some(file.clone())).map_err(Failure::Read)?;
    let compared = match asked {
        Some(asked) => list(&document, asked, out),
        None => with_all(&document),
    };
    match compared {
        Ok(calls) if asked.is_none() => writeln!(out, "{name}: {calls} calls compared, with {SETTINGS} settings")?,
        Ok(calls) => {
            out.flush()?;
            eprintln!("release: {name}: {calls} calls compared");
        }
        Err(failure) => {
            if let Failure::Refused(number) = failure {
                lines::refusal(number, 0, out)?;
            }
            return Err(failure);
        }
    }
    Ok(())
}

/// What is asked for, or none where that is all settings, and the files that are named. There has to be one, and none that could be an option.
fn asked() -> Option<(Option<Asked>, Vec<OsString>)> {
    let mut words = env::args_os().skip(1).peekable();
    let all = words.next_if(|word| word == "--all");
    let asked = all.is_none().then(|| lines::asked(&mut words));
    let files: Vec<OsString> = words.collect();
    let is_option = |file: &OsString| file.as_encoded_bytes().starts_with(b"--");
    (!files.is_empty() && !files.iter().any(is_option)).then_some((asked, files))
}

fn main() {
    let Some((asked, files)) = asked() else {
        eprintln!("usage: release [--all | --check-open-names | --attributes | --references | --rows] FILE..");
        process::exit(2);
    };
    let mut out = io::BufWriter::new(io::stdout().lock());
    let mut code = 0;
    for file in &files {
        let checked = check(file, asked, &mut out);
        let written = out.flush().map_err(Failure::Write);
        if let Err(failure) = written.and(checked) {
            eprintln!("release: {}: {failure}", file.to_string_lossy());
            match failure {
                Failure::Fault(_) => process::exit(1),
                Failure::Write(_) => process::exit(2),
                Failure::Read(_) | Failure::Refused(_) => code = 2,
            }
        }
    }
    process::exit(code);
}
