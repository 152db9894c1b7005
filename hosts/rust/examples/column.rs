//! Prints the column of times of a document, from a file or standard input: a time to a line; `refused`, a number and a place, if the document is refused; and how many
//! times there are, `in order` if they never decrease, else `lower at` and the first index, from 0, whose time is lower than the one before it.
//!
//! With `--night` alone it sets the column of a night service, `night.xml` beside it, in which one time is wrong, and says which.

mod input;

use sporebasket::column::{read_column, Column};
use std::io::{self, Write};
use std::{env, process};

fn list(document: &[u8], out: &mut impl Write) -> io::Result<()> {
    let column = read_column(document);
    for time in &column.times {
        writeln!(out, "{time}")?;
    }
    if let Some(refusal) = &column.refusal {
        writeln!(out, "refused {} {}", refusal.number(), refusal.position())?;
    }
    let count = column.times.len();
    match column.lower {
        None => writeln!(out, "{count} in order"),
        Some(index) => writeln!(out, "{count} lower at {index}"),
    }
}

/// How many times a column has, and whether they never decrease, in words.
fn order(column: &Column) -> String {
    let times = &column.times;
    let count = times.len();
    match column.lower {
        None => format!("{count} times, in order"),
        Some(index) => format!(
            "{count} times, lower at {index}: {} after {}",
            times[index],
            times[index - 1]
        ),
    }
}

/// Sets the night service as it stands, and with the time that its setter meant.
fn night(out: &mut impl Write) -> io::Result<()> {
    let document = include_str!("night.xml");
    let column = read_column(document.as_bytes());
    for time in &column.times {
        writeln!(out, "{time}")?;
    }
    writeln!(out, "{}", order(&column))?;
    let meant = read_column(document.replace("00:10", "24:10").as_bytes());
    writeln!(out, "with 24:10 there: {}", order(&meant))
}

fn main() {
    let mut out = io::BufWriter::new(io::stdout().lock());
    let word = env::args_os().nth(1);
    let done = if word.as_deref().is_some_and(|word| word == "--night") {
        night(&mut out)
    } else {
        input::document(word).and_then(|bytes| list(&bytes, &mut out))
    };
    if let Err(error) = done.and_then(|()| out.flush()) {
        eprintln!("column: {error}");
        process::exit(2);
    }
}
