//! Lists the events of a document that comes in chunks, from a file or standard input: the lines of the example `events`, each as soon as its bytes have come. The first word is how many bytes a chunk has, and
//! before it may stand what `events` takes: `--check-open-names`, `--attributes`, `--references` or `--rows`.
//!
//! Of a document that is too long the answers that were whole before are listed, and then `refused 16 0`.
//!
//! An answer whose bytes were there has to be given before the end is told. If one is not, the program says so, and ends with 1.

mod input;
mod lines;
mod words;

use lines::{Asked, Told};
use sporebasket::ext::ErrorExt;
use sporebasket::feed::Feeder;
use sporebasket::lent::LONGEST;
use std::ffi::OsString;
use std::io::{self, Read, Write};
use std::{env, process};

/// Reads the next chunk: as many bytes as it is to have, or those that are left.
fn next(line: &mut impl Read, size: usize, chunk: &mut Vec<u8>) -> io::Result<()> {
    chunk.clear();
    // of a chunk that is longer than a document, one byte too many
    let most = size.min(LONGEST + 1);
    line.take(most as u64).read_to_end(chunk)?;
    Ok(())
}

/// Gives the end of a piece that was given late, if there is one.
fn list(mut line: impl Read, size: usize, asked: Asked, out: &mut impl Write) -> io::Result<Option<usize>> {
    let (mut feeder, mut chunk) = (Feeder::new(), Vec::new());
    feeder.config_mut().check_open_names = asked == Asked::CheckOpenNames;
    let mut at_end = false;
    loop {
        let answer = match feeder.read_event() {
            Ok(Some(event)) => Ok(Told::of(&event)),
            Ok(None) => {
                // the line may be slow
                out.flush()?;
                next(&mut line, size, &mut chunk)?;
                if chunk.is_empty() {
                    feeder.finish();
                    at_end = true;
                } else if let Err(error) = feeder.feed(&chunk) {
                    return lines::refused(&error, 0, out).map(|()| None);
                }
                continue;
            }
            Err(error) => Err(error),
        };
        let piece = feeder.piece();
        let is_last = match &answer {
            Ok(told) => {
                told.say(piece.clone(), feeder.document(), asked, out)?;
                told.is_end()
            }
            Err(error) => {
                lines::refused(error, feeder.error_position(), out)?;
                false
            }
        };
        if asked == Asked::Rows && (is_last || answer.is_err()) {
            lines::rows(feeder.way_down(), out)?;
        }
        // what is left for the end goes up to it, but for a `<` or `<!` alone, which is not read
        let unread = match answer.err().and_then(|error| error.number()) {
            Some(1) => 1,
            Some(8) => 2,
            _ => 0,
        };
        if at_end && piece.end + unread < feeder.document().len() {
            return Ok(Some(piece.end));
        }
        at_end = false;
        if is_last {
            return Ok(None);
        }
    }
}

/// The number of a word, if it is one and not 0.
fn number(word: OsString) -> Option<usize> {
    let word = word.into_string().ok()?;
    let digits = word.bytes().all(|byte| byte.is_ascii_digit());
    word.parse().ok().filter(|number| digits && *number > 0)
}

fn main() {
    let mut words = env::args_os().skip(1).peekable();
    let asked = lines::asked(&mut words);
    let Some(size) = words.next().and_then(number) else {
        eprintln!("usage: chunks [--check-open-names | --attributes | --references | --rows] SIZE [FILE]");
        process::exit(2);
    };
    let mut out = io::BufWriter::new(io::stdout().lock());
    let done = input::open(words.next()).and_then(|line| {
        let late = list(line, size, asked, &mut out)?;
        out.flush()?;
        Ok(late)
    });
    match done {
        Ok(None) => (),
        Ok(Some(end)) => {
            eprintln!("chunks: the piece up to byte {end} was whole, and was not given");
            process::exit(1);
        }
        Err(error) => {
            eprintln!("chunks: {error}");
            process::exit(2);
        }
    }
}
