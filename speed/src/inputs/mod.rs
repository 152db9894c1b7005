//! The documents that are read, each made by a rule that its description states.

mod cdata;
mod comments;
mod deep;
pub mod draw;
mod longtext;
mod netex;
mod timetable;
mod utf8;
mod white;
pub mod words;

pub struct Input {
    pub name: &'static str,
    /// How it is made, so that anyone can make it again.
    pub description: &'static str,
    /// The document of at most so many bytes.
    pub make: fn(usize) -> Vec<u8>,
}

/// Those of the table. The three of the request come first.
pub const TABLE: [Input; 7] = [timetable::INPUT, longtext::INPUT, comments::INPUT, netex::INPUT, utf8::INPUT, deep::INPUT, cdata::INPUT];
pub const REQUESTED: usize = 3;

/// Those of `--trim`, which are read with text trimmed.
pub const WHITE: [Input; 8] = white::INPUTS;

/// What holds for every input.
pub const RULES: &str = "\
Each input is one element with whole elements or pieces in it, as many as fit into the length asked for: 65,536 bytes, but for --growth and --large. The document \
ends where the next would not fit, so it has the length asked for, or less by less than that one.
\"Drawn\" is by one generator: x begins at 1, and for a number below n it becomes x * 6364136223846793005 + 1442695040888963407 modulo 2^64, \
and the number is (x >> 33) modulo n. One of a list is the one at that number, counted from 0; a number from a to b is a and a number below b - a + 1.
Prose of n bytes is words drawn, each but the first behind a space, until there are n bytes or more; before each word but the first a number \
below 10 is drawn, and if it is 0 a full stop stands before the space.
";

/// The document from `open` to `close`, with as many pieces between as fit into `length`.
fn fill(length: usize, open: &str, close: &str, mut piece: impl FnMut(usize) -> String) -> Vec<u8> {
    let mut document = open.to_string();
    for index in 0.. {
        let next = piece(index);
        if document.len() + next.len() + close.len() > length {
            break;
        }
        document += &next;
    }
    document += close;
    document.into_bytes()
}

/// A time of day, of so many minutes after midnight, on any day.
fn time(minutes: usize) -> String {
    format!("{:02}:{:02}", minutes / 60 % 24, minutes % 60)
}

/// The rules, and below them each input's name, description and words.
pub fn describe() {
    println!("{RULES}");
    for input in TABLE.iter().chain(&WHITE) {
        println!("{}: {}\n", input.name, input.description);
    }
    println!("The stops: {}.\n", words::STOPS.join(", "));
    println!("The words: {}.\n", words::WORDS.join(", "));
    println!("The languages:");
    words::LANGUAGES.iter().for_each(|(name, texts)| println!("{name}: {}", texts.join(", ")));
}
