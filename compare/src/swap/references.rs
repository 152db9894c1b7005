//! What is listed of references: ours refuses 30 numbers that the crate takes.

use crate::escape::{is_of_the_crate, number};
use quick_xml::escape::{EscapeError, ParseCharRefError};
use quick_xml::Error;
use std::borrow::Cow;
use std::ops::Range;
use swap_theirs::references::{told, Given, WAYS};

/// A text, and the way in which its references are read.
pub struct Text {
    way: usize,
    raw: String,
}

/// Both lines where the first refusal of ours is of a number that the crate takes.
pub struct Due {
    pub ours: String,
    pub theirs: String,
}

impl Text {
    /// That of a line, from its number on.
    pub fn of(line: &str) -> Option<Self> {
        let (way, quoted) = line.split_once(" \"")?;
        let way = way.parse().ok().filter(|&way| way < WAYS.len())?;
        Some(Self { way, raw: unquoted(quoted)? })
    }

    fn given<'t>(&self, raw: &'t str) -> Given<'t> {
        WAYS[self.way](raw)
    }

    /// The crate takes the first of the 30 and all before it: then ours refuses it with its number, and the crate's text goes on behind the character as what is
    /// there alone.
    pub fn due(&self) -> Option<Due> {
        let (place, value) = first(&self.raw)?;
        let (before, behind) = (self.given(&self.raw[..place.start]).ok()?, &self.raw[place.end..]);
        let character = char::from_u32(value)?;
        if self.given(&self.raw[place.clone()]).ok()? != character.to_string() {
            return None;
        }
        let theirs = match self.given(behind) {
            Ok(text) => Ok(Cow::Owned(format!("{before}{character}{text}"))),
            Err(error) => Err(moved(error, behind, place.end)),
        };
        let ours = Err(EscapeError::InvalidCharRef(ParseCharRefError::IllegalCharacter(value)).into());
        let line = |given| told(self.way, &self.raw, &given);
        Some(Due { ours: line(ours), theirs: line(theirs) })
    }
}

/// Where the first reference to one of the 30 stands, and its value: with its marks, or the whole text where it has none.
fn first(raw: &str) -> Option<(Range<usize>, u32)> {
    let value = |content: &str| number(content.as_bytes()).filter(|&value| is_of_the_crate(value));
    if let Some(value) = value(raw) {
        return Some((0..raw.len(), value));
    }
    raw.match_indices('&').find_map(|(at, _)| {
        let end = at + raw[at..].find(';')?;
        Some((at..end + 1, value(&raw[at + 1..end])?))
    })
}

/// An error with its place so many bytes further on, if it tells one in this text and not in what a name stands for.
fn moved(error: Error, text: &str, by: usize) -> Error {
    let further = |range: &Range<usize>| range.start + by..range.end + by;
    match error {
        Error::Escape(EscapeError::UnrecognizedEntity(range, name)) if text.get(range.clone()) == Some(&name) => {
            EscapeError::UnrecognizedEntity(further(&range), name).into()
        }
        Error::Escape(EscapeError::UnterminatedEntity(range)) => EscapeError::UnterminatedEntity(further(&range)).into(),
        error => error,
    }
}

/// A text that `Debug` wrote, from behind its first quote.
fn unquoted(quoted: &str) -> Option<String> {
    let (mut text, mut rest) = (String::new(), quoted.chars());
    loop {
        match rest.next()? {
            '"' => return Some(text),
            '\\' => text.push(match rest.next()? {
                'n' => '\n',
                'r' => '\r',
                't' => '\t',
                '0' => '\0',
                'u' => {
                    let (code, behind) = rest.as_str().strip_prefix('{')?.split_once('}')?;
                    rest = behind.chars();
                    u32::from_str_radix(code, 16).ok().and_then(char::from_u32)?
                }
                other => other,
            }),
            other => text.push(other),
        }
    }
}
