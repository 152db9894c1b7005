//! The crate's side: what its `unescape` gives; and the rules that it goes by, which it is held to.

use super::*;
use quick_xml::escape::{resolve_predefined_entity, unescape, EscapeError, ParseCharRefError};
use std::borrow::Cow;
use std::num::IntErrorKind;

/// An error of the crate. The first two have a range.
#[derive(Clone, Copy, Debug, PartialEq, Eq)]
pub enum Fault {
    Unrecognized(usize, usize),
    Unterminated(usize, usize),
    UnexpectedSign,
    /// `InvalidNumber`, by its kind.
    Empty,
    InvalidDigit,
    PosOverflow,
    InvalidCodepoint(u32),
    IllegalCharacter(u32),
    /// Any other.
    Unknown,
}

pub const FAULTS: [&str; 9] = [
    "UnrecognizedEntity",
    "UnterminatedEntity",
    "UnexpectedSign",
    "InvalidNumber, Empty",
    "InvalidNumber, InvalidDigit",
    "InvalidNumber, PosOverflow",
    "InvalidCodepoint",
    "IllegalCharacter",
    "another",
];

impl Fault {
    /// Its row in `FAULTS`.
    pub fn row(self) -> usize {
        match self {
            Fault::Unrecognized(..) => 0,
            Fault::Unterminated(..) => 1,
            Fault::UnexpectedSign => 2,
            Fault::Empty => 3,
            Fault::InvalidDigit => 4,
            Fault::PosOverflow => 5,
            Fault::InvalidCodepoint(_) => 6,
            Fault::IllegalCharacter(_) => 7,
            Fault::Unknown => 8,
        }
    }

    /// Our number for it, and the place of its `&` if the crate tells it.
    pub fn numbers(self) -> (usize, Option<usize>) {
        match self {
            Fault::Unrecognized(from, _) => (NO_REFERENCE, from.checked_sub(1)),
            Fault::Unterminated(from, _) => (NO_REFERENCE, Some(from)),
            Fault::UnexpectedSign | Fault::Empty | Fault::InvalidDigit => (NO_REFERENCE, None),
            Fault::PosOverflow | Fault::InvalidCodepoint(_) | Fault::IllegalCharacter(_) => (NO_CHARACTER, None),
            Fault::Unknown => (0, None),
        }
    }
}

/// What the crate gives for a content.
pub fn given(content: &str) -> Result<Cow<'_, str>, Fault> {
    unescape(content).map_err(|error| match error {
        EscapeError::UnrecognizedEntity(range, name) if content.get(range.clone()) == Some(&name) => {
            Fault::Unrecognized(range.start, range.end)
        }
        EscapeError::UnterminatedEntity(range) => Fault::Unterminated(range.start, range.end),
        EscapeError::InvalidCharRef(ParseCharRefError::UnexpectedSign) => Fault::UnexpectedSign,
        EscapeError::InvalidCharRef(ParseCharRefError::InvalidNumber(error)) => match error.kind() {
            IntErrorKind::Empty => Fault::Empty,
            IntErrorKind::InvalidDigit => Fault::InvalidDigit,
            IntErrorKind::PosOverflow => Fault::PosOverflow,
            _ => Fault::Unknown,
        },
        EscapeError::InvalidCharRef(ParseCharRefError::InvalidCodepoint(value)) => Fault::InvalidCodepoint(value),
        EscapeError::InvalidCharRef(ParseCharRefError::IllegalCharacter(value)) => Fault::IllegalCharacter(value),
        _ => Fault::Unknown,
    })
}

/// What the crate gives for a name.
pub fn named(content: &str) -> Option<&'static str> {
    resolve_predefined_entity(content)
}

/// The rules of the crate by their parts.
pub struct Rules {
    /// Where the `;` stands that ends the reference at a place.
    pub closes: fn(&[u8], usize) -> Option<usize>,
    /// The error of a reference that is not closed.
    pub open: fn(&[u8], usize) -> Fault,
    pub name: fn(&[u8]) -> Option<u8>,
    /// The error of a name that it does not know, from its first place to its end.
    pub unknown: fn(usize, usize) -> Fault,
    /// Whether a number of this base has a sign, by its first byte.
    pub sign: fn(u8) -> bool,
    /// The value of digits in a base.
    pub number: fn(&[u8], u32) -> Result<u32, Fault>,
    pub character: fn(u32) -> Result<char, Fault>,
    /// Whether what it gives is the content itself.
    pub borrowed: fn(&[u8]) -> bool,
}

pub const SOUND: Rules = Rules {
    closes: |content, at| (at + 1..content.len()).find(|&end| b"&;".contains(&content[end])).filter(|&end| content[end] == b';'),
    open: |content, at| Fault::Unterminated(at, content.len()),
    name: account::name,
    unknown: |from, to| Fault::Unrecognized(from, to),
    sign: |b| b == b'+' || b == b'-',
    number,
    character,
    borrowed: |content| !content.contains(&b'&'),
};

/// From the left: a byte that is no digit, or a value past the greatest of 32 bits, whichever comes first.
pub fn number(digits: &[u8], base: u32) -> Result<u32, Fault> {
    if digits.is_empty() {
        return Err(Fault::Empty);
    }
    digits.iter().try_fold(0, |value: u32, &b| {
        let digit = char::from(b).to_digit(base).ok_or(Fault::InvalidDigit)?;
        u32::try_from(u64::from(value) * u64::from(base) + u64::from(digit)).map_err(|_| Fault::PosOverflow)
    })
}

/// Every value of Unicode but 0.
pub fn character(value: u32) -> Result<char, Fault> {
    match value {
        0 => Err(Fault::IllegalCharacter(0)),
        value => char::from_u32(value).ok_or(Fault::InvalidCodepoint(value)),
    }
}

impl Rules {
    /// Reads a content, and writes what it gives up to its end or the error.
    pub fn read(&self, content: &[u8], out: &mut Vec<u8>) -> Result<(), Fault> {
        out.clear();
        let mut at = 0;
        while let Some(start) = (at..content.len()).find(|&at| content[at] == b'&') {
            out.extend(&content[at..start]);
            let end = (self.closes)(content, start).ok_or_else(|| (self.open)(content, start))?;
            let reference = &content[start + 1..end];
            match (account::digits(reference), (self.name)(reference)) {
                (Some((digits, _)), _) if digits.first().is_some_and(|&b| (self.sign)(b)) => return Err(Fault::UnexpectedSign),
                (Some((digits, base)), _) => {
                    let character = (self.number)(digits, base).and_then(self.character)?;
                    out.extend(character.encode_utf8(&mut [0; 4]).bytes());
                }
                (None, Some(character)) => out.push(character),
                (None, None) => return Err((self.unknown)(start + 1, end)),
            }
            at = end + 1;
        }
        out.extend(&content[at..]);
        Ok(())
    }
}
