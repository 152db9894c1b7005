//! The crate's side: what its iterator gives, item by item; and the rules that it goes by, which it is held to.

use super::*;
use quick_xml::events::attributes::{AttrError, Attributes};
use std::borrow::Cow;

/// What the crate gives in a step: the spans of a name and of a value, or its error.
pub type Item = Result<(Span, Span), AttrError>;

/// What is no part of the content. No answer has such a place.
const NOWHERE: Span = (usize::MAX, usize::MAX);

/// The crate's items, with checks for duplicates or without.
pub fn items(content: &str, name: usize, checks: bool) -> impl Iterator<Item = Item> + '_ {
    let span = move |part: &str| {
        let from = (part.as_ptr() as usize).wrapping_sub(content.as_ptr() as usize);
        if from > content.len() || part.len() > content.len() - from {
            NOWHERE
        } else {
            (from, from + part.len())
        }
    };
    let mut attributes = Attributes::new(content, name);
    attributes.with_checks(checks);
    attributes.map(move |item| {
        let attribute = item?;
        let value = match &attribute.value {
            Cow::Borrowed(value) => span(value),
            Cow::Owned(_) => NOWHERE,
        };
        Ok((span(attribute.key.into_inner()), value))
    })
}

/// The rules of the crate by their parts.
pub struct Rules {
    /// Whether the byte at the second place ends a name that begins at the first.
    pub ends: fn(&[u8], usize, usize) -> bool,
    /// Whether the byte at a place ends a value that was opened by a quote.
    pub closes: fn(&[u8], usize, u8) -> bool,
    /// Where the crate goes on behind a name without `=`, by the place of its error; behind a duplicate, by that of its `=`; and behind a value without quotes, by
    /// its start.
    pub behind_name: fn(&[u8], usize) -> Option<usize>,
    pub behind_duplicate: fn(&[u8], usize) -> Option<usize>,
    pub behind_value: fn(&[u8], usize) -> Option<usize>,
    /// Whether a name is kept for the check, if the value behind it is good or not.
    pub kept: fn(bool) -> bool,
}

pub const SOUND: Rules = Rules {
    ends: |content, from, at| from < at && (content[at] == b'=' || account::white(content[at])),
    closes: |content, at, quote| content[at] == quote,
    behind_name: |content, place| (place < content.len()).then_some(place),
    behind_duplicate: next_white,
    behind_value: next_white,
    kept: |_| true,
};

/// The first white space from a place on.
pub fn next_white(content: &[u8], from: usize) -> Option<usize> {
    (from..content.len()).find(|&at| account::white(content[at]))
}

/// What the crate gives by its rules, from a place on and with names that it has seen.
pub struct Ruled<'a> {
    pub rules: &'static Rules,
    pub content: &'a [u8],
    pub checks: bool,
    /// Where it goes on, or none at the end.
    pub at: Option<usize>,
    pub names: Vec<Span>,
}

impl Ruled<'_> {
    fn behind_white(&self, from: usize) -> usize {
        from + self.content[from..].iter().take_while(|&&b| account::white(b)).count()
    }

    /// Reads a value behind the `=` at a place: its span, or an error. Either way it says where the crate goes on.
    fn value(&mut self, equals: usize) -> Result<Span, AttrError> {
        let (content, length) = (self.content, self.content.len());
        let opened = self.behind_white(equals + 1);
        let quote = match content.get(opened) {
            None => {
                self.at = None;
                return Err(AttrError::ExpectedValue(length));
            }
            Some(&quote @ (b'\'' | b'"')) => quote,
            Some(_) => {
                self.at = (self.rules.behind_value)(content, opened);
                return Err(AttrError::UnquotedValue(opened));
            }
        };
        let closed = (opened + 1..length).find(|&at| (self.rules.closes)(content, at, quote));
        self.at = closed.map(|closed| closed + 1);
        closed.map(|closed| (opened + 1, closed)).ok_or(AttrError::ExpectedQuote(length, quote))
    }
}

impl Iterator for Ruled<'_> {
    type Item = Item;

    fn next(&mut self) -> Option<Item> {
        let (content, length) = (self.content, self.content.len());
        let from = self.behind_white(self.at?);
        if from == length {
            self.at = None;
            return None;
        }
        let to = (from..length).find(|&at| (self.rules.ends)(content, from, at)).unwrap_or(length);
        let equals = self.behind_white(to);
        if content.get(equals) != Some(&b'=') {
            self.at = (self.rules.behind_name)(content, equals);
            return Some(Err(AttrError::ExpectedEq(equals)));
        }
        let same = |name: &&Span| content[name.0..name.1] == content[from..to];
        if let Some(first) = self.names.iter().find(same).filter(|_| self.checks) {
            self.at = (self.rules.behind_duplicate)(content, equals);
            return Some(Err(AttrError::Duplicated(from, first.0)));
        }
        let value = self.value(equals);
        if (self.rules.kept)(value.is_ok()) {
            self.names.push((from, to));
        }
        Some(value.map(|value| ((from, to), value)))
    }
}
