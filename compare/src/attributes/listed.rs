//! The differences that docs/DIFFERENCES.md lists of attributes, each with what the crate gives in the place of our refusal.

use super::account::{white, Step};
use super::theirs::Item;
use super::*;
use quick_xml::events::attributes::AttrError;

/// Our refusal, and what the crate gives in its place.
pub struct Told<'a> {
    pub content: &'a [u8],
    /// Whether the crate checks for duplicates.
    pub checks: bool,
    pub step: &'a Step,
    pub item: &'a Item,
}

/// A row: its tag in docs/DIFFERENCES.md, when it is due, by our answer alone, and what the crate then gives. Which attribute or error that is exactly is
/// what the rules of `theirs` say.
struct Row {
    tag: &'static str,
    due: fn(&Told) -> bool,
    holds: fn(&Told) -> bool,
}

const ROWS: [Row; 6] = [
    Row { tag: "attribute-space", due: |told| told.step.number == NO_SPACE, holds: begins_there },
    Row { tag: "attribute-name-start", due: |told| told.step.number == NO_NAME, holds: begins_there },
    Row { tag: "attribute-name-quote", due: is_quote_behind_name, holds: name_with_quote },
    Row { tag: "attribute-less-than", due: |told| told.step.number == LESS_THAN, holds: value_with_less },
    Row { tag: "attribute-duplicate-name", due: is_duplicate_without_equals, holds: name_without_equals },
    Row { tag: "attribute-duplicate", due: is_unchecked_duplicate, holds: unchecked_duplicate },
];
/// The crate goes on behind what it gives in the place of our refusal.
pub const GOES_ON: &str = "attribute-goes-on";

pub const OF_A_REFUSAL: usize = ROWS.len();
pub const COUNT: usize = OF_A_REFUSAL + 1;
pub const TAGS: [&str; COUNT] = [ROWS[0].tag, ROWS[1].tag, ROWS[2].tag, ROWS[3].tag, ROWS[4].tag, ROWS[5].tag, GOES_ON];

/// The row of a refusal in whose place the crate gives something else, none where it gives the same and has to; an error if it should not differ so.
pub fn which(told: &Told) -> Result<Option<usize>, ()> {
    let alike = as_error(told.content, told.step).is_some_and(|error| *told.item == Err(error));
    match ROWS.iter().position(|row| (row.due)(told)) {
        Some(row) if !alike && (ROWS[row].holds)(told) => Ok(Some(row)),
        None if alike => Ok(None),
        _ => Err(()),
    }
}

/// Our refusal as the crate says the same; none where it has no word for it.
pub fn as_error(content: &[u8], step: &Step) -> Option<AttrError> {
    let [place, quote, first] = [PLACE, QUOTE, FIRST].map(|slot| step.slots[slot]);
    match (step.number, quote as u8) {
        (NO_EQUALS, _) => Some(AttrError::ExpectedEq(place)),
        (NO_QUOTE, 0) if place == content.len() => Some(AttrError::ExpectedValue(place)),
        (NO_QUOTE, 0) => Some(AttrError::UnquotedValue(place)),
        (NO_QUOTE, quote) => Some(AttrError::ExpectedQuote(place, quote)),
        (DUPLICATE, _) => Some(AttrError::Duplicated(place, first)),
        _ => None,
    }
}

/// The first place from this one on without white space.
fn skip(content: &[u8], from: usize) -> usize {
    from + content[from..].iter().take_while(|&&b| white(b)).count()
}

/// Where a name ends for us, and where the `=` should stand behind it.
fn name_end(content: &[u8], from: usize) -> (usize, usize) {
    let to = from + content[from..].iter().take_while(|&&b| !white(b) && !b"='\"".contains(&b)).count();
    (to, skip(content, to))
}

fn is_quote(content: &[u8], at: usize) -> bool {
    matches!(content.get(at), Some(b'\'' | b'"'))
}

/// A quote ends a name that is used before (24), or that has no `=` behind it (21).
fn is_quote_behind_name(told: &Told) -> bool {
    let place = told.step.slots[PLACE];
    match told.step.number {
        NO_EQUALS => is_quote(told.content, place) && !white(told.content[place - 1]),
        DUPLICATE => is_quote(told.content, name_end(told.content, place).0),
        _ => false,
    }
}

/// A name that is used before, with no `=` behind it, nor a quote as its end.
fn is_duplicate_without_equals(told: &Told) -> bool {
    if told.step.number != DUPLICATE {
        return false;
    }
    let (to, equals) = name_end(told.content, told.step.slots[PLACE]);
    !is_quote(told.content, to) && told.content.get(equals) != Some(&b'=')
}

/// A name that is used before, with an `=` behind it, where the crate does not check.
fn is_unchecked_duplicate(told: &Told) -> bool {
    told.step.number == DUPLICATE && !told.checks && told.content.get(name_end(told.content, told.step.slots[PLACE]).1) == Some(&b'=')
}

/// An attribute or a duplicate at the place, or an error behind it.
fn begins_there(told: &Told) -> bool {
    let place = told.step.slots[PLACE];
    match told.item {
        Ok((name, _)) => name.0 == place,
        Err(AttrError::Duplicated(at, first)) => told.step.number == NO_SPACE && told.checks && *at == place && *first < place,
        Err(AttrError::ExpectedEq(at) | AttrError::ExpectedValue(at)) => *at > place,
        Err(AttrError::UnquotedValue(at) | AttrError::ExpectedQuote(at, _)) => *at > place,
    }
}

/// The quote belongs to a name, so that it is no duplicate.
fn name_with_quote(told: &Told) -> bool {
    let place = told.step.slots[PLACE];
    match told.item {
        Ok((name, _)) => told.content[name.0..name.1].iter().any(|b| b"'\"".contains(b)) && name.0 <= place && place < name.1,
        Err(AttrError::Duplicated(..)) => false,
        Err(AttrError::ExpectedEq(at) | AttrError::ExpectedValue(at)) => *at > place,
        Err(AttrError::UnquotedValue(at) | AttrError::ExpectedQuote(at, _)) => *at > place,
    }
}

/// The value runs on to its quote, or to the end.
fn value_with_less(told: &Told) -> bool {
    let place = told.step.slots[PLACE];
    match told.item {
        Ok((_, value)) => value.0 <= place && place < value.1,
        Err(error) => matches!(error, AttrError::ExpectedQuote(at, _) if *at == told.content.len()),
    }
}

/// The `=` is missed where ours would miss it, were the name another.
fn name_without_equals(told: &Told) -> bool {
    let (_, equals) = name_end(told.content, told.step.slots[PLACE]);
    *told.item == Err(AttrError::ExpectedEq(equals))
}

/// An attribute of that name, or an error of its value.
fn unchecked_duplicate(told: &Told) -> bool {
    let place = told.step.slots[PLACE];
    let (to, equals) = name_end(told.content, place);
    match told.item {
        Ok((name, value)) => *name == (place, to) && value.0 > equals,
        Err(AttrError::ExpectedEq(_) | AttrError::Duplicated(..)) => false,
        Err(AttrError::ExpectedValue(at) | AttrError::UnquotedValue(at) | AttrError::ExpectedQuote(at, _)) => *at > equals,
    }
}
