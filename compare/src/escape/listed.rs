//! The differences that docs/DIFFERENCES.md lists of references, each with what the crate gives in the place of our refusal.

use super::theirs::Fault;
use super::*;
use std::borrow::Cow;

/// Our refusal of a content by its number and place, what we read before it, and what the crate gives for the content.
pub struct Told<'a> {
    pub content: &'a str,
    pub refused: (usize, usize),
    pub before: &'a [u8],
    pub given: &'a Result<Cow<'a, str>, Fault>,
}

/// A row: its tag in docs/DIFFERENCES.md, when it is due, by our answer alone, and what the crate then gives. Which text or error that is exactly is what the
/// rules of `theirs` say.
struct Row {
    tag: &'static str,
    due: fn(&Told) -> bool,
    holds: fn(&Told) -> bool,
}

const ROWS: [Row; 2] =
    [Row { tag: "reference-character", due: is_taken, holds: taken }, Row { tag: "reference-overflow", due: is_overflow, holds: overflow }];

pub const COUNT: usize = ROWS.len();
pub const TAGS: [&str; COUNT] = [ROWS[0].tag, ROWS[1].tag];

/// The row of a refusal in whose place the crate gives something else, none where it gives the same and has to; an error if it should not differ so. Where a row is
/// due an error of the same number may come behind, if the crate tells no place.
pub fn which(told: &Told) -> Result<Option<usize>, ()> {
    match ROWS.iter().position(|row| (row.due)(told)) {
        Some(row) if (ROWS[row].holds)(told) => Ok(Some(row)),
        None if told.given.as_ref().is_err_and(|fault| same(told, *fault)) => Ok(None),
        _ => Err(()),
    }
}

/// Whether the crate says the same by its error: our number, and the place. If it tells no place, it has to take all before ours, and to say the same of what
/// stands there alone.
fn same(told: &Told, fault: Fault) -> bool {
    let (number, place) = fault.numbers();
    let there = || takes_before(told) && alone(told).is_some_and(|alone| theirs::given(alone) == Err(fault));
    number == told.refused.0 && place.map_or_else(there, |place| place == told.refused.1)
}

/// Whether the crate takes what stands before our refusal, as ours does.
fn takes_before(told: &Told) -> bool {
    theirs::given(&told.content[..told.refused.1]).is_ok_and(|text| text.as_bytes() == told.before)
}

/// The reference of our refusal, from its `&` to the next `;`, with no `&` between.
fn alone<'a>(told: &Told<'a>) -> Option<&'a str> {
    let (_, at) = told.refused;
    let end = at + 1 + told.content[at + 1..].find(['&', ';'])?;
    told.content[..=end].ends_with(';').then_some(&told.content[at..=end])
}

/// What stands between its marks.
fn reference<'a>(told: &Told<'a>) -> Option<&'a [u8]> {
    let alone = alone(told)?.as_bytes();
    Some(&alone[1..alone.len() - 1])
}

/// Whether a value is of Unicode but not of XML, 0 aside: the 30 that the crate takes.
pub fn is_of_the_crate(value: u32) -> bool {
    matches!(value, 0x1..=0x8 | 0xB | 0xC | 0xE..=0x1F | 0xFFFE | 0xFFFF)
}

/// The value of our refusal, if it is one of the crate's.
fn value(told: &Told) -> Option<u32> {
    account::number(reference(told)?).filter(|&value| is_of_the_crate(value))
}

fn is_taken(told: &Told) -> bool {
    told.refused.0 == NO_CHARACTER && value(told).is_some()
}

/// The crate takes all before it and the reference alone, so that the character stands in the text behind what we read; or an error of a reference behind it
/// comes.
fn taken(told: &Told) -> bool {
    let mut bytes = told.before.to_vec();
    value(told).iter().for_each(|&value| account::encode(value, &mut bytes));
    let is_there = alone(told).is_some_and(|alone| theirs::given(alone).is_ok_and(|text| text.as_bytes() == &bytes[told.before.len()..]));
    takes_before(told)
        && is_there
        && match told.given {
            Ok(text) => text.as_bytes().starts_with(&bytes),
            Err(fault) => *fault != Fault::Unknown && fault.numbers().1.is_none_or(|place| place > told.refused.1),
        }
}

/// The crate says so of the reference alone too, and takes all before it.
fn overflow(told: &Told) -> bool {
    let fault = Err(Fault::PosOverflow);
    *told.given == fault && takes_before(told) && alone(told).is_some_and(|alone| theirs::given(alone) == fault)
}

/// Digits that pass 32 bits, and behind them a byte that is none.
fn is_overflow(told: &Told) -> bool {
    if told.refused.0 != NO_REFERENCE {
        return false;
    }
    let Some((digits, base)) = reference(told).and_then(account::digits) else { return false };
    let count = digits.iter().take_while(|&&b| char::from(b).is_digit(base)).count();
    let value = digits[..count].iter().fold(0, |value: u64, &b| {
        let digit = char::from(b).to_digit(base).map_or(0, u64::from);
        value.saturating_mul(base.into()).saturating_add(digit)
    });
    count < digits.len() && value > u32::MAX.into()
}
