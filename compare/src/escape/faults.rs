//! Wrong accounts of ours and of the crate's rules, by what is wrong in them, each of which has to be noticed.

use super::account::{self, closes, digits, encode, is_character, name, number, one, whole, Account, Call, Reading, Told};
use super::theirs::{self, character, Rules};
use super::*;
use crate::contents::Fault;

type Wrong = (&'static str, Account);

pub fn all() -> Vec<Fault<Account, Rules>> {
    contents::wrong(&[PLAIN, ENDS, NAMES, NUMBERS, CHARACTERS, BYTES, TEXTS, REFERENCES, ANSWERS], RULES, (&account::SOUND, &theirs::SOUND))
}

const SOUND: Account = account::SOUND;

const fn copying(name: &'static str, plain: fn(&[u8], usize) -> Option<u8>) -> Wrong {
    (name, Account { plain, ..SOUND })
}

const fn closing(name: &'static str, closes: fn(&[u8], usize) -> Option<usize>) -> Wrong {
    (name, Account { closes, ..SOUND })
}

const fn naming(title: &'static str, name: fn(&[u8]) -> Option<u8>) -> Wrong {
    (title, Account { name, ..SOUND })
}

const fn counting(name: &'static str, number: fn(&[u8]) -> Option<u32>) -> Wrong {
    (name, Account { number, ..SOUND })
}

const fn allowing(name: &'static str, is_character: fn(u32) -> bool) -> Wrong {
    (name, Account { is_character, ..SOUND })
}

const fn encoding(name: &'static str, encode: fn(u32, &mut Vec<u8>)) -> Wrong {
    (name, Account { encode, ..SOUND })
}

const fn telling(name: &'static str, whole: fn(&Reading, Option<usize>) -> Told) -> Wrong {
    (name, Account { whole, ..SOUND })
}

const fn telling_one(name: &'static str, one: fn(&Reading, Option<usize>) -> Told) -> Wrong {
    (name, Account { one, ..SOUND })
}

const fn ending(name: &'static str, end: fn(&mut Call)) -> Wrong {
    (name, Account { end, ..SOUND })
}

const PLAIN: &[Wrong] = &[
    copying("a line ends in a line feed alone", |content, at| {
        Some(content[at]).filter(|&b| b != b'\r' || content.get(at + 1) != Some(&b'\n'))
    }),
    copying("a tab is a space", |content, at| Some(if content[at] == b'\t' { b' ' } else { content[at] })),
    copying("a `;` without a reference is dropped", |content, at| Some(content[at]).filter(|&b| b != b';')),
    copying("a byte of zero is dropped", |content, at| Some(content[at]).filter(|&b| b != 0)),
    copying("a byte of zero ends the text", |content, at| Some(content[at]).filter(|_| !content[..at].contains(&0))),
    copying("a byte above 127 is another", |content, at| Some(if content[at] < 0xC0 { content[at] } else { b'?' })),
    copying("a byte order mark is dropped", |content, at| {
        Some(content[at]).filter(|_| !(at.saturating_sub(2)..=at).any(|from| content[from..].starts_with(b"\xEF\xBB\xBF")))
    }),
    copying("white space in front is dropped", |content, at| Some(content[at]).filter(|&b| b != b' ' || at > 0)),
    copying("white space at the end is dropped", |content, at| Some(content[at]).filter(|&b| b != b' ' || at + 1 < content.len())),
    copying("text is copied up to 256 bytes", |content, at| Some(if at < 256 { content[at] } else { 0 })),
    copying("a byte behind 64 is another", |content, at| Some(if at == 64 { content[at] ^ 1 } else { content[at] })),
];

const ENDS: &[Wrong] = &[
    closing("a space ends a reference", |content, at| (at + 1..content.len()).find(|&end| b"; ".contains(&content[end]))),
    closing("a `<` ends a reference", |content, at| (at + 1..content.len()).find(|&end| b";<".contains(&content[end]))),
    closing("the content's end ends a reference", |content, at| closes(content, at).or(Some(content.len()))),
    closing("the content's end ends a reference of a number", |content, at| {
        closes(content, at).or(Some(content.len()).filter(|_| content[at..].starts_with(b"&#")))
    }),
    closing("the last `;` ends a reference", |content, at| (at + 1..content.len()).rfind(|&end| content[end] == b';')),
    closing("a reference has 16 bytes at most", |content, at| closes(content, at).filter(|&end| end <= at + 16)),
    closing("a reference has 60 bytes at most", |content, at| closes(content, at).filter(|&end| end <= at + 60)),
    closing("the next `&` ends a reference", |content, at| (at + 1..content.len()).find(|&end| b";&".contains(&content[end]))),
];

const NAMES: &[Wrong] = &[
    naming("no `lt`", |content| name(content).filter(|&b| b != b'<')),
    naming("no `gt`", |content| name(content).filter(|&b| b != b'>')),
    naming("no `amp`", |content| name(content).filter(|&b| b != b'&')),
    naming("no `apos`", |content| name(content).filter(|&b| b != b'\'')),
    naming("no `quot`", |content| name(content).filter(|&b| b != b'"')),
    naming("`lt` is `>`", |content| name(content).map(|b| if b == b'<' { b'>' } else { b })),
    naming("`apos` is a double quote", |content| name(content).map(|b| if b == b'\'' { b'"' } else { b })),
    naming("names in large letters too", |content| name(&content.to_ascii_lowercase())),
    naming("`LT` too", |content| name(content).or((content == b"LT").then_some(b'<'))),
    naming("`nbsp` too", |content| name(content).or((content == b"nbsp").then_some(b' '))),
    naming("no name is a `&`", |content| name(content).or(content.is_empty().then_some(b'&'))),
    naming("a name by its first two bytes", |content| {
        name(content).or(content.get(..2).and_then(|begin| name(begin).filter(|_| content.len() > 2)))
    }),
    naming("`amp` by its first three bytes", |content| name(content).or(content.starts_with(b"amp").then_some(b'&'))),
    naming("`apos` by its length and first byte", |content| name(content).or((content.len() == 4 && content[0] == b'a').then_some(b'\''))),
    naming("`quot` but for its last byte", |content| name(content).or((content.len() == 4 && content.starts_with(b"quo")).then_some(b'"'))),
    naming("`lt` but for its first byte", |content| name(content).or((content.len() == 2 && content[1] == b't').then_some(b'<'))),
    naming("a space may follow a name", |content| name(content.strip_suffix(b" ").unwrap_or(content))),
    naming("a `#` may precede a name", |content| name(content.strip_prefix(b"#").unwrap_or(content))),
];

/// The value of digits by some reading of them, in a wider word.
fn valued(content: &[u8], step: impl Fn(u64, u64, u64) -> u64) -> Option<u64> {
    let (digits, base) = digits(content).filter(|(digits, _)| !digits.is_empty())?;
    digits.iter().try_fold(0, |value: u64, &b| Some(step(value, base.into(), char::from(b).to_digit(base)?.into())))
}

fn without(content: &[u8], at: usize, count: usize) -> Vec<u8> {
    [&content[..at], &content[at + count..]].concat()
}

const NUMBERS: &[Wrong] = &[
    counting("a number wraps round at 32 bits", |content| {
        valued(content, |value, base, digit| value.wrapping_mul(base).wrapping_add(digit)).map(|value| value as u32)
    }),
    counting("a number wraps round at 64 bits", |content| {
        let value = valued(content, |value, base, digit| value.wrapping_mul(base).wrapping_add(digit));
        value.map(|value| value.min(u32::MAX.into()) as u32)
    }),
    counting("a number past 32 bits is 25", |content| {
        let value = valued(content, |value, base, digit| value.saturating_mul(base).saturating_add(digit));
        value.and_then(|value| value.try_into().ok())
    }),
    counting("a number past 32 bits is 0", |content| {
        let value = valued(content, |value, base, digit| value.saturating_mul(base).saturating_add(digit));
        value.map(|value| value.try_into().unwrap_or(b'0'.into()))
    }),
    counting("a number past 21 bits wraps round", |content| {
        let value = valued(content, |value, base, digit| value.saturating_mul(base).saturating_add(digit));
        value.map(|value| if value > 0x1F_FFFF { value as u32 & 0x1F_FFFF } else { value as u32 })
    }),
    counting("more than 10 digits are 25", |content| number(content).filter(|_| content.len() <= 11)),
    counting("more than 8 zeros are 25", |content| number(content).filter(|_| !content.windows(9).any(|zeros| zeros == b"000000000"))),
    counting("a hundred digits are 25", |content| number(content).filter(|_| content.len() < 100)),
    counting("no zero in front", |content| number(content).filter(|_| digits(content).is_some_and(|(digits, _)| digits[0] != b'0'))),
    counting("`#` is 0", |content| number(content).or((content == b"#").then_some(0))),
    counting("`#x` is 0", |content| number(content).or((content == b"#x").then_some(0))),
    counting("`#X` too", |content| {
        let other: Vec<u8> = content.iter().enumerate().map(|(i, &b)| if i == 1 && b == b'X' { b'x' } else { b }).collect();
        number(&other)
    }),
    counting("a `+` in front", |content| number(content).or(content.starts_with(b"#+").then(|| number(&without(content, 1, 1)))?)),
    counting("a `-` in front", |content| number(content).or(content.starts_with(b"#-").then(|| number(&without(content, 1, 1)))?)),
    counting("a `+` behind `x`", |content| number(content).or(content.starts_with(b"#x+").then(|| number(&without(content, 2, 1)))?)),
    counting("a space in front", |content| number(content).or(content.starts_with(b"# ").then(|| number(&without(content, 1, 1)))?)),
    counting("a space behind", |content| number(content.strip_suffix(b" ").unwrap_or(content))),
    counting("digits up to the first byte that is none", |content| {
        let (digits, base) = digits(content)?;
        let count = digits.iter().take_while(|&&b| char::from(b).is_digit(base)).count();
        number(&content[..content.len() - digits.len() + count])
    }),
    counting("a byte that is no digit at the end", |content| number(content).or(number(content.split_last()?.1))),
    counting("`g` is a digit", |content| {
        let other: Vec<u8> = content.iter().map(|&b| if b == b'g' { b'0' } else { b }).collect();
        number(&other)
    }),
    counting("letters are decimal digits too", |content| {
        number(content).or_else(|| content.strip_prefix(b"#").and_then(|digits| number(&[b"#x", digits].concat())))
    }),
    counting("hexadecimal digits are read as decimal", |content| {
        number(content).map(|value| content.strip_prefix(b"#x").and_then(|digits| number(&[b"#", digits].concat())).unwrap_or(value))
    }),
    counting("small letters are no digits", |content| number(content).filter(|_| !content.iter().any(|b| (b'a'..=b'f').contains(b)))),
    counting("large letters are no digits", |content| number(content).filter(|_| !content.iter().any(|b| (b'A'..=b'F').contains(b)))),
    counting("`F` is no digit", |content| number(content).filter(|_| !content.contains(&b'F'))),
    counting("`a` is 11", |content| {
        let other: Vec<u8> = content.iter().map(|&b| if b == b'a' { b'b' } else { b }).collect();
        number(&other)
    }),
    counting("`9` is no digit", |content| number(content).filter(|_| !content.contains(&b'9'))),
    counting("no decimal numbers", |content| number(content).filter(|_| content.starts_with(b"#x"))),
    counting("no hexadecimal numbers", |content| number(content).filter(|_| !content.starts_with(b"#x"))),
    counting("`x` without `#`", |content| number(content).or(content.starts_with(b"x").then(|| number(&[b"#", content].concat()))?)),
];

const CHARACTERS: &[Wrong] = &[
    allowing("0 is one", |value| is_character(value) || value == 0),
    allowing("1 is one", |value| is_character(value) || value == 1),
    allowing("8 is one", |value| is_character(value) || value == 8),
    allowing("9 is none", |value| is_character(value) && value != 9),
    allowing("A is none", |value| is_character(value) && value != 0xA),
    allowing("B is one", |value| is_character(value) || value == 0xB),
    allowing("C is one", |value| is_character(value) || value == 0xC),
    allowing("D is none", |value| is_character(value) && value != 0xD),
    allowing("E is one", |value| is_character(value) || value == 0xE),
    allowing("1F is one", |value| is_character(value) || value == 0x1F),
    allowing("20 is none", |value| is_character(value) && value != 0x20),
    allowing("7F is none", |value| is_character(value) && value != 0x7F),
    allowing("80 to 9F are none", |value| is_character(value) && !(0x80..=0x9F).contains(&value)),
    allowing("D7FF is none", |value| is_character(value) && value != 0xD7FF),
    allowing("surrogates are some", |value| is_character(value) || (0xD800..=0xDFFF).contains(&value)),
    allowing("D800 is one", |value| is_character(value) || value == 0xD800),
    allowing("DFFF is one", |value| is_character(value) || value == 0xDFFF),
    allowing("E000 is none", |value| is_character(value) && value != 0xE000),
    allowing("FDD0 is none", |value| is_character(value) && value != 0xFDD0),
    allowing("FFFD is none", |value| is_character(value) && value != 0xFFFD),
    allowing("FFFE is one", |value| is_character(value) || value == 0xFFFE),
    allowing("FFFF is one", |value| is_character(value) || value == 0xFFFF),
    allowing("10000 is none", |value| is_character(value) && value != 0x10000),
    allowing("1FFFE is none", |value| is_character(value) && value != 0x1FFFE),
    allowing("10FFFF is none", |value| is_character(value) && value != 0x10FFFF),
    allowing("110000 is one", |value| is_character(value) || value == 0x110000),
    allowing("all of Unicode but 0", |value| value > 0 && char::from_u32(value).is_some()),
    allowing("ASCII alone", |value| is_character(value) && value < 0x80),
    allowing("none above FFFF", |value| is_character(value) && value < 0x10000),
];

/// Changes the bytes of some values.
fn changed(value: u32, out: &mut Vec<u8>, due: bool, change: impl Fn(&mut [u8])) {
    let from = out.len();
    encode(value, out);
    if due {
        change(&mut out[from..]);
    }
}

/// In so many bytes, whether or not fewer would do.
fn stretched(value: u32, out: &mut Vec<u8>, count: usize) {
    let first = [0, 0, 0xC0, 0xE0, 0xF0][count] | (value >> (6 * (count - 1))) as u8;
    out.push(first);
    out.extend((0..count - 1).rev().map(|i| (value >> (6 * i) & 0x3F) as u8 | 0x80));
}

const BYTES: &[Wrong] = &[
    encoding("7F in two bytes", |value, out| if value == 0x7F { stretched(value, out, 2) } else { encode(value, out) }),
    encoding("80 in one byte", |value, out| if value == 0x80 { out.push(0x80) } else { encode(value, out) }),
    encoding("80 to FF in one byte", |value, out| if (0x80..=0xFF).contains(&value) { out.push(value as u8) } else { encode(value, out) }),
    encoding("7FF in three bytes", |value, out| if value == 0x7FF { stretched(value, out, 3) } else { encode(value, out) }),
    encoding("800 in two bytes", |value, out| if value == 0x800 { stretched(value, out, 2) } else { encode(value, out) }),
    encoding("FFFD in four bytes", |value, out| if value == 0xFFFD { stretched(value, out, 4) } else { encode(value, out) }),
    encoding("10000 in three bytes", |value, out| if value == 0x10000 { stretched(value, out, 3) } else { encode(value, out) }),
    encoding("surrogates above FFFF", |value, out| match value {
        0x10000.. => {
            stretched(0xD800 + ((value - 0x10000) >> 10), out, 3);
            stretched(0xDC00 + ((value - 0x10000) & 0x3FF), out, 3);
        }
        _ => encode(value, out),
    }),
    encoding("16 bits", |value, out| encode(value & 0xFFFF, out)),
    encoding("20 bits", |value, out| encode(value & 0xF_FFFF, out)),
    encoding("the last two bytes exchanged", |value, out| changed(value, out, value > 0x7FF, |bytes| bytes[1..].reverse())),
    encoding("the first byte without its mark", |value, out| changed(value, out, value > 0x7F, |bytes| bytes[0] &= 0x7F)),
    encoding("the last byte without its mark", |value, out| {
        changed(value, out, value > 0x7F, |bytes| bytes.iter_mut().skip(1).for_each(|b| *b &= 0x7F))
    }),
    encoding("the last byte with five bits", |value, out| {
        changed(value, out, value > 0x7F, |bytes| bytes.iter_mut().skip(1).for_each(|b| *b &= !0x20))
    }),
    encoding("a question mark above 7F", |value, out| if value > 0x7F { out.push(b'?') } else { encode(value, out) }),
    encoding("a question mark above FFFF", |value, out| if value > 0xFFFF { out.push(b'?') } else { encode(value, out) }),
    encoding("a line feed for a carriage return", |value, out| encode(if value == 0xD { 0xA } else { value }, out)),
    encoding("a space for a tab", |value, out| encode(if value == 0x9 { 0x20 } else { value }, out)),
    encoding("`<` as it was written", |value, out| if value == 0x3C { out.extend(b"&lt;") } else { encode(value, out) }),
];

/// Changes what is told of a refusal.
fn moved(told: Told, number: usize, place: impl Fn(usize) -> usize) -> Told {
    Told { place: if told.number == number { place(told.place) } else { told.place }, ..told }
}

/// What is told when the refusal of an item counts before the room of all, or of one more item.
fn before(reading: &Reading, room: Option<usize>, numbers: &[usize]) -> Told {
    match reading.refused {
        Some((number, place)) if numbers.contains(&number) => Told::refused(number, place),
        _ => whole(reading, room),
    }
}

/// What is told when the room counts before the refusal of an item, which would need so many bytes.
fn behind(reading: &Reading, room: Option<usize>, number: usize, need: usize) -> Told {
    match (whole(reading, room), room) {
        (told, room) if told.number == number && room.is_none_or(|room| room < reading.bytes.len() + need) => {
            Told::refused(NO_ROOM, told.place)
        }
        (told, _) => told,
    }
}

const TEXTS: &[Wrong] = &[
    telling("a later 25 before 27", |reading, room| before(reading, room, &[NO_REFERENCE])),
    telling("a later 26 before 27", |reading, room| before(reading, room, &[NO_CHARACTER])),
    telling("any later refusal before 27", |reading, room| before(reading, room, &[NO_REFERENCE, NO_CHARACTER])),
    telling("27 before the 25 of an item", |reading, room| behind(reading, room, NO_REFERENCE, 1)),
    telling("27 before the 26 of an item", |reading, room| behind(reading, room, NO_CHARACTER, 1)),
    telling("27 where four bytes do not fit, before 26", |reading, room| behind(reading, room, NO_CHARACTER, 4)),
    telling("a place past the end is 27 before all", |reading, room| match room {
        None => Told::refused(NO_ROOM, 0),
        _ => whole(reading, room),
    }),
    telling("a place at the end is past it", |reading, room| whole(reading, room.filter(|&room| room > 0))),
    telling("a place past the end is at it", |reading, room| whole(reading, room.or(Some(0)))),
    telling("no content at a place past the end is fine", |reading, room| match reading.items.len() {
        0 if reading.refused.is_none() => Told::taken(reading),
        _ => whole(reading, room),
    }),
    telling("a place past the end has room", |reading, room| whole(reading, room.or(Some(9)))),
    telling("one byte of room more", |reading, room| whole(reading, room.map(|room| room + 1))),
    telling("one byte of room less", |reading, room| whole(reading, room.map(|room| room.saturating_sub(1)))),
    telling("room for the content's length is needed", |reading, room| match room {
        Some(room) if room < reading.length && reading.refused.is_none() => Told::refused(NO_ROOM, reading.items[0].place),
        _ => whole(reading, room),
    }),
    telling("what fits is written", |reading, room| match whole(reading, room) {
        Told { number: NO_ROOM, place, .. } => Told { number: NO_ROOM, written: room.unwrap_or(0).min(reading.bytes.len()), place },
        told => told,
    }),
    telling("what does not fit is cut", |reading, room| match (whole(reading, room), room) {
        (Told { number: NO_ROOM, .. }, Some(room)) => Told { number: 0, written: room.min(reading.bytes.len()), place: 0 },
        (told, _) => told,
    }),
    telling("25 at the content's start", |reading, room| moved(whole(reading, room), NO_REFERENCE, |_| 0)),
    telling("25 behind the `&`", |reading, room| moved(whole(reading, room), NO_REFERENCE, |place| place + 1)),
    telling("25 at the content's end", |reading, room| moved(whole(reading, room), NO_REFERENCE, |_| reading.length)),
    telling("26 at the content's start", |reading, room| moved(whole(reading, room), NO_CHARACTER, |_| 0)),
    telling("26 behind the `&`", |reading, room| moved(whole(reading, room), NO_CHARACTER, |place| place + 1)),
    telling("25 and 26 at what is written", |reading, room| match whole(reading, room) {
        told if told.number == NO_REFERENCE || told.number == NO_CHARACTER => Told { place: reading.bytes.len(), ..told },
        told => told,
    }),
    telling("27 at the content's start", |reading, room| moved(whole(reading, room), NO_ROOM, |_| 0)),
    telling("27 at the content's end", |reading, room| moved(whole(reading, room), NO_ROOM, |_| reading.length)),
    telling("27 at what is written", |reading, room| moved(whole(reading, room), NO_ROOM, |_| room.unwrap_or(0))),
    telling("27 at the item before", |reading, room| moved(whole(reading, room), NO_ROOM, |place| place.saturating_sub(1))),
    telling("27 of a reference at its `;`", |reading, room| {
        moved(whole(reading, room), NO_ROOM, |place| {
            let next = reading.items.iter().find(|item| item.place > place).map_or(reading.length, |item| item.place);
            next.saturating_sub(1).max(place)
        })
    }),
    telling("25 as 26", |reading, room| match whole(reading, room) {
        Told { number: NO_REFERENCE, place, .. } => Told::refused(NO_CHARACTER, place),
        told => told,
    }),
    telling("26 as 25", |reading, room| match whole(reading, room) {
        Told { number: NO_CHARACTER, place, .. } => Told::refused(NO_REFERENCE, place),
        told => told,
    }),
    telling("a refusal ends the text", |reading, room| match whole(reading, room) {
        Told { number: NO_REFERENCE | NO_CHARACTER, .. } => Told::taken(reading),
        told => told,
    }),
    telling("a place with no refusal", |reading, room| match whole(reading, room) {
        Told { number: 0, written, .. } => Told { number: 0, written, place: reading.length },
        told => told,
    }),
    telling("the content's length is told", |reading, room| match whole(reading, room) {
        Told { number: 0, place, .. } => Told { number: 0, written: reading.length, place },
        told => told,
    }),
];

/// What is told of one reference when the room counts before some refusals.
fn room_first(reading: &Reading, room: Option<usize>, numbers: &[usize]) -> Told {
    match reading.refused {
        Some((number, _)) if numbers.contains(&number) && room.is_none_or(|room| room == 0) => Told::refused(NO_ROOM, 0),
        _ => one(reading, room),
    }
}

const REFERENCES: &[Wrong] = &[
    telling_one("a reference: 27 before 25", |reading, room| room_first(reading, room, &[NO_REFERENCE])),
    telling_one("a reference: 27 before 26", |reading, room| room_first(reading, room, &[NO_CHARACTER])),
    telling_one("a reference: a place past the end before 25 and 26", |reading, room| match room {
        None => Told::refused(NO_ROOM, 0),
        _ => one(reading, room),
    }),
    telling_one("a reference: 27 where four bytes do not fit", |reading, room| match room {
        Some(0..=3) if reading.refused.is_none() => Told::refused(NO_ROOM, 0),
        _ => one(reading, room),
    }),
    telling_one("a reference: 27 where it just fits", |reading, room| one(reading, room.and_then(|room| room.checked_sub(1)))),
    telling_one("a reference: one byte of room more", |reading, room| one(reading, room.map(|room| room + 1))),
    telling_one("a reference: a place past the end has room", |reading, room| one(reading, room.or(Some(4)))),
    telling_one("a reference: 27 at the content's end", |reading, room| moved(one(reading, room), NO_ROOM, |_| reading.length)),
    telling_one("a reference: 25 at the content's end", |reading, room| moved(one(reading, room), NO_REFERENCE, |_| reading.length)),
    telling_one("a reference: 26 behind the `#`", |reading, room| moved(one(reading, room), NO_CHARACTER, |_| 1)),
    telling_one("a reference: 25 as 26", |reading, room| match one(reading, room) {
        Told { number: NO_REFERENCE, .. } => Told::refused(NO_CHARACTER, 0),
        told => told,
    }),
    telling_one("a reference: 26 as 25", |reading, room| match one(reading, room) {
        Told { number: NO_CHARACTER, .. } => Told::refused(NO_REFERENCE, 0),
        told => told,
    }),
    telling_one("a reference: as much as fits", |reading, room| match (one(reading, room), room) {
        (Told { number: NO_ROOM, .. }, Some(room)) => Told { number: 0, written: room, place: 0 },
        (told, _) => told,
    }),
];

const ANSWERS: &[Wrong] = &[
    ("one slot suffices", Account { few: |slots| slots < SLOTS - 1, ..SOUND }),
    ("three slots are needed", Account { few: |slots| slots < SLOTS + 1, ..SOUND }),
    ("no slot is needed", Account { few: |_| false, ..SOUND }),
    ending("17 writes the slot that there is", |call| {
        if call.number == BAD_STATE {
            call.answer.fill(0)
        }
    }),
    ending("17 writes the bytes", |call| {
        if call.number == BAD_STATE {
            let reading = call.reading;
            call.put(call.at, &reading.bytes)
        }
    }),
    ending("17 is 0", |call| {
        if call.number == BAD_STATE {
            call.number = 0
        }
    }),
    ending("a third slot is written", |call| {
        if call.answer.len() > SLOTS {
            call.answer[SLOTS] = 0
        }
    }),
    ending("a refusal is answered with 0", |call| call.number = 0),
    ending("27 is answered with 26", |call| call.number = call.number.min(NO_CHARACTER)),
    ending("the bytes written are not told", |call| {
        if call.number == 0 {
            call.answer[WRITTEN] = 0
        }
    }),
    ending("the end of what is written is told", |call| {
        if call.number == 0 {
            call.answer[WRITTEN] += call.at
        }
    }),
    ending("the place counts in the buffer", |call| {
        if call.number > BAD_STATE {
            call.answer[PLACE] = call.answer[PLACE].wrapping_add(call.at)
        }
    }),
    ending("the bytes before a refusal are written", |call| {
        if call.number > BAD_STATE {
            let reading = call.reading;
            call.put(call.at, &reading.bytes)
        }
    }),
    ending("the bytes before a refusal are counted", |call| {
        if call.number > BAD_STATE {
            call.answer[WRITTEN] = call.reading.bytes.len()
        }
    }),
    ending("a byte behind what is written is touched", |call| {
        if call.number == 0 {
            let end = call.at + call.answer[WRITTEN];
            call.put(end, b"\0")
        }
    }),
    ending("a byte before what is written is touched", |call| {
        if call.number == 0 && call.at > 0 {
            call.put(call.at - 1, b"\0")
        }
    }),
    ending("four bytes are written for each reference", |call| {
        if call.number == 0 && !call.whole {
            let end = call.at + call.answer[WRITTEN];
            call.put(end, &b"\0\0\0\0"[call.answer[WRITTEN]..])
        }
    }),
    ending("the bytes of the content behind what is written", |call| {
        if call.number == 0 && call.whole {
            let (end, content) = (call.at + call.answer[WRITTEN], call.content);
            call.put(end, &content[call.answer[WRITTEN]..])
        }
    }),
    ending("written from the buffer's start", |call| {
        if call.number == 0 {
            let reading = call.reading;
            call.put(0, &reading.bytes)
        }
    }),
    ending("the last byte is not written", |call| {
        if call.number == 0 && call.answer[WRITTEN] > 0 {
            let last = call.at + call.answer[WRITTEN] - 1;
            call.put(last, b"\0")
        }
    }),
    ending("the first byte of the buffer is cleared by a refusal", |call| {
        if call.number > BAD_STATE {
            call.put(0, b"\0")
        }
    }),
    ending("a byte behind the buffer is touched", |call| call.around[call.lent.1] ^= 1),
    ending("a byte before the buffer is touched", |call| call.around[call.lent.0 - 1] ^= 1),
];

const RULES: &[(&str, Rules)] = &[
    ("the crate: a reference passes `&`", Rules { closes, ..theirs::SOUND }),
    ("the crate: a reference that is open ends at the next `&`", {
        let open = |content: &[u8], at: usize| {
            let end = (at + 1..content.len()).find(|&end| content[end] == b'&').unwrap_or(content.len());
            theirs::Fault::Unterminated(at, end)
        };
        Rules { open, ..theirs::SOUND }
    }),
    (
        "the crate: a reference that is open begins behind its `&`",
        Rules { open: |content, at| theirs::Fault::Unterminated(at + 1, content.len()), ..theirs::SOUND },
    ),
    (
        "the crate: a name that it does not know begins at its `&`",
        Rules { unknown: |from, to| theirs::Fault::Unrecognized(from - 1, to), ..theirs::SOUND },
    ),
    (
        "the crate: a name that it does not know ends with its `;`",
        Rules { unknown: |from, to| theirs::Fault::Unrecognized(from, to + 1), ..theirs::SOUND },
    ),
    ("the crate: no `apos`", Rules { name: |content| name(content).filter(|&b| b != b'\''), ..theirs::SOUND }),
    ("the crate: `nbsp` too", Rules { name: |content| name(content).or((content == b"nbsp").then_some(b' ')), ..theirs::SOUND }),
    ("the crate: a sign is no digit", Rules { sign: |_| false, ..theirs::SOUND }),
    ("the crate: a `+` is no digit", Rules { sign: |b| b == b'-', ..theirs::SOUND }),
    ("the crate: a `-` is no digit", Rules { sign: |b| b == b'+', ..theirs::SOUND }),
    (
        "the crate: a byte that is no digit before a number past 32 bits",
        Rules {
            number: |digits, base| match digits.iter().all(|&b| char::from(b).is_digit(base)) {
                true => theirs::number(digits, base),
                false => Err(theirs::Fault::InvalidDigit),
            },
            ..theirs::SOUND
        },
    ),
    (
        "the crate: a number past 32 bits is no value of Unicode",
        Rules {
            number: |digits, base| {
                theirs::number(digits, base).or_else(|fault| match fault {
                    theirs::Fault::PosOverflow => Ok(u32::MAX),
                    fault => Err(fault),
                })
            },
            ..theirs::SOUND
        },
    ),
    (
        "the crate: no digits are 0",
        Rules { number: |digits, base| if digits.is_empty() { Ok(0) } else { theirs::number(digits, base) }, ..theirs::SOUND },
    ),
    (
        "the crate: no digits are a byte that is none",
        Rules {
            number: |digits, base| if digits.is_empty() { Err(theirs::Fault::InvalidDigit) } else { theirs::number(digits, base) },
            ..theirs::SOUND
        },
    ),
    (
        "the crate: 0 is no value of Unicode",
        Rules { character: |value| if value == 0 { Err(theirs::Fault::InvalidCodepoint(0)) } else { character(value) }, ..theirs::SOUND },
    ),
    (
        "the crate: what is not of XML is illegal",
        Rules {
            character: |value| match listed::is_of_the_crate(value) {
                true => Err(theirs::Fault::IllegalCharacter(value)),
                false => character(value),
            },
            ..theirs::SOUND
        },
    ),
    (
        "the crate: FFFF is illegal",
        Rules {
            character: |value| if value == 0xFFFF { Err(theirs::Fault::IllegalCharacter(value)) } else { character(value) },
            ..theirs::SOUND
        },
    ),
    ("the crate: the content itself is given unless a reference is replaced", Rules { borrowed: |_| true, ..theirs::SOUND }),
    ("the crate: the content itself is given if it has no `;`", Rules { borrowed: |content| !content.contains(&b';'), ..theirs::SOUND }),
];
