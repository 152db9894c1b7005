//! A second account of what is answered, by the rules. It calls nothing of ours.

use super::*;

/// An item of a content, a byte or a reference: its first place, and how many bytes are written up to its end.
#[derive(Clone, Copy)]
pub struct Item {
    pub place: usize,
    pub end: usize,
}

/// What a content stands for: its items up to the first that is refused, whatever the room.
#[derive(Default)]
pub struct Reading {
    /// How many bytes the content has.
    pub length: usize,
    pub items: Vec<Item>,
    /// What the items are written as.
    pub bytes: Vec<u8>,
    /// The number and the place of the refusal behind them.
    pub refused: Option<(usize, usize)>,
}

/// What a call is answered.
#[derive(Clone, Copy, Debug, PartialEq, Eq)]
pub struct Told {
    pub number: usize,
    pub written: usize,
    pub place: usize,
}

impl Told {
    pub fn refused(number: usize, place: usize) -> Self {
        Self { number, written: 0, place }
    }

    pub fn taken(reading: &Reading) -> Self {
        Self { number: 0, written: reading.bytes.len(), place: 0 }
    }
}

/// A call that is answered: all bytes around the buffer that is lent with where it lies in them, and all slots that are lent.
pub struct Call<'a> {
    /// A whole text, not one reference.
    pub whole: bool,
    pub content: &'a [u8],
    pub reading: &'a Reading,
    pub around: &'a mut [u8],
    pub lent: (usize, usize),
    pub at: usize,
    pub number: usize,
    pub answer: &'a mut [usize],
}

impl Call<'_> {
    /// Writes bytes into the buffer from a place on, as far as they lie in it.
    pub fn put(&mut self, place: usize, bytes: &[u8]) {
        let lent = &mut self.around[self.lent.0..self.lent.1];
        if let Some(part) = lent.get_mut(place..) {
            part.iter_mut().zip(bytes).for_each(|(byte, b)| *byte = *b);
        }
    }
}

/// An account by its parts, so that a wrong one can have one part of its own.
pub struct Account {
    /// Of how many slots an answer has too few.
    pub few: fn(usize) -> bool,
    /// What the byte at a place is written as that is no `&`, if it is.
    pub plain: fn(&[u8], usize) -> Option<u8>,
    /// Where the `;` stands behind the `&` at a place.
    pub closes: fn(&[u8], usize) -> Option<usize>,
    /// The character that a name stands for.
    pub name: fn(&[u8]) -> Option<u8>,
    /// The value of a character reference, the greatest for all from there on; none of what is no such reference.
    pub number: fn(&[u8]) -> Option<u32>,
    pub is_character: fn(u32) -> bool,
    pub encode: fn(u32, &mut Vec<u8>),
    /// What is answered by what a content or one reference stands for, and by the room from the place on, none for a place past the end.
    pub whole: fn(&Reading, Option<usize>) -> Told,
    pub one: fn(&Reading, Option<usize>) -> Told,
    /// What is done at the end, also of a call with too few slots.
    pub end: fn(&mut Call),
}

pub const SOUND: Account = Account {
    few: |slots| slots < SLOTS,
    plain: |content, at| Some(content[at]),
    closes,
    name,
    number,
    is_character,
    encode,
    whole,
    one,
    end: |_| (),
};

pub fn closes(content: &[u8], at: usize) -> Option<usize> {
    (at + 1..content.len()).find(|&end| content[end] == b';')
}

pub fn name(content: &[u8]) -> Option<u8> {
    match content {
        b"lt" => Some(b'<'),
        b"gt" => Some(b'>'),
        b"amp" => Some(b'&'),
        b"apos" => Some(b'\''),
        b"quot" => Some(b'"'),
        _ => None,
    }
}

/// What stands behind `#` or `#x`, and the base.
pub fn digits(content: &[u8]) -> Option<(&[u8], u32)> {
    let number = content.strip_prefix(b"#")?;
    Some(number.strip_prefix(b"x").map_or((number, 10), |number| (number, 16)))
}

pub fn number(content: &[u8]) -> Option<u32> {
    let (digits, base) = digits(content).filter(|(digits, _)| !digits.is_empty())?;
    digits.iter().try_fold(0, |value: u32, &b| {
        let digit = char::from(b).to_digit(base)?;
        Some(value.saturating_mul(base).saturating_add(digit))
    })
}

/// Production 2.
pub fn is_character(value: u32) -> bool {
    matches!(value, 0x9 | 0xA | 0xD | 0x20..=0xD7FF | 0xE000..=0xFFFD | 0x10000..=0x10FFFF)
}

/// The bytes by RFC 3629.
pub fn encode(value: u32, out: &mut Vec<u8>) {
    let last = |shift: u32| (value >> shift & 0x3F) as u8 | 0x80;
    match value {
        0..=0x7F => out.push(value as u8),
        0x80..=0x7FF => out.extend([0xC0 | (value >> 6) as u8, last(0)]),
        0x800..=0xFFFF => out.extend([0xE0 | (value >> 12) as u8, last(6), last(0)]),
        _ => out.extend([0xF0 | (value >> 18) as u8, last(12), last(6), last(0)]),
    }
}

/// The first refusal from the left: each item's own, or that it does not fit.
pub fn whole(reading: &Reading, room: Option<usize>) -> Told {
    let fit = reading.items.partition_point(|item| room.is_some_and(|room| item.end <= room));
    match (reading.items.get(fit), reading.refused) {
        (Some(item), _) => Told::refused(NO_ROOM, item.place),
        (None, Some((number, place))) => Told::refused(number, place),
        (None, None) if room.is_none() => Told::refused(NO_ROOM, reading.length),
        (None, None) => Told::taken(reading),
    }
}

pub fn one(reading: &Reading, room: Option<usize>) -> Told {
    match (reading.refused, room) {
        (Some((number, _)), _) => Told::refused(number, 0),
        (None, Some(room)) if reading.bytes.len() <= room => Told::taken(reading),
        _ => Told::refused(NO_ROOM, 0),
    }
}

impl Account {
    /// What stands between `&` and `;` as the value of a character, or the number of a refusal.
    fn meaning(&self, content: &[u8]) -> Result<u32, usize> {
        if let Some(b) = (self.name)(content) {
            return Ok(b.into());
        }
        let value = (self.number)(content).ok_or(NO_REFERENCE)?;
        Some(value).filter(|&value| (self.is_character)(value)).ok_or(NO_CHARACTER)
    }

    fn clear(&self, content: &[u8], reading: &mut Reading) {
        reading.length = content.len();
        reading.items.clear();
        reading.bytes.clear();
        reading.refused = None;
    }

    /// Reads a whole text.
    pub fn read(&self, content: &[u8], reading: &mut Reading) {
        self.clear(content, reading);
        let mut place = 0;
        while place < content.len() {
            let mut next = place + 1;
            if content[place] == b'&' {
                let end = (self.closes)(content, place);
                match end.ok_or(NO_REFERENCE).and_then(|end| self.meaning(&content[place + 1..end])) {
                    Ok(value) => (self.encode)(value, &mut reading.bytes),
                    Err(number) => {
                        reading.refused = Some((number, place));
                        return;
                    }
                }
                next = end.unwrap_or(place) + 1;
            } else {
                reading.bytes.extend((self.plain)(content, place));
            }
            reading.items.push(Item { place, end: reading.bytes.len() });
            place = next;
        }
    }

    /// Reads one reference.
    pub fn read_one(&self, content: &[u8], reading: &mut Reading) {
        self.clear(content, reading);
        match self.meaning(content) {
            Ok(value) => (self.encode)(value, &mut reading.bytes),
            Err(number) => reading.refused = Some((number, 0)),
        }
    }

    /// What is to be answered to a call, and written: the number.
    pub fn answer(&self, mut call: Call) -> usize {
        let length = call.lent.1 - call.lent.0;
        let room = length.checked_sub(call.at);
        if (self.few)(call.answer.len()) {
            call.number = BAD_STATE;
        } else {
            let told = if call.whole { (self.whole)(call.reading, room) } else { (self.one)(call.reading, room) };
            call.number = told.number;
            call.answer.iter_mut().zip([told.written, told.place]).for_each(|(slot, told)| *slot = told);
            call.put(call.at, &call.reading.bytes[..told.written.min(call.reading.bytes.len())]);
        }
        (self.end)(&mut call);
        call.number
    }
}
