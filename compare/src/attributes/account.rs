//! A second account of what is answered, by the rules. It calls nothing of ours.

use super::*;

/// A tag's content, and what was read of it so far.
pub struct Tag<'a> {
    pub content: &'a [u8],
    /// The spans of the names that attributes were answered with.
    pub names: &'a [Span],
}

impl<'a> Tag<'a> {
    pub fn bytes(&self, (from, to): Span) -> &'a [u8] {
        self.content.get(from..to).unwrap_or_default()
    }
}

/// What one call at a place is answered: the number, and the slots with places that count in the content.
#[derive(Clone, Copy, Debug, PartialEq, Eq)]
pub struct Step {
    /// The place of the call.
    pub at: usize,
    pub number: usize,
    pub slots: [usize; SLOTS],
}

impl Step {
    pub fn refused(at: usize, number: usize, place: usize) -> Self {
        let mut slots = [0; SLOTS];
        slots[PLACE] = place;
        Self { at, number, slots }
    }

    pub fn found(&self) -> bool {
        self.slots[FOUND] == 1
    }

    pub fn name(&self) -> Span {
        (self.slots[NAME_FROM], self.slots[NAME_TO])
    }

    pub fn value(&self) -> Span {
        (self.slots[VALUE_FROM], self.slots[VALUE_TO])
    }
}

/// What all calls are answered, one behind the other: the last is none or a refusal.
#[derive(Default)]
pub struct Reading {
    /// How many bytes the element's name has.
    pub name: usize,
    pub steps: Vec<Step>,
    names: Vec<Span>,
}

/// Where a value ends.
pub enum Value {
    Closed(usize),
    Open(usize),
    Less(usize),
}

/// A call that is answered: where the content begins in the document, the number, and all slots that are lent.
pub struct Call<'a> {
    pub from: usize,
    pub number: usize,
    pub answer: &'a mut [usize],
}

/// An account by its parts, so that a wrong one can have one part of its own.
pub struct Account {
    /// Of how many slots an answer has too few, and whether a span lies in a document of some length.
    pub few: fn(usize) -> bool,
    pub lies: fn(Span, usize) -> bool,
    pub white: fn(u8) -> bool,
    /// How many bytes a content's name has.
    pub length: fn(&[u8]) -> usize,
    /// Whether what begins at the first place may follow what ended at the second.
    pub apart: fn(&Tag, usize, usize) -> bool,
    /// Whether the byte at the second place belongs to a name that begins at the first.
    pub of_a_name: fn(&[u8], usize, usize) -> bool,
    /// Where a name was used before.
    pub used: fn(&Tag, Span) -> Option<usize>,
    pub is_quote: fn(u8) -> bool,
    /// Where the value ends that is opened at a place.
    pub value: fn(&[u8], usize) -> Value,
    /// What is made of an answer before the next call.
    pub told: fn(&Tag, &mut Step),
    /// Whether a name length is the content's.
    pub named: fn(&Reading, usize) -> bool,
    /// Which step a call at a place asks for.
    pub reached: fn(&[u8], &Reading, usize) -> Option<usize>,
    /// Which step tells of a name that is looked for.
    pub wanted: fn(&[u8], &Reading, &[u8]) -> usize,
    /// What is done at the end.
    pub end: fn(&mut Call),
}

pub const SOUND: Account = Account {
    few: |slots| slots < SLOTS,
    lies: |(from, to), length| from <= to && to <= length,
    white,
    length: |content| content.iter().position(|&b| white(b)).unwrap_or(content.len()),
    apart: |_, at, from| at < from,
    of_a_name: |content, _, at| !white(content[at]) && !b"='\"".contains(&content[at]),
    used,
    is_quote: |b| b == b'\'' || b == b'"',
    value,
    told: |_, _| (),
    named: |reading, name| reading.name == name,
    reached,
    wanted,
    end: |_| (),
};

pub fn white(b: u8) -> bool {
    b == b' ' || b == b'\t' || b == b'\n' || b == b'\r'
}

pub fn used(tag: &Tag, name: Span) -> Option<usize> {
    tag.names.iter().find(|&&other| tag.bytes(other) == tag.bytes(name)).map(|other| other.0)
}

pub fn value(content: &[u8], opened: usize) -> Value {
    let quote = content[opened];
    match (opened + 1..content.len()).find(|&at| content[at] == quote || content[at] == b'<') {
        None => Value::Open(content.len()),
        Some(at) if content[at] == quote => Value::Closed(at),
        Some(at) => Value::Less(at),
    }
}

pub fn reached(_: &[u8], reading: &Reading, at: usize) -> Option<usize> {
    reading.steps.iter().position(|step| step.at == at)
}

pub fn wanted(content: &[u8], reading: &Reading, wanted: &[u8]) -> usize {
    let is = |step: &Step| step.found() && content.get(step.name().0..step.name().1) == Some(wanted);
    reading.steps.iter().position(is).unwrap_or(reading.steps.len() - 1)
}

impl Account {
    /// Reads a content from its name on.
    pub fn read(&self, content: &[u8], reading: &mut Reading) {
        reading.name = (self.length)(content);
        reading.steps.clear();
        reading.names.clear();
        let mut at = reading.name;
        // no more calls than places, even of a wrong account
        for _ in 0..=content.len() {
            let tag = Tag { content, names: &reading.names };
            let mut step = self.step(&tag, at);
            (self.told)(&tag, &mut step);
            reading.steps.push(step);
            if !step.found() {
                return;
            }
            reading.names.push(step.name());
            at = step.slots[NEXT];
        }
    }

    /// The first place from this one on that has no white space, or the end.
    fn skip(&self, content: &[u8], from: usize) -> usize {
        (from..content.len()).find(|&at| !(self.white)(content[at])).unwrap_or(content.len())
    }

    fn step(&self, tag: &Tag, at: usize) -> Step {
        let content = tag.content;
        let refused = |number, place| Step::refused(at, number, place);
        let from = self.skip(content, at);
        if from >= content.len() {
            return Step { at, number: 0, slots: [0; SLOTS] };
        }
        if !(self.apart)(tag, at, from) {
            return refused(NO_SPACE, at);
        }
        let to = (from..content.len()).find(|&at| !(self.of_a_name)(content, from, at)).unwrap_or(content.len());
        if to == from {
            return refused(NO_NAME, from);
        }
        if let Some(first) = (self.used)(tag, (from, to)) {
            let mut step = refused(DUPLICATE, from);
            step.slots[FIRST] = first;
            return step;
        }
        let equals = self.skip(content, to);
        if content.get(equals) != Some(&b'=') {
            return refused(NO_EQUALS, equals);
        }
        let opened = self.skip(content, equals + 1);
        let Some(&quote) = content.get(opened).filter(|&&b| (self.is_quote)(b)) else { return refused(NO_QUOTE, opened) };
        match (self.value)(content, opened) {
            Value::Closed(closed) => Step { at, number: 0, slots: [1, from, to, opened + 1, closed, closed + 1, 0, 0, 0] },
            Value::Less(place) => refused(LESS_THAN, place),
            Value::Open(place) => {
                let mut step = refused(NO_QUOTE, place);
                step.slots[QUOTE] = quote.into();
                step
            }
        }
    }

    /// What is to be answered to a call, and written. The content is `from..to` of a document of some length, and the places of the call and of the answer count in it.
    pub fn answer(&self, step: Option<&Step>, (from, to): Span, length: usize, answer: &mut [usize]) -> usize {
        if (self.few)(answer.len()) {
            return BAD_STATE;
        }
        let told = match step.filter(|_| (self.lies)((from, to), length)) {
            None => Step::refused(0, BAD_STATE, 0),
            Some(step) => in_document(step, from),
        };
        answer.iter_mut().zip(told.slots).for_each(|(slot, told)| *slot = told);
        let mut call = Call { from, number: told.number, answer };
        (self.end)(&mut call);
        call.number
    }
}

/// An answer with places that count in the document.
fn in_document(step: &Step, from: usize) -> Step {
    let mut told = *step;
    let places: &[usize] = match step.number {
        0 if !step.found() => &[],
        0 => &[NAME_FROM, NAME_TO, VALUE_FROM, VALUE_TO, NEXT],
        DUPLICATE => &[PLACE, FIRST],
        _ => &[PLACE],
    };
    places.iter().for_each(|&slot| told.slots[slot] += from);
    told
}
