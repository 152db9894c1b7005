//! Runs one content: every call of ours by the archive and by the account, with every slot; and the crate's iterator beside it.

use super::account::{Account, Reading, Step};
use super::summary::Tally;
use super::theirs::{Item, Ruled, Rules};
use super::*;
use crate::check::Difference;
use crate::contents::{self, Case, Kept};
use crate::inputs::random::Dice;
use crate::inputs::{Flow, Sink};
use crate::run::{Runs, Worker};
use sporebasket::lent;
use std::str;

/// All slots that are looked at, lent or not.
const ROOM: usize = 16;
/// In a content of so many bytes at most every place is tried, and in a longer one so many.
const SHORT: usize = 12;
const TRIED: usize = 4;
/// Names of attributes that are looked for in a content, at most.
const LOOKED_FOR: usize = 3;
/// No attribute has fewer bytes, with the white space in front.
const SHORTEST: usize = 5;
/// One content in so many is run with spans that do not lie in the document, and with too few slots.
const SPANS: u64 = 23;

/// What stands around a content in its document.
const AROUND: [(&[u8], &[u8]); 9] = [
    (b"", b""),
    (b"<", b">"),
    (b"<", b"/>"),
    (b"<a b='1'><", b"'>"),
    (b"\xEF\xBB\xBF<r a=\"", b"\" a='1'>"),
    (b"<<<<<<<<<<<<<<<<", b"='1'"),
    (b"'", b"='' b=''>"),
    (b" \t\r\n", b" "),
    (b"", b"\" c=\"\"><"),
];

/// What is asked: the attribute at a place, or the one of a name.
#[derive(Clone, Debug)]
pub enum Ask {
    At(usize),
    Find(Vec<u8>),
}

/// Names of what can differ: the number returned, the slots of an answer, and the rest.
pub const FIELDS: [&str; 16] = [
    "returned number",
    "found",
    "name start",
    "name end",
    "value start",
    "value end",
    "next",
    "place",
    "quote",
    "first",
    "slots behind the answer",
    "more attributes than a fifth of the bytes",
    "what the crate gives with checks",
    "what the crate gives without checks",
    "the rules of the crate with checks",
    "the rules of the crate without checks",
];
const BEHIND: u32 = 1 << 10;
const FIFTH: u32 = 1 << 11;
const CRATE: [u32; 2] = [1 << 12, 1 << 13];
const RULES: [u32; 2] = [1 << 14, 1 << 15];

/// A call in which the two sides differ: what was asked, and what both answered.
pub struct Asked {
    pub words: String,
    pub ours: (usize, [usize; ROOM]),
    pub wanted: (usize, [usize; ROOM]),
}

pub struct Bench {
    account: &'static Account,
    rules: &'static Rules,
    document: Vec<u8>,
    pub reading: Reading,
    calls: u64,
    /// The latest call that differed.
    pub asked: Option<Asked>,
}

impl Bench {
    pub fn new(account: &'static Account, rules: &'static Rules) -> Self {
        Self { account, rules, document: Vec::new(), reading: Reading::default(), calls: 0, asked: None }
    }

    /// One call, by both: the bits of what differs.
    fn call(&mut self, (from, to): Span, name: usize, ask: &Ask, slots: usize, fill: u64) -> u32 {
        self.calls += 1;
        let mut ours: [usize; ROOM] = std::array::from_fn(|i| (fill as usize).wrapping_mul(2 * i + 1));
        let mut wanted = ours;
        let (document, account, reading) = (&self.document[..], self.account, &self.reading);
        let lent = &mut ours[..slots];
        let returned = match ask {
            Ask::At(at) => lent::attribute(document, from, to, name, *at, lent),
            Ask::Find(name_wanted) => lent::find_attribute(document, from, to, name, name_wanted, lent),
        };
        let content = document.get(from..to).unwrap_or_default();
        let due = match ask {
            _ if !(account.named)(reading, name) => None,
            Ask::At(at) => at.checked_sub(from).and_then(|at| (account.reached)(content, reading, at)),
            Ask::Find(name_wanted) => Some((account.wanted)(content, reading, name_wanted)),
        };
        let step: Option<&Step> = due.map(|due| &reading.steps[due]);
        let number = account.answer(step, (from, to), document.len(), &mut wanted[..slots]);
        if returned == number && ours == wanted {
            return 0;
        }
        let words = format!("content at {from}..{to}, name {name}, {ask:?}, {slots} slots");
        self.asked = Some(Asked { words, ours: (returned, ours), wanted: (number, wanted) });
        let differ = (0..SLOTS).filter(|&i| ours[i] != wanted[i]).map(|i| 1 << (i + 1)).sum::<u32>();
        differ | (returned != number) as u32 | if ours[SLOTS..] == wanted[SLOTS..] { 0 } else { BEHIND }
    }

    /// All calls of a content: from its name on, at places that are not reached, with name lengths that are not its own, by names, and with spans that do not
    /// lie in the document.
    fn calls(&mut self, case: &Case) -> u32 {
        let (content, turn) = (case.content, case.turn);
        let mut dice = Dice::new(turn);
        let (before, behind) = AROUND[turn as usize % AROUND.len()];
        self.document.clear();
        [before, content, behind].iter().for_each(|part| self.document.extend(*part));
        let span = (before.len(), before.len() + content.len());
        let name = self.reading.name;
        let slots = SLOTS + turn as usize % 3;
        let fill = dice.next();
        for step in 0..self.reading.steps.len() {
            let at = span.0 + self.reading.steps[step].at;
            let fields = self.call(span, name, &Ask::At(at), slots, fill);
            if fields != 0 {
                return fields;
            }
        }
        let mut fields = 0;
        for at in self.places(content, &mut dice) {
            fields |= self.call(span, name, &Ask::At(at.wrapping_add(span.0)), slots, fill);
        }
        for wrong in self.lengths(content, &mut dice) {
            fields |= self.call(span, wrong, &Ask::At(span.0 + name), slots, fill);
            fields |= self.call(span, wrong, &Ask::At(span.0.wrapping_add(wrong)), slots, fill);
            fields |= self.call(span, wrong, &Ask::Find(b"a".into()), slots, fill);
        }
        for wanted in self.names(content, &mut dice) {
            fields |= self.call(span, name, &Ask::Find(wanted), slots, fill);
        }
        if turn.is_multiple_of(SPANS) {
            fields |= self.spans(span, &mut dice, fill);
        }
        fields
    }

    /// Places that calls are made at, from the content's start: all in a short content, and in a long one some.
    fn places(&self, content: &[u8], dice: &mut Dice) -> Vec<usize> {
        let length = content.len();
        if length <= SHORT {
            return (0..length + 2).chain([usize::MAX]).collect();
        }
        let step = &self.reading.steps[dice.below(self.reading.steps.len())];
        let near = [step.slots[NEXT].wrapping_sub(1), step.slots[NEXT] + 1, step.slots[VALUE_FROM], step.slots[PLACE], step.at + 1];
        (0..TRIED).map(|_| dice.below(length + 2)).chain(near).collect()
    }

    /// Name lengths that are not the content's, but for the second now and then.
    fn lengths(&self, content: &[u8], dice: &mut Dice) -> [usize; 2] {
        let name = self.reading.name;
        let near = if dice.below(2) == 0 { name + 1 } else { name.wrapping_sub(1) };
        [near, [0, content.len(), content.len() + 1, usize::MAX, name + 2, dice.below(content.len() + 1)][dice.below(6)]]
    }

    /// Names to look for: some of attributes, and others.
    fn names(&self, content: &[u8], dice: &mut Dice) -> Vec<Vec<u8>> {
        let steps = &self.reading.steps;
        let count = steps.len() - 1;
        let start = if count > LOOKED_FOR { dice.below(count) } else { 0 };
        let some = (0..count.min(LOOKED_FOR)).map(|i| steps[(start + i) % count].name());
        let mut names: Vec<Vec<u8>> = some.map(|(from, to)| content[from..to].to_vec()).collect();
        let last = &steps[count];
        let mut other = match dice.below(6) {
            0 => content[..self.reading.name].to_vec(),
            1 => names.first().cloned().unwrap_or_default(),
            2 => content.get(last.slots[PLACE]..).unwrap_or_default().iter().take(2).copied().collect(),
            3 => vec![*b"abAx=".get(dice.below(5)).unwrap_or(&b'a')],
            4 => names.last().cloned().unwrap_or_default(),
            _ => Vec::new(),
        };
        match dice.below(4) {
            0 => other.push(b'x'),
            1 => drop(other.pop()),
            2 => other.iter_mut().for_each(|b| *b ^= 0x20),
            _ => (),
        }
        names.push(other);
        names
    }

    /// Spans that do not lie in the document, and answers with too few slots.
    fn spans(&mut self, (from, to): Span, dice: &mut Dice, fill: u64) -> u32 {
        let (name, length) = (self.reading.name, self.document.len());
        let asks = [Ask::At(from + name), Ask::Find(b"a".into())];
        let bad =
            [(from, length + 1), (to + 1, to), (usize::MAX, to), (from, usize::MAX), (usize::MAX, usize::MAX), (length + 1, length + 1)];
        let mut fields = 0;
        for ask in &asks {
            fields |= self.call(bad[dice.below(bad.len())], name, ask, SLOTS, fill);
            fields |= self.call((from, to), name, ask, dice.below(SLOTS), fill);
        }
        fields
    }

    /// The crate beside ours, with checks or without: what of it differs.
    fn beside(&mut self, content: &str, checks: bool, tally: &mut Tally) -> u32 {
        let bytes = content.as_bytes();
        let which = !checks as usize;
        let mut ruled = Ruled { rules: self.rules, content: bytes, checks, at: Some(self.reading.name), names: Vec::new() };
        let mut items = theirs::items(content, self.reading.name, checks);
        let mut fields = 0;
        let mut next = |fields: &mut u32| -> Option<Item> {
            let item = items.next();
            if item != ruled.next() {
                *fields |= RULES[which];
            }
            item
        };
        for step in &self.reading.steps {
            let item = next(&mut fields);
            let alike = match (&item, step.number) {
                (Some(Ok(spans)), 0) => step.found() && *spans == (step.name(), step.value()),
                (None, 0) => !step.found(),
                (Some(item), _) => match listed::which(&listed::Told { content: bytes, checks, step, item }) {
                    Ok(row) => {
                        tally.refusal(row, which, bytes);
                        true
                    }
                    Err(()) => false,
                },
                (None, _) => false,
            };
            fields |= if alike { 0 } else { CRATE[which] };
        }
        if fields != 0 {
            return fields;
        }
        // what the crate gives behind our refusal, and nothing for ever behind its end
        let mut more = 0;
        while next(&mut fields).is_some() {
            more += 1;
            if more > 2 * bytes.len() {
                return fields | RULES[which];
            }
        }
        fields |= if next(&mut fields).is_some() { RULES[which] } else { 0 };
        if more > 0 && self.reading.steps.last().is_none_or(|step| step.number == 0) {
            fields |= CRATE[which];
        }
        tally.goes_on(more, which, bytes);
        fields
    }
}

impl Runs for Bench {
    type Case<'a> = Case<'a>;
    type Kept = Kept;
    type Tally = Tally;
    type Told = ();

    fn run(&mut self, case: &Case, tally: &mut Tally) -> Result<(), Difference> {
        tally.contents += 1;
        let mut reading = std::mem::take(&mut self.reading);
        self.account.read(case.content, &mut reading);
        self.reading = reading;
        self.asked = None;
        self.calls = 0;
        let mut fields = self.calls(case);
        tally.calls += self.calls;
        let count = self.reading.steps.len() - 1;
        if count > case.content.len() / SHORTEST {
            fields |= FIFTH;
        }
        if let Ok(content) = str::from_utf8(case.content) {
            tally.texts += 1;
            fields |= self.beside(content, true, tally);
            fields |= self.beside(content, false, tally);
        }
        if fields != 0 {
            return Err(Difference { call: 1, fields: fields.into() });
        }
        tally.tell(&self.reading);
        Ok(())
    }

    fn reset(&mut self) {
        *self = Self::new(self.account, self.rules);
    }

    fn kept(case: &Case) -> Kept {
        Kept::of(case)
    }

    fn length(kept: &Kept) -> usize {
        kept.content.len()
    }
}

impl Sink for Worker<Bench> {
    /// A content, which comes in the place of a document.
    fn case(&mut self, content: &[u8], settings: u16, _: usize) -> Flow {
        contents::case(self, content, settings)
    }
}
