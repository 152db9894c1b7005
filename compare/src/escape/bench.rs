//! Runs one content: every call of ours by the archive and by the account, with every slot and every byte of the buffer and around it; and the crate beside it.

use super::account::{Account, Call, Reading};
use super::listed::Told;
use super::summary::Tally;
use super::theirs::Rules;
use super::*;
use crate::check::Difference;
use crate::contents::{self, Case, Kept};
use crate::inputs::random::Dice;
use crate::inputs::{Flow, Sink};
use crate::run::{Runs, Worker};
use sporebasket::lent;
use std::borrow::Cow;
use std::str;

/// All slots that are looked at, lent or not.
const ROOM: usize = 6;
/// Bytes before and behind the buffer, looked at too.
const MARGIN: usize = 5;
/// A content of so many bytes at most is run with every room up to its length, and a longer one with some.
const SHORT: usize = 12;
/// References of a content that are run by themselves, at most.
const REFERENCES: usize = 3;
/// No character has more bytes.
const CHARACTER: usize = 4;
/// One content in so many is run with too few slots.
const FEW: u64 = 7;
/// What stands in the bytes that nobody has to write is one of so many runs.
const RUNS: u64 = 251;

/// What is asked: a whole text or one reference, into a buffer of some bytes from a place on, with so many slots.
#[derive(Clone, Copy)]
struct Ask<'a> {
    whole: bool,
    content: &'a [u8],
    length: usize,
    at: usize,
    slots: usize,
    fill: u64,
}

/// Names of what can differ.
pub const FIELDS: [&str; 10] = [
    "returned number",
    "bytes written",
    "place",
    "slots behind the answer",
    "bytes of the buffer",
    "bytes around the buffer",
    "more bytes than the content has",
    "what the crate gives",
    "what the crate gives for one reference",
    "the rules of the crate",
];
const NUMBER: u32 = 1;
const BEHIND: u32 = 1 << 3;
const BUFFER: u32 = 1 << 4;
const AROUND: u32 = 1 << 5;
const LONGER: u32 = 1 << 6;
const CRATE: [u32; 2] = [1 << 7, 1 << 8];
const RULES: u32 = 1 << 9;

/// A call in which the two sides differ: what was asked, and what both answered.
pub struct Asked {
    pub words: String,
    pub ours: (usize, [usize; ROOM], Vec<u8>),
    pub wanted: (usize, [usize; ROOM], Vec<u8>),
}

pub struct Bench {
    account: &'static Account,
    rules: &'static Rules,
    /// What the bytes of a buffer hold before a call, more than any takes.
    pattern: Vec<u8>,
    ours: Vec<u8>,
    wanted: Vec<u8>,
    /// Of the content as a whole text, and of the latest that is one reference.
    pub reading: Reading,
    single: Reading,
    /// A reference with its marks, and what the crate gives by its rules.
    marked: String,
    ruled: Vec<u8>,
    calls: u64,
    full: u64,
    /// The latest call that differed.
    pub asked: Option<Asked>,
}

impl Bench {
    pub fn new(account: &'static Account, rules: &'static Rules) -> Self {
        Self {
            account,
            rules,
            pattern: Vec::new(),
            ours: Vec::new(),
            wanted: Vec::new(),
            reading: Reading::default(),
            single: Reading::default(),
            marked: String::new(),
            ruled: Vec::new(),
            calls: 0,
            full: 0,
            asked: None,
        }
    }

    /// Room for a buffer of so many bytes, and what is around it.
    fn grow(&mut self, length: usize) {
        let all = length + 2 * MARGIN;
        if self.ours.len() < all {
            self.ours.resize(all.next_power_of_two(), 0);
            self.wanted.resize(all.next_power_of_two(), 0);
            let mut dice = Dice::new(all as u64);
            self.pattern = (0..all.next_power_of_two() + RUNS as usize).map(|_| dice.next() as u8).collect();
        }
    }

    /// One call, by both: the bits of what differs.
    fn call(&mut self, ask: Ask) -> u32 {
        let Ask { whole, content, length, at, slots, fill } = ask;
        self.calls += 1;
        self.grow(length);
        let (buffer, all) = (MARGIN..MARGIN + length, length + 2 * MARGIN);
        let (ours, wanted) = (&mut self.ours[..all], &mut self.wanted[..all]);
        let pattern = &self.pattern[(fill % RUNS) as usize..][..all];
        ours.copy_from_slice(pattern);
        wanted.copy_from_slice(pattern);
        let mut our_answer: [usize; ROOM] = std::array::from_fn(|i| (fill as usize).wrapping_mul(2 * i + 1));
        let mut answer = our_answer;
        let function = if whole { lent::unescape } else { lent::reference };
        let returned = function(content, &mut ours[buffer.clone()], at, &mut our_answer[..slots]);
        let reading = if whole { &self.reading } else { &self.single };
        let lent = (buffer.start, buffer.end);
        let call = Call { whole, content, reading, around: &mut *wanted, lent, at, number: 0, answer: &mut answer[..slots] };
        let number = self.account.answer(call);
        self.full += (number == NO_ROOM) as u64;
        if returned == number && our_answer == answer && ours == wanted {
            return 0;
        }
        let words = format!(
            "{} |{}|, a buffer of {length} bytes from {at}, {slots} slots",
            if whole { "unescape" } else { "reference" },
            contents::shown(content)
        );
        let bytes = |of: &[u8]| of[buffer.clone()].to_vec();
        self.asked = Some(Asked { words, ours: (returned, our_answer, bytes(ours)), wanted: (number, answer, bytes(wanted)) });
        let mut fields = if returned == number { 0 } else { NUMBER };
        fields |= (0..SLOTS).filter(|&i| our_answer[i] != answer[i]).map(|i| 1 << (i + 1)).sum::<u32>();
        fields |= if our_answer[SLOTS..] == answer[SLOTS..] { 0 } else { BEHIND };
        fields |= if ours[buffer.clone()] == wanted[buffer.clone()] { 0 } else { BUFFER };
        let around = ours[..MARGIN] == wanted[..MARGIN] && ours[buffer.end..] == wanted[buffer.end..];
        fields | if around { 0 } else { AROUND }
    }

    /// All calls of a content as a whole text: with room for all of it, with less, from a place past the end, and with too few slots.
    fn texts(&mut self, case: &Case, dice: &mut Dice) -> u32 {
        let (content, turn, count) = (case.content, case.turn, case.content.len());
        let (at, slots) = (turn as usize % 5, SLOTS + turn as usize / 5 % 3);
        let ask = Ask { whole: true, content, length: at + count + turn as usize / 16 % 3, at, slots, fill: dice.next() };
        let mut fields = self.call(ask);
        if fields != 0 {
            return fields;
        }
        let needed = self.reading.bytes.len();
        if count <= SHORT {
            for room in 0..=count {
                fields |= self.call(Ask { length: at + room, ..ask });
            }
        } else {
            let some = [needed, needed.saturating_sub(1), 0, dice.below(count), dice.below(needed + 1), count - 1];
            for room in some {
                fields |= self.call(Ask { length: at + room, ..ask });
            }
        }
        for (length, at) in past(dice, count) {
            fields |= self.call(Ask { length, at, ..ask });
        }
        if turn.is_multiple_of(FEW) {
            fields |= self.call(Ask { slots: 0, ..ask }) | self.call(Ask { slots: 1, ..ask });
        }
        fields
    }

    fn read_one(&mut self, content: &[u8]) {
        let mut single = std::mem::take(&mut self.single);
        self.account.read_one(content, &mut single);
        self.single = single;
    }

    /// All calls of a content as one reference.
    fn reference(&mut self, content: &[u8], turn: u64, dice: &mut Dice) -> u32 {
        self.read_one(content);
        let (at, slots) = (turn as usize / 7 % 5, SLOTS + turn as usize / 3 % 3);
        let ask = Ask { whole: false, content, length: at + CHARACTER + turn as usize % 2, at, slots, fill: dice.next() };
        let mut fields = self.call(ask);
        let rooms = if self.single.refused.is_none() { 0..CHARACTER } else { 0..1 };
        for room in rooms {
            fields |= self.call(Ask { length: at + room, ..ask });
        }
        let [(length, at), _] = past(dice, CHARACTER);
        fields |= self.call(Ask { length, at, ..ask });
        if turn.is_multiple_of(FEW) {
            fields |= self.call(Ask { slots: 0, ..ask }) | self.call(Ask { slots: 1, ..ask });
        }
        fields
    }

    /// Some references of a content, by themselves.
    fn inner(&mut self, content: &[u8], dice: &mut Dice) -> u32 {
        let (mut fields, mut at) = (0, 0);
        for _ in 0..REFERENCES {
            let Some(start) = (at..content.len()).find(|&at| content[at] == b'&') else { break };
            let Some(end) = account::closes(content, start) else { break };
            fields |= self.reference(&content[start + 1..end], dice.next() >> 20, dice);
            at = end + 1;
        }
        fields
    }

    /// The crate beside ours, on a whole text or on one reference with its marks: what of it differs.
    fn beside(&mut self, content: &str, whole: bool, tally: &mut Tally) -> u32 {
        let given = theirs::given(content);
        let ruled = self.rules.read(content.as_bytes(), &mut self.ruled);
        let as_ruled = match (&given, ruled) {
            (Ok(text), Ok(())) => {
                text.as_bytes() == self.ruled && matches!(text, Cow::Borrowed(_)) == (self.rules.borrowed)(content.as_bytes())
            }
            (Err(fault), Err(ruled)) => *fault == ruled,
            _ => false,
        };
        let (reading, which) = if whole { (&self.reading, 0) } else { (&self.single, 1) };
        let alike = match (reading.refused, &given) {
            (None, Ok(text)) => text.as_bytes() == reading.bytes,
            (None, Err(_)) => false,
            (Some(refused), given) => {
                let told = Told { content, refused, before: &reading.bytes, given };
                match listed::which(&told) {
                    Ok(row) => {
                        tally.refusal(row, which, &told);
                        true
                    }
                    Err(()) => false,
                }
            }
        };
        (if as_ruled { 0 } else { RULES }) | if alike { 0 } else { CRATE[which] }
    }

    /// The crate beside one reference: a name by what it finds for it, a number with its marks, unless it would be closed before.
    fn beside_reference(&mut self, content: &str, tally: &mut Tally) -> u32 {
        self.read_one(content.as_bytes());
        if !content.starts_with('#') {
            let alike = match (theirs::named(content), self.single.refused) {
                (Some(text), None) => text.as_bytes() == self.single.bytes,
                (None, refused) => refused == Some((NO_REFERENCE, 0)),
                _ => false,
            };
            return if alike { 0 } else { CRATE[1] };
        }
        if content.bytes().any(|b| b"&;".contains(&b)) {
            return 0;
        }
        let mut marked = std::mem::take(&mut self.marked);
        marked.clear();
        ["&", content, ";"].iter().for_each(|part| marked.push_str(part));
        let fields = self.beside(&marked, false, tally);
        self.marked = marked;
        fields
    }
}

/// Buffers with a place past their end.
fn past(dice: &mut Dice, most: usize) -> [(usize, usize); 2] {
    let length = dice.below(most + 1);
    [(length, length + 1 + dice.below(2) * dice.below(9)), (length, usize::MAX - dice.below(2) * dice.below(most + 2))]
}

impl Runs for Bench {
    type Case<'a> = Case<'a>;
    type Kept = Kept;
    type Tally = Tally;
    type Told = ();

    fn run(&mut self, case: &Case, tally: &mut Tally) -> Result<(), Difference> {
        tally.contents += 1;
        let mut reading = std::mem::take(&mut self.reading);
        self.account.read(case.content, &mut reading);
        self.reading = reading;
        self.asked = None;
        (self.calls, self.full) = (0, 0);
        let mut dice = Dice::new(case.turn);
        let mut fields = self.texts(case, &mut dice);
        if fields == 0 {
            fields |= self.inner(case.content, &mut dice);
            fields |= self.reference(case.content, case.turn, &mut dice);
        }
        tally.calls += self.calls;
        tally.full += self.full;
        if self.reading.bytes.len() > case.content.len() {
            fields |= LONGER;
        }
        if let Ok(content) = str::from_utf8(case.content) {
            tally.texts += 1;
            fields |= self.beside(content, true, tally);
            fields |= self.beside_reference(content, tally);
        }
        if fields != 0 {
            return Err(Difference { call: 1, fields: fields.into() });
        }
        tally.tell(&self.reading);
        Ok(())
    }

    fn reset(&mut self) {
        *self = Self::new(self.account, self.rules);
    }

    fn kept(case: &Case) -> Kept {
        Kept::of(case)
    }

    fn length(kept: &Kept) -> usize {
        kept.content.len()
    }
}

impl Sink for Worker<Bench> {
    /// A content, which comes in the place of a document.
    fn case(&mut self, content: &[u8], settings: u16, _: usize) -> Flow {
        contents::case(self, content, settings)
    }
}
