//! Changed states: every phase at every place of a document, numbers in the slots that no call leaves there, other open names, and fewer slots than a call needs. The reader
//! and the plain engine answer whatever they are lent, and have to answer and leave the same. The crate has no such states.

use crate::check::*;
use crate::ours::*;
use crate::plain::{slots_differ, Beside};

/// A document of more bytes is not taken.
const LONG: usize = 64;
/// Of the bytes before the position so many at most are parts that stand for an open name.
const NAMED: usize = 8;
/// What is answered for a state that is none.
const BAD_STATE: usize = 17;

/// What a call is lent, with the slots behind.
#[derive(Clone, Copy)]
pub struct Lent {
    stack: [usize; SMALL + MARGIN],
    state: State,
    answer: Answer,
    /// How many slots of the stack, of the state and of the answer are lent.
    slots: [usize; 3],
}

/// A call in which the two differ: what both were lent, and what each answered and left.
pub struct Found {
    pub call: usize,
    pub fields: u64,
    lent: Lent,
    reader: (usize, Lent),
    plain: (usize, Lent),
}

type Look<'a> = dyn FnMut(&Lent) -> Result<(), Box<Found>> + 'a;

/// Whether the states of a case are changed: not where that would take long.
pub fn takes(case: &Case) -> bool {
    case.document.len() <= LONG && case.slots <= SMALL
}

/// Runs a case by the reader, and changes each state that it comes to in all ways: the first in which the two differ.
pub fn run<E: Engine>(engine: &mut E, case: &Case, beside: &mut Beside) -> Result<(), Box<Found>> {
    let mut lent = Lent::of(case);
    engine.make(case.document, case.settings.into(), &mut lent.state[..STATE_SLOTS]);
    lent.state[MARK] = case.mark;
    let mut eofs = 0;
    for call in 1..=case.document.len() + 4 {
        changed(&lent, case.document.len(), &mut |lent| differ(engine, case.document, lent, call, beside))?;
        lent.by(|stack, state, answer| engine.read(case.document, stack, state, answer));
        eofs += (lent.answer[KIND] == EOF) as usize;
        if eofs == 2 {
            break;
        }
    }
    Ok(())
}

/// Makes one call by both.
fn differ<E: Engine>(engine: &mut E, document: &[u8], lent: &Lent, call: usize, beside: &mut Beside) -> Result<(), Box<Found>> {
    let (mut reader, mut plain) = (*lent, *lent);
    let wanted = reader.by(|stack, state, answer| engine.read(document, stack, state, answer));
    let returned = plain.by(|stack, state, answer| engine.plain(document, stack, state, answer));
    beside.strays += 1;
    beside.refused += (wanted == BAD_STATE) as u64;
    let mut fields = slots_differ(&plain.state, &reader.state, &plain.answer, &reader.answer, (returned, wanted));
    if plain.stack != reader.stack {
        fields |= STACK;
    }
    match fields {
        0 => Ok(()),
        _ => {
            Err(Box::new(Found { call, fields: fields << PLAIN | STRAY, lent: *lent, reader: (wanted, reader), plain: (returned, plain) }))
        }
    }
}

impl Lent {
    fn of(case: &Case) -> Self {
        Self {
            stack: [CANARY; SMALL + MARGIN],
            state: [CANARY; STATE_SLOTS + MARGIN],
            answer: [CANARY; ANSWER_SLOTS + MARGIN],
            slots: [case.slots, STATE_SLOTS, ANSWER_SLOTS],
        }
    }

    fn by(&mut self, call: impl FnOnce(&mut [usize], &mut [usize], &mut [usize]) -> usize) -> usize {
        let [stack, state, answer] = self.slots;
        call(&mut self.stack[..stack], &mut self.state[..state], &mut self.answer[..answer])
    }

    /// How many names are open, as far as there are slots for them.
    fn depth(&self) -> usize {
        self.state[DEPTH].min(self.slots[0] / 2)
    }

    /// All that is lent on a line.
    fn line(&self, answer: bool) -> String {
        let [stack, state, slots] = self.slots;
        let lent = format!("state {:?}, stack {:?}", &self.state[..state], &self.stack[..stack]);
        match answer {
            true => format!("answer {:?}, {lent}", &self.answer[..slots]),
            false => format!("{lent}, {slots} slots for the answer"),
        }
    }
}

/// Looks at a state changed in all ways.
fn changed(lent: &Lent, length: usize, look: &mut Look) -> Result<(), Box<Found>> {
    let mut with = |change: &dyn Fn(&mut Lent)| {
        let mut next = *lent;
        next.answer = [CANARY; ANSWER_SLOTS + MARGIN];
        change(&mut next);
        look(&next)
    };
    for phase in 0..=PHASES.len() {
        for position in 0..=length + 1 {
            with(&|next| (next.state[PHASE], next.state[POSITION]) = (phase, position))?;
        }
    }
    let numbers = [0, 1, 2, 255, 256, 511, 512, MOST_NAMES, MOST_NAMES + 1, LONGEST, LONGEST + 1, 1 << 63, usize::MAX];
    for number in numbers.into_iter().chain([length.wrapping_sub(1), length, length + 1]) {
        for slot in 0..STATE_SLOTS {
            with(&|next| next.state[slot] = number)?;
        }
        for slot in (2 * lent.depth()).saturating_sub(2)..2 * lent.depth() {
            with(&|next| next.stack[slot] = number)?;
        }
    }
    names(lent, &mut with)?;
    for slots in 0..=lent.slots[0] {
        with(&|next| next.slots[0] = slots)?;
    }
    for slots in 0..=STATE_SLOTS + 1 {
        with(&|next| next.slots[1] = slots)?;
        with(&|next| next.slots[1..].fill(slots))?;
    }
    for slots in 0..=ANSWER_SLOTS + 1 {
        with(&|next| next.slots[2] = slots)?;
    }
    Ok(())
}

/// One name more open, one fewer and as many, with the latest any part of the first bytes.
fn names(lent: &Lent, with: &mut dyn FnMut(&dyn Fn(&mut Lent)) -> Result<(), Box<Found>>) -> Result<(), Box<Found>> {
    let depth = lent.depth();
    for depth in [depth.saturating_sub(1), depth, depth + 1] {
        with(&|next| next.state[DEPTH] = depth)?;
        if depth == 0 || 2 * depth > lent.slots[0] {
            continue;
        }
        for to in 0..=lent.state[POSITION].min(NAMED) {
            for from in 0..=to {
                with(&|next| {
                    next.state[DEPTH] = depth;
                    next.stack[2 * depth - 2..2 * depth].copy_from_slice(&[from, to]);
                })?;
            }
        }
    }
    Ok(())
}

impl Found {
    /// What was lent, and what each made of it.
    pub fn show(&self) {
        println!("    lent       {}", self.lent.line(false));
        println!("    reader     returned {}, {}", self.reader.0, self.reader.1.line(true));
        println!("    plain      returned {}, {}", self.plain.0, self.plain.1.line(true));
    }
}
