//! Runs one case by the archive and by the account, over memory with the same numbers in it, and compares every number and every slot.

use super::account::Account;
use super::summary::Tally;
use super::*;
use crate::check::Difference;
use crate::inputs::random::Dice;
use crate::inputs::{Flow, Sink, ON};
use crate::run::{Runs, Worker};
use sporebasket::lent;

/// Slots behind those that are lent, looked at too.
const MARGIN: usize = 6;
/// No time has fewer bytes.
const OF_A_TIME: usize = 5;
/// No column has more slots.
const ROOM: usize = 1 << 20;
/// One document in so many is run with an answer that has too few slots, and of those without a time one in so many with another column.
const FEW: u64 = 61;
const OTHERS: u64 = 7;

/// An input: a document, the slots of the stack, the column and the answer, and what they are filled with.
#[derive(Clone, Copy)]
pub struct Case<'a> {
    pub document: &'a [u8],
    pub room: Room,
}

/// What is lent.
#[derive(Clone, Copy)]
pub struct Room {
    pub stack: usize,
    pub column: usize,
    pub answer: usize,
    pub fill: u64,
}

#[derive(Clone)]
pub struct Kept {
    pub document: Vec<u8>,
    pub room: Room,
}

impl Kept {
    pub fn case(&self) -> Case<'_> {
        Case { document: &self.document, room: self.room }
    }
}

/// Names of what can differ: the number returned, the slots of an answer, and the rest.
pub const FIELDS: [&str; 16] = [
    "returned number",
    "count",
    "lower",
    "number",
    "place",
    "piece start",
    "piece end",
    "expected start",
    "expected end",
    "found start",
    "found end",
    "times",
    "column past the count",
    "stack",
    "answer past its slots",
    "more times than a fifth of the bytes",
];
const RETURNED: u32 = 1;
const TIMES: u32 = 1 << 11;
const PAST: u32 = 1 << 12;
const STACK: u32 = 1 << 13;
const ANSWER: u32 = 1 << 14;
const FIFTH: u32 = 1 << 15;

/// The slots that one side is lent, with the margins.
#[derive(Default)]
pub struct Memory {
    pub stack: Vec<usize>,
    pub column: Vec<usize>,
    pub answer: Vec<usize>,
}

impl Memory {
    /// Numbers of one sort in every slot: any, small ones, such as a time or a place may be, or all the same.
    pub fn fill(&mut self, room: &Room) {
        let mut dice = Dice::new(room.fill.wrapping_mul(0x9E37_79B9));
        let same = dice.next() as usize;
        let mut number = || match room.fill % 4 {
            0 | 1 => dice.next() as usize,
            2 => dice.below(3_000),
            _ => same,
        };
        for (slots, count) in [(&mut self.stack, room.stack), (&mut self.column, room.column), (&mut self.answer, room.answer)] {
            slots.clear();
            slots.extend((0..count + MARGIN).map(|_| number()));
        }
    }

    fn copy(&mut self, other: &Memory) {
        self.stack.clone_from(&other.stack);
        self.column.clone_from(&other.column);
        self.answer.clone_from(&other.answer);
    }

    /// The parts that are lent.
    fn lent(&mut self, room: &Room) -> (&mut [usize], &mut [usize], &mut [usize]) {
        (&mut self.stack[..room.stack], &mut self.column[..room.column], &mut self.answer[..room.answer])
    }
}

pub struct Bench {
    account: &'static Account,
    pub ours: Memory,
    pub wanted: Memory,
}

impl Bench {
    pub fn new(account: &'static Account) -> Self {
        Self { account, ours: Memory::default(), wanted: Memory::default() }
    }

    /// Lets both sides read: what they answer.
    pub fn both(&mut self, case: &Case) -> (usize, usize) {
        self.ours.fill(&case.room);
        self.wanted.copy(&self.ours);
        let (stack, column, answer) = self.ours.lent(&case.room);
        let returned = lent::column(case.document, stack, column, answer);
        let (stack, column, answer) = self.wanted.lent(&case.room);
        (returned, self.account.read(case.document, stack, column, answer))
    }

    /// What differs when both have read, 0 for nothing.
    fn fields(&self, case: &Case, returned: usize, wanted: usize) -> u32 {
        let (ours, theirs) = (&self.ours, &self.wanted);
        let mut fields = if returned == wanted { 0 } else { RETURNED };
        if ours.answer != theirs.answer {
            let slots = SLOTS.min(case.room.answer);
            fields |= (0..slots).filter(|&i| ours.answer[i] != theirs.answer[i]).map(|i| 1 << (i + 1)).sum::<u32>();
            fields |= if ours.answer[slots..] == theirs.answer[slots..] { 0 } else { ANSWER };
        }
        if ours.column != theirs.column {
            let count = theirs.answer[COUNT].min(case.room.column);
            fields |= if ours.column[..count] == theirs.column[..count] { 0 } else { TIMES };
            fields |= if ours.column[count..] == theirs.column[count..] { 0 } else { PAST };
        }
        if ours.stack != theirs.stack {
            fields |= STACK;
        }
        if returned == COLUMN_FULL && case.room.column >= case.document.len() / OF_A_TIME {
            fields |= FIFTH;
        }
        fields
    }
}

impl Runs for Bench {
    type Case<'a> = Case<'a>;
    type Kept = Kept;
    type Tally = Tally;
    /// How many times were read.
    type Told = usize;

    fn run(&mut self, case: &Case, tally: &mut Tally) -> Result<usize, Difference> {
        tally.inputs += 1;
        let (returned, wanted) = self.both(case);
        let fields = self.fields(case, returned, wanted);
        if fields != 0 {
            return Err(Difference { call: 1, fields: fields.into() });
        }
        if wanted == BAD_STATE {
            tally.numbers[wanted] += 1;
            return Ok(0);
        }
        tally.tell(wanted, &self.wanted.answer);
        Ok(self.wanted.answer[COUNT])
    }

    fn reset(&mut self) {}

    fn kept(case: &Case) -> Kept {
        Kept { document: case.document.to_vec(), room: case.room }
    }

    fn length(kept: &Kept) -> usize {
        kept.document.len()
    }
}

impl Sink for Worker<Bench> {
    /// Runs a document that comes with the default settings with a column that no document of its length fills, and again with one that is just enough, a
    /// slot too short, shorter by any number, or none; now and then, and where it is too long, with an answer that has too few slots.
    fn case(&mut self, document: &[u8], settings: u16, slots: usize) -> Flow {
        if settings != DEFAULT {
            return ON;
        }
        self.given += 1;
        self.tally.documents += 1;
        let turn = self.given;
        let few = turn as usize % 3;
        let enough = (document.len() / OF_A_TIME).min(ROOM) + few;
        let room = Room { stack: slots, column: enough, answer: SLOTS + few, fill: turn };
        let Some(times) = self.one(&Case { document, room })? else { return ON };
        if times > 0 || turn.is_multiple_of(OTHERS) {
            let column = match turn / 3 % 4 {
                0 => times,
                1 => times.saturating_sub(1),
                2 => Dice::new(turn).below(times + 1),
                _ => 0,
            };
            self.one(&Case { document, room: Room { column, ..room } })?;
        }
        if turn.is_multiple_of(FEW) || document.len() > LONGEST {
            self.one(&Case { document, room: Room { answer: (turn / FEW) as usize % SLOTS, ..room } })?;
        }
        ON
    }
}
