//! The plain engine beside the reader. After every call of the reader it makes the same call, with a stack, a state and an answer of its own, and has to
//! answer and leave the same: the number, every slot of the answer and of the state, the slots behind these, and the stack. No list excuses a difference.
//!
//! A small stack is compared as a whole after every call. Of a large one that would take longer than all else. What a call can change stands at the depth before it,
//! so the slots around that depth and the one after it are compared, and those at both ends; the whole is compared as seldom as the crate's open names are, and at each Eof, with
//! which every run ends.

use crate::check::*;
use crate::ours::*;

/// Slots on both sides of a depth, and at both ends of a large stack.
const AROUND: usize = 6;
const ENDS: usize = 4;

/// What the plain engine is lent, as it left it.
pub struct Plain {
    stack: Vec<usize>,
    state: State,
    answer: Answer,
}

/// What the reader was lent, as it left it; the depth before the call, and how many slots of the state and of the answer were lent.
pub struct Left<'a> {
    pub stack: &'a [usize],
    pub state: &'a State,
    pub answer: &'a Answer,
    pub returned: usize,
    pub depth: usize,
    pub slots: (usize, usize),
    /// The whole stack is to be compared, however large.
    pub whole: bool,
}

/// Counts of what was compared.
#[derive(Clone, Default)]
pub struct Beside {
    /// Calls that the reader made in a run, and those that it made alone.
    calls: u64,
    pub left_out: u64,
    /// Large stacks that were compared as a whole.
    whole: u64,
    /// Calls in changed states, and those of them that were refused with 17.
    pub strays: u64,
    pub refused: u64,
    /// Runs with a difference.
    pub failed: u64,
}

impl Beside {
    pub fn add(&mut self, other: &Beside) {
        self.calls += other.calls;
        self.left_out += other.left_out;
        self.whole += other.whole;
        self.strays += other.strays;
        self.refused += other.refused;
        self.failed += other.failed;
    }

    /// What was not compared, where the reader made so many calls.
    pub fn missing(&self, calls: u64) -> impl Iterator<Item = String> {
        let each = (self.calls + self.left_out < calls).then_some("the plain engine at every call");
        let bad = (self.refused == 0).then_some("a changed state, refused by 17");
        let good = (self.refused == self.strays).then_some("a changed state, and is not refused by 17");
        each.into_iter().chain(bad).chain(good).map(String::from)
    }

    pub fn line(&self) -> String {
        let Self { calls, left_out, whole, strays, refused, failed } = self;
        format!(
            "plain: {calls} calls of the plain engine, {left_out} left out in the longest documents, {whole} large stacks compared as a whole; \
             {strays} calls in changed states, {refused} of them refused by 17; {failed} differences"
        )
    }
}

impl Default for Plain {
    fn default() -> Self {
        Self { stack: Vec::new(), state: [CANARY; STATE_SLOTS + MARGIN], answer: [CANARY; ANSWER_SLOTS + MARGIN] }
    }
}

impl Plain {
    /// The state of a fresh reader, and a stack of canaries.
    pub fn begin(&mut self, slots: usize, state: &State) {
        if self.stack.len() < slots + MARGIN {
            self.stack.resize(slots + MARGIN, CANARY);
        }
        self.state = *state;
        self.answer = [CANARY; ANSWER_SLOTS + MARGIN];
    }

    /// Puts the canaries back into so many slots of the stack.
    pub fn wipe(&mut self, slots: usize) {
        let end = slots.min(self.stack.len());
        self.stack[..end].fill(CANARY);
    }

    /// The call that the reader has made: what differs, 0 for nothing.
    pub fn call<E: Engine>(&mut self, engine: &mut E, case: &Case, left: &Left, beside: &mut Beside) -> u64 {
        let (state, answer) = left.slots;
        self.answer[..ANSWER_SLOTS].fill(CANARY);
        let returned = engine.plain(case.document, &mut self.stack[..case.slots], &mut self.state[..state], &mut self.answer[..answer]);
        beside.calls += 1;
        let stack = if self.stack_holds(case, left, beside) { 0 } else { STACK };
        if stack == 0 && returned == left.returned && self.answer == *left.answer && self.state == *left.state {
            return 0;
        }
        (stack | slots_differ(&self.state, left.state, &self.answer, left.answer, (returned, left.returned))) << PLAIN
    }

    /// The stack is the reader's, as far as it is looked at.
    fn stack_holds(&self, case: &Case, left: &Left, beside: &mut Beside) -> bool {
        let end = case.slots + MARGIN;
        let same = |from: usize, to: usize| self.stack[from.min(end)..to.min(end)] == left.stack[from.min(end)..to.min(end)];
        if case.slots <= SMALL {
            return same(0, end);
        }
        if left.whole {
            beside.whole += 1;
            return same(0, end);
        }
        let (old, new) = (left.depth.min(MOST_NAMES), left.state[DEPTH].min(MOST_NAMES));
        let around = (2 * old.min(new)).saturating_sub(AROUND)..2 * old.max(new) + AROUND;
        same(0, ENDS) && same(around.start, around.end) && same(end - MARGIN - ENDS, end)
    }
}

/// What differs but for the stack, by the reader's names of it.
pub fn slots_differ(state: &State, other: &State, answer: &Answer, told: &Answer, (returned, wanted): (usize, usize)) -> u64 {
    let mut fields = bits(answer, &told[..ANSWER_SLOTS], 0) | bits(state, &other[..STATE_SLOTS], STATE_BITS);
    if returned != wanted {
        fields |= RETURNED;
    }
    if answer[ANSWER_SLOTS..] != told[ANSWER_SLOTS..] || state[STATE_SLOTS..] != other[STATE_SLOTS..] {
        fields |= SLOT;
    }
    fields
}
