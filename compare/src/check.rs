//! Runs one case on both sides and compares them after every call, in every number and every slot that was lent. What ours answers is laid out besides, by itself, and
//! held to the plain engine.

use crate::layout::Layout;
use crate::listed;
use crate::ours::*;
use crate::plain::{Left, Plain};
use crate::rows::{Between, Rows, Wish, MANY};
use crate::run::Runs;
use crate::shrink::Kept;
use crate::strays;
use crate::summary::Tally;
use crate::theirs::{Seen, Theirs, THEIR_DOCTYPE};

/// What stands in every slot that nobody has to write.
pub const CANARY: usize = 0xA5C3_5A3C_A5C3_5A3C;
/// Slots behind those that are lent, looked at too.
pub const MARGIN: usize = 8;
/// A stack of more slots is looked at near its depth after a call, and in full at the case's end.
pub const SMALL: usize = 64;

/// A state and an answer, with the slots behind.
pub type State = [usize; STATE_SLOTS + MARGIN];
pub type Answer = [usize; ANSWER_SLOTS + MARGIN];

/// An input: a document, the settings and the slots of the stack.
#[derive(Clone, Copy)]
pub struct Case<'a> {
    pub document: &'a [u8],
    pub settings: u16,
    pub slots: usize,
    /// What is put into the slot of the mark before the first call: 0 leaves it off.
    pub mark: usize,
    /// The plain engine reads it too.
    pub beside: bool,
    /// The states are changed into others, and the plain engine is held to the reader in those alone.
    pub stray: bool,
}

impl<'a> Case<'a> {
    pub fn new(document: &'a [u8], settings: u16, slots: usize) -> Self {
        Self { document, settings, slots, mark: 0, beside: true, stray: false }
    }
}

/// A difference that is not listed: the call, from 1, and what differs, a bit of `FIELDS` each. What the plain engine differs in
/// from the reader stands `PLAIN` bits higher, with `STRAY` where the state is a changed one.
#[derive(Clone, Copy, Debug, PartialEq, Eq)]
pub struct Difference {
    pub call: usize,
    pub fields: u64,
}

/// A side did not come back from the case.
pub const PANIC: Difference = Difference { call: 0, fields: 0 };

/// Names of what can differ from the crate, and of the plain engine from the reader: the slots of an answer, then those of a state, then the rest.
pub const FIELDS: [&str; 32] = [
    "kind",
    "number",
    "place",
    "piece start",
    "piece end",
    "content start",
    "content end",
    "name length",
    "expected start",
    "expected end",
    "found start",
    "found end",
    "phase",
    "position",
    "depth",
    "length",
    "settings",
    "mark",
    "returned number",
    "stack",
    "rows of open names",
    "bytes of a name",
    "slot not to be written",
    "eof too late or not to stay",
    "leaving the domain",
    "making a reader",
    "part handed back",
    "alike, where a difference is listed",
    "bytes that are well formed",
    "layout: a piece out of order, not up to the position, or not empty",
    "layout: a byte dropped",
    "layout: a byte not in exactly one part",
];
pub const PLAIN: usize = FIELDS.len();
pub const STRAY: u64 = 1 << 63;
/// All that the plain engine can differ in.
pub const BESIDE: u64 = !0 << PLAIN;
pub const STATE_BITS: usize = ANSWER_SLOTS;
pub const RETURNED: u64 = 1 << 18;
pub const STACK: u64 = 1 << 19;
pub const OPEN: u64 = 1 << 20;
const BYTES: u64 = 1 << 21;
pub const SLOT: u64 = 1 << 22;
const LATE: u64 = 1 << 23;
const LEAVING: u64 = 1 << 24;
const MAKING: u64 = 1 << 25;
const PART: u64 = 1 << 26;
const LISTED: u64 = 1 << 27;
const GOOD: u64 = 1 << 28;
pub const ORDER: u64 = 1 << 29;
pub const DROPPED: u64 = 1 << 30;
pub const COUNT: u64 = 1 << 31;
pub const LAYOUT: u64 = ORDER | DROPPED | COUNT;

/// What the crate's side was before a call.
pub struct Before {
    pub phase: usize,
    pub position: usize,
    pub depth: usize,
    pub place: usize,
}

impl Before {
    fn of(theirs: &Theirs) -> Self {
        Self { phase: theirs.phase(), position: theirs.position(), depth: theirs.depth(), place: theirs.place() }
    }

    /// Where the piece of the coming call starts: behind a byte order mark, and behind white space that is skipped.
    pub fn start(&self, case: &Case, mark: usize) -> usize {
        let at = self.position + mark;
        if case.settings & TRIM_START == 0 || !matches!(self.phase, INIT | TEXT_PHASE) {
            return at;
        }
        let rest = &case.document[at..];
        at + rest.iter().take_while(|&&b| is_white(b)).count()
    }
}

pub struct Bench<E> {
    pub engine: E,
    stack: Vec<usize>,
    /// What the stack has to be.
    shadow: Vec<usize>,
    /// How many names the case had open at most.
    most: usize,
    /// What the slot of the mark has to be.
    mark: usize,
    layout: Layout,
    rows: Rows,
    /// The plain engine, but where the crate has to show a fault of the reader; and whether states are changed.
    plain: Option<Plain>,
    strays: bool,
    state: State,
    answer: Answer,
}

impl<E: Engine> Runs for Bench<E> {
    type Case<'a> = Case<'a>;
    type Kept = Kept;
    type Tally = Tally;
    /// Whether names are open at the end.
    type Told = bool;

    /// Runs a case to its second Eof, or to where it leaves the domain of equality.
    fn run(&mut self, case: &Case, tally: &mut Tally) -> Result<bool, Difference> {
        if case.stray {
            return self.strays(case, tally);
        }
        tally.inputs += 1;
        let result = self.steps(case, tally);
        let failed = |fields: u64| result.is_err_and(|difference| difference.fields & fields != 0) as u64;
        tally.laid.failed += failed(LAYOUT);
        tally.rows.failed += failed(OPEN);
        tally.beside.failed += failed(BESIDE);
        self.wipe(case, result.is_err());
        result
    }

    fn reset(&mut self) {
        self.stack.fill(CANARY);
        self.shadow.fill(CANARY);
        self.rows = Rows::default();
        self.plain.iter_mut().for_each(|plain| *plain = Plain::default());
        self.most = 0;
    }

    fn kept(case: &Case) -> Kept {
        Kept::of(case)
    }

    fn length(kept: &Kept) -> usize {
        kept.document.len()
    }
}

impl<E: Engine> Bench<E> {
    pub fn new(engine: E) -> Self {
        Self {
            engine,
            stack: Vec::new(),
            shadow: Vec::new(),
            most: 0,
            mark: 0,
            layout: Layout::default(),
            rows: Rows::default(),
            plain: Some(Plain::default()),
            strays: true,
            state: [CANARY; STATE_SLOTS + MARGIN],
            answer: [CANARY; ANSWER_SLOTS + MARGIN],
        }
    }

    /// Without the plain engine.
    pub fn alone(engine: E) -> Self {
        Self { plain: None, strays: false, ..Self::new(engine) }
    }

    /// With the plain engine in runs alone.
    pub fn in_runs(engine: E) -> Self {
        Self { strays: false, ..Self::new(engine) }
    }

    /// Whether the states of a case are to be changed.
    pub fn takes_strays(&self, case: &Case) -> bool {
        self.strays && strays::takes(case)
    }

    /// Changes the states of a case.
    fn strays(&mut self, case: &Case, tally: &mut Tally) -> Result<bool, Difference> {
        let result = strays::run(&mut self.engine, case, &mut tally.beside);
        tally.beside.failed += result.is_err() as u64;
        result.map(|()| false).map_err(|found| Difference { call: found.call, fields: found.fields })
    }

    fn steps(&mut self, case: &Case, tally: &mut Tally) -> Result<bool, Difference> {
        if !self.make(case)? {
            tally.left[TOO_LONG - DOCTYPE] += 1;
            return Ok(false);
        }
        let mut theirs = Theirs::new(case.document, case.settings);
        if (theirs.phase(), theirs.position(), theirs.place(), theirs.depth()) != (INIT, 0, 0, 0) {
            return Err(Difference { call: 0, fields: MAKING });
        }
        if !self.rows_hold(case, &theirs, 0, false, Wish::Some, tally) {
            return Err(Difference { call: 0, fields: OPEN });
        }
        let mut eofs = 0;
        let mut call = 0;
        while eofs < 2 {
            call += 1;
            let returned = self.read(case, call, tally)?;
            let number = self.answer[NUMBER];
            if number == DOCTYPE || number == STACK_FULL {
                return self.leave(case, &mut theirs, call, returned, tally);
            }
            let before = Before::of(&theirs);
            let seen = self.due(case, &mut theirs);
            self.opened(case, &before, &seen);
            // the rows first: they have to leave the stack and the state as they are
            let (depth, ended) = (theirs.depth(), seen.kind == EOF);
            let wish = match ended {
                true => Wish::Each,
                false if looked_through(call, 32 * depth) => Wish::List,
                false => Wish::Some,
            };
            let rows = self.rows_hold(case, &theirs, depth, depth != before.depth, wish, tally);
            let mut fields = self.compare(case, &before, &theirs, &seen, returned);
            if !rows || depth > MANY && fields & STACK == 0 && !self.names_hold(case, &theirs, looked_through(call, depth) || ended) {
                fields |= OPEN;
            }
            let told = listed::Told { case, answer: &self.answer, before: &before, theirs: &theirs, seen: &seen };
            let row = listed::which(fields, &told).map_err(|()| Difference { call, fields: if fields == 0 { LISTED } else { fields } })?;
            row.into_iter().for_each(|row| tally.listed[row] += 1);
            tally.calls += 1;
            tally.kinds[seen.kind] += 1;
            tally.numbers[seen.number] += 1;
            if !ended && (eofs > 0 || call > case.document.len() + 1) {
                return Err(Difference { call, fields: LATE });
            }
            eofs += ended as usize;
        }
        self.over(case, call, tally)?;
        Ok(theirs.depth() > 0)
    }

    /// What ours has to answer, by the crate's answer and its open names: with `check_open_names` 18 stands for an Eof that leaves names open, unless
    /// the mark is on, as it is behind every answer that turns it on.
    fn due(&mut self, case: &Case, theirs: &mut Theirs) -> Seen {
        let mut seen = theirs.read();
        if seen.kind == EOF && case.settings & OPEN_NAMES != 0 && theirs.depth() > 0 && self.mark == 0 {
            seen = Seen { number: UNCLOSED, ..Seen::default() };
        }
        self.told(seen.kind, seen.number);
        seen
    }

    /// Turns the mark on behind an answer that does: a slot that is not 0 stays as it is.
    fn told(&mut self, kind: usize, number: usize) {
        if marks(kind, number) {
            self.mark = self.mark.max(1);
        }
    }

    /// Makes a reader: false if the document is too long, as it then has to say.
    fn make(&mut self, case: &Case) -> Result<bool, Difference> {
        self.lend(case.slots);
        self.state = [CANARY; STATE_SLOTS + MARGIN];
        self.answer = [CANARY; ANSWER_SLOTS + MARGIN];
        let length = case.document.len();
        let slots = state_slots(case);
        let returned = self.engine.make(case.document, case.settings.into(), &mut self.state[..slots]);
        let mut wanted = [CANARY; STATE_SLOTS + MARGIN];
        if length <= LONGEST {
            wanted[..STATE_SLOTS].copy_from_slice(&[INIT, 0, 0, length, case.settings.into(), 0]);
        }
        let number = if length <= LONGEST { 0 } else { TOO_LONG };
        if returned != number || self.state != wanted {
            return Err(Difference { call: 0, fields: MAKING });
        }
        self.mark = case.mark;
        self.layout.begin(case.document);
        if number == 0 {
            self.state[MARK] = case.mark;
            self.plain.iter_mut().for_each(|plain| plain.begin(case.slots, &self.state));
        }
        Ok(number == 0)
    }

    /// Reads on. What is answered has to be what the plain engine does and to follow what was, before the crate is asked.
    fn read(&mut self, case: &Case, call: usize, tally: &mut Tally) -> Result<usize, Difference> {
        self.answer[..ANSWER_SLOTS].fill(CANARY);
        let (depth, slots) = (self.state[DEPTH], slots_of(case));
        let returned =
            self.engine.read(case.document, &mut self.stack[..case.slots], &mut self.state[..slots.0], &mut self.answer[..slots.1]);
        let fields = self.beside(case, call, returned, depth, tally);
        if fields != 0 {
            return Err(Difference { call, fields });
        }
        match self.layout.told(case, &self.answer, self.state[POSITION]) {
            0 => Ok(returned),
            fields => Err(Difference { call, fields }),
        }
    }

    /// The plain engine makes the call that the reader has made, at this depth: what differs.
    fn beside(&mut self, case: &Case, call: usize, returned: usize, depth: usize, tally: &mut Tally) -> u64 {
        let Some(plain) = &mut self.plain else { return 0 };
        if !case.beside {
            tally.beside.left_out += 1;
            return 0;
        }
        let whole = self.answer[KIND] == EOF || looked_through(call, capacity(case.slots));
        let left = Left { stack: &self.stack, state: &self.state, answer: &self.answer, returned, depth, slots: slots_of(case), whole };
        plain.call(&mut self.engine, case, &left, &mut tally.beside)
    }

    fn lend(&mut self, slots: usize) {
        if self.stack.len() < slots + MARGIN {
            self.stack.resize(slots + MARGIN, CANARY);
            self.shadow.resize(slots + MARGIN, CANARY);
        }
    }

    /// Puts the canaries back.
    fn wipe(&mut self, case: &Case, all: bool) {
        let end = if all { case.slots + MARGIN } else { 2 * self.most };
        self.stack[..end].fill(CANARY);
        self.shadow[..end].fill(CANARY);
        self.plain.iter_mut().for_each(|plain| plain.wipe(end));
        self.most = 0;
    }

    /// A name that the crate opened has to be on the stack.
    fn opened(&mut self, case: &Case, before: &Before, seen: &Seen) {
        if seen.kind == START && before.depth < capacity(case.slots) {
            let (from, _) = seen.content.unwrap_or_default();
            self.shadow[2 * before.depth] = from;
            self.shadow[2 * before.depth + 1] = from + seen.name;
            self.most = self.most.max(before.depth + 1);
        }
    }

    /// What differs after a call, 0 for nothing.
    fn compare(&mut self, case: &Case, before: &Before, theirs: &Theirs, seen: &Seen, returned: usize) -> u64 {
        let depth = theirs.depth();
        let wanted = self.wanted(case, before, theirs, seen);
        let state = [theirs.phase(), theirs.position() + theirs.mark, depth, case.document.len(), case.settings.into(), self.mark];
        let mut fields = bits(&self.answer, &wanted, 0) | bits(&self.state, &state, STATE_BITS);
        if returned != wanted[NUMBER] {
            fields |= RETURNED;
        }
        if !self.stack_holds(case, depth) {
            fields |= STACK;
        }
        if !self.bytes_hold(case, before, seen, &wanted) {
            fields |= BYTES;
        }
        if seen.number == ENCODING && !self.good_holds(case, seen, &wanted) {
            fields |= GOOD;
        }
        let (from, to) = (self.answer[CONTENT_FROM], self.answer[CONTENT_TO]);
        if self.engine.content(case.document, from, to) != (0, [from, to]) {
            fields |= PART;
        }
        fields | self.margins()
    }

    /// The answer that ours has to be, from the crate's.
    fn wanted(&self, case: &Case, before: &Before, theirs: &Theirs, seen: &Seen) -> [usize; ANSWER_SLOTS] {
        let mut wanted = [0; ANSWER_SLOTS];
        let start = start_of(case, before, theirs, seen);
        wanted[KIND] = seen.kind;
        wanted[NUMBER] = seen.number;
        wanted[PIECE_FROM] = start;
        wanted[PIECE_TO] = theirs.position() + theirs.mark;
        if seen.number == UNCLOSED {
            wanted[PLACE] = self.top(before.depth).0;
        } else if seen.number != 0 {
            wanted[PLACE] = theirs.place() + theirs.mark;
        } else {
            let (from, to) = match seen.content {
                Some(content) => content,
                None if seen.kind == END => self.top(before.depth),
                None => (start, start),
            };
            wanted[CONTENT_FROM] = from;
            wanted[CONTENT_TO] = to;
            wanted[NAME] = seen.name;
        }
        if seen.number == MISMATCHED {
            (wanted[EXPECTED_FROM], wanted[EXPECTED_TO]) = self.top(before.depth);
        }
        if seen.number == MISMATCHED || seen.number == UNMATCHED_END {
            wanted[FOUND_FROM] = start + 2;
            wanted[FOUND_TO] = start + 2 + seen.found.len();
        }
        wanted
    }

    /// The span of the innermost of so many open names.
    fn top(&self, depth: usize) -> (usize, usize) {
        match self.shadow.get((2 * depth).wrapping_sub(2)..2 * depth) {
            Some(pair) => (pair[0], pair[1]),
            None => (0, 0),
        }
    }

    /// Names that the crate holds as strings of its own are, byte for byte, the spans that ours has to give.
    fn bytes_hold(&self, case: &Case, before: &Before, seen: &Seen, wanted: &[usize]) -> bool {
        let is = |from: usize, to: usize, name: &str| case.document.get(from..to) == Some(name.as_bytes());
        match (seen.kind, seen.number) {
            (END, _) if seen.content.is_none() => is(wanted[CONTENT_FROM], wanted[CONTENT_TO], &seen.made),
            (_, MISMATCHED) => {
                before.depth > 0
                    && is(wanted[EXPECTED_FROM], wanted[EXPECTED_TO], &seen.made)
                    && is(wanted[FOUND_FROM], wanted[FOUND_TO], &seen.found)
            }
            (_, UNMATCHED_END) => is(wanted[FOUND_FROM], wanted[FOUND_TO], &seen.found),
            _ => true,
        }
    }

    /// The place of 13 is as far in its piece as the crate's error says that the piece is good, and as far in the document as Rust's own check says
    /// that the document is.
    fn good_holds(&self, case: &Case, seen: &Seen, wanted: &[usize]) -> bool {
        let place = self.answer[PLACE];
        place == wanted[PIECE_FROM] + seen.good && place == first_ill(case.document)
    }

    /// The stack is what it has to be, a large one near its depth and at both ends.
    fn stack_holds(&self, case: &Case, depth: usize) -> bool {
        let same = |from: usize, to: usize| self.stack[from..to] == self.shadow[from..to];
        let end = case.slots + MARGIN;
        if case.slots <= SMALL {
            return same(0, end);
        }
        let low = (2 * depth).saturating_sub(6).min(end);
        same(0, 4) && same(low, (2 * depth + 6).min(end)) && same(end - MARGIN - 4, end)
    }

    /// After the last call: the whole stack is what it has to be, and each byte of the document is in one part of the layout or in none, as it has to be.
    fn over(&mut self, case: &Case, call: usize, tally: &mut Tally) -> Result<(), Difference> {
        let end = case.slots + MARGIN;
        let mut fields = self.layout.over(case, self.state[POSITION], &mut tally.laid);
        if self.stack[..end] != self.shadow[..end] {
            fields |= STACK;
        }
        match fields {
            0 => Ok(()),
            _ => Err(Difference { call, fields }),
        }
    }

    /// The rows of so many open names are the crate's names, in order.
    #[inline(always)]
    fn rows_hold(&mut self, case: &Case, theirs: &Theirs, depth: usize, changed: bool, wish: Wish, tally: &mut Tally) -> bool {
        let (stack, state) = (&self.stack[..case.slots], &self.state[..state_slots(case)]);
        let (names, starts) = theirs.open_names();
        let at = Between { document: case.document, stack, state, spans: &self.shadow, names, starts, depth };
        depth <= capacity(case.slots) && self.rows.hold(&mut self.engine, &at, changed, wish, &mut tally.rows)
    }

    /// Many open names of the crate are the spans on our stack too, in order; only the innermost, if not all are asked for.
    fn names_hold(&self, case: &Case, theirs: &Theirs, all: bool) -> bool {
        let (names, starts) = theirs.open_names();
        if starts.len() > capacity(case.slots) {
            return false;
        }
        let outer = if all { 0 } else { starts.len() - 8 };
        let mut end = names.len();
        for (&start, span) in starts.iter().zip(self.stack.chunks_exact(2)).skip(outer).rev() {
            if case.document.get(span[0]..span[1]) != names.as_bytes().get(start..end) {
                return false;
            }
            end = start;
        }
        outer > 0 || end == 0
    }

    /// Slots behind those that an answer and a state have.
    fn margins(&self) -> u64 {
        let kept = |slots: &[usize]| slots.iter().all(|&slot| slot == CANARY);
        if kept(&self.state[STATE_SLOTS..]) && kept(&self.answer[ANSWER_SLOTS..]) {
            return 0;
        }
        SLOT
    }

    /// Ours answered 14 or 15: it has to be right to, leave everything as it was, and be at its end.
    fn leave(&mut self, case: &Case, theirs: &mut Theirs, call: usize, returned: usize, tally: &mut Tally) -> Result<bool, Difference> {
        let before = Before::of(theirs);
        let number = self.answer[NUMBER];
        self.told(0, number);
        let rows = self.rows_hold(case, theirs, before.depth, true, Wish::Each, tally);
        let start = before.start(case, theirs.mark);
        let skipped = start + theirs.rest().len() - case.document.len();
        let opens = matches!(theirs.rest().get(skipped..skipped + 3), Some(b"<!D" | b"<!d"));
        let seen = theirs.read();
        let right = if number == DOCTYPE {
            opens && matches!(seen.number, THEIR_DOCTYPE | ENCODING)
        } else {
            before.depth == capacity(case.slots) && seen.kind == START && seen.content.is_some_and(|c| c.0 == start + 1)
        };
        let mut wanted = [0; ANSWER_SLOTS];
        wanted[NUMBER] = number;
        (wanted[PLACE], wanted[PIECE_FROM], wanted[PIECE_TO]) = (start, start, start);
        let state = [DONE, start, before.depth, case.document.len(), case.settings.into(), self.mark];
        let mut fields = bits(&self.answer, &wanted, 0) | bits(&self.state, &state, STATE_BITS) | self.margins();
        if !right || returned != number {
            fields |= LEAVING;
        }
        if !rows {
            fields |= OPEN;
        }
        if fields == 0 {
            fields = self.stays(case, theirs, call, &state, tally)?;
        }
        if fields != 0 {
            return Err(Difference { call, fields });
        }
        tally.calls += 2;
        tally.left[number - DOCTYPE] += 1;
        self.over(case, call, tally)?;
        Ok(before.depth > 0)
    }

    /// After 14 and 15 ours answers Eof, with names open too, and changes nothing.
    fn stays(&mut self, case: &Case, theirs: &Theirs, call: usize, state: &[usize], tally: &mut Tally) -> Result<u64, Difference> {
        let returned = self.read(case, call + 1, tally)?;
        let rows = self.rows_hold(case, theirs, state[DEPTH], false, Wish::Some, tally);
        let at = state[POSITION];
        let wanted = [EOF, 0, 0, at, at, at, at, 0, 0, 0, 0, 0];
        let mut fields = bits(&self.answer, &wanted, 0) | bits(&self.state, state, STATE_BITS) | self.margins();
        if returned != 0 {
            fields |= RETURNED;
        }
        if !rows {
            fields |= OPEN;
        }
        Ok(fields)
    }
}

/// Whether all open names are looked at after this call: where many are open, so seldom that it comes to some 64 names a call. All are listed less often.
fn looked_through(call: usize, depth: usize) -> bool {
    call.is_multiple_of((depth / SMALL).next_power_of_two().max(SMALL))
}

/// The state and the answer are lent with as many slots as they have, or, for a document of odd length, with more.
fn state_slots(case: &Case) -> usize {
    STATE_SLOTS + if case.document.len() % 2 == 1 { MARGIN / 2 } else { 0 }
}

/// Those of the state and of the answer.
fn slots_of(case: &Case) -> (usize, usize) {
    (state_slots(case), ANSWER_SLOTS + state_slots(case) - STATE_SLOTS)
}

/// A blank, a tab and what ends a line.
pub fn is_white(byte: u8) -> bool {
    matches!(byte, b' ' | b'\t' | b'\r' | b'\n')
}

/// How many bytes of a document are well formed, by Rust's own check.
pub fn first_ill(document: &[u8]) -> usize {
    std::str::from_utf8(document).map_or_else(|e| e.valid_up_to(), str::len)
}

/// Where the piece starts: told by where the crate's content lies, or by its place of a refusal. The crate has nothing to tell it by for
/// Eof, which 18 stands for too, 9, and 13 in text or a reference: there it is where the call before stopped, with what is skipped.
fn start_of(case: &Case, before: &Before, theirs: &Theirs, seen: &Seen) -> usize {
    let opener = match seen.kind {
        TEXT => 0,
        START | EMPTY | REF => 1,
        END | DECL | PI => 2,
        COMMENT => 4,
        CDATA => 9,
        _ => 0,
    };
    match (seen.content, seen.number) {
        (Some((from, _)), _) => from.wrapping_sub(opener),
        (None, 0 | DOUBLE_HYPHEN | UNCLOSED) => before.start(case, theirs.mark),
        (None, ENCODING) => {
            let start = before.start(case, theirs.mark);
            if case.document.get(start) == Some(&b'<') {
                return theirs.place() + theirs.mark;
            }
            start
        }
        (None, _) => theirs.place() + theirs.mark,
    }
}

/// A bit for each slot that is not as wanted.
pub fn bits(slots: &[usize], wanted: &[usize], first: usize) -> u64 {
    if slots[..wanted.len()] == *wanted {
        return 0;
    }
    (0..wanted.len()).filter(|&i| slots[i] != wanted[i]).map(|i| 1 << (first + i)).sum()
}
