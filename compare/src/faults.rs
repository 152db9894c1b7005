//! Faults put between the archive and the comparison, each of which the comparison has to notice.

mod layout;
mod list;
mod plain;
mod rows;

use crate::check::{Bench, BESIDE, STRAY};
use crate::inputs::{self, Amount, Family};
use crate::ours::*;
use crate::run::Worker;
use std::sync::atomic::{AtomicUsize, Ordering::Relaxed};
use std::sync::Mutex;

/// A fault: the settings that the reader goes by in place of those given, when an answer is changed, and how.
pub struct Fault {
    name: &'static str,
    settings: fn(u16) -> u16,
    when: fn(&Call) -> bool,
    then: fn(&mut Call),
    /// What is made of the number and the state that a reader is made with, and of a part that is handed out.
    made: fn(&mut usize, &mut [usize]),
    part: fn(&mut Part),
    /// What is made of a list of rows, and of the row of a depth.
    list: fn(&mut List),
    one: fn(&mut One),
    /// The settings that the plain engine goes by in place of those given, and what is made of its call, or of one with too few slots.
    turned: fn(u16) -> u16,
    beside: fn(&mut Call),
    bare: fn(&mut Call),
}

const SOUND: Fault = Fault {
    name: "none",
    settings: |s| s,
    when: |_| false,
    then: |_| (),
    made: |_, _| (),
    part: |_| (),
    list: |_| (),
    one: |_| (),
    turned: |s| s,
    beside: |_| (),
    bare: |_| (),
};

const fn flag(name: &'static str, settings: fn(u16) -> u16) -> Fault {
    Fault { name, settings, ..SOUND }
}

const fn act(name: &'static str, when: fn(&Call) -> bool, then: fn(&mut Call)) -> Fault {
    Fault { name, when, then, ..SOUND }
}

const fn making(name: &'static str, made: fn(&mut usize, &mut [usize])) -> Fault {
    Fault { name, made, ..SOUND }
}

const fn parting(name: &'static str, part: fn(&mut Part)) -> Fault {
    Fault { name, part, ..SOUND }
}

const fn listing(name: &'static str, list: fn(&mut List)) -> Fault {
    Fault { name, list, ..SOUND }
}

const fn single(name: &'static str, one: fn(&mut One)) -> Fault {
    Fault { name, one, ..SOUND }
}

const fn turned(name: &'static str, turned: fn(u16) -> u16) -> Fault {
    Fault { name, turned, ..SOUND }
}

const fn beside(name: &'static str, beside: fn(&mut Call)) -> Fault {
    Fault { name, beside, ..SOUND }
}

const fn bare(name: &'static str, bare: fn(&mut Call)) -> Fault {
    Fault { name, bare, ..SOUND }
}

/// A call that was answered, for a fault to change.
pub struct Call<'a> {
    document: &'a [u8],
    /// The state before the call.
    before: [usize; STATE_SLOTS],
    stack: &'a mut [usize],
    state: &'a mut [usize],
    answer: &'a mut [usize],
    returned: Option<usize>,
    /// The place of the last refusal before, the number that the call before answered, and how many answers were Eof.
    last_place: usize,
    last_number: usize,
    eofs: usize,
}

impl Call<'_> {
    fn kind(&self) -> usize {
        self.answer[KIND]
    }

    fn number(&self) -> usize {
        self.answer[NUMBER]
    }

    fn on(&self, setting: u16) -> bool {
        self.before[SETTINGS] & setting as usize != 0
    }

    fn part(&self, slot: usize) -> &[u8] {
        self.document.get(self.answer[slot]..self.answer[slot + 1]).unwrap_or_default()
    }

    fn piece(&self) -> &[u8] {
        self.part(PIECE_FROM)
    }

    fn content(&self) -> &[u8] {
        self.part(CONTENT_FROM)
    }

    /// Why the piece is no UTF-8.
    fn ill(&self) -> Option<std::str::Utf8Error> {
        std::str::from_utf8(self.piece()).err()
    }

    /// What stands in the document from the piece's start on.
    fn rest(&self) -> &[u8] {
        self.document.get(self.answer[PIECE_FROM]..).unwrap_or_default()
    }

    /// Moves to where the piece is to end.
    fn go(&mut self, to: usize, phase: usize) {
        self.answer[PIECE_TO] = to;
        self.state[POSITION] = to;
        self.state[PHASE] = phase;
    }

    /// Makes the answer an event whose piece has so many bytes, and whose content is without so many at both ends.
    fn event(&mut self, kind: usize, length: usize, cut: (usize, usize), name: usize) {
        let from = self.answer[PIECE_FROM];
        self.answer[..ANSWER_SLOTS].fill(0);
        self.answer[KIND] = kind;
        self.answer[PIECE_FROM] = from;
        self.answer[CONTENT_FROM] = from + cut.0;
        self.answer[CONTENT_TO] = from + length - cut.1;
        self.answer[NAME] = name;
        self.go(from + length, TEXT_PHASE);
    }

    /// Makes the answer a refusal whose piece has so many bytes.
    fn refuse(&mut self, number: usize, length: usize) {
        let from = self.answer[PIECE_FROM];
        self.answer[..ANSWER_SLOTS].fill(0);
        self.answer[NUMBER] = number;
        self.answer[PLACE] = from;
        self.answer[PIECE_FROM] = from;
        self.go(from + length, DONE);
    }

    /// The latest open name, if the stack has one.
    fn latest(&self) -> (usize, usize) {
        let end = 2 * self.state[DEPTH];
        match self.stack.get(end.wrapping_sub(2)..end) {
            Some(name) => (name[0], name[1]),
            None => (0, 0),
        }
    }

    /// An Eof with the settings and the names open that 18 needs, though the mark may be on.
    fn ends_open(&self) -> bool {
        self.kind() == EOF && self.on(OPEN_NAMES) && self.state[DEPTH] > 0
    }

    /// Ill-formed text becomes Text, if it is well formed but for the bytes that this finds.
    fn accept(&mut self, length: usize, found: fn(&[u8]) -> bool) {
        let piece = self.piece();
        let Some(at) = piece.windows(length).position(found) else { return };
        let fine = |bytes: &[u8]| std::str::from_utf8(bytes).is_ok();
        if fine(&piece[..at]) && fine(&piece[at + length..]) {
            self.event(TEXT, piece.len(), (0, 0), 0);
        }
    }

    /// How many bytes of the piece are well formed.
    fn well_formed(&self) -> usize {
        std::str::from_utf8(self.piece()).map_or_else(|e| e.valid_up_to(), str::len)
    }

    /// How many bytes the piece has up to its first `>`.
    fn first_close(&self) -> usize {
        self.piece().iter().take_while(|&&b| b != b'>').count() + 1
    }

    /// The piece has a `>` before the one that ends it.
    fn quoted(&self) -> bool {
        self.first_close() < self.piece().len()
    }
}

/// A list of rows that was answered, for a fault to change.
pub struct List<'a> {
    stack: &'a [usize],
    state: &'a [usize],
    rows: &'a mut [usize],
    filled: &'a mut [usize],
    number: usize,
    /// The state before the call that the list follows, and the number which that answered.
    before: &'a [usize],
    told: usize,
    /// Of each depth the first row that was listed in the run.
    first: &'a [usize],
}

/// The row of a depth that was answered, for a fault to change.
pub struct One<'a> {
    stack: &'a [usize],
    state: &'a [usize],
    depth: usize,
    row: &'a mut [usize],
    number: usize,
}

/// The archive with a fault.
struct Faulty<'f> {
    fault: &'f Fault,
    last_place: usize,
    last_number: usize,
    eofs: usize,
    before: [usize; STATE_SLOTS],
    first: Vec<usize>,
}

impl<'f> Faulty<'f> {
    fn new(fault: &'f Fault) -> Self {
        Self { fault, last_place: 0, last_number: 0, eofs: 0, before: [0; STATE_SLOTS], first: Vec::new() }
    }
}

impl Engine for Faulty<'_> {
    fn make(&mut self, document: &[u8], settings: usize, state: &mut [usize]) -> usize {
        *self = Self { first: std::mem::take(&mut self.first), ..Self::new(self.fault) };
        self.first.clear();
        let mut number = Archive.make(document, settings, state);
        (self.fault.made)(&mut number, state);
        number
    }

    fn read(&mut self, document: &[u8], stack: &mut [usize], state: &mut [usize], answer: &mut [usize]) -> usize {
        if is_short(state, answer) {
            return Archive.read(document, stack, state, answer);
        }
        let mut before = [0; STATE_SLOTS];
        before.copy_from_slice(&state[..STATE_SLOTS]);
        self.before = before;
        state[SETTINGS] = changed(before[SETTINGS], self.fault.settings);
        Archive.read(document, stack, state, answer);
        state[SETTINGS] = before[SETTINGS];
        let Self { last_place, last_number, eofs, .. } = *self;
        let mut call = Call { document, before, stack, state, answer, returned: None, last_place, last_number, eofs };
        if (self.fault.when)(&call) {
            (self.fault.then)(&mut call);
        }
        let returned = call.returned.unwrap_or(call.answer[NUMBER]);
        if answer[NUMBER] > 0 {
            self.last_place = answer[PLACE];
        }
        self.last_number = answer[NUMBER];
        self.eofs += (answer[KIND] == EOF) as usize;
        returned
    }

    /// What it answered before does not count here: a fault of the plain engine goes by one call alone.
    fn plain(&mut self, document: &[u8], stack: &mut [usize], state: &mut [usize], answer: &mut [usize]) -> usize {
        let short = is_short(state, answer);
        let mut before = [0; STATE_SLOTS];
        before.iter_mut().zip(&*state).for_each(|(before, slot)| *before = *slot);
        if let Some(settings) = state.get_mut(SETTINGS) {
            *settings = changed(*settings, self.fault.turned);
        }
        let number = Archive.plain(document, stack, state, answer);
        if let Some(settings) = state.get_mut(SETTINGS) {
            *settings = before[SETTINGS];
        }
        let mut call = Call { document, before, stack, state, answer, returned: Some(number), last_place: 0, last_number: 0, eofs: 0 };
        (if short { self.fault.bare } else { self.fault.beside })(&mut call);
        call.returned.unwrap_or(number)
    }

    fn content(&mut self, document: &[u8], from: usize, to: usize) -> (usize, Part) {
        let (number, mut part) = Archive.content(document, from, to);
        (self.fault.part)(&mut part);
        (number, part)
    }

    fn rows(&mut self, stack: &[usize], state: &[usize], rows: &mut [usize], filled: &mut [usize]) -> usize {
        let number = Archive.rows(stack, state, rows, filled);
        let known = self.first.len().min(ROW_SLOTS * filled[0]);
        self.first.extend_from_slice(&rows[known..ROW_SLOTS * filled[0]]);
        let mut list = List { stack, state, rows, filled, number, before: &self.before, told: self.last_number, first: &self.first };
        (self.fault.list)(&mut list);
        list.number
    }

    fn row(&mut self, stack: &[usize], state: &[usize], depth: usize, row: &mut [usize]) -> usize {
        let number = Archive.row(stack, state, depth, row);
        let mut one = One { stack, state, depth, row, number };
        (self.fault.one)(&mut one);
        one.number
    }
}

/// Too few slots are lent.
fn is_short(state: &[usize], answer: &[usize]) -> bool {
    state.len() < STATE_SLOTS || answer.len() < ANSWER_SLOTS
}

/// The settings that are gone by in place of these. A number that stands for none stays.
fn changed(settings: usize, by: fn(u16) -> u16) -> usize {
    match u16::try_from(settings) {
        Ok(known) if known <= THEIR_ALL | OPEN_NAMES => by(known).into(),
        _ => settings,
    }
}

/// Tries every fault on two threads: how many are noticed, after how many inputs each and by which family.
pub fn all_of<F: Sync>(faults: &[F], name: fn(&F) -> &'static str, notice: impl Fn(&F) -> Option<(u64, &'static str)> + Sync) -> usize {
    let next = AtomicUsize::new(0);
    let noticed = Mutex::new(0);
    let work = || {
        while let Some(fault) = faults.get(next.fetch_add(1, Relaxed)) {
            let result = notice(fault);
            let mut noticed = noticed.lock().unwrap();
            match result {
                Some((inputs, family)) => {
                    *noticed += 1;
                    println!("noticed after {inputs} inputs, by \"{family}\": {}", name(fault));
                }
                None => println!("NOT noticed: {}", name(fault)),
            }
        }
    };
    std::thread::scope(|scope| {
        scope.spawn(work);
        scope.spawn(work);
    });
    noticed.into_inner().unwrap()
}

/// Runs jobs by a bench with a fault until it is noticed: after how many inputs, by which family, and what fails.
fn notice(bench: Bench<Faulty>, families: &[Family]) -> Option<(u64, &'static str, u64)> {
    let mut worker = Worker::new(bench, true);
    let (inputs, family) = worker.notice(families)?;
    let fields = worker.found.first().map_or(0, |(_, difference)| difference.fields);
    Some((inputs, family, fields))
}

/// Tries every fault by the quick inputs: true if all are noticed, those of the layout by what it says of them, and those of the plain engine by the reader beside it. The plain
/// engine is not beside a fault of the reader, which the crate has to show.
pub fn run(seed: u64) -> bool {
    let faults: Vec<&Fault> = list::ALL.iter().copied().flatten().chain(rows::ALL).collect();
    let families = inputs::all(Amount::Quick, seed);
    let place = |(inputs, family, _)| (inputs, family);
    let alone = |fault: &Fault| notice(Bench::alone(Faulty::new(fault)), &families);
    let noticed = all_of(&faults, |fault| fault.name, |fault| alone(fault).map(place));
    let by_layout = |laid: &layout::Laid| alone(&laid.fault).filter(|noticed| noticed.2 == laid.fields).map(place);
    let told = all_of(layout::ALL, |laid| laid.fault.name, by_layout);
    let in_runs = |fault: &Fault| notice(Bench::in_runs(Faulty::new(fault)), &families).filter(|noticed| noticed.2 & BESIDE != 0);
    let in_strays = |fault: &Fault| notice(Bench::new(Faulty::new(fault)), &families).filter(|noticed| noticed.2 & STRAY != 0);
    let slots: Vec<&plain::Slot> = plain::SLOTS.iter().copied().flatten().collect();
    let by_slot = |slot: &&plain::Slot| in_runs(&slot.fault).filter(|noticed| noticed.2 == slot.fields).map(place);
    let spoilt = all_of(&slots, |slot| slot.fault.name, by_slot);
    let others: Vec<&Fault> = plain::OTHERS.iter().copied().flatten().collect();
    let differ = all_of(&others, |fault| fault.name, |fault| in_runs(fault).map(place));
    let stray = all_of(plain::STRAYS, |fault| fault.name, |fault| in_strays(fault).map(place));
    println!("layout: {told} of {} faults noticed by the layout alone", layout::ALL.len());
    println!("plain: {spoilt} of {} faults of one slot of the plain engine noticed by that slot alone", slots.len());
    println!("plain: {differ} of {} other faults of the plain engine noticed", others.len());
    println!("plain: {stray} of {} faults of the plain engine noticed in changed states", plain::STRAYS.len());
    println!("compare: {noticed} of {} faults noticed", faults.len());
    noticed == faults.len() && told == layout::ALL.len() && [spoilt, differ, stray] == [slots.len(), others.len(), plain::STRAYS.len()]
}
