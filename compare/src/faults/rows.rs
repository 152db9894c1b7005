//! Faults of the rows of open names: of a list of them, and of one by its depth.

use super::{listing, single, Fault, List, One};
use crate::check::CANARY;
use crate::ours::*;
use crate::rows::BAD_STATE;

/// The phase behind the Start of an expanded empty element.
const EMPTY_PHASE: usize = 4;

impl List<'_> {
    fn count(&self) -> usize {
        self.filled[0]
    }

    /// How many rows there is room for.
    fn room(&self) -> usize {
        self.rows.len() / ROW_SLOTS
    }

    /// The filled rows.
    fn each(&mut self) -> std::slice::ChunksExactMut<'_, usize> {
        let end = ROW_SLOTS * self.count();
        self.rows[..end].chunks_exact_mut(ROW_SLOTS)
    }

    /// The latest of the filled rows.
    fn last(&mut self) -> Option<&mut [usize]> {
        self.each().next_back()
    }

    /// The names for which there is no room are open too.
    fn is_short(&self) -> bool {
        self.count() < self.state[DEPTH]
    }

    /// Puts a row behind the filled ones, if there is room: whether there is.
    fn put(&mut self, row: [usize; ROW_SLOTS]) -> bool {
        let room = self.count() < self.room();
        if room {
            let end = ROW_SLOTS * self.count();
            self.rows[end..end + ROW_SLOTS].copy_from_slice(&row);
        }
        room
    }

    /// Lists the names that a state has open in the place of those that are.
    fn again(&mut self, state: &[usize]) {
        self.rows.fill(CANARY);
        self.number = Archive.rows(self.stack, state, self.rows, self.filled);
    }

    /// Fills no more than so many rows.
    fn only(&mut self, count: usize) {
        if count < self.count() {
            self.rows[ROW_SLOTS * count..].fill(CANARY);
            self.filled[0] = count;
        }
    }

    fn refuse(&mut self) {
        self.only(0);
        self.number = BAD_STATE;
    }
}

impl One<'_> {
    fn is_open(&self) -> bool {
        self.number == 0
    }

    /// Is asked for another depth.
    fn at(&mut self, depth: usize) {
        self.row[..ROW_SLOTS].fill(CANARY);
        self.number = Archive.row(self.stack, self.state, depth, self.row);
    }

    fn refuse(&mut self) {
        self.at(0);
    }
}

pub const ALL: &[Fault] = &[
    listing("rows from the innermost on", |l| {
        let rows: Vec<usize> = l.each().rev().flat_map(|row| row.to_vec()).collect();
        l.rows[..rows.len()].copy_from_slice(&rows);
    }),
    listing("spans from the innermost on", |l| {
        let rows: Vec<Vec<usize>> = l.each().rev().map(|row| row[..2].to_vec()).collect();
        l.each().zip(rows).for_each(|(row, span)| row[..2].copy_from_slice(&span));
    }),
    listing("depths of rows count from 0", |l| l.each().for_each(|row| row[ROW_DEPTH] -= 1)),
    listing("depths of rows count from the innermost", |l| {
        let depth = l.state[DEPTH];
        l.each().for_each(|row| row[ROW_DEPTH] = depth + 1 - row[ROW_DEPTH]);
    }),
    listing("depths of rows past 255 in a byte", |l| l.each().for_each(|row| row[ROW_DEPTH] &= 255)),
    listing("a row too many", |l| {
        let row = [0, 0, l.count() + 1];
        l.filled[0] += l.put(row) as usize;
    }),
    listing("a row too many, of the name that was closed", |l| {
        let above = 2 * l.state[DEPTH];
        if let (false, Some(&[from, to])) = (l.is_short(), l.stack.get(above..above + 2)) {
            l.filled[0] += l.put([from, to, l.count() + 1]) as usize;
        }
    }),
    listing("a row is written behind the count", |l| {
        l.put([0, 0, l.count() + 1]);
    }),
    listing("a slot is written behind the rows", |l| {
        let end = ROW_SLOTS * l.count();
        if l.room() > l.count() {
            l.rows[end] = 0
        }
    }),
    listing("slots that are no whole row are written", |l| {
        let end = ROW_SLOTS * l.room();
        l.rows[end..].fill(0);
    }),
    listing("a slot behind the count is written", |l| l.filled[FILLED_SLOTS..].fill(0)),
    listing("the count of rows is one more", |l| l.filled[0] += 1),
    listing("the count of rows is one less", |l| l.filled[0] -= (l.filled[0] > 0) as usize),
    listing("the count of rows is 0", |l| l.filled[0] = 0),
    listing("the count of rows past 255 in a byte", |l| l.filled[0] &= 255),
    listing("the count is that of the open names, with room for fewer", |l| l.filled[0] = l.state[DEPTH]),
    listing("the count is that of the slots", |l| l.filled[0] *= ROW_SLOTS),
    listing("rows end before they start", |l| l.each().for_each(|row| row.swap(0, 1))),
    listing("rows are without bytes", |l| l.each().for_each(|row| row[ROW_END] = row[ROW_START])),
    listing("rows start at the `<`", |l| l.each().for_each(|row| row[ROW_START] -= 1)),
    listing("rows have a byte more", |l| l.each().for_each(|row| row[ROW_END] += 1)),
    listing("rows have a length in the place of the end", |l| l.each().for_each(|row| row[ROW_END] -= row[ROW_START])),
    listing("starts of rows in 16 bits", |l| l.each().for_each(|row| row[ROW_START] &= 65_535)),
    listing("the latest row is that of the name before", |l| {
        if let [.., other, latest] = &mut *l.each().collect::<Vec<_>>() {
            latest[..2].copy_from_slice(&other[..2])
        }
    }),
    listing("rows are those of the call before", |l| l.again(l.before)),
    listing("rows are those of the call before, where that is not refused", |l| {
        if l.told == 0 {
            l.again(l.before)
        }
    }),
    listing("a row is that of the first name of its depth", |l| {
        let end = ROW_SLOTS * l.count();
        l.rows[..end].copy_from_slice(&l.first[..end]);
    }),
    listing("no row for a name without bytes", |l| {
        let count = l.count();
        if l.last().is_some_and(|row| row[ROW_START] == row[ROW_END]) {
            l.only(count - 1)
        }
    }),
    listing("no row for the name of an expanded empty element", |l| {
        if l.state[PHASE] == EMPTY_PHASE && !l.is_short() {
            l.only(l.count() - 1)
        }
    }),
    listing("no row for the last name that may be open", |l| l.only(MOST_NAMES - 1)),
    listing("no rows in Done", |l| {
        if l.state[PHASE] == DONE {
            l.only(0)
        }
    }),
    listing("no rows behind a refusal", |l| {
        if l.told > 0 {
            l.only(0)
        }
    }),
    listing("no rows behind 14", |l| {
        if l.told == DOCTYPE {
            l.only(0)
        }
    }),
    listing("no rows behind 15", |l| {
        if l.told == STACK_FULL {
            l.only(0)
        }
    }),
    listing("10 keeps its row", |l| {
        let mut state = l.state.to_vec();
        state[DEPTH] += 1;
        if l.told == MISMATCHED {
            l.again(&state)
        }
    }),
    listing("18 takes a row", |l| {
        if l.told == UNCLOSED && !l.is_short() {
            l.only(l.count() - 1)
        }
    }),
    listing("a row before the first call", |l| {
        if l.state[PHASE] == INIT {
            l.filled[0] += l.put([0, 0, 1]) as usize
        }
    }),
    listing("the innermost names, with room for fewer", |l| {
        let above = 2 * (l.state[DEPTH] - l.count());
        let spans = l.stack[above..].chunks_exact(2);
        let end = ROW_SLOTS * l.filled[0];
        l.rows[..end].chunks_exact_mut(ROW_SLOTS).zip(spans).for_each(|(row, span)| row[..2].copy_from_slice(span));
    }),
    listing("no rows with room for fewer", |l| {
        if l.is_short() {
            l.only(0)
        }
    }),
    listing("17 with room for fewer", |l| {
        if l.is_short() {
            l.refuse()
        }
    }),
    listing("17 with room for no row", |l| {
        if l.room() == 0 {
            l.refuse()
        }
    }),
    listing("17 with nothing open", |l| {
        if l.state[DEPTH] == 0 {
            l.refuse()
        }
    }),
    listing("17 with a full stack", |l| {
        if l.state[DEPTH] == capacity(l.stack.len()) {
            l.refuse()
        }
    }),
    listing("17 with rows that are right", |l| l.number = BAD_STATE),
    single("the row of depth 0 is the outermost", |o| {
        if o.depth == 0 {
            o.at(1)
        }
    }),
    single("the row of depth 0 is nothing", |o| {
        if o.depth == 0 {
            o.row[..ROW_SLOTS].fill(0);
            o.number = 0
        }
    }),
    single("a row above the innermost", |o| {
        let above = 2 * o.state[DEPTH];
        if let (true, Some(&[from, to])) = (o.depth == o.state[DEPTH] + 1, o.stack.get(above..above + 2)) {
            o.row[..ROW_SLOTS].copy_from_slice(&[from, to, o.depth]);
            o.number = 0
        }
    }),
    single("the row above the innermost is the innermost", |o| {
        if o.depth > o.state[DEPTH] {
            o.at(o.state[DEPTH])
        }
    }),
    single("no 17 for the greatest depth of all", |o| {
        if o.depth == usize::MAX {
            o.number = 0
        }
    }),
    single("a row by its depth from 0", |o| o.at(o.depth.wrapping_add(1))),
    single("a row by its depth from the innermost", |o| {
        let depth = o.depth;
        if o.is_open() {
            o.at(o.state[DEPTH] + 1 - depth);
            o.row[ROW_DEPTH] = depth
        }
    }),
    single("a row by its depth is the outermost", |o| {
        if o.is_open() {
            o.row[..2].copy_from_slice(&o.stack[..2])
        }
    }),
    single("a row by its depth has its depth from 0", |o| o.row[ROW_DEPTH] -= o.is_open() as usize),
    single("a row by its depth past 255 in a byte", |o| {
        if o.is_open() {
            o.row[ROW_DEPTH] &= 255
        }
    }),
    single("a row by its depth ends before it starts", |o| o.row.swap(0, 1)),
    single("a row by its depth has a byte more", |o| o.row[ROW_END] += o.is_open() as usize),
    single("a slot behind a row by its depth is written", |o| o.row[ROW_SLOTS..].fill(0)),
    single("17 writes the row", |o| {
        if !o.is_open() {
            o.row[..ROW_SLOTS].fill(0)
        }
    }),
    single("17 for the outermost name", |o| {
        if o.depth == 1 {
            o.refuse()
        }
    }),
    single("17 for the innermost name", |o| {
        if o.depth == o.state[DEPTH] {
            o.refuse()
        }
    }),
    single("17 for the last name that may be open", |o| {
        if o.depth == MOST_NAMES {
            o.refuse()
        }
    }),
    single("17 for a name without bytes", |o| {
        if o.is_open() && o.row[ROW_START] == o.row[ROW_END] {
            o.refuse()
        }
    }),
];
