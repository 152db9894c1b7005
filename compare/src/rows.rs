//! The open names as ours lists them, the outermost first. After every call the rows have to be the crate's open names, as many and with their bytes, and to stand where
//! the crate's Starts have them.

use crate::check::CANARY;
use crate::ours::*;

/// What is answered for a depth at which no name is open.
pub const BAD_STATE: usize = 17;
/// Slots behind those that are lent, looked at too.
const MARGIN: usize = 1;
/// Of more names two or three of the outermost are listed, and the innermost alone is asked for by its depth, unless all are wished for.
pub const MANY: usize = 64;
/// Of more names, and not many, so many are asked for by their depths.
const SOME: usize = 8;
/// A list has up to so many slots more than it needs: room for one row more or for none, and slots that are no whole row.
const MORE: usize = 2 * ROW_SLOTS - 1;

/// The list that is lent, all canaries between two calls, and one for where no name is open.
pub struct Rows {
    list: Vec<usize>,
    empty: [usize; MORE + MARGIN],
}

impl Default for Rows {
    fn default() -> Self {
        Self { list: Vec::new(), empty: [CANARY; MORE + MARGIN] }
    }
}

/// What is looked at where many names are open: some, all in a list, or each by its depth too.
#[derive(Clone, Copy, PartialEq, Eq)]
pub enum Wish {
    Some,
    List,
    Each,
}

/// A reader between two calls, and what its rows have to be.
pub struct Between<'a> {
    pub document: &'a [u8],
    pub stack: &'a [usize],
    pub state: &'a [usize],
    /// Where the names stand, two slots to a name.
    pub spans: &'a [usize],
    /// The crate's open names in one string, and where each begins in it. 15 may have refused the latest.
    pub names: &'a str,
    pub starts: &'a [usize],
    /// How many names are open.
    pub depth: usize,
}

impl Between<'_> {
    /// Whether a row is that of the name of this depth.
    fn is(&self, row: &[usize], depth: usize) -> bool {
        row[ROW_START] == self.spans[2 * depth - 2] && row[ROW_END] == self.spans[2 * depth - 1] && row[ROW_DEPTH] == depth
    }

    /// Whether the bytes of a row are those of the crate's name of its depth.
    fn named(&self, row: &[usize]) -> bool {
        let depth = row[ROW_DEPTH];
        let end = self.starts.get(depth).copied().unwrap_or(self.names.len());
        let name = self.document.get(row[ROW_START]..row[ROW_END]);
        name.is_some() && name == self.names.as_bytes().get(self.starts[depth - 1]..end)
    }

    /// The crate's names are all that its string has.
    fn begins(&self) -> bool {
        self.starts.first().copied().unwrap_or(self.names.len()) == 0 && self.depth <= self.starts.len()
    }
}

/// Counts of what was listed.
#[derive(Clone, Default)]
pub struct Listed {
    /// Lists with room for all rows, and with room for fewer.
    whole: u64,
    short: u64,
    /// The rows in these, and how many were in one at most.
    rows: u64,
    most: u64,
    /// Rows by their depths, and depths that are refused.
    single: u64,
    refused: u64,
    /// Runs with rows that are not as they have to be.
    pub failed: u64,
}

impl Rows {
    /// Whether the rows are what they have to be: in a list with room for all and, if the names are not those of the call before, by their depths. Then a list with room for
    /// half of them is asked for too, or depths that no name has, in turn by the document's length.
    #[inline(always)]
    pub fn hold<E: Engine>(&mut self, engine: &mut E, at: &Between, changed: bool, wish: Wish, listed: &mut Listed) -> bool {
        let more = (at.document.len() + at.state[POSITION] % ROW_SLOTS) % (MORE + 1);
        if at.depth == 0 && !changed {
            return at.begins() && self.none(engine, at, more, listed);
        }
        at.begins() && self.some(engine, at, changed, wish, more, listed)
    }

    /// As above, where names are open or were.
    #[inline(never)]
    fn some<E: Engine>(&mut self, engine: &mut E, at: &Between, changed: bool, wish: Wish, more: usize, listed: &mut Listed) -> bool {
        let depth = at.depth;
        let many = depth > MANY;
        let room = if many && wish == Wish::Some { 2 } else { depth };
        if !self.list(engine, at, ROW_SLOTS * room + more, listed) {
            return false;
        }
        let each = wish == Wish::Each && depth > SOME;
        if !changed && !each {
            return true;
        }
        let outer = match depth {
            _ if each => 0,
            _ if many => depth - 1,
            _ => depth.saturating_sub(SOME),
        };
        if !(outer + 1..=depth + 1).all(|depth| by_depth(engine, at, depth, listed)) {
            return false;
        }
        match more < ROW_SLOTS {
            true => by_depth(engine, at, 0, listed) && by_depth(engine, at, usize::MAX, listed),
            false => depth == 0 || many || self.list(engine, at, ROW_SLOTS * (depth / 2) + more % ROW_SLOTS, listed),
        }
    }

    /// No name is open: of a list of so many slots none is written.
    #[inline(always)]
    fn none<E: Engine>(&mut self, engine: &mut E, at: &Between, slots: usize, listed: &mut Listed) -> bool {
        let mut filled = CANARY;
        let number = engine.rows(at.stack, at.state, &mut self.empty[..slots], std::slice::from_mut(&mut filled));
        let written = self.empty.iter().fold(0, |written, slot| written | slot ^ CANARY);
        if written != 0 {
            self.empty.fill(CANARY);
        }
        listed.whole += 1;
        number == 0 && filled == 0 && written == 0
    }

    /// A list of so many slots is filled with the rows for which there is room, and no other slot is written.
    fn list<E: Engine>(&mut self, engine: &mut E, at: &Between, slots: usize, listed: &mut Listed) -> bool {
        let end = slots + MARGIN;
        if self.list.len() < end {
            self.list.resize(end, CANARY);
        }
        let mut filled = [CANARY; FILLED_SLOTS + 1];
        let number = engine.rows(at.stack, at.state, &mut self.list[..slots], &mut filled[..FILLED_SLOTS + slots % 2]);
        let count = at.depth.min(slots / ROW_SLOTS);
        let (rows, rest) = self.list[..end].split_at_mut(ROW_SLOTS * count);
        let whole = count == at.depth;
        let right = number == 0
            && filled == [count, CANARY]
            && rows.chunks_exact(ROW_SLOTS).zip(1..).all(|(row, depth)| at.is(row, depth) && (!whole || at.named(row)))
            && untouched(rest);
        if !right {
            self.list.fill(CANARY);
            return false;
        }
        rows.fill(CANARY);
        *if whole { &mut listed.whole } else { &mut listed.short } += 1;
        listed.rows += count as u64;
        listed.most = listed.most.max(count as u64);
        true
    }
}

/// The row of this depth, or none: then 17 is answered, and nothing written.
fn by_depth<E: Engine>(engine: &mut E, at: &Between, depth: usize, listed: &mut Listed) -> bool {
    let mut row = [CANARY; ROW_SLOTS + MARGIN];
    let number = engine.row(at.stack, at.state, depth, &mut row[..ROW_SLOTS + depth % 2]);
    if depth == 0 || depth > at.depth {
        listed.refused += 1;
        return number == BAD_STATE && untouched(&row);
    }
    listed.single += 1;
    number == 0 && at.is(&row[..ROW_SLOTS], depth) && untouched(&row[ROW_SLOTS..])
}

fn untouched(slots: &[usize]) -> bool {
    slots.iter().all(|&slot| slot == CANARY)
}

impl Listed {
    pub fn add(&mut self, other: &Listed) {
        self.whole += other.whole;
        self.short += other.short;
        self.rows += other.rows;
        self.most = self.most.max(other.most);
        self.single += other.single;
        self.refused += other.refused;
        self.failed += other.failed;
    }

    /// What no list has shown.
    pub fn missing(&self) -> impl Iterator<Item = String> {
        let short = (self.short == 0).then(|| "a list with room for fewer rows".into());
        let most = (self.most < MOST_NAMES as u64).then(|| format!("{MOST_NAMES} rows in a list"));
        short.into_iter().chain(most)
    }

    pub fn line(&self) -> String {
        let Self { whole, short, rows, most, single, refused, failed } = self;
        format!(
            "rows: {whole} lists of all open names, {short} with room for fewer; {rows} rows in them, {most} in one at most; {single} rows by their depths, \
             {refused} depths refused; {failed} differences"
        )
    }
}
