//! A second account of a column: what quick-xml's own events tell, with names, times and the order kept here. It calls nothing of ours.

use super::*;
use crate::theirs::{Seen, Theirs, THEIR_DOCTYPE, UNKNOWN};
use std::sync::LazyLock;

/// All times in their order: the value of a time is its place among them.
static TIMES: LazyLock<Vec<[u8; 5]>> = LazyLock::new(|| {
    let of_an_hour = |hours| (0..60).map(move |minutes| format!("{hours:02}:{minutes:02}"));
    (0..48).flat_map(of_an_hour).map(|time| time.into_bytes().try_into().expect("five bytes")).collect()
});

/// White space.
pub const WHITE: [char; 4] = [' ', '\t', '\n', '\r'];

/// What a text comes to.
#[derive(Clone, Copy, PartialEq, Eq)]
pub enum Word {
    Nothing,
    Time(usize),
    Bad,
}

/// What is done about it.
pub enum Verdict {
    Pass,
    Take(usize),
    Refuse(usize),
}

/// A refusal that ends the reading, as an answer tells it; all 0 for none.
#[derive(Clone, Copy, Default)]
pub struct Refusal {
    pub number: usize,
    pub place: usize,
    pub piece: (usize, usize),
    pub expected: (usize, usize),
    pub found: (usize, usize),
}

impl Refusal {
    fn slots(&self) -> [usize; SLOTS - NUMBER] {
        let Self { number, place, piece, expected, found } = *self;
        [number, place, piece.0, piece.1, expected.0, expected.1, found.0, found.1]
    }
}

/// A document that is being read, and what was found so far.
pub struct Reading<'a> {
    pub document: &'a [u8],
    theirs: Theirs<'a>,
    /// The spans of the open names, outermost first.
    pub open: Vec<(usize, usize)>,
    pub stack: &'a mut [usize],
    pub times: Vec<usize>,
    /// How many times the column has room for.
    pub room: usize,
    /// Of the latest event: its kind, its piece and its content.
    pub kind: usize,
    pub piece: (usize, usize),
    pub content: (usize, usize),
}

impl Reading<'_> {
    /// The bytes of a span.
    pub fn bytes(&self, span: (usize, usize)) -> &[u8] {
        self.document.get(span.0..span.1).unwrap_or_default()
    }

    /// The bytes of the latest open name.
    pub fn latest(&self) -> Option<&[u8]> {
        self.open.last().map(|&name| self.bytes(name))
    }

    /// A refusal of the latest piece.
    fn refusal(&self, number: usize) -> Refusal {
        Refusal { number, place: self.piece.0, piece: self.piece, ..Refusal::default() }
    }

    /// A refusal that leaves the position where it was.
    fn kept(&self, number: usize) -> Refusal {
        let at = self.piece.0;
        Refusal { number, place: at, piece: (at, at), ..Refusal::default() }
    }

    /// Lets the crate read on. A piece runs from where the call before stopped to where this one does, behind a byte order mark.
    fn next(&mut self) -> Seen {
        let from = self.theirs.position() + self.theirs.mark;
        let seen = self.theirs.read();
        self.piece = (from, self.theirs.position() + self.theirs.mark);
        self.content = seen.content.unwrap_or_default();
        self.kind = seen.kind;
        seen
    }

    /// The content of an event that counts lies in its piece as its marks have it.
    fn lies_right(&self) -> bool {
        let ((from, to), (start, end)) = (self.content, self.piece);
        match self.kind {
            TEXT => (from, to) == (start, end),
            REF => (from, to) == (start + 1, end - 1),
            START => from == start + 1 && to == end - 1,
            END => from == start + 2 && to < end,
            _ => true,
        }
    }

    /// What ours has to say where the crate refuses: DOCTYPE is 14, and the place of 13 is the first byte that the crate's error finds bad.
    fn of_the_crate(&self, seen: &Seen) -> Refusal {
        let opens = matches!(self.document.get(self.piece.0..self.piece.0 + 3), Some(b"<!D" | b"<!d"));
        let mut refusal = self.refusal(seen.number);
        match seen.number {
            THEIR_DOCTYPE | ENCODING if opens => return self.kept(DOCTYPE),
            THEIR_DOCTYPE => return self.refusal(UNKNOWN),
            ENCODING => refusal.place += seen.good,
            _ => refusal.place = self.theirs.place() + self.theirs.mark,
        }
        if matches!(seen.number, MISMATCHED | UNMATCHED_END) {
            let from = self.piece.0 + 2;
            refusal.found = (from, from + seen.found.len());
        }
        if seen.number == MISMATCHED {
            refusal.expected = self.open.last().copied().unwrap_or_default();
        }
        if self.bytes(refusal.expected) != seen.made.as_bytes() || self.bytes(refusal.found) != seen.found.as_bytes() {
            refusal.number = UNKNOWN;
        }
        refusal
    }
}

/// What is lent, when all is written.
pub struct Ended<'a> {
    pub document: &'a [u8],
    /// The spans of the names that are open at the end.
    pub open: &'a [(usize, usize)],
    pub times: &'a [usize],
    /// The number answered.
    pub returned: usize,
    pub stack: &'a mut [usize],
    pub column: &'a mut [usize],
    pub answer: &'a mut [usize],
}

/// An account by its parts, so that a wrong one can have one part of its own.
pub struct Account {
    pub name: &'static str,
    /// Of how many slots an answer has too few, and of how many bytes a document too many.
    pub few: fn(usize) -> bool,
    pub long: fn(usize) -> bool,
    /// How many names a stack of so many slots holds.
    pub holds: fn(usize) -> usize,
    /// What is made of an answer of the crate before it is looked at.
    pub taken: fn(&Reading, &mut Seen),
    /// What opening and closing a name does.
    pub open: fn(&mut Reading, (usize, usize)),
    pub close: fn(&mut Reading),
    /// Whether the latest text counts, and whether the latest reference is refused.
    pub within: fn(&Reading) -> bool,
    pub reference: fn(&Reading) -> bool,
    /// A text cleared of white space at both ends, and the value of a time.
    pub clear: fn(&str) -> &str,
    pub time: fn(&str) -> Option<usize>,
    pub verdict: fn(Word, &Reading) -> Verdict,
    /// What is made of a refusal.
    pub refuse: fn(&Reading, &mut Refusal),
    /// The first index whose time is lower than the one before it, or 0.
    pub lower: fn(&[usize]) -> usize,
    /// What is done at the end.
    pub end: fn(&mut Ended),
}

pub const SOUND: Account = Account {
    name: "none",
    few: |slots| slots < SLOTS,
    long: |bytes| bytes > 268_435_456,
    holds: |slots| (slots / 2).min(65_535),
    taken: |_, _| (),
    open,
    close: |reading| _ = reading.open.pop(),
    within,
    reference: within,
    clear: |text| text.trim_matches(WHITE),
    time,
    verdict,
    refuse: |_, _| (),
    lower: |times| times.windows(2).position(|pair| pair[1] < pair[0]).map_or(0, |before| before + 1),
    end: |_| (),
};

/// A name is put on the stack at its depth.
pub fn open(reading: &mut Reading, name: (usize, usize)) {
    write(reading, 2 * reading.open.len(), name);
    reading.open.push(name);
}

/// Two slots of the stack.
pub fn write(reading: &mut Reading, at: usize, (from, to): (usize, usize)) {
    reading.stack.iter_mut().skip(at).zip([from, to]).for_each(|(slot, number)| *slot = number);
}

pub fn within(reading: &Reading) -> bool {
    reading.latest() == Some(b"t")
}

pub fn time(text: &str) -> Option<usize> {
    TIMES.binary_search_by(|time| time[..].cmp(text.as_bytes())).ok()
}

pub fn verdict(word: Word, reading: &Reading) -> Verdict {
    match word {
        Word::Nothing => Verdict::Pass,
        Word::Bad => Verdict::Refuse(BAD_TIME),
        Word::Time(_) if reading.times.len() >= reading.room => Verdict::Refuse(COLUMN_FULL),
        Word::Time(value) => Verdict::Take(value),
    }
}

impl Account {
    /// Writes what has to be written, and answers what has to be answered.
    pub fn read(&self, document: &[u8], stack: &mut [usize], column: &mut [usize], answer: &mut [usize]) -> usize {
        if (self.few)(answer.len()) {
            return BAD_STATE;
        }
        let mut reading = Reading {
            document,
            theirs: Theirs::new(document, DEFAULT),
            open: Vec::new(),
            stack,
            times: Vec::new(),
            room: column.len(),
            kind: 0,
            piece: (0, 0),
            content: (0, 0),
        };
        let mut refusal = self.refusal(&mut reading).unwrap_or_default();
        (self.refuse)(&reading, &mut refusal);
        let Reading { open, times, stack, .. } = reading;
        column[..times.len()].copy_from_slice(&times);
        let mut told = [0; SLOTS];
        told[COUNT] = times.len();
        told[LOWER] = (self.lower)(&times);
        told[NUMBER..].copy_from_slice(&refusal.slots());
        answer.iter_mut().zip(told).for_each(|(slot, told)| *slot = told);
        let mut ended = Ended { document, open: &open, times: &times, returned: refusal.number, stack, column, answer };
        (self.end)(&mut ended);
        ended.returned
    }

    /// Reads up to the first refusal, or to the end.
    fn refusal(&self, reading: &mut Reading) -> Option<Refusal> {
        if (self.long)(reading.document.len()) {
            return Some(Refusal { number: TOO_LONG, ..Refusal::default() });
        }
        loop {
            let mut seen = reading.next();
            if !reading.lies_right() {
                return Some(reading.refusal(UNKNOWN));
            }
            (self.taken)(reading, &mut seen);
            if seen.number != 0 {
                return Some(reading.of_the_crate(&seen));
            }
            match seen.kind {
                EOF => return None,
                START if reading.open.len() >= (self.holds)(reading.stack.len()) => return Some(reading.kept(STACK_FULL)),
                START => (self.open)(reading, (reading.content.0, reading.content.0 + seen.name)),
                END => (self.close)(reading),
                REF if (self.reference)(reading) => return Some(reading.refusal(BAD_TIME)),
                TEXT if (self.within)(reading) => {
                    let Ok(text) = std::str::from_utf8(reading.bytes(reading.content)) else { return Some(reading.refusal(UNKNOWN)) };
                    let word = match (self.clear)(text) {
                        "" => Word::Nothing,
                        text => (self.time)(text).map_or(Word::Bad, Word::Time),
                    };
                    match (self.verdict)(word, reading) {
                        Verdict::Pass => (),
                        Verdict::Take(value) => reading.times.push(value),
                        Verdict::Refuse(number) => return Some(reading.refusal(number)),
                    }
                }
                _ => (),
            }
        }
    }
}
