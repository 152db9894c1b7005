//! Holds what the program writes over ours to what it writes over the crate, line by line. Lines are the same, but where a difference is listed: there
//! ours is what is listed.

use super::facts::Facts;
use super::references;
use super::summary::{Listed, Tally};
use crate::check::is_white;
use std::str::Lines;

/// The sorts of lines, for what differs: those of compare/swap/program, and an end that comes too early.
const SORTS: &str = "=@#!&><%";
/// An error that is ours alone.
const DOCTYPE: &str = "! Refused(DocType)";

/// Which errors tell their place in a way of their own.
#[derive(Clone, Copy, PartialEq, Eq)]
enum Failed {
    Hyphens,
    Encoding,
    /// The end of an element was not found, which tells no place.
    Missing,
    Other,
}

impl Failed {
    fn of(line: &str) -> Self {
        let starts = |word: &str| line.starts_with(word);
        match () {
            () if starts("! IllFormed(DoubleHyphenInComment") => Failed::Hyphens,
            () if starts("! Encoding(") => Failed::Encoding,
            () if starts("! IllFormed(MissingEndTag(") => Failed::Missing,
            () => Failed::Other,
        }
    }
}

/// Places of the last error, ours and the crate's.
type Places = (u64, u64);

struct Walk<'a> {
    facts: Facts<'a>,
    ours: Numbered<'a>,
    theirs: Numbered<'a>,
    places: Places,
    /// The places before what has begun and not ended, of which the outermost reads the document from its start.
    outer: Vec<Places>,
    /// Nothing was read yet.
    fresh: bool,
    /// The error since the last position, and the text of a dangling `&`, ours and the crate's.
    failed: Option<Failed>,
    dangling: Option<(&'a str, &'a str)>,
    tally: &'a mut Tally,
}

/// The first lines that differ and may not: their numbers, ours and the crate's, and the bit of their sort.
pub struct Differ {
    pub ours: usize,
    pub theirs: usize,
    pub sort: u32,
}

pub fn compare<'a>(document: &'a [u8], ours: &'a str, theirs: &'a str, tally: &'a mut Tally) -> Result<(), Differ> {
    let mut walk = Walk {
        facts: Facts::new(document),
        ours: Numbered::new(ours),
        theirs: Numbered::new(theirs),
        places: (0, 0),
        outer: Vec::new(),
        fresh: true,
        failed: None,
        dangling: None,
        tally,
    };
    loop {
        match (walk.ours.next(), walk.theirs.next()) {
            (None, None) => return Ok(()),
            (Some(ours), Some(theirs)) if walk.holds(ours, theirs) => {}
            (ours, _) => {
                let sort = ours.and_then(|line| line.chars().next()).and_then(|sort| SORTS.find(sort));
                return Err(Differ { ours: walk.ours.number, theirs: walk.theirs.number, sort: 1 << sort.unwrap_or(SORTS.len()) });
            }
        }
    }
}

/// Lines, and the number of the latest.
#[derive(Clone)]
struct Numbered<'a> {
    lines: Lines<'a>,
    number: usize,
}

impl<'a> Numbered<'a> {
    fn new(text: &'a str) -> Self {
        Self { lines: text.lines(), number: 0 }
    }

    fn next(&mut self) -> Option<&'a str> {
        self.number += 1;
        self.lines.next()
    }

    /// The first numbers of the next position.
    fn position(&self) -> Option<[u64; 3]> {
        self.lines.clone().find(|line| line.starts_with('@')).and_then(numbers)
    }

    /// Passes all lines up to where what the latest line is part of ends: whether it does.
    fn skip(&mut self) -> bool {
        let mut depth = 1;
        while let Some(line) = self.next() {
            match line.chars().next() {
                Some('>') => depth += 1,
                Some('<') => depth -= 1,
                _ => {}
            }
            if depth == 0 {
                return true;
            }
        }
        false
    }
}

/// The numbers of a line.
fn numbers<const N: usize>(line: &str) -> Option<[u64; N]> {
    let mut words = line.get(2..)?.split(' ').map(|word| word.parse().ok());
    let mut numbers = [0; N];
    for number in &mut numbers {
        *number = words.next()??;
    }
    words.next().is_none().then_some(numbers)
}

impl<'a> Walk<'a> {
    /// Whether the two lines are as they have to be.
    fn holds(&mut self, ours: &'a str, theirs: &'a str) -> bool {
        if ours.starts_with(DOCTYPE) {
            return self.leaves(theirs);
        }
        if ours.get(..2) != theirs.get(..2) {
            return false;
        }
        match ours.chars().next() {
            Some('@') => self.position(ours, theirs).unwrap_or(false),
            Some('#') => self.span(ours, theirs).unwrap_or(false),
            Some('&') => self.dangles(ours, theirs),
            Some('%') => self.reads(ours, theirs),
            _ if ours != theirs => false,
            Some('!') => {
                self.failed = Some(Failed::of(ours));
                true
            }
            Some('>') => {
                self.begins();
                true
            }
            Some('<') => {
                self.ends();
                true
            }
            _ => true,
        }
    }

    fn begins(&mut self) {
        if self.outer.is_empty() {
            self.places = (0, 0);
            self.fresh = true;
        }
        self.outer.push(self.places);
        (self.failed, self.dangling) = (None, None);
    }

    fn ends(&mut self) {
        self.places = self.outer.pop().unwrap_or_default();
        (self.failed, self.dangling) = (None, None);
    }

    /// A position of ours counts a byte order mark, once anything is read. As many bytes are left.
    fn position(&mut self, ours: &str, theirs: &str) -> Option<bool> {
        let ([at, place, rest], [their_at, their_place, their_rest]) = (numbers(ours)?, numbers(theirs)?);
        let mark = if self.fresh { 0 } else { self.facts.mark };
        if (at, rest) != (their_at + mark, their_rest) {
            return Some(false);
        }
        if mark > 0 {
            self.tally.listed(Listed::Mark);
        }
        self.fresh = false;
        self.tally.calls += 1;
        let due = match self.failed.take() {
            None | Some(Failed::Missing) if their_place != self.places.1 => return Some(false),
            None | Some(Failed::Missing) => self.places.0,
            Some(Failed::Other) => their_place + self.facts.mark,
            Some(Failed::Hyphens) => self.listed_place(self.facts.pair(at)?, their_place, Listed::Hyphens),
            Some(Failed::Encoding) => self.listed_place(self.facts.ill(), their_place, Listed::Encoding),
        };
        self.places = (due, their_place);
        let held = self.dangling.take().is_none_or(|(ours, theirs)| self.is_untrimmed(ours, theirs, at));
        Some(place == due && held)
    }

    /// The place that ours has to tell, counted where the crate's is another.
    fn listed_place(&mut self, due: u64, theirs: u64, listed: Listed) -> u64 {
        if due != theirs + self.facts.mark {
            self.tally.listed(listed);
        }
        due
    }

    fn span(&mut self, ours: &str, theirs: &str) -> Option<bool> {
        let ([from, to], [their_from, their_to]) = (numbers(ours)?, numbers(theirs)?);
        let mark = self.facts.mark;
        Some((from, to) == (their_from + mark, their_to + mark))
    }

    /// Ours may have white space more at the end. Whether it has all that is there is seen at the position.
    fn dangles(&mut self, ours: &'a str, theirs: &'a str) -> bool {
        self.dangling = Some((&ours[2..], &theirs[2..]));
        true
    }

    /// Ours is the whole piece, the crate's is without the white space at its end.
    fn is_untrimmed(&mut self, ours: &str, theirs: &str, at: u64) -> bool {
        let Some(piece) = self.facts.dangling(at) else { return false };
        let trimmed = piece.trim_end_matches(|c: char| c.is_ascii() && is_white(c as u8));
        if trimmed != piece {
            self.tally.listed(Listed::Dangling);
        }
        ours == format!("{piece:?}") && theirs == format!("{trimmed:?}")
    }

    /// A text with references by a number. Where ours refuses one that the crate takes both have to be what is listed.
    fn reads(&mut self, ours: &str, theirs: &str) -> bool {
        let Some(text) = references::Text::of(&theirs[2..]) else { return false };
        let Some(due) = text.due() else { return ours == theirs };
        self.tally.listed(Listed::Character);
        ours[2..] == due.ours && theirs[2..] == due.theirs
    }

    /// Ours refuses a document type: where it stands there has to be one. What comes after it is compared no more.
    fn leaves(&mut self, theirs: &str) -> bool {
        let told = |words: &[&str]| words.iter().any(|word| theirs.contains(word));
        let reads = self.outer.len() > 1 || told(&["DocType(", "Doctype", "Encoding("]);
        let is_one = self.ours.position().is_some_and(|[at, ..]| self.facts.is_doctype(at));
        if !reads || !is_one {
            return false;
        }
        self.tally.listed(Listed::Doctype);
        self.ends();
        self.ours.skip() && self.theirs.skip()
    }
}
