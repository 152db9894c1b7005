//! Counts of what was compared, and the summary.

use super::account::Reading;
use super::listed::Told;
use super::theirs::FAULTS;
use super::*;
use crate::contents;
use crate::run::{Counts, Ends};
use crate::summary::pairs;

/// The refusals that a content can have, whatever the room.
const REFUSALS: [usize; 2] = [NO_REFERENCE, NO_CHARACTER];

#[derive(Clone)]
pub struct Tally {
    pub contents: u64,
    /// Calls of ours, and those that were refused for their room.
    pub calls: u64,
    pub full: u64,
    /// Contents that are UTF-8, which the crate read too.
    pub texts: u64,
    /// What contents are answered that have room, by number.
    pub ends: [u64; 32],
    /// Contents that are taken with fewer bytes than they have.
    pub shorter: u64,
    /// The listed differences, of contents and of single references; the shortest content of each.
    pub listed: [[u64; listed::COUNT]; 2],
    pub shortest: [Option<Vec<u8>>; listed::COUNT],
    /// Of the first, those that the crate takes to the end.
    pub taken: u64,
    /// Refusals in whose place the crate gives the same, of contents by its error.
    pub same: [u64; 2],
    pub faults: [u64; FAULTS.len()],
    pub differences: u64,
}

impl Default for Tally {
    fn default() -> Self {
        Self {
            contents: 0,
            calls: 0,
            full: 0,
            texts: 0,
            ends: [0; 32],
            shorter: 0,
            listed: [[0; listed::COUNT]; 2],
            shortest: Default::default(),
            taken: 0,
            same: [0; 2],
            faults: [0; FAULTS.len()],
            differences: 0,
        }
    }
}

impl Counts for Tally {
    fn add(&mut self, other: &Self) {
        self.contents += other.contents;
        self.calls += other.calls;
        self.full += other.full;
        self.texts += other.texts;
        self.shorter += other.shorter;
        self.taken += other.taken;
        self.differences += other.differences;
        pairs(&mut self.ends, &other.ends);
        pairs(&mut self.same, &other.same);
        pairs(&mut self.faults, &other.faults);
        self.listed.iter_mut().zip(&other.listed).for_each(|(all, more)| pairs(all, more));
        for (row, content) in other.shortest.iter().enumerate() {
            content.iter().for_each(|content| self.shorter(row, content));
        }
    }

    fn differences(&mut self) -> &mut u64 {
        &mut self.differences
    }

    fn sizes(&self) -> (u64, u64) {
        (self.contents, self.calls)
    }
}

impl Tally {
    /// Counts a content in which nothing differs but what is listed.
    pub fn tell(&mut self, reading: &Reading) {
        self.ends[reading.refused.map_or(0, |(number, _)| number)] += 1;
        self.shorter += (reading.refused.is_none() && reading.bytes.len() < reading.length) as u64;
    }

    /// Counts a refusal by the row of what the crate gives in its place.
    pub fn refusal(&mut self, row: Option<usize>, which: usize, told: &Told) {
        match row {
            Some(row) => {
                self.listed[which][row] += 1;
                self.taken += (which == 0 && told.given.is_ok()) as u64;
                self.shorter(row, told.content.as_bytes());
            }
            None => {
                self.same[which] += 1;
                let fault = told.given.as_ref().err().filter(|_| which == 0);
                fault.iter().for_each(|fault| self.faults[fault.row()] += 1);
            }
        }
    }

    /// Of two of a length the one with bytes that come first here.
    fn shorter(&mut self, row: usize, content: &[u8]) {
        contents::shorter(&mut self.shortest[row], content, b"&#;1");
    }

    fn table(&self) {
        println!("escape: refusals of contents with room:");
        for number in REFUSALS {
            println!("  {:>14}  {number}", self.ends[number]);
        }
        println!("escape: refusals that the crate has too, of contents and of single references:");
        println!("  {:>14} {:>14}", self.same[0], self.same[1]);
        println!("escape: those of contents by the crate's error:");
        for (row, fault) in FAULTS.iter().enumerate().filter(|(row, _)| self.faults[*row] > 0) {
            println!("  {:>14}  {fault}", self.faults[row]);
        }
        println!("escape: listed differences, of contents and of single references:");
        for (row, tag) in TAGS.iter().enumerate() {
            let shortest =
                self.shortest[row].as_ref().map_or(String::new(), |content| format!(", first at |{}|", contents::shown(content)));
            println!("  {:>14} {:>14}  {tag}{shortest}", self.listed[0][row], self.listed[1][row]);
        }
        println!("  {:>14}  of the contents are taken by the crate, to their end", self.taken);
    }
}

impl Ends for Tally {
    fn missing(&self) -> Vec<String> {
        let mut missing: Vec<String> = REFUSALS.iter().filter(|&&n| self.ends[n] == 0).map(|n| format!("refusal {n}")).collect();
        let others = [
            (self.ends[0], "a content that is taken"),
            (self.shorter, "a content with a reference that is taken"),
            (self.full, "refusal 27"),
            (self.taken, "a content that the crate alone takes"),
            (self.contents - self.texts, "a content that is not UTF-8"),
            (self.same[1], "a single reference that both refuse"),
        ];
        missing.extend(others.iter().filter(|(count, _)| *count == 0).map(|(_, what)| what.to_string()));
        let last = FAULTS.len() - 1;
        missing.extend((0..last).filter(|&row| self.faults[row] == 0).map(|row| format!("the crate's {}", FAULTS[row])));
        let seen = |row: usize| self.listed[0][row] > 0 && self.listed[1][row] > 0;
        missing.extend((0..listed::COUNT).filter(|&row| !seen(row)).map(|row| format!("listed difference {}", TAGS[row])));
        missing
    }

    fn line(&self) -> String {
        let Self { contents, calls, full, texts, differences, .. } = self;
        let [whole, refused] = [self.ends[0], self.ends[1..].iter().sum()];
        format!(
            "escape: {contents} contents, {calls} calls, {full} of them refused with 27; with room {whole} contents taken, {refused} refused; {texts} read by \
             the crate; {differences} differences"
        )
    }
}

/// Prints the counts of each family and of all: the sum.
pub fn print(families: &[(&str, Tally)]) -> Tally {
    let mut all = Tally::default();
    println!("escape: contents, calls; taken, refused:");
    for (name, tally) in families {
        let refused: u64 = tally.ends[1..].iter().sum();
        let Tally { contents, calls, .. } = tally;
        println!("  {contents:>9} {calls:>10}; {:>9} {refused:>9}  {name}", tally.ends[0]);
        all.add(tally);
    }
    all.table();
    all
}
