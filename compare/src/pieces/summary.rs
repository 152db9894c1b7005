//! Counts of what was compared, and the summary.

use super::*;
use crate::contents;
use crate::run::{Counts, Ends};
use crate::summary::pairs;
use crate::trace::escaped;

#[derive(Clone)]
pub struct Tally {
    pub contents: u64,
    pub cuttings: u64,
    /// Calls of ours.
    pub calls: u64,
    /// Pieces that the crate's scanners were fed, and documents that its reader read.
    pub fed: u64,
    pub read: u64,
    /// The states that a piece led to.
    pub states: [u64; STATES.len()],
    pub too_long: u64,
    pub bad: u64,
    /// The listed differences, and of each the shortest content, with bars where it is cut.
    pub listed: [u64; listed::COUNT],
    pub shortest: [Option<Vec<u8>>; listed::COUNT],
    pub differences: u64,
}

impl Default for Tally {
    fn default() -> Self {
        Self {
            contents: 0,
            cuttings: 0,
            calls: 0,
            fed: 0,
            read: 0,
            states: [0; STATES.len()],
            too_long: 0,
            bad: 0,
            listed: [0; listed::COUNT],
            shortest: Default::default(),
            differences: 0,
        }
    }
}

impl Counts for Tally {
    fn add(&mut self, other: &Self) {
        self.contents += other.contents;
        self.cuttings += other.cuttings;
        self.calls += other.calls;
        self.fed += other.fed;
        self.read += other.read;
        self.too_long += other.too_long;
        self.bad += other.bad;
        self.differences += other.differences;
        pairs(&mut self.states, &other.states);
        pairs(&mut self.listed, &other.listed);
        for (row, cut) in other.shortest.iter().enumerate() {
            cut.iter().for_each(|cut| self.shorter(row, cut));
        }
    }

    fn differences(&mut self) -> &mut u64 {
        &mut self.differences
    }

    fn sizes(&self) -> (u64, u64) {
        (self.contents, self.calls)
    }
}

impl Tally {
    /// Counts a piece that was answered alike.
    pub fn tell(&mut self, number: usize, slots: &[usize]) {
        match number {
            0 => self.states[slots[STATE]] += 1,
            TOO_LONG => self.too_long += 1,
            _ => self.bad += 1,
        }
    }

    /// Counts a difference that is listed, behind pieces with these ends.
    pub fn differ(&mut self, row: usize, content: &[u8], cuts: &[usize]) {
        self.listed[row] += 1;
        let length = cuts.last().map_or(0, |last| last + cuts.len() - 1);
        if self.shortest[row].as_ref().is_none_or(|shortest| length <= shortest.len()) {
            self.shorter(row, &shrink::cut(content, cuts));
        }
    }

    /// Of two of a length the one with bytes that come first here.
    fn shorter(&mut self, row: usize, cut: &[u8]) {
        contents::shorter(&mut self.shortest[row], cut, b"a-<!?>|");
    }

    fn table(&self) {
        println!("pieces: states behind a piece:");
        STATES.iter().zip(self.states).for_each(|(word, count)| println!("  {count:>14}  {word}"));
        println!("pieces: refusals:");
        println!("  {:>14}  {TOO_LONG}\n  {:>14}  {BAD_STATE}", self.too_long, self.bad);
        println!("pieces: listed differences, behind a piece:");
        for (row, tag) in TAGS.iter().enumerate() {
            let shortest = self.shortest[row].as_ref().map_or(String::new(), |cut| format!(", first at |{}|", escaped(cut)));
            println!("  {:>14}  {tag}{shortest}", self.listed[row]);
        }
    }
}

impl Ends for Tally {
    fn missing(&self) -> Vec<String> {
        let states = STATES.iter().zip(self.states).map(|(word, count)| (count, format!("state {word}")));
        let rows = TAGS.iter().zip(self.listed).map(|(tag, count)| (count, format!("listed difference {tag}")));
        let others = [
            (self.too_long, format!("refusal {TOO_LONG}")),
            (self.bad, format!("refusal {BAD_STATE}")),
            (self.fed, "a piece fed to the crate".into()),
            (self.read, "a document of the crate's reader".into()),
        ];
        states.chain(rows).chain(others).filter(|(count, _)| *count == 0).map(|(_, what)| what).collect()
    }

    fn line(&self) -> String {
        let Self { contents, cuttings, calls, fed, read, differences, .. } = self;
        format!(
            "pieces: {contents} contents, {cuttings} cuttings, {calls} calls; {fed} pieces fed to the crate's parsers, {read} contents read by its reader; \
             {differences} differences"
        )
    }
}

/// Prints the counts of each family and of all: the sum.
pub fn print(families: &[(&str, Tally)]) -> Tally {
    let mut all = Tally::default();
    println!("pieces: contents, cuttings, calls; pieces fed to the crate:");
    for (name, tally) in families {
        let Tally { contents, cuttings, calls, fed, .. } = tally;
        println!("  {contents:>9} {cuttings:>11} {calls:>11}; {fed:>11}  {name}");
        all.add(tally);
    }
    all.table();
    all
}
