//! Counts of what was compared, and the summary.

use super::account::Reading;
use super::*;
use crate::contents;
use crate::run::{Counts, Ends};
use crate::summary::pairs;
use crate::trace::escaped;

/// The refusals that a reading can end with.
const REFUSALS: [usize; 6] = [NO_SPACE, NO_NAME, NO_EQUALS, NO_QUOTE, LESS_THAN, DUPLICATE];

#[derive(Clone)]
pub struct Tally {
    pub contents: u64,
    /// Calls of ours.
    pub calls: u64,
    /// Contents that are UTF-8, which the crate read too.
    pub texts: u64,
    pub attributes: u64,
    /// How the reading of a content ended, by number, 0 for none.
    pub ends: [u64; 32],
    /// Contents with more attributes than the crate keeps without a hash.
    pub many: u64,
    /// The listed differences, with the crate's checks and without; the shortest content of each.
    pub listed: [[u64; listed::COUNT]; 2],
    pub shortest: [Option<Vec<u8>>; listed::COUNT],
    /// Refusals in whose place the crate gives the same.
    pub same: [u64; 2],
    pub differences: u64,
}

impl Default for Tally {
    fn default() -> Self {
        Self {
            contents: 0,
            calls: 0,
            texts: 0,
            attributes: 0,
            ends: [0; 32],
            many: 0,
            listed: [[0; listed::COUNT]; 2],
            shortest: Default::default(),
            same: [0; 2],
            differences: 0,
        }
    }
}

impl Counts for Tally {
    fn add(&mut self, other: &Self) {
        self.contents += other.contents;
        self.calls += other.calls;
        self.texts += other.texts;
        self.attributes += other.attributes;
        self.many += other.many;
        self.differences += other.differences;
        pairs(&mut self.ends, &other.ends);
        pairs(&mut self.same, &other.same);
        self.listed.iter_mut().zip(&other.listed).for_each(|(all, more)| pairs(all, more));
        for (row, content) in other.shortest.iter().enumerate() {
            content.iter().for_each(|content| self.shorter(row, content));
        }
    }

    fn differences(&mut self) -> &mut u64 {
        &mut self.differences
    }

    fn sizes(&self) -> (u64, u64) {
        (self.contents, self.calls)
    }
}

/// So many attributes the crate keeps without a hash.
const WITHOUT_HASH: usize = 32;

impl Tally {
    /// Counts a reading in which nothing differs but what is listed.
    pub fn tell(&mut self, reading: &Reading) {
        let count = reading.steps.len() - 1;
        self.attributes += count as u64;
        self.many += (count > WITHOUT_HASH) as u64;
        self.ends[reading.steps[count].number] += 1;
    }

    /// Counts a refusal by the row of what the crate gives in its place.
    pub fn refusal(&mut self, row: Option<usize>, which: usize, content: &[u8]) {
        match row {
            Some(row) => self.differ(row, which, content),
            None => self.same[which] += 1,
        }
    }

    /// Counts what the crate gives behind our refusal.
    pub fn goes_on(&mut self, more: usize, which: usize, content: &[u8]) {
        if more > 0 {
            self.differ(listed::OF_A_REFUSAL, which, content);
        }
    }

    fn differ(&mut self, row: usize, which: usize, content: &[u8]) {
        self.listed[which][row] += 1;
        self.shorter(row, content);
    }

    /// Of two of a length the one with bytes that come first here.
    fn shorter(&mut self, row: usize, content: &[u8]) {
        contents::shorter(&mut self.shortest[row], content, b"ab ='\"<");
    }

    fn table(&self) {
        println!("attributes: refusals:");
        for number in REFUSALS {
            println!("  {:>14}  {number}", self.ends[number]);
        }
        println!("attributes: refusals that the crate has too, with checks and without:");
        println!("  {:>14} {:>14}", self.same[0], self.same[1]);
        println!("attributes: listed differences, with the crate's checks and without:");
        for (row, tag) in TAGS.iter().enumerate() {
            let shortest = self.shortest[row].as_ref().map_or(String::new(), |content| format!(", first at |{}|", escaped(content)));
            println!("  {:>14} {:>14}  {tag}{shortest}", self.listed[0][row], self.listed[1][row]);
        }
    }
}

impl Ends for Tally {
    fn missing(&self) -> Vec<String> {
        let mut missing: Vec<String> = REFUSALS.iter().filter(|&&n| self.ends[n] == 0).map(|n| format!("refusal {n}")).collect();
        let others = [
            (self.ends[0], "a content that is read whole"),
            (self.attributes, "an attribute"),
            (self.many, "many attributes"),
            (self.contents - self.texts, "a content that is not UTF-8"),
            (self.same[0], "a refusal that the crate has too"),
        ];
        missing.extend(others.iter().filter(|(count, _)| *count == 0).map(|(_, what)| what.to_string()));
        let seen = |row: usize| self.listed[0][row] + self.listed[1][row] > 0;
        missing.extend((0..listed::COUNT).filter(|&row| !seen(row)).map(|row| format!("listed difference {}", TAGS[row])));
        missing
    }

    fn line(&self) -> String {
        let Self { contents, calls, texts, attributes, differences, .. } = self;
        let [whole, refused] = [self.ends[0], self.ends[1..].iter().sum()];
        format!(
            "attributes: {contents} contents, {calls} calls, {attributes} attributes; {whole} contents whole, {refused} refused; {texts} read by the crate \
             twice; {differences} differences"
        )
    }
}

/// Prints the counts of each family and of all: the sum.
pub fn print(families: &[(&str, Tally)]) -> Tally {
    let mut all = Tally::default();
    println!("attributes: contents, calls, attributes; whole, refused:");
    for (name, tally) in families {
        let refused: u64 = tally.ends[1..].iter().sum();
        let Tally { contents, calls, attributes, .. } = tally;
        println!("  {contents:>9} {calls:>10} {attributes:>9}; {:>9} {refused:>9}  {name}", tally.ends[0]);
        all.add(tally);
    }
    all.table();
    all
}
