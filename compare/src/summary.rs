//! Counts of what was compared, and the summary.

use crate::layout::Laid;
use crate::listed;
use crate::ours::*;
use crate::plain::Beside;
use crate::rows::Listed;
use crate::run::Counts;

/// The refusals that both sides give, and behind them 18, which is held to the crate's open names.
pub const REFUSALS: [usize; 14] = [1, 2, 3, 4, 5, 6, 7, 8, 9, 10, 11, 12, 13, UNCLOSED];
/// Those that both sides give.
pub const SHARED: usize = 13;

#[derive(Clone)]
pub struct Tally {
    pub inputs: u64,
    pub calls: u64,
    pub kinds: [u64; KINDS.len()],
    /// By number; the crate's numbers that are no refusal of ours count here too.
    pub numbers: [u64; 100],
    pub listed: [u64; listed::COUNT],
    /// Cases that left the domain by 14, 15 and 16.
    pub left: [u64; 3],
    pub laid: Laid,
    pub rows: Listed,
    pub beside: Beside,
    pub differences: u64,
}

impl Default for Tally {
    fn default() -> Self {
        Self {
            inputs: 0,
            calls: 0,
            kinds: [0; KINDS.len()],
            numbers: [0; 100],
            listed: [0; listed::COUNT],
            left: [0; 3],
            laid: Laid::default(),
            rows: Listed::default(),
            beside: Beside::default(),
            differences: 0,
        }
    }
}

impl Counts for Tally {
    fn add(&mut self, other: &Tally) {
        self.inputs += other.inputs;
        self.calls += other.calls;
        self.differences += other.differences;
        pairs(&mut self.kinds, &other.kinds);
        pairs(&mut self.numbers, &other.numbers);
        pairs(&mut self.listed, &other.listed);
        pairs(&mut self.left, &other.left);
        self.laid.add(&other.laid);
        self.rows.add(&other.rows);
        self.beside.add(&other.beside);
    }

    fn differences(&mut self) -> &mut u64 {
        &mut self.differences
    }

    fn sizes(&self) -> (u64, u64) {
        (self.inputs, self.calls)
    }
}

/// Adds each of the second to that of the first.
pub fn pairs(all: &mut [u64], more: &[u64]) {
    all.iter_mut().zip(more).for_each(|(all, more)| *all += more);
}

impl Tally {
    /// What a comparison that tests something has seen, and this one has not: with these refusals.
    pub fn missing(&self, refusals: &[usize]) -> Vec<String> {
        let mut missing = Vec::new();
        if self.inputs == 0 {
            missing.push("any input".into());
        }
        for (kind, word) in KINDS.iter().enumerate().skip(1) {
            if self.kinds[kind] == 0 {
                missing.push(format!("kind {word}"));
            }
        }
        missing.extend(refusals.iter().filter(|&&n| self.numbers[n] == 0).map(|n| format!("refusal {n}")));
        for (tag, count) in listed::TAGS.iter().zip(self.listed) {
            if count == 0 {
                missing.push(format!("listed difference {tag}"));
            }
        }
        missing.extend(self.laid.missing());
        missing.extend(self.rows.missing());
        missing
    }

    fn table(&self) {
        println!("events:");
        for (word, count) in KINDS.iter().zip(self.kinds).skip(1) {
            println!("  {count:>14}  {word}");
        }
        println!("refusals:");
        for number in REFUSALS {
            println!("  {:>14}  {number}", self.numbers[number]);
        }
        println!("listed differences:");
        for (tag, count) in listed::TAGS.iter().zip(self.listed) {
            println!("  {count:>14}  {tag}");
        }
        println!("cases that left the domain:");
        for (number, count) in (DOCTYPE..).zip(self.left) {
            println!("  {count:>14}  {number}");
        }
    }
}

/// Prints the counts of each family and of all: the sum.
pub fn print(families: &[(&str, Tally)]) -> Tally {
    let mut all = Tally::default();
    println!("inputs, calls:");
    for (name, tally) in families {
        println!("  {:>14} {:>14}  {name}", tally.inputs, tally.calls);
        all.add(tally);
    }
    all.table();
    all
}
