//! Counts of what was compared, and the summary.

use super::*;
use crate::run::{Counts, Ends};
use crate::summary::pairs;

/// The refusals that the default settings can lead to.
const REFUSALS: [usize; 18] = [1, 2, 3, 4, 5, 6, 7, 8, 10, 11, 12, 13, 14, 15, TOO_LONG, BAD_STATE, BAD_TIME, COLUMN_FULL];

#[derive(Clone)]
pub struct Tally {
    pub documents: u64,
    pub inputs: u64,
    pub times: u64,
    /// By number, 0 for a document that is read whole.
    pub numbers: [u64; 100],
    /// Of the columns of two times at least, those in order and those not.
    pub ordered: [u64; 2],
    pub differences: u64,
}

impl Default for Tally {
    fn default() -> Self {
        Self { documents: 0, inputs: 0, times: 0, numbers: [0; 100], ordered: [0; 2], differences: 0 }
    }
}

impl Counts for Tally {
    fn add(&mut self, other: &Self) {
        self.documents += other.documents;
        self.inputs += other.inputs;
        self.times += other.times;
        self.differences += other.differences;
        pairs(&mut self.numbers, &other.numbers);
        pairs(&mut self.ordered, &other.ordered);
    }

    fn differences(&mut self) -> &mut u64 {
        &mut self.differences
    }

    /// Each input is a call.
    fn sizes(&self) -> (u64, u64) {
        (self.inputs, self.inputs)
    }
}

impl Tally {
    /// Counts an answer that is right.
    pub fn tell(&mut self, number: usize, answer: &[usize]) {
        self.numbers[number] += 1;
        self.times += answer[COUNT] as u64;
        if answer[COUNT] > 1 {
            self.ordered[(answer[LOWER] > 0) as usize] += 1;
        }
    }

    /// How many were read whole, and how many refused with 30, with 31, by the reader, and with 17.
    fn outcomes(&self) -> [u64; 5] {
        let [whole, few, bad, full] = [0, BAD_STATE, BAD_TIME, COLUMN_FULL].map(|number| self.numbers[number]);
        let readers = self.numbers.iter().sum::<u64>() - whole - few - bad - full;
        [whole, bad, full, readers, few]
    }
}

impl Ends for Tally {
    fn missing(&self) -> Vec<String> {
        let mut missing: Vec<String> = REFUSALS.iter().filter(|&&n| self.numbers[n] == 0).map(|n| format!("refusal {n}")).collect();
        let others = [
            (self.numbers[0], "a document that is read whole"),
            (self.ordered[0], "a column in order"),
            (self.ordered[1], "one not in order"),
        ];
        missing.extend(others.iter().filter(|(count, _)| *count == 0).map(|(_, what)| what.to_string()));
        missing
    }

    fn line(&self) -> String {
        let Self { documents, inputs, times, ordered: [ordered, not], differences, .. } = self;
        let [whole, bad, full, readers, few] = self.outcomes();
        format!(
            "columns: {documents} documents, {inputs} inputs, {times} times; {whole} whole, {bad} refused with 30, {full} with 31, {readers} by the \
             reader, {few} with 17; of two times at least {ordered} in order, {not} not; {differences} differences"
        )
    }
}

/// Prints the counts of each family and of all: the sum.
pub fn print(families: &[(&str, Tally)]) -> Tally {
    let mut all = Tally::default();
    println!("columns: documents, inputs, times; whole, 30, 31, the reader's:");
    for (name, tally) in families {
        let [whole, bad, full, readers, _] = tally.outcomes();
        println!("  {:>9} {:>9} {:>9}; {whole:>9} {bad:>9} {full:>9} {readers:>9}  {name}", tally.documents, tally.inputs, tally.times);
        all.add(tally);
    }
    println!("columns: refusals:");
    for number in REFUSALS {
        println!("  {:>14}  {number}", all.numbers[number]);
    }
    all
}
