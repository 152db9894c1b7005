//! Counts of what was compared, and the summary.

use crate::ours::THEIR_ALL;
use crate::run::Counts;
use crate::summary::pairs;

/// The listed differences.
#[derive(Clone, Copy)]
pub enum Listed {
    Mark,
    Dangling,
    Hyphens,
    Encoding,
    Doctype,
    Character,
}

/// What they are called, with what is counted.
const LISTED: [&str; 6] = [
    "positions behind a byte order mark",
    "dangling-trim",
    "hyphen-place",
    "encoding-place",
    "readings left at a DOCTYPE",
    "reference-character",
];

#[derive(Clone)]
pub struct Tally {
    pub inputs: u64,
    /// Positions that were compared: one for each call.
    pub calls: u64,
    pub settings: [u64; THEIR_ALL as usize + 1],
    listed: [u64; LISTED.len()],
    pub differences: u64,
}

impl Default for Tally {
    fn default() -> Self {
        Self { inputs: 0, calls: 0, settings: [0; THEIR_ALL as usize + 1], listed: [0; LISTED.len()], differences: 0 }
    }
}

impl Counts for Tally {
    fn add(&mut self, other: &Self) {
        self.inputs += other.inputs;
        self.calls += other.calls;
        self.differences += other.differences;
        pairs(&mut self.settings, &other.settings);
        pairs(&mut self.listed, &other.listed);
    }

    fn differences(&mut self) -> &mut u64 {
        &mut self.differences
    }

    fn sizes(&self) -> (u64, u64) {
        (self.inputs, self.calls)
    }
}

impl Tally {
    pub fn listed(&mut self, which: Listed) {
        self.listed[which as usize] += 1;
    }

    /// What a comparison that tests something has seen, and this one has not.
    pub fn missing(&self) -> Vec<String> {
        let settings = self.settings.iter().filter(|&&count| count == 0).count();
        let listed = LISTED.iter().zip(self.listed).filter(|(_, count)| *count == 0);
        let mut missing: Vec<String> = listed.map(|(name, _)| name.to_string()).collect();
        if settings > 0 {
            missing.push(format!("{settings} of the settings"));
        }
        missing
    }

    /// All of it on a line.
    pub fn line(&self, fixed: bool) -> String {
        let listed: Vec<String> = LISTED.iter().zip(self.listed).map(|(name, count)| format!("{count} {name}")).collect();
        let differences = self.differences + u64::from(fixed);
        format!("swap: {} inputs, {} calls; {}; {differences} differences", self.inputs, self.calls, listed.join(", "))
    }
}

/// Prints the counts of each family and of all: the sum.
pub fn print(families: &[(&str, Tally)]) -> Tally {
    let mut all = Tally::default();
    println!("swap: inputs, calls:");
    for (name, tally) in families {
        println!("  {:>14} {:>14}  {name}", tally.inputs, tally.calls);
        all.add(tally);
    }
    all
}
