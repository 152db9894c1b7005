//! Runs the program over both for one case.

use super::lines::{self, Differ};
use super::summary::Tally;
use crate::check::Difference;
use crate::inputs::{Flow, Sink, ON};
use crate::ours::{LONGEST, MOST_NAMES, THEIR_ALL};
use crate::run::{Runs, Worker};

/// A longer document is left to the comparison of the calls.
const LARGEST: usize = LONGEST / 32;
/// One case in so many comes with the settings that are due, counted through, in the place of its own.
const COUNTED: u64 = 2;

/// An input: a document and settings of the crate.
#[derive(Clone, Copy)]
pub struct Case<'a> {
    pub document: &'a [u8],
    pub settings: u16,
}

#[derive(Clone)]
pub struct Kept {
    pub document: Vec<u8>,
    pub settings: u16,
}

impl Kept {
    pub fn case(&self) -> Case<'_> {
        Case { document: &self.document, settings: self.settings }
    }
}

/// What both write.
#[derive(Default)]
pub struct Bench {
    pub ours: String,
    pub theirs: String,
}

impl Bench {
    /// Lets both write.
    pub fn both(&mut self, case: &Case) {
        self.ours.clear();
        self.theirs.clear();
        swap_ours::write_document(case.document, case.settings, &mut self.ours);
        swap_theirs::write_document(case.document, case.settings, &mut self.theirs);
    }

    /// The first lines that differ and may not.
    pub fn compare(&mut self, case: &Case, tally: &mut Tally) -> Result<(), Differ> {
        self.both(case);
        lines::compare(case.document, &self.ours, &self.theirs, tally)
    }
}

impl Runs for Bench {
    type Case<'a> = Case<'a>;
    type Kept = Kept;
    type Tally = Tally;
    type Told = ();

    fn run(&mut self, case: &Case, tally: &mut Tally) -> Result<(), Difference> {
        tally.inputs += 1;
        tally.settings[usize::from(case.settings)] += 1;
        self.compare(case, tally).map_err(|differ| Difference { call: differ.ours, fields: differ.sort.into() })
    }

    fn reset(&mut self) {}

    fn kept(case: &Case) -> Kept {
        Kept { document: case.document.to_vec(), settings: case.settings }
    }

    fn length(kept: &Kept) -> usize {
        kept.document.len()
    }
}

impl Sink for Worker<Bench> {
    /// Runs a document that is not too long and cannot open more names than may be, with its settings or with those whose turn it is.
    fn case(&mut self, document: &[u8], settings: u16, slots: usize) -> Flow {
        if document.len() > LARGEST || slots > 2 * MOST_NAMES - 10 {
            return ON;
        }
        self.given += 1;
        let turn = (self.given / COUNTED).wrapping_mul(0x9D) as u16 & THEIR_ALL;
        let settings = if self.given.is_multiple_of(COUNTED) { turn } else { settings };
        self.one(&Case { document, settings })?;
        ON
    }
}
