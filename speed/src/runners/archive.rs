//! The functions that C hosts call, over memory that is lent once.

use super::{kind, Runner, Settings, Tally};
use sporebasket::lent::{self, MOST_NAMES};

/// The settings, a bit each, and the slots of an answer, by `include/sporebasket.h`.
const ALLOW_DANGLING_AMP: usize = 1;
const CHECK_COMMENTS: usize = 4;
const TRIM_TEXT: usize = 64 + 128;
const KIND: usize = 0;
const CONTENT_FROM: usize = 5;
const CONTENT_TO: usize = 6;

/// An archive's two functions that read a document.
pub trait Functions {
    fn make(&self, document: &[u8], settings: usize, state: &mut [usize]) -> usize;
    fn read(&self, document: &[u8], stack: &mut [usize], state: &mut [usize], answer: &mut [usize]) -> usize;
}

/// Those of the archive that is linked.
pub struct Linked;

impl Functions for Linked {
    fn make(&self, document: &[u8], settings: usize, state: &mut [usize]) -> usize {
        lent::new(document, settings, state)
    }

    fn read(&self, document: &[u8], stack: &mut [usize], state: &mut [usize], answer: &mut [usize]) -> usize {
        lent::read_event(document, stack, state, answer)
    }
}

/// Those of the archive that is linked, by the plain engine.
pub struct Plain;

impl Functions for Plain {
    fn make(&self, document: &[u8], settings: usize, state: &mut [usize]) -> usize {
        lent::new(document, settings, state)
    }

    fn read(&self, document: &[u8], stack: &mut [usize], state: &mut [usize], answer: &mut [usize]) -> usize {
        lent::plain_read_event(document, stack, state, answer)
    }
}

pub struct Archive<F> {
    name: String,
    functions: F,
    stack: Vec<usize>,
    state: [usize; lent::STATE_SLOTS],
    answer: [usize; lent::ANSWER_SLOTS],
}

impl<F: Functions> Archive<F> {
    pub fn new(name: String, functions: F) -> Self {
        let stack = vec![0; MOST_NAMES * lent::NAME_SLOTS];
        Archive { name, functions, stack, state: [0; lent::STATE_SLOTS], answer: [0; lent::ANSWER_SLOTS] }
    }
}

impl<F: Functions> Runner for Archive<F> {
    fn name(&self) -> &str {
        &self.name
    }

    fn run(&mut self, document: &[u8], settings: Settings) -> Tally {
        let number = self.functions.make(document, bits(settings), &mut self.state);
        assert_eq!(number, 0, "no reader is made");
        let mut tally = Tally::default();
        loop {
            if self.functions.read(document, &mut self.stack, &mut self.state, &mut self.answer) != 0 {
                tally.refusal(document);
            } else if self.answer[KIND] == kind::EOF {
                return tally;
            } else {
                tally.event(self.answer[KIND], self.answer[CONTENT_TO] - self.answer[CONTENT_FROM]);
            }
        }
    }
}

fn bits(settings: Settings) -> usize {
    let mut bits = lent::default_settings();
    for (set, bit) in
        [(settings.trim_text, TRIM_TEXT), (settings.allow_dangling_amp, ALLOW_DANGLING_AMP), (settings.check_comments, CHECK_COMMENTS)]
    {
        if set {
            bits |= bit;
        }
    }
    bits
}
