//! The families of inputs. Each is cut into jobs that can be run in any order; a job gives its cases to a sink, always the same ones.

mod attributes;
pub mod blocks;
mod columns;
mod contents;
mod escape;
mod exhaustive;
mod files;
mod limits;
mod pieces;
mod places;
pub mod random;
mod utf8;

use crate::ours::*;
use std::ops::ControlFlow;
use std::path::PathBuf;

/// `Break` when the sink wants no more.
pub type Flow = ControlFlow<()>;
pub const ON: Flow = Flow::Continue(());

/// Where cases go. They come with the settings that the crate has, and `check_open_names` off.
pub trait Sink {
    fn case(&mut self, document: &[u8], settings: u16, slots: usize) -> Flow;

    fn each(&mut self, document: &[u8], settings: &[u16], slots: usize) -> Flow {
        settings.iter().try_for_each(|&settings| self.case(document, settings, slots))
    }
}

type Job = Box<dyn Fn(usize, &mut dyn Sink) -> Flow + Send + Sync>;

pub struct Family {
    pub name: &'static str,
    pub jobs: usize,
    pub run: Job,
}

impl Family {
    fn new(name: &'static str, jobs: usize, run: impl Fn(usize, &mut dyn Sink) -> Flow + Send + Sync + 'static) -> Self {
        Self { name, jobs, run: Box::new(run) }
    }
}

/// How much is run.
#[derive(Clone, Copy, PartialEq, Eq)]
pub enum Amount {
    Quick,
    Full,
}

impl Amount {
    /// One of two numbers.
    pub fn of<T>(self, quick: T, full: T) -> T {
        match self {
            Amount::Quick => quick,
            Amount::Full => full,
        }
    }
}

/// Every family, in the order in which they are run.
pub fn all(amount: Amount, seed: u64) -> Vec<Family> {
    let mut families = places::families(amount);
    families.extend(limits::families(amount));
    families.extend(exhaustive::families(amount));
    families.extend(blocks::families(amount));
    families.extend(utf8::families(amount));
    families.extend(random::families(amount, seed));
    families.extend(files::families(files::found(amount)));
    families.extend(limits::largest(amount));
    families
}

/// Those of the column reader: its own, and some of the others, of which it takes those with the default settings.
pub fn columns(amount: Amount, seed: u64) -> Vec<Family> {
    let found = files::found(Amount::Full);
    let step = amount.of(found.len() / 200 + 1, 1);
    let found: Vec<PathBuf> = found.into_iter().step_by(step).collect();
    let mut families = columns::families(amount, seed);
    families.push(columns::of_files(found.clone(), seed));
    families.extend(files::families(found));
    families.extend(limits::families(amount));
    families.extend(random::families(amount, seed).into_iter().take(1));
    families
}

/// Those of the program that is compiled over both sides: short sequences, and a share of all, but for those at the limits of a document and of its names.
/// The shares have no factor in common with the counts of settings, so that each of these has its turn.
pub fn swap(amount: Amount, seed: u64) -> Vec<Family> {
    let shared = |families: Vec<Family>, quick, full| families.into_iter().map(move |family| thinned(family, amount.of(quick, full)));
    let mut families: Vec<Family> = shared(random::families(amount, seed), 37, 127).collect();
    families.extend(shared(escape::in_documents(seed), 101, 7));
    families.extend(exhaustive::short());
    families.extend(shared(vec![exhaustive::prefixed(amount)], 53, 61));
    families.extend(shared(exhaustive::families(Amount::Quick), 71, 5));
    families.extend(shared(places::families(Amount::Quick), 71, 7));
    families.extend(shared(limits::families(Amount::Quick), 53, 5));
    families.extend(shared(blocks::families(Amount::Quick), 97, 11));
    families.extend(shared(utf8::families(Amount::Quick), 97, 11));
    families.extend(shared(files::families(files::found(amount)), 3, 5));
    families
}

/// One case in so many of a family.
fn thinned(family: Family, share: u64) -> Family {
    Family::new(family.name, family.jobs, move |job, sink| (family.run)(job, &mut Thinned { sink, share, turn: job as u64 }))
}

struct Thinned<'s> {
    sink: &'s mut dyn Sink,
    share: u64,
    turn: u64,
}

impl Sink for Thinned<'_> {
    fn case(&mut self, document: &[u8], settings: u16, slots: usize) -> Flow {
        self.turn += 1;
        if !self.turn.is_multiple_of(self.share) {
            return ON;
        }
        self.sink.case(document, settings, slots)
    }
}

/// Those of attributes: contents of tags, and the tags in documents of the others.
pub fn attributes(amount: Amount, seed: u64) -> Vec<Family> {
    let found = files::found(Amount::Full);
    let step = amount.of(found.len() / 200 + 1, 1);
    let found: Vec<PathBuf> = found.into_iter().step_by(step).collect();
    let mut documents = random::families(Amount::Quick, seed);
    documents.extend(exhaustive::families(Amount::Quick));
    documents.extend(places::families(Amount::Quick));
    documents.extend(blocks::families(Amount::Quick));
    documents.extend(utf8::families(Amount::Quick));
    let share = amount.of(13, 1);
    let mut families = attributes::families(amount, seed);
    families.extend(documents.into_iter().map(|family| attributes::of_documents(thinned(family, share))));
    families.extend(tags_of_files(found));
    families
}

/// Contents of tags alone, which are the same on every machine.
pub fn contents(seed: u64) -> Vec<Family> {
    attributes::families(Amount::Quick, seed)
}

/// Those of references: contents with them, and the texts of documents of the others.
pub fn escape(amount: Amount, seed: u64) -> Vec<Family> {
    let found = files::found(Amount::Full);
    let step = amount.of(found.len() / 200 + 1, 1);
    let found: Vec<PathBuf> = found.into_iter().step_by(step).collect();
    let mut documents = random::families(Amount::Quick, seed);
    documents.extend(exhaustive::families(Amount::Quick));
    documents.extend(utf8::families(Amount::Quick));
    let share = amount.of(29, 3);
    let mut families = escape::families(amount, seed);
    families.extend(documents.into_iter().map(|family| escape::of_documents(thinned(family, share))));
    families.extend(texts_of_files(found));
    families
}

/// Contents with references alone, which are the same on every machine.
pub fn texts(seed: u64) -> Vec<Family> {
    escape::families(Amount::Quick, seed)
}

/// Those of scans fed in pieces: their own, and the markup, references and texts in documents of the others.
pub fn pieces(amount: Amount, seed: u64) -> Vec<Family> {
    let documents = random::families(Amount::Quick, seed).into_iter().chain(blocks::families(Amount::Quick));
    let share = amount.of(401, 41);
    let mut families = pieces::families(amount, seed);
    families.extend(documents.map(|family| pieces::of_documents(thinned(family, share))));
    families
}

/// The markup, references and texts in the files named.
pub fn marks_of_files(paths: Vec<PathBuf>) -> Vec<Family> {
    files::families(paths).into_iter().map(pieces::of_documents).collect()
}

/// The texts in the files named.
pub fn texts_of_files(paths: Vec<PathBuf>) -> Vec<Family> {
    files::families(paths).into_iter().map(escape::of_documents).collect()
}

/// The tags in the files named.
pub fn tags_of_files(paths: Vec<PathBuf>) -> Vec<Family> {
    files::families(paths).into_iter().map(attributes::of_documents).collect()
}

/// The files named, and nothing else.
pub fn of_files(paths: Vec<PathBuf>) -> Vec<Family> {
    files::families(paths)
}

/// The settings whose bits beyond these are the default's, in every combination of these.
pub fn combinations(bits: &[u16]) -> Vec<u16> {
    (0..1 << bits.len())
        .map(|chosen: usize| {
            let turned = bits.iter().enumerate().filter(|(i, _)| chosen >> i & 1 == 1);
            turned.fold(DEFAULT, |settings, (_, bit)| settings ^ bit)
        })
        .collect()
}

/// All 256 settings of the crate.
pub fn every() -> Vec<u16> {
    (0..=THEIR_ALL).collect()
}

/// The default, each flag turned over alone, all off, all on, and some that act together.
pub fn several() -> Vec<u16> {
    let mut settings = vec![DEFAULT, 0, THEIR_ALL];
    settings.extend((0..8).map(|bit| DEFAULT ^ 1 << bit));
    settings.push(DEFAULT | TRIM_START | TRIM_END | DANGLING);
    settings.push(DEFAULT | EXPAND | UNMATCHED | COMMENTS);
    settings.push(TRIM_START | TRIM_END | EXPAND | UNMATCHED);
    settings
}
