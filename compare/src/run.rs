//! Runs families of inputs on two threads, and keeps counts and the first differences.

use crate::check::{Bench, Case, Difference, PANIC};
use crate::inputs::{Family, Flow, Sink, ON};
use crate::ours::{Engine, OPEN_NAMES};
use std::collections::HashSet;
use std::ops::ControlFlow;
use std::panic::{catch_unwind, AssertUnwindSafe};
use std::sync::atomic::{AtomicBool, AtomicU64, AtomicUsize, Ordering::Relaxed};
use std::sync::Mutex;
use std::time::{Duration, Instant};

const THREADS: usize = 2;
/// Differences that are kept to be shown.
const KEPT: usize = 5;
/// A job is left after so many differences.
const ENOUGH: u64 = 1_000;
/// A document of so many bytes at most is always run with `check_open_names` too, as is one with names open at its end.
const SHORT: usize = 4;
/// Of the other cases one in so many is, and of all those that are one in so many once more, with the mark on from the start. The numbers share no factor
/// with the count of a family's settings and stacks, so that each of these has its turn.
const OTHERS: u64 = 11;
const MARKED: u64 = 13;
/// Of all cases that are short one in so many has its states changed, counted on from this times the number of its job, since a job may have few.
const STRAYS: u64 = 2003;
const APART: u64 = 331;
/// The plain engine reads every case with a document of at most so many bytes. The longer ones have more bytes than all others together: of these it reads one in so many, by the
/// numbers of the case and of its job, which is each document of the greatest length with one of its settings, in turn.
const LONG: usize = 1 << 26;
const SHARE: u64 = 4;

/// What runs cases of one sort on both sides.
pub trait Runs {
    type Case<'a>;
    /// A case of its own.
    type Kept: Clone + Send;
    type Tally: Counts;
    /// What is told of a case in which nothing differs.
    type Told;

    fn run(&mut self, case: &Self::Case<'_>, tally: &mut Self::Tally) -> Result<Self::Told, Difference>;
    /// As new, after a case that did not come back.
    fn reset(&mut self);
    fn kept(case: &Self::Case<'_>) -> Self::Kept;
    /// How many bytes its document has.
    fn length(kept: &Self::Kept) -> usize;
}

/// Counts that are added up.
pub trait Counts: Clone + Default + Send {
    fn add(&mut self, other: &Self);
    fn differences(&mut self) -> &mut u64;
    /// How many inputs were run, and how many calls they took.
    fn sizes(&self) -> (u64, u64);
}

/// A case with a difference.
pub type Found<R> = (<R as Runs>::Kept, Difference);

/// A sink that runs every case, and those that it adds.
pub struct Worker<R: Runs> {
    pub bench: R,
    pub tally: R::Tally,
    pub found: Vec<Found<R>>,
    /// Stop at the first difference.
    first: bool,
    /// The job at hand, and how many cases it has given.
    job: u64,
    pub given: u64,
    /// The case at hand, for when it panics.
    at: Option<R::Kept>,
    keep_at: bool,
}

impl<R: Runs> Worker<R> {
    pub fn new(bench: R, first: bool) -> Self {
        Self { bench, tally: R::Tally::default(), found: Vec::new(), first, job: 0, given: 0, at: None, keep_at: false }
    }

    /// Runs one case: what is told of it, if nothing differs.
    pub fn one(&mut self, case: &R::Case<'_>) -> ControlFlow<(), Option<R::Told>> {
        if self.keep_at {
            self.at = Some(R::kept(case));
        }
        let difference = match self.bench.run(case, &mut self.tally) {
            Ok(told) => return ControlFlow::Continue(Some(told)),
            Err(difference) => difference,
        };
        *self.tally.differences() += 1;
        let same = |(_, other): &Found<R>| other.fields == difference.fields;
        if self.found.len() < KEPT && !self.found.iter().any(same) {
            self.found.push((R::kept(case), difference));
        }
        if self.first || *self.tally.differences() >= ENOUGH {
            return ControlFlow::Break(());
        }
        ControlFlow::Continue(None)
    }
}

impl<R: Runs> Worker<R>
where
    Self: Sink,
{
    /// Runs a job. If it panics, it is run again to see at which case.
    pub fn job(&mut self, family: &Family, job: usize) -> Flow {
        let run = |worker: &mut Self| {
            (worker.job, worker.given) = (job as u64, 0);
            catch_unwind(AssertUnwindSafe(|| (family.run)(job, worker)))
        };
        match run(self) {
            Ok(flow) => flow,
            Err(_) => {
                self.bench.reset();
                self.keep_at = true;
                let again = run(self);
                self.keep_at = false;
                self.bench.reset();
                *self.tally.differences() += 1;
                self.found.extend(self.at.take().map(|case| (case, PANIC)));
                again.unwrap_or(Flow::Break(()))
            }
        }
    }

    /// Runs jobs until a difference is found: after how many inputs, by which family.
    pub fn notice(&mut self, families: &[Family]) -> Option<(u64, &'static str)> {
        for family in families {
            for job in 0..family.jobs {
                if self.job(family, job).is_break() {
                    return Some((self.tally.sizes().0, family.name));
                }
            }
        }
        None
    }
}

impl<E: Engine> Sink for Worker<Bench<E>> {
    fn case(&mut self, document: &[u8], settings: u16, slots: usize) -> Flow {
        self.given += 1;
        let beside = document.len() <= LONG || (self.given + self.job).is_multiple_of(SHARE);
        let case = Case { beside, ..Case::new(document, settings, slots) };
        let open = self.one(&case)?.unwrap_or(false);
        if (self.given + APART * self.job).is_multiple_of(STRAYS) && self.bench.takes_strays(&case) {
            self.one(&Case { stray: true, ..case })?;
        }
        if !open && document.len() > SHORT && !self.given.is_multiple_of(OTHERS) {
            return ON;
        }
        let checked = Case { settings: settings | OPEN_NAMES, ..case };
        self.one(&checked)?;
        if self.given.is_multiple_of(MARKED) {
            self.one(&Case { mark: 1 << (self.given / MARKED % 64), ..checked })?;
        }
        ON
    }
}

/// What is shared by the threads.
struct Shared<'a, R: Runs> {
    families: &'a [Family],
    jobs: Vec<(usize, usize)>,
    next: AtomicUsize,
    inputs: AtomicU64,
    calls: AtomicU64,
    done: AtomicBool,
    tallies: Mutex<Vec<R::Tally>>,
    found: Mutex<Vec<Found<R>>>,
}

impl<R: Runs> Shared<'_, R>
where
    Worker<R>: Sink,
{
    fn work(&self, bench: R) {
        let mut worker = Worker::new(bench, false);
        loop {
            let Some(&(family, job)) = self.jobs.get(self.next.fetch_add(1, Relaxed)) else { return };
            let _ = worker.job(&self.families[family], job);
            let (inputs, calls) = worker.tally.sizes();
            self.inputs.fetch_add(inputs, Relaxed);
            self.calls.fetch_add(calls, Relaxed);
            self.tallies.lock().unwrap()[family].add(&worker.tally);
            worker.tally = R::Tally::default();
            keep::<R>(&mut self.found.lock().unwrap(), &mut worker.found);
        }
    }

    fn progress(&self) {
        let start = Instant::now();
        let mut told = 0;
        while !self.done.load(Relaxed) {
            std::thread::sleep(Duration::from_millis(50));
            let seconds = start.elapsed().as_secs();
            if seconds < told + 8 {
                continue;
            }
            told = seconds;
            let job = self.next.load(Relaxed).clamp(1, self.jobs.len()) - 1;
            let name = self.families[self.jobs[job].0].name;
            let (inputs, calls) = (self.inputs.load(Relaxed), self.calls.load(Relaxed));
            eprintln!("compare: {seconds} s, {inputs} inputs, {calls} calls, at: {name}");
        }
    }
}

/// Of each sort of difference the one with the shortest document, and not too many.
fn keep<R: Runs>(all: &mut Vec<Found<R>>, found: &mut Vec<Found<R>>) {
    all.append(found);
    all.sort_by_key(|(kept, difference)| (difference.fields, R::length(kept)));
    all.dedup_by_key(|(_, difference)| difference.fields);
    all.truncate(KEPT);
}

/// How a case with a difference is told: as a line, made smaller, and shown.
pub struct Tells<K> {
    pub line: fn(&K) -> String,
    pub shrink: fn(&K, Difference) -> (K, Difference),
    pub show: fn(&K, Difference),
}

/// Tells what was found: a case in which a side panicked as it is, any other made smaller; each once.
pub fn tell<K>(found: &[(K, Difference)], tells: &Tells<K>) {
    let mut shown = HashSet::new();
    for (kept, difference) in found {
        if *difference == PANIC {
            println!("a side panicked: {}", (tells.line)(kept));
            continue;
        }
        let (kept, difference) = (tells.shrink)(kept, *difference);
        if shown.insert((tells.line)(&kept)) {
            (tells.show)(&kept, difference);
        }
    }
}

/// What a comparison has counted in the end: what it should have seen and has not, and its line.
pub trait Ends: Counts {
    fn missing(&self) -> Vec<String>;
    fn line(&self) -> String;
}

/// Runs every family, prints what was counted and tells what was found: true if nothing differs but what is listed, and, where all inputs were run, everything
/// was seen that should be.
pub fn ends<R: Runs>(
    families: &[Family],
    bench: impl Fn() -> R + Sync,
    print: impl Fn(&[(&str, R::Tally)]) -> R::Tally,
    tells: &Tells<R::Kept>,
    whole: bool,
) -> bool
where
    Worker<R>: Sink,
    R::Tally: Ends,
{
    let (tallies, found) = run(families, bench);
    let named: Vec<_> = families.iter().map(|family| family.name).zip(tallies).collect();
    let mut all = print(&named);
    tell(&found, tells);
    let missing = if whole { all.missing() } else { Vec::new() };
    missing.iter().for_each(|what| println!("never seen: {what}"));
    println!("{}", all.line());
    *all.differences() == 0 && all.sizes().0 > 0 && missing.is_empty()
}

/// Runs every job by benches made for it: the counts of each family, and some differences with the shortest documents.
pub fn run<R: Runs>(families: &[Family], bench: impl Fn() -> R + Sync) -> (Vec<R::Tally>, Vec<Found<R>>)
where
    Worker<R>: Sink,
{
    let jobs = families.iter().enumerate().flat_map(|(i, family)| (0..family.jobs).map(move |job| (i, job)));
    let shared = Shared::<R> {
        families,
        jobs: jobs.collect(),
        next: AtomicUsize::new(0),
        inputs: AtomicU64::new(0),
        calls: AtomicU64::new(0),
        done: AtomicBool::new(false),
        tallies: Mutex::new(vec![R::Tally::default(); families.len()]),
        found: Mutex::new(Vec::new()),
    };
    std::thread::scope(|scope| {
        scope.spawn(|| shared.progress());
        let workers: Vec<_> = (0..THREADS).map(|_| scope.spawn(|| shared.work(bench()))).collect();
        let ended: Vec<_> = workers.into_iter().map(|worker| worker.join()).collect();
        shared.done.store(true, Relaxed);
        ended.into_iter().for_each(|end| end.expect("a thread of the comparison"));
    });
    (shared.tallies.into_inner().unwrap(), shared.found.into_inner().unwrap())
}
