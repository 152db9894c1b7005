//! Writes contents and what the crate gives for their attributes, for a program that replays them. The contents are picked so that they show much: some that both
//! sides read alike, and some of each listed difference of a refusal.
//!
//! A line is `attributes TAG CONTENT`. TAG is `-` where both sides are alike up to our last answer, else the row of docs/DIFFERENCES.md by which they are not;
//! CONTENT is written as the document of a case, and may be missing where it has no bytes. Below it stands a line for each of our answers from the name on:
//!   `attribute NAME_FROM NAME_TO VALUE_FROM VALUE_TO |NAME| |VALUE|`
//!   `none`, the last line
//!   `refused NUMBER PLACE QUOTE FIRST`, the last line; QUOTE and FIRST are 0 where the refusal has none
//! Where the crate gives something else, which is in the last line alone, it stands above that, with `crate` in front: an attribute; 21 for `ExpectedEq`; 22 for
//! `ExpectedValue` and `UnquotedValue`, and with the quote for `ExpectedQuote`; 24 for `Duplicated`. The crate checks for duplicates, but for the tag
//! `attribute-duplicate`. What it gives behind our refusal is not written.

use super::account::Step;
use super::theirs::Item;
use super::*;
use crate::contents::{self, Case};
use crate::inputs::random::Dice;
use crate::inputs::{Flow, Sink, ON};
use crate::run::Runs;
use crate::trace::escaped;
use quick_xml::events::attributes::AttrError;
use std::collections::{HashMap, HashSet};
use std::fmt::Write;
use std::hash::{DefaultHasher, Hash, Hasher};
use std::path::Path;

/// So many contents of each difference, and so many without one.
const OF_EACH: usize = 60;
const ALIKE: usize = 240;
const LONGEST: usize = 44;
/// Contents of a row with as many attributes and the same refusal, at most; twice as many of those that show nothing new.
const OF_A_CLASS: usize = 18;
/// One content in so many of those that are compared is looked at.
const OF: usize = 5;

struct Recorder {
    bench: Bench,
    dice: Dice,
    seen: HashSet<u64>,
    /// By the row of the difference; behind them those without one.
    contents: [Vec<String>; listed::OF_A_REFUSAL + 1],
    /// How many there are of a row, so many attributes and a refusal.
    classes: HashMap<(usize, usize, usize), usize>,
    failed: bool,
    /// Take a content that shows nothing new, too.
    any: bool,
}

/// The row by which the crate gives something else, and what it gives.
fn differs(steps: &[Step], content: &str, name: usize, checks: bool) -> Option<(usize, Item)> {
    let last = steps.last()?;
    let item = theirs::items(content, name, checks).nth(steps.len() - 1)?;
    let told = listed::Told { content: content.as_bytes(), checks, step: last, item: &item };
    let row = if last.number == 0 { None } else { listed::which(&told).ok()? };
    Some((row?, item))
}

/// What a content shows: each answer behind the one before, how long its parts are, and what stands between them.
fn features(steps: &[Step], content: &str, other: &Option<(usize, Item)>) -> Vec<u64> {
    let hashed = |feature: &dyn Fn(&mut DefaultHasher)| {
        let mut hasher = DefaultHasher::new();
        feature(&mut hasher);
        hasher.finish()
    };
    let row = other.as_ref().map(|(row, _)| *row);
    let crates = other.as_ref().map(|(_, item)| match item {
        Ok((name, value)) => (1, (name.1 - name.0).min(3), (value.1 - value.0).min(2)),
        Err(AttrError::ExpectedEq(at)) => (2, content.len() - at, 0),
        Err(AttrError::ExpectedValue(_)) => (3, 0, 0),
        Err(AttrError::UnquotedValue(at)) => (4, content.len() - at, 0),
        Err(AttrError::ExpectedQuote(..)) => (5, 0, 0),
        Err(AttrError::Duplicated(at, first)) => (6, at - first, 0),
    });
    let mut out = vec![hashed(&|h| ("length", row, content.len().min(24)).hash(h))];
    let mut before = 0;
    for (i, step) in steps.iter().enumerate() {
        let class = if step.number == 0 { step.found() as usize } else { step.number };
        let [name, value] = [step.name(), step.value()].map(|(from, to)| (to - from).min(3));
        let lead = step.slots[NAME_FROM].max(step.slots[PLACE]).saturating_sub(step.at).min(9);
        let byte = content.as_bytes().get(step.slots[PLACE]).map(|b| b"ab='\" \t\n\r<".contains(b).then_some(*b));
        out.push(hashed(&|h| ("answer", row, i.min(4), before, class).hash(h)));
        out.push(hashed(&|h| ("parts", class, name, value, lead).hash(h)));
        out.push(hashed(&|h| ("place", row, class, byte, lead, step.slots[QUOTE]).hash(h)));
        before = class;
    }
    out.push(hashed(&|h| ("crate", row, crates).hash(h)));
    out
}

/// A line of ours or of the crate's.
fn put(out: &mut String, front: &str, content: &[u8], attribute: Result<(Span, Span), [usize; 4]>) {
    let _ = match attribute {
        Ok((name, value)) => {
            let [named, valued] = [name, value].map(|(from, to)| escaped(&content[from..to]));
            writeln!(out, "  {front}attribute {} {} {} {} |{named}| |{valued}|", name.0, name.1, value.0, value.1)
        }
        Err([number, place, quote, first]) => writeln!(out, "  {front}refused {number} {place} {quote} {first}"),
    };
}

/// The crate's error by our numbers.
fn numbers(error: &AttrError) -> [usize; 4] {
    match *error {
        AttrError::ExpectedEq(at) => [NO_EQUALS, at, 0, 0],
        AttrError::ExpectedValue(at) | AttrError::UnquotedValue(at) => [NO_QUOTE, at, 0, 0],
        AttrError::ExpectedQuote(at, quote) => [NO_QUOTE, at, quote.into(), 0],
        AttrError::Duplicated(at, first) => [DUPLICATE, at, 0, first],
    }
}

/// The lines of a content.
fn lines(steps: &[Step], content: &str, other: &Option<(usize, Item)>) -> String {
    let tag = other.as_ref().map_or("-", |(row, _)| TAGS[*row]);
    let mut out = format!("attributes {tag}");
    if !content.is_empty() {
        let _ = write!(out, " {}", escaped(content.as_bytes()));
    }
    if out.ends_with(' ') {
        out.truncate(out.len() - 1);
        out.push_str("\\20");
    }
    out.push('\n');
    for (i, step) in steps.iter().enumerate() {
        if let Some((_, item)) = other.as_ref().filter(|_| i + 1 == steps.len()) {
            put(&mut out, "crate ", content.as_bytes(), item.as_ref().map(|spans| *spans).map_err(numbers));
        }
        match step.number {
            0 if !step.found() => out.push_str("  none\n"),
            0 => put(&mut out, "", content.as_bytes(), Ok((step.name(), step.value()))),
            number => put(&mut out, "", content.as_bytes(), Err([number, step.slots[PLACE], step.slots[QUOTE], step.slots[FIRST]])),
        }
    }
    out
}

impl Recorder {
    /// Looks at a content, and takes it if it shows something that none so far does.
    fn look(&mut self, content: &str) {
        if self.bench.run(&Case { content: content.as_bytes(), turn: 0 }, &mut summary::Tally::default()).is_err() {
            self.failed = true;
            return;
        }
        let (steps, name) = (&self.bench.reading.steps, self.bench.reading.name);
        for checks in [true, false] {
            let other = differs(steps, content, name, checks);
            let row = other.as_ref().map_or(listed::OF_A_REFUSAL, |(row, _)| *row);
            // without checks for the row that is due there alone
            let apart = checks || other.is_some() && differs(steps, content, name, true).is_none();
            let most = if other.is_some() { OF_EACH } else { ALIKE };
            let shown = features(steps, content, &other);
            let fresh = self.any || shown.iter().any(|feature| !self.seen.contains(feature));
            let lines = lines(steps, content, &other);
            let count = steps.len() - 1;
            let class = self.classes.entry((row, count.min(4), steps[count].number)).or_default();
            if *class >= if self.any { 2 * OF_A_CLASS } else { OF_A_CLASS } {
                continue;
            }
            if !apart || !fresh || self.contents[row].len() >= most || self.contents[row].contains(&lines) {
                continue;
            }
            *class += 1;
            self.seen.extend(shown);
            self.contents[row].push(lines);
        }
    }

    fn full(&self) -> bool {
        self.contents.iter().enumerate().all(|(row, lines)| lines.len() >= if row < listed::OF_A_REFUSAL { OF_EACH } else { ALIKE })
    }
}

impl Sink for Recorder {
    fn case(&mut self, content: &[u8], _: u16, _: usize) -> Flow {
        if content.len() > LONGEST || self.dice.below(OF) > 0 {
            return ON;
        }
        if let Ok(content) = std::str::from_utf8(content) {
            self.look(content);
        }
        if self.failed || self.any && self.full() {
            return Flow::Break(());
        }
        ON
    }
}

/// What is recorded: the lines that are read, and the same with what is answered. None if an unlisted difference came up, or some difference has too few contents.
fn recorded(seed: u64) -> Option<(String, String)> {
    let bench = Bench::new(&account::SOUND, &theirs::SOUND);
    let mut recorder = Recorder {
        bench,
        dice: Dice::new(seed),
        seen: HashSet::new(),
        contents: Default::default(),
        classes: HashMap::new(),
        failed: false,
        any: false,
    };
    for any in [false, true] {
        recorder.any = any;
        for family in inputs::contents(seed) {
            let _ = (0..family.jobs).try_for_each(|job| (family.run)(job, &mut recorder));
        }
    }
    for (row, lines) in recorder.contents.iter().enumerate() {
        println!(
            "record: {} contents of {}",
            lines.len(),
            TAGS.get(row).filter(|_| row < listed::OF_A_REFUSAL).unwrap_or(&"no difference")
        );
    }
    if recorder.failed || !recorder.full() {
        return None;
    }
    // those without a difference first, then by their rows
    let (alike, rows) = recorder.contents.split_last()?;
    Some(contents::laid(std::iter::once(alike).chain(rows)))
}

/// Writes `stdin` and `stdout` into the folder: false if something is not covered.
pub fn record(folder: &Path, seed: u64) -> std::io::Result<bool> {
    contents::record(folder, recorded(seed), "of attributes", "--attributes")
}
