//! Writes contents and what the crate gives for them with their references replaced, for a program that replays them. The contents are picked so that they show
//! much: some that both sides answer alike, and some of each listed difference.
//!
//! A line is `escape TAG CONTENT` for a whole text, or `reference TAG CONTENT` for what stands between `&` and `;`. TAG is `-` where both sides are alike, else
//! the row of docs/DIFFERENCES.md by which they are not; CONTENT is written as the document of a case, and may be missing where it has no bytes. Below it stands
//! our answer, with room for all of it:
//!   `text |BYTES|`
//!   `refused NUMBER PLACE`; of a single reference PLACE is 0
//! Where the crate gives something else, it stands above that, with `crate` in front: its text; or 25 and the place of the `&` for `UnterminatedEntity` and
//! `UnrecognizedEntity`; or, with no place since the crate tells none, 25 for a sign, no digit or a byte that is none, and 26 for a number past 32 bits, 0 and what is no
//! value of Unicode. For a single reference the crate is asked with `&` and `;` around it.

use super::listed::Told;
use super::theirs::Fault;
use super::*;
use crate::contents::{self, Case};
use crate::inputs::random::Dice;
use crate::inputs::{Flow, Sink, ON};
use crate::run::Runs;
use crate::trace::escaped;
use std::borrow::Cow;
use std::collections::{HashMap, HashSet};
use std::fmt::Write;
use std::hash::{DefaultHasher, Hash, Hasher};
use std::path::Path;

/// So many contents of each difference, and so many without one; half of them single references where there is a difference, and a third else.
const OF_EACH: usize = 40;
const ALIKE: usize = 300;
const LONGEST: usize = 60;
/// Contents without a difference that end alike and have as many references, at most, but for those with some that are taken; of a family one in so many of those
/// that are wanted, and so many of a job of it. In the second round, which takes any content, twice as many, and in the third as many as are wanted.
const OF_A_CLASS: usize = 10;
const FAMILIES: usize = 16;
const OF_A_JOB: usize = 2;
const ROUNDS: [usize; 3] = [1, 2, ALIKE];
/// One content in so many of those that are compared is looked at.
const OF: usize = 23;

struct Recorder {
    bench: Bench,
    dice: Dice,
    seen: HashSet<u64>,
    /// By the row of the difference, behind them those without one; whole texts and single references.
    contents: [[Vec<String>; 2]; listed::COUNT + 1],
    /// How many there are that end alike and have as many references.
    classes: HashMap<(usize, bool, usize, usize), usize>,
    /// How many there are of the family at hand, as above, and of the job.
    of_family: [[usize; 2]; listed::COUNT + 1],
    of_job: usize,
    failed: bool,
    /// From 0. From the second on a content is taken that shows nothing new, too.
    round: usize,
}

/// How many are wanted, by the row and whether they are single references.
fn most(row: usize, single: usize) -> usize {
    match (row < listed::COUNT, single) {
        (true, _) => OF_EACH / 2,
        (false, 0) => ALIKE - ALIKE / 3,
        (false, _) => ALIKE / 3,
    }
}

/// What is looked at: the content as it is written, as the crate is asked for it, and what ours answers.
struct Look<'a> {
    single: bool,
    content: &'a str,
    asked: &'a str,
    bytes: &'a [u8],
    refused: Option<(usize, usize)>,
}

/// An answer on a line.
fn put(out: &mut String, front: &str, answer: Result<&[u8], (usize, Option<usize>)>) {
    let _ = match answer {
        Ok(bytes) => writeln!(out, "  {front}text |{}|", escaped(bytes)),
        Err((number, Some(place))) => writeln!(out, "  {front}refused {number} {place}"),
        Err((number, None)) => writeln!(out, "  {front}refused {number}"),
    };
}

/// The lines of a content.
fn lines(look: &Look, row: usize, given: &Result<Cow<str>, Fault>) -> String {
    let mut out = format!("{} {}", if look.single { "reference" } else { "escape" }, TAGS.get(row).unwrap_or(&"-"));
    if !look.content.is_empty() {
        let _ = write!(out, " {}", escaped(look.content.as_bytes()));
    }
    if out.ends_with(' ') {
        out.truncate(out.len() - 1);
        out.push_str("\\20");
    }
    out.push('\n');
    if row < listed::COUNT {
        put(&mut out, "crate ", given.as_ref().map(|text| text.as_bytes()).map_err(|fault| fault.numbers()));
    }
    put(&mut out, "", look.refused.map_or(Ok(look.bytes), |(number, place)| Err((number, Some(place)))));
    out
}

/// What a content shows: how it ends, where, by which error of the crate, and how its references are written.
fn features(look: &Look, row: usize, given: &Result<Cow<str>, Fault>) -> Vec<u64> {
    let hashed = |feature: &dyn Fn(&mut DefaultHasher)| {
        let mut hasher = DefaultHasher::new();
        feature(&mut hasher);
        hasher.finish()
    };
    let fault = given.as_ref().err().map(|fault| fault.row());
    let references = look.asked.matches('&').count();
    let mut out = vec![
        hashed(&|h| ("length", row, look.single, fault, look.content.len().min(24)).hash(h)),
        hashed(&|h| ("end", row, look.single, fault, look.refused.map(|(number, place)| (number, place.min(9)))).hash(h)),
        hashed(&|h| ("count", row, look.single, fault, references.min(6), look.asked.matches(';').count().min(6)).hash(h)),
        hashed(&|h| ("bytes", row, look.single, look.bytes.len().min(9)).hash(h)),
        hashed(&|h| ("first", row, look.single, look.refused.is_some(), look.bytes.first()).hash(h)),
    ];
    let kind = |b: u8| match b {
        b'0' => 0,
        b'1'..=b'9' => 1,
        b'a'..=b'f' => 2,
        b'A'..=b'F' => 3,
        b'&' | b';' | b'#' | b'x' | b'X' | b'+' | b'-' | b'<' => b,
        b'g'..=b'z' => 4,
        0x80.. => 5,
        _ => 6,
    };
    for pair in look.asked.as_bytes().windows(2) {
        out.push(hashed(&|h| ("pair", look.single, kind(pair[0]), kind(pair[1]), look.refused.is_some()).hash(h)));
    }
    out
}

impl Recorder {
    /// Looks at a content as a whole text, and as one reference.
    fn look(&mut self, content: &str) {
        if self.bench.run(&Case { content: content.as_bytes(), turn: 0 }, &mut summary::Tally::default()).is_err() {
            self.failed = true;
            return;
        }
        let reading = std::mem::take(&mut self.bench.reading);
        self.take(&Look { single: false, content, asked: content, bytes: &reading.bytes, refused: reading.refused });
        self.bench.reading = reading;
        let inner = content.strip_prefix('&').and_then(|inner| inner.strip_suffix(';'));
        if let Some(inner) = inner.filter(|inner| !inner.contains(['&', ';'])) {
            let mut single = account::Reading::default();
            account::SOUND.read_one(inner.as_bytes(), &mut single);
            self.take(&Look { single: true, content: inner, asked: content, bytes: &single.bytes, refused: single.refused });
        }
    }

    /// Takes a content if it shows something that none so far does.
    fn take(&mut self, look: &Look) {
        let given = theirs::given(look.asked);
        let told = look.refused.map(|refused| Told { content: look.asked, refused, before: look.bytes, given: &given });
        let row = match told.map_or(Ok(None), |told| listed::which(&told)) {
            Ok(row) => row.unwrap_or(listed::COUNT),
            Err(()) => {
                self.failed = true;
                return;
            }
        };
        let shown = features(look, row, &given);
        let fresh = self.round > 0 || shown.iter().any(|feature| !self.seen.contains(feature));
        let lines = lines(look, row, &given);
        let (kind, most) = (look.single as usize, most(row, look.single as usize));
        let contents = &mut self.contents[row][kind];
        let fault = given.as_ref().err().map_or(0, |fault| 1 + fault.row());
        let references = look.asked.matches('&').count().min(4);
        let class = self.classes.entry((row, look.single, fault, references)).or_default();
        let times = ROUNDS[self.round];
        let many = row < listed::COUNT || look.refused.is_none() && references > 0;
        let enough = !many && *class >= times * OF_A_CLASS || self.of_family[row][kind] >= times * most.div_ceil(FAMILIES);
        if !fresh || enough || contents.len() >= most || contents.contains(&lines) {
            return;
        }
        *class += 1;
        self.of_family[row][kind] += 1;
        self.of_job += 1;
        self.seen.extend(shown);
        contents.push(lines);
    }

    fn full(&self) -> bool {
        let enough = |row: usize| (0..2).all(|single| self.contents[row][single].len() >= most(row, single));
        (0..=listed::COUNT).all(enough)
    }
}

impl Sink for Recorder {
    fn case(&mut self, content: &[u8], _: u16, _: usize) -> Flow {
        if content.len() > LONGEST || self.dice.below(OF) > 0 {
            return ON;
        }
        if let Ok(content) = std::str::from_utf8(content) {
            self.look(content);
        }
        if self.failed || self.full() || self.of_job >= ROUNDS[self.round] * OF_A_JOB {
            return Flow::Break(());
        }
        ON
    }
}

/// What is recorded: the lines that are read, and the same with what is answered. None if an unlisted difference came up, or some difference has too few contents.
fn recorded(seed: u64) -> Option<(String, String)> {
    let mut recorder = Recorder {
        bench: sound(),
        dice: Dice::new(seed),
        seen: HashSet::new(),
        contents: Default::default(),
        classes: HashMap::new(),
        of_family: Default::default(),
        of_job: 0,
        failed: false,
        round: 0,
    };
    for content in examples::contents() {
        recorder.look(content);
        recorder.of_family = Default::default();
    }
    for round in 0..ROUNDS.len() {
        recorder.round = round;
        for family in inputs::texts(seed) {
            recorder.of_family = Default::default();
            let mut jobs: Vec<usize> = (0..family.jobs).collect();
            (1..jobs.len()).for_each(|i| jobs.swap(i, recorder.dice.below(i + 1)));
            for job in jobs {
                recorder.of_job = 0;
                let _ = (family.run)(job, &mut recorder);
            }
        }
    }
    for (row, [whole, single]) in recorder.contents.iter().enumerate() {
        println!("record: {} texts and {} references of {}", whole.len(), single.len(), TAGS.get(row).unwrap_or(&"no difference"));
    }
    if recorder.failed || !recorder.full() {
        return None;
    }
    // those without a difference first, then by their rows
    let (alike, rows) = recorder.contents.split_last()?;
    Some(contents::laid(std::iter::once(alike).chain(rows).flatten()))
}

/// Writes `stdin` and `stdout` into the folder: false if something is not covered.
pub fn record(folder: &Path, seed: u64) -> std::io::Result<bool> {
    contents::record(folder, recorded(seed), "with references", "--escape")
}
