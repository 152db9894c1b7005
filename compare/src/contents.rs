//! Contents, of tags and of texts, which come in the place of documents: what is run with them, and what is kept of one.

use crate::check::Difference;
use crate::inputs::random::Dice;
use crate::inputs::{Family, Flow, Sink, ON};
use crate::ours::DEFAULT;
use crate::run::{Runs, Worker};
use crate::shrink::{cuts, least};
use crate::trace::escaped;
use std::fs;
use std::io;
use std::path::Path;

/// An input: a content, and a number that says what it is run with.
#[derive(Clone, Copy)]
pub struct Case<'a> {
    pub content: &'a [u8],
    pub turn: u64,
}

#[derive(Clone)]
pub struct Kept {
    pub content: Vec<u8>,
    pub turn: u64,
}

impl Kept {
    pub fn of(case: &Case) -> Self {
        Kept { content: case.content.to_vec(), turn: case.turn }
    }

    pub fn case(&self) -> Case<'_> {
        Case { content: &self.content, turn: self.turn }
    }
}

/// Runs a content, with the default settings alone.
pub fn case<R>(worker: &mut Worker<R>, content: &[u8], settings: u16) -> Flow
where
    R: for<'a> Runs<Case<'a> = Case<'a>>,
{
    if settings != DEFAULT {
        return ON;
    }
    worker.given += 1;
    let turn = Dice::new(worker.given ^ (content.len() as u64) << 40).next() >> 20;
    worker.one(&Case { content, turn })?;
    ON
}

/// Smaller inputs, the much smaller ones first; bytes that are not plain give way to some others.
fn smaller<'k>(kept: &'k Kept, plain: &'static [u8], others: &'static [u8]) -> impl Iterator<Item = Kept> + 'k {
    let turn = kept.turn;
    let cut = cuts(&kept.content).map(move |content| Kept { content, turn });
    let turns = (0..kept.turn.min(40)).map(|turn| Kept { turn, ..kept.clone() });
    let places = (0..kept.content.len().min(200)).filter(|&at| !plain.contains(&kept.content[at]));
    let same = places.flat_map(move |at| {
        others.iter().map(move |&other| {
            let mut next = kept.clone();
            next.content[at] = other;
            next
        })
    });
    cut.chain(turns).chain(same)
}

/// The smallest input found on which the sides still differ in one of these fields.
pub fn shrink<R>(bench: &mut R, kept: &Kept, difference: Difference, plain: &'static [u8], others: &'static [u8]) -> (Kept, Difference)
where
    R: for<'a> Runs<Case<'a> = Case<'a>>,
{
    let again = |next: &Kept| bench.run(&next.case(), &mut R::Tally::default()).err();
    least((kept.clone(), difference), |kept| Box::new(smaller(kept, plain, others)), |kept| kept.content.len(), again)
}

/// Contents are shown up to so many bytes.
const SHOWN: usize = 4_000;

/// Bytes on a line.
pub fn shown(bytes: &[u8]) -> String {
    match bytes.len() {
        0..=SHOWN => escaped(bytes),
        length => format!("({length} bytes)"),
    }
}

/// An input on a line.
pub fn line(kept: &Kept) -> String {
    format!("turn {}: |{}|", kept.turn, shown(&kept.content))
}

/// Prints what differs in an input, by the names of the fields, and the input; and runs it again.
pub fn show<R>(bench: &mut R, kept: &Kept, difference: Difference, what: &str, names: &[&str])
where
    R: for<'a> Runs<Case<'a> = Case<'a>>,
{
    let fields: Vec<&str> = (0..names.len()).filter(|i| difference.fields >> i & 1 == 1).map(|i| names[i]).collect();
    println!("difference in {what}: {}", fields.join(", "));
    println!("  {}", line(kept));
    let _ = bench.run(&kept.case(), &mut R::Tally::default());
}

/// Keeps the shorter of two contents, and of two of a length the one whose bytes come first in this order.
pub fn shorter(kept: &mut Option<Vec<u8>>, content: &[u8], order: &[u8]) {
    let rank = |&b: &u8| order.iter().position(|&first| first == b).unwrap_or(b as usize + 10);
    let before = |kept: &Vec<u8>| content.len() == kept.len() && content.iter().map(rank).lt(kept.iter().map(rank));
    if kept.as_ref().is_none_or(|kept| content.len() < kept.len() || before(kept)) {
        *kept = Some(content.to_vec());
    }
}

/// A wrong account of ours, with the rules of the crate as they are, or the other way round.
pub struct Fault<A: 'static, R: 'static> {
    pub name: &'static str,
    pub account: &'static A,
    pub rules: &'static R,
}

/// All of them, by the wrong accounts and the wrong rules, beside what is sound.
pub fn wrong<A, R>(
    accounts: &[&'static [(&'static str, A)]],
    rules: &'static [(&'static str, R)],
    sound: (&'static A, &'static R),
) -> Vec<Fault<A, R>> {
    let ours = accounts.iter().copied().flatten().map(|(name, account)| Fault { name, account, rules: sound.1 });
    ours.chain(rules.iter().map(|(name, rules)| Fault { name, account: sound.0, rules })).collect()
}

/// Tries every one of these by the families: true if all are noticed.
pub fn faults<A: Sync, R: Sync, B>(part: &str, all: &[Fault<A, R>], families: &[Family], bench: fn(&'static A, &'static R) -> B) -> bool
where
    B: Runs,
    Worker<B>: Sink,
{
    let notice = |fault: &Fault<A, R>| Worker::new(bench(fault.account, fault.rules), true).notice(families);
    let noticed = crate::faults::all_of(all, |fault| fault.name, notice);
    println!("{part}: {noticed} of {} wrong accounts noticed", all.len());
    noticed == all.len()
}

/// Tells which inputs that docs/DIFFERENCES.md names are not as it lists them: true if there are none.
pub fn as_listed<T: std::fmt::Debug>(part: &str, refuted: &[T]) -> bool {
    if !refuted.is_empty() {
        println!("{part}: not as docs/DIFFERENCES.md lists it: {refuted:?}");
    }
    refuted.is_empty()
}

/// What a program replays: the first line of each content, and all its lines, list by list; in each the short ones first.
pub fn laid<'a>(lists: impl Iterator<Item = &'a Vec<String>>) -> (String, String) {
    let (mut stdin, mut stdout) = (String::new(), String::new());
    for lines in lists {
        let mut lines = lines.clone();
        lines.sort_by_key(|lines| (lines.lines().next().map_or(0, str::len), lines.clone()));
        for lines in lines {
            stdin.push_str(lines.lines().next().unwrap_or_default());
            stdin.push('\n');
            stdout.push_str(&lines);
        }
    }
    (stdin, stdout)
}

/// Writes that into the folder, as `stdin` and `stdout`: false if there is none, since something is not covered.
pub fn record(folder: &Path, laid: Option<(String, String)>, what: &str, option: &str) -> io::Result<bool> {
    let Some((stdin, stdout)) = laid else {
        println!("record: lacking contents {what}, or equality: see tools/compare {option}");
        return Ok(false);
    };
    fs::create_dir_all(folder)?;
    fs::write(folder.join("stdin"), &stdin)?;
    fs::write(folder.join("stdout"), &stdout)?;
    println!("record: {} contents {what}, {} bytes", stdin.lines().count(), stdin.len());
    Ok(true)
}
