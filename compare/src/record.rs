//! Writes cases and what the crate answers to them, for a program that replays them. The cases are picked so that every kind, refusal and flag
//! of the crate comes up in many ways, and filled up at random. Behind them stand some with open names checked, which the crate does not do.

use crate::check::{Bench, Case};
use crate::inputs::{self, blocks, random, Amount, Flow, Sink, ON};
use crate::listed;
use crate::ours::*;
use crate::run::{Counts, Runs};
use crate::shrink::Kept;
use crate::summary::{Tally, REFUSALS, SHARED};
use crate::theirs::Theirs;
use crate::trace;
use std::collections::{BTreeMap, HashSet};
use std::fmt::Write;
use std::hash::{DefaultHasher, Hash, Hasher};
use std::path::Path;

const LONGEST_LINE: usize = 170;
/// Of a case at the borders of blocks.
const LONGEST_BORDER: usize = 260;
const LARGEST: usize = 250 << 10;
const CASES: usize = 4_600;
/// So many cases at most of a difference, and of a set of them that comes up in one case.
const OF_EACH_DIFFERENCE: usize = 500;
/// A longer document shows no difference in a new way by its length.
const SHORT: usize = 24;
/// One case in so many of those that are compared is looked at.
const OF: usize = 6;

const HEAD: &str = "\
# Cases for `replay`, written by tools/record; what quick-xml 0.42.0 answers is in stdout.
# A case is LETTERS SLOTS BYTES: the flags that are not as by default (a allow_dangling_amp, u allow_unmatched_ends, c check_comments,
# n check_end_names, x expand_empty_elements, m trim_markup_names_in_closing_tags, s trim_text_start, e trim_text_end, o check_open_names)
# or a hyphen, the slots of the stack, and the document. A byte that is not printable ASCII, a backslash and a space at the end are written \\HH.
";
const DIFFERENCES: &str = "# differences\n";
const CHECKED: &str = "# open names checked\n";
/// Documents that end with names open, that a refusal ended before, and that are whole.
const ENDS: [&[u8]; 24] = [
    b"<a>",
    b"<>",
    b"<a>x",
    b"<a> ",
    b"<a><b>",
    b"<ab c><b></b>",
    b"<a><b></c>",
    b"<a><b/>",
    b"<a>&b",
    b"<a>& ",
    b"<a><!--b--c-->",
    b"</a><b>",
    b"\xEF\xBB\xBF<a>",
    b"<a></a>",
    b"<a></b>",
    b"<a><",
    b"<a><b '",
    b"<a><b \"",
    b"<a><!--",
    b"<a><![",
    b"<a><?",
    b"<a><?xml",
    b"<a><!x>",
    b"<a>\xFF",
];

/// One call of the crate: its class (kind or refusal), and all that it said.
#[derive(PartialEq, Eq)]
struct Step {
    class: usize,
    phase: usize,
    depth: usize,
    name: usize,
    length: usize,
    said: (usize, usize, Option<(usize, usize)>),
}

fn steps(case: &Case) -> Vec<Step> {
    let mut theirs = Theirs::new(case.document, case.settings);
    let mut out: Vec<Step> = Vec::new();
    while out.last().is_none_or(|step| step.class != EOF) {
        let seen = theirs.read();
        let class = if seen.number > 0 { 100 + seen.number } else { seen.kind };
        let place = if seen.number > 0 { theirs.place() } else { 0 };
        let length = seen.content.map_or(seen.made.len(), |(from, to)| to - from);
        let said = (theirs.position(), place, seen.content);
        out.push(Step { class, phase: theirs.phase(), depth: theirs.depth(), name: seen.name, length, said });
    }
    out
}

fn hashed(feature: impl Hash) -> u64 {
    let mut hasher = DefaultHasher::new();
    feature.hash(&mut hasher);
    hasher.finish()
}

/// What a case shows: each answer behind the one before, how long names and contents are, a full stack, a byte order mark.
fn features(case: &Case, steps: &[Step]) -> Vec<u64> {
    let mut out = Vec::new();
    let mark = case.document.starts_with(b"\xEF\xBB\xBF");
    let (mut earlier, mut before) = (0, 0);
    for step in steps {
        out.push(hashed(("pair", before, step.class, step.phase)));
        out.push(hashed(("triple", earlier, before, step.class)));
        out.push(hashed(("size", step.class, step.name.min(3), step.length.min(4))));
        out.push(hashed(("place", step.class, (step.said.0 - step.said.1).min(12))));
        out.push(hashed(("depth", step.class, step.depth.min(6), mark)));
        out.push(hashed(("settings", step.class, before, (case.settings ^ DEFAULT).trailing_zeros())));
        (earlier, before) = (before, step.class);
    }
    let most = steps.iter().map(|step| step.depth).max();
    if most == Some(capacity(case.slots)) {
        out.push(hashed(("full", case.slots.min(12))));
    }
    out.push(hashed(("bytes", case.document.len())));
    out.extend(sequence(case.document, steps));
    out
}

/// What the first bytes show that are not ASCII: the lead, the row of the byte behind it, how many bytes could go on its character, and
/// whether a piece is refused for it.
fn sequence(document: &[u8], steps: &[Step]) -> Option<u64> {
    let at = document.iter().position(|b| !b.is_ascii())?;
    let row = |b: Option<&u8>| match b {
        None | Some(..0x80) => 0,
        Some(0x80..0x90) => 1,
        Some(0x90..0xA0) => 2,
        Some(0xA0..0xC0) => 3,
        Some(_) => 4,
    };
    let tail = document[at + 1..].iter().take_while(|&&b| matches!(b, 0x80..0xC0)).count();
    let ill = steps.iter().any(|step| step.class == 100 + ENCODING);
    Some(hashed(("lead", document[at].max(0xBF), row(document.get(at + 1)), tail.min(4), ill)))
}

/// How each flag acts: the first answer in which turning it over shows.
fn effects(case: &Case, with: &[Step]) -> Vec<(usize, u64)> {
    let mut out = Vec::new();
    for flag in 0..8 {
        let other = Case { settings: case.settings ^ 1 << flag, ..*case };
        let without = steps(&other);
        if let Some((a, b)) = with.iter().zip(&without).find(|(a, b)| a != b) {
            out.push((flag, hashed(("flag", flag, a.class, b.class, a.phase, b.phase))));
        }
    }
    out
}

struct Recorder {
    bench: Bench<Archive>,
    dice: random::Dice,
    seen: HashSet<u64>,
    lines: HashSet<String>,
    cases: Vec<Kept>,
    /// By the rows of the differences that come up in a case.
    differences: BTreeMap<Vec<usize>, Vec<Kept>>,
    tally: Tally,
    flags: [usize; 8],
    full: usize,
    failed: bool,
    /// Take a case that shows nothing new, too.
    any: bool,
    /// How many cases show something that none before them did.
    picked: usize,
}

impl Recorder {
    /// Looks at a case, and takes it if it shows something that none so far does.
    fn look(&mut self, case: &Case) {
        let mut tally = Tally::default();
        if self.bench.run(case, &mut tally).is_err() {
            self.failed = true;
            return;
        }
        let tags: Vec<usize> = (0..listed::COUNT).filter(|&row| tally.listed[row] > 0).collect();
        if tally.left != [0; 3] {
            return;
        }
        let steps = steps(case);
        let mut shown = features(case, &steps);
        if !tags.is_empty() {
            shown.push(hashed(("tags", &tags, steps.len(), case.document.len().min(SHORT))));
        }
        let effects = effects(case, &steps);
        shown.extend(effects.iter().map(|effect| effect.1));
        let fresh = shown.iter().filter(|feature| !self.seen.contains(feature)).count();
        if fresh == 0 && !self.any || !self.lines.insert(trace::case_line(case)) {
            return;
        }
        let (into, most) = match &tags[..] {
            [] => (&mut self.cases, usize::MAX),
            _ => (self.differences.entry(tags).or_default(), OF_EACH_DIFFERENCE),
        };
        if into.len() == most {
            return;
        }
        into.push(Kept::of(case));
        self.seen.extend(shown);
        self.tally.add(&tally);
        let turned = effects.iter().filter(|(flag, _)| (case.settings ^ DEFAULT) >> flag & 1 == 1);
        turned.for_each(|&(flag, _)| self.flags[flag] += 1);
        self.full += (steps.iter().any(|step| step.depth > 0 && step.depth == capacity(case.slots))) as usize;
    }
}

impl Sink for Recorder {
    fn case(&mut self, document: &[u8], settings: u16, slots: usize) -> Flow {
        if document.len() > LONGEST_LINE || self.dice.below(OF) > 0 {
            return ON;
        }
        let case = Case::new(document, settings, slots);
        if trace::case_line(&case).len() <= LONGEST_LINE {
            self.look(&case);
        }
        ON
    }
}

/// The lines of a case: itself, and each call's; where ours differs by a listed difference, or is 18, the crate's line stands above ours.
fn lines_of(case: &Case, out: &mut String) {
    let ours = trace::our_lines(&mut Archive, case, usize::MAX);
    for (their, our) in trace::their_lines(case).zip(&ours) {
        if their != *our {
            let _ = writeln!(out, "  crate {their}");
        }
        let _ = writeln!(out, "  {our}");
    }
}

/// Cases at the borders of the blocks that ours looks at at a time: pieces that end there, with bytes behind them and without, comments with their hyphens checked, and
/// names of closing tags that are other in one byte.
fn borders(recorder: &mut Recorder) {
    let mut look = |parts: &[&[u8]]| {
        let settings = if parts[0].starts_with(b"<!--") { DEFAULT | COMMENTS } else { DEFAULT };
        let document = parts.concat();
        let case = Case::new(&document, settings, 16);
        if trace::case_line(&case).len() <= LONGEST_BORDER {
            recorder.look(&case);
        }
    };
    let ends = [
        (&b""[..], b't', &b"&a;"[..]),
        (b"", b't', b"\xC3\xA9<a>"),
        (b"<a>", b't', b"\xFF<"),
        (b"<a>", b'\x7F', b"<"),
        (b"a", b'\xFF', b"<"),
    ];
    for (before, byte, behind) in blocks::RUNS.iter().chain(&ends) {
        for border in [16, 64, 80, 128, 192] {
            for length in border - 1..=border + 1 {
                let run = vec![*byte; length];
                look(&[before, &run, behind]);
                look(&[before, &run, behind, &[b't'; 70]]);
            }
        }
    }
    for length in [7, 8, 9, 15, 16, 17] {
        let name = vec![b'n'; length];
        for at in 0..length {
            let mut other = name.clone();
            other[at] = b'o';
            look(&[b"<", &name, b"></", &other, b">"]);
        }
    }
    // white space as long as a block, at the end of text, of a closing tag's name and in front of text, whole and with another byte in it
    let trimmed = DEFAULT | TRIM_START | TRIM_END;
    for length in [63, 64, 65] {
        for at in [1, length - 2, length] {
            let mut run = [b' '; 66];
            run[at] = b'x';
            let run = &run[..length];
            for parts in [[b"<a>t", run, b"<"], [b"<a>", run, b"t<"], [b"<a></a", run, b">"]] {
                recorder.look(&Case::new(&parts.concat(), trimmed, 16));
            }
        }
    }
    // no UTF-8 in a block that is neither the first of its text nor the last; and behind 256 bytes, for which a text that is not ASCII is checked by characters
    let (t, e) = ([b't'; 300], b"\xC3\xA9");
    let long: [&[&[u8]]; 5] = [
        &[&t[..140], b"\xFF", &t[..140]],
        &[e, &t[..260], b"\x80", &t[..20]],
        &[e, &t[..270], b"\xFF", &t[..20]],
        &[&t[..255], e, &t[..20]],
        &[e, &t[..254], &[0xFF; 16]],
    ];
    for parts in long {
        let document = [&parts.concat(), &b"<"[..]].concat();
        recorder.look(&Case::new(&document, DEFAULT, 16));
    }
}

/// Picks the cases: those at borders, those that show something new out of all families, then random ones up to the number wanted.
fn pick(seed: u64) -> Recorder {
    let mut recorder = Recorder {
        bench: Bench::new(Archive),
        dice: random::Dice::new(seed),
        seen: HashSet::new(),
        lines: HashSet::new(),
        cases: Vec::new(),
        differences: BTreeMap::new(),
        tally: Tally::default(),
        flags: [0; 8],
        full: 0,
        failed: false,
        any: true,
        picked: 0,
    };
    borders(&mut recorder);
    recorder.any = false;
    for family in inputs::all(Amount::Quick, seed) {
        if family.name != "documents of the greatest length" && !family.name.starts_with("files") {
            (0..family.jobs).for_each(|job| _ = (family.run)(job, &mut recorder));
        }
    }
    recorder.any = true;
    recorder.picked = recorder.cases.len();
    let mut dice = random::Dice::new(seed + 1);
    let mut document = Vec::new();
    while recorder.cases.len() < CASES && !recorder.failed {
        match dice.below(12) {
            0 => random::comment(&mut dice, &mut document),
            1..4 => random::timetable(&mut dice, &mut document),
            _ => random::soup(&mut dice, &mut document),
        }
        document.truncate(150);
        if document.len() > 5 {
            let settings = dice.next() as u16 & THEIR_ALL;
            let _ = recorder.case(&document, settings, dice.below(24));
        }
    }
    recorder
}

/// Cases with open names checked, and with one flag more turned over where that shows: the line of each, with the crate's answers.
fn checked(recorder: &mut Recorder) -> Vec<(String, String)> {
    let mut out: Vec<(String, String)> = Vec::new();
    for document in ENDS {
        let mut plain = None;
        for turned in std::iter::once(0).chain((0..8).map(|flag| 1 << flag)) {
            let case = Case::new(document, DEFAULT ^ turned | OPEN_NAMES, 4);
            let mut tally = Tally::default();
            recorder.failed |= recorder.bench.run(&case, &mut tally).is_err();
            let mut lines = String::new();
            lines_of(&case, &mut lines);
            if plain.as_ref() == Some(&lines) {
                continue;
            }
            plain.get_or_insert_with(|| lines.clone());
            let tags: Vec<usize> = (0..listed::COUNT).filter(|&row| tally.listed[row] > 0).collect();
            let front = match (&tags[..], tally.numbers[UNCLOSED]) {
                ([], 0) => String::new(),
                ([], _) => "added ".into(),
                _ => format!("difference {} ", words(&tags)),
            };
            recorder.tally.numbers[UNCLOSED] += tally.numbers[UNCLOSED];
            out.push((format!("{front}{}", trace::case_line(&case)), lines));
        }
    }
    out
}

/// The differences of a case by their tags.
fn words(tags: &[usize]) -> String {
    tags.iter().map(|&tag| listed::TAGS[tag]).collect::<Vec<_>>().join("+")
}

/// Prints what the cases cover: what they lack.
fn covered(recorder: &Recorder, size: usize) -> Vec<String> {
    let tally = &recorder.tally;
    println!("record: {} cases, {} of them picked, {size} bytes", recorder.cases.len(), recorder.picked);
    for (tags, cases) in &recorder.differences {
        println!("record: {} cases of {}", cases.len(), words(tags));
    }
    let counts =
        |words: &mut dyn Iterator<Item = (String, u64)>| -> String { words.map(|(word, count)| format!(" {word} {count}")).collect() };
    let kinds = &mut KINDS.iter().zip(tally.kinds).skip(1).map(|(word, n)| (word.to_string(), n));
    println!("record: calls by kind:{}", counts(kinds));
    println!("record: by refusal:{}", counts(&mut (1..=SHARED).map(|n| (n.to_string(), tally.numbers[n]))));
    let flags = &mut LETTERS.iter().zip(recorder.flags).map(|(letter, n)| (letter.to_string(), n as u64));
    println!("record: cases in which a flag is turned over and matters:{}", counts(flags));
    println!("record: cases with a full stack: {}, with open names checked and refused: {}", recorder.full, tally.numbers[UNCLOSED]);
    let mut lacking = tally.missing(&REFUSALS);
    let alone = |tag: usize| recorder.differences.contains_key(&[tag][..]);
    lacking.extend((0..listed::COUNT).filter(|&tag| !alone(tag)).map(|tag| format!("a case of {} alone", listed::TAGS[tag])));
    lacking.extend((0..8).filter(|&flag| recorder.flags[flag] == 0).map(|flag| format!("flag {}", LETTERS[flag])));
    if recorder.full == 0 {
        lacking.push("a full stack".into());
    }
    if recorder.failed {
        lacking.push("equality: an unlisted difference, see tools/compare".into());
    }
    if size > LARGEST {
        lacking.push("room: the cases are too large".into());
    }
    lacking
}

/// Writes `stdin` and `stdout` into the folder: false if something is not covered.
pub fn record(folder: &Path, seed: u64) -> std::io::Result<bool> {
    let mut recorder = pick(seed);
    let checked = checked(&mut recorder);
    let mut cases: BTreeMap<(usize, String), &Kept> = BTreeMap::new();
    for kept in &recorder.cases {
        cases.insert((kept.document.len(), trace::case_line(&kept.case())), kept);
    }
    let (mut stdin, mut stdout) = (String::from(HEAD), String::new());
    let mut put = |line: &str, case: &Case| {
        let _ = writeln!(stdin, "{line}");
        let _ = writeln!(stdout, "{line}");
        lines_of(case, &mut stdout);
    };
    cases.iter().for_each(|((_, line), kept)| put(line, &kept.case()));
    let mut below = String::new();
    for (tags, kept) in &recorder.differences {
        for kept in kept {
            let line = format!("difference {} {}", words(tags), trace::case_line(&kept.case()));
            let _ = writeln!(below, "{line}");
            let _ = writeln!(stdout, "{line}");
            lines_of(&kept.case(), &mut stdout);
        }
    }
    stdin.push_str(DIFFERENCES);
    stdin.push_str(&below);
    stdin.push_str(CHECKED);
    for (line, lines) in &checked {
        let _ = writeln!(stdin, "{line}");
        let _ = writeln!(stdout, "{line}");
        stdout.push_str(lines);
    }
    std::fs::create_dir_all(folder)?;
    std::fs::write(folder.join("stdin"), &stdin)?;
    std::fs::write(folder.join("stdout"), &stdout)?;
    let lacking = covered(&recorder, stdin.len());
    lacking.iter().for_each(|what| println!("record: lacking {what}"));
    Ok(lacking.is_empty())
}
