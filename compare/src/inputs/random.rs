//! Random documents from a fixed seed: well-formed timetables, damaged copies of them, and soups of tokens.

use super::*;

/// A small generator of random numbers (splitmix64).
pub struct Dice(u64);

impl Dice {
    pub fn new(seed: u64) -> Self {
        Self(seed)
    }

    pub fn next(&mut self) -> u64 {
        self.0 = self.0.wrapping_add(0x9E37_79B9_7F4A_7C15);
        let mut z = self.0;
        z = (z ^ z >> 30).wrapping_mul(0xBF58_476D_1CE4_E5B9);
        z = (z ^ z >> 27).wrapping_mul(0x94D0_49BB_1331_11EB);
        z ^ z >> 31
    }

    /// A number below the count.
    pub fn below(&mut self, count: usize) -> usize {
        (self.next() >> 11) as usize % count
    }

    pub fn pick<'a, T: ?Sized>(&mut self, of: &[&'a T]) -> &'a T {
        of[self.below(of.len())]
    }

    fn settings(&mut self) -> u16 {
        match self.below(3) {
            0 => DEFAULT,
            1 => DEFAULT ^ 1 << self.below(8),
            _ => self.next() as u16 & THEIR_ALL,
        }
    }
}

const NAMES: &[&str] = &["t", "r", "stop", "line", "a:b", "T", "stops", "tr\u{e4}m", "\u{99c5}"];
const WORDS: &[&str] = &["06:15", "Hauptbahnhof", "Z\u{fc}rich", "\u{6771}\u{4eac}", "\u{1f686}", "a", "x > y", "]]", "--", "'", "\""];
const SPACES: &[&str] = &[" ", "\n", "\t", "\r\n", "\n  ", "  "];
const REFS: &[&str] = &["&amp;", "&lt;", "&#8364;", "&stop;", "&;"];
const MARKUP: &[&str] =
    &["<!--c-->", "<!---->", "<!-- a - b -->", "<![CDATA[<a>&]]>", "<![CDATA[]]>", "<?p i?>", "<??>", "<?xml-s h='1'?>"];
const ATTRIBUTES: &[&str] = &[" n=\"1\"", " at='06:15'", " d = \"a>b\"", " e='\"/>'", "\tf=\"\u{e9}\"", "\nx", " y=''"];
const SOUP: &[&[u8]] = &[
    b"<",
    b">",
    b"/",
    b"!",
    b"-",
    b"?",
    b"&",
    b";",
    b"a",
    b" ",
    b"\"",
    b"'",
    b"[",
    b"]",
    b"=",
    b"\n",
    b"\r",
    b"\t",
    b"x",
    b"xml",
    b"b",
    b"<a>",
    b"</a>",
    b"<b/>",
    b"</b >",
    b"<!--",
    b"-->",
    b"--",
    b"<![CDATA[",
    b"]]>",
    b"<?xml ",
    b"<?",
    b"?>",
    b"&lt;",
    b"\xEF\xBB\xBF",
    b"\xC3\xA9",
    b"\xE2\x82\xAC",
    b"\xF0\x9F\x9A\x86",
    b"\xC3",
    b"\x80",
    b"\xFF",
    b"\0",
    b"</",
    b"/>",
    b"<a b='c' ",
    b"text",
    b"   ",
    b"<!",
];

/// A well-formed document: a declaration now and then, and nested elements.
pub fn timetable(dice: &mut Dice, out: &mut Vec<u8>) {
    out.clear();
    if dice.below(8) == 0 {
        out.extend(b"\xEF\xBB\xBF");
    }
    if dice.below(3) == 0 {
        out.extend(b"<?xml version=\"1.0\"?>");
    }
    let limit = 40 + dice.below(400);
    let mut open = Vec::new();
    let deepest = 1 + dice.below(9);
    while out.len() < limit {
        let text = |dice: &mut Dice, out: &mut Vec<u8>, of: &[&str]| out.extend(dice.pick(of).as_bytes());
        match dice.below(14) {
            0..=3 if open.len() < deepest => open.push(element(dice, out, ">")),
            4..=6 => close(dice, out, &mut open),
            7 => drop(element(dice, out, "/>")),
            8 => text(dice, out, REFS),
            9 => text(dice, out, MARKUP),
            10 | 11 => text(dice, out, SPACES),
            _ => text(dice, out, WORDS),
        }
    }
    while !open.is_empty() {
        close(dice, out, &mut open);
    }
}

fn element(dice: &mut Dice, out: &mut Vec<u8>, closer: &str) -> &'static str {
    let name = dice.pick(NAMES);
    out.push(b'<');
    out.extend(name.as_bytes());
    for _ in 0..dice.below(3) {
        out.extend(dice.pick(ATTRIBUTES).as_bytes());
    }
    out.extend(closer.as_bytes());
    name
}

fn close(dice: &mut Dice, out: &mut Vec<u8>, open: &mut Vec<&'static str>) {
    let Some(name) = open.pop() else { return };
    out.extend(b"</");
    out.extend(name.as_bytes());
    if dice.below(4) == 0 {
        out.extend(dice.pick(SPACES).as_bytes());
    }
    out.push(b'>');
}

/// A byte changed, some bytes cut, put in, doubled or swapped.
pub fn damage(dice: &mut Dice, document: &mut Vec<u8>) {
    let at = dice.below(document.len().max(1));
    let to = (at + 1 + dice.below(12)).min(document.len());
    match dice.below(7) {
        _ if document.is_empty() => document.push(b'<'),
        0 => document[at] = dice.next() as u8,
        1 => document[at] = dice.pick(SOUP)[0],
        2 => document.truncate(at),
        3 => drop(document.drain(at..to)),
        4 => drop(document.splice(at..at, dice.pick(SOUP).iter().copied())),
        5 => document.extend_from_within(at..to),
        _ => {
            let other = dice.below(document.len());
            document.swap(at, other);
        }
    }
}

/// Tokens and bytes in any order.
pub fn soup(dice: &mut Dice, document: &mut Vec<u8>) {
    document.clear();
    for _ in 0..1 + dice.below(14) {
        document.extend(dice.pick(SOUP));
    }
}

/// A comment with many hyphens, and something behind it.
pub fn comment(dice: &mut Dice, document: &mut Vec<u8>) {
    document.clear();
    document.extend(b"<!--");
    for _ in 0..dice.below(8) {
        document.extend(dice.pick::<[u8]>(&[b"-", b"a", b" - ", b"bc", b">", b"--", b"<"]));
    }
    document.extend(dice.pick::<[u8]>(&[b"-->", b"-->", b"--->", b"-->t", b"-->&", b"--"]));
}

/// The slots of a stack that holds what most documents need, or sometimes too few.
fn slots(dice: &mut Dice) -> usize {
    match dice.below(6) {
        0 => dice.below(8),
        _ => 20 + dice.below(30),
    }
}

pub fn families(amount: Amount, seed: u64) -> Vec<Family> {
    const EACH: usize = 5_000;
    let timetables = Family::new("random timetables and damaged copies", amount.of(8, 1_200), move |job, sink| {
        let mut dice = Dice::new(seed ^ (job as u64) << 20 ^ 0x7461_626C);
        let (mut document, mut copy) = (Vec::new(), Vec::new());
        for _ in 0..EACH / 5 {
            timetable(&mut dice, &mut document);
            sink.case(&document, dice.settings(), slots(&mut dice))?;
            for damages in 1..5 {
                copy.clone_from(&document);
                (0..damages).for_each(|_| damage(&mut dice, &mut copy));
                sink.case(&copy, dice.settings(), slots(&mut dice))?;
            }
        }
        ON
    });
    let soups = Family::new("random tokens", amount.of(80, 16_000), move |job, sink| {
        let mut dice = Dice::new(seed ^ (job as u64) << 20 ^ 0x736F_7570);
        let mut document = Vec::new();
        for _ in 0..EACH {
            soup(&mut dice, &mut document);
            sink.case(&document, dice.settings(), slots(&mut dice))?;
        }
        ON
    });
    vec![timetables, soups]
}
