//! Contents of tags, for the reading of attributes: all sequences of a few bytes and of tokens, every byte in every place, random tags and damaged copies of them,
//! names that are nearly the same, many attributes, long ones; and the tags of documents. Each comes in the place of a document, with the default settings.

use super::contents::{self, NONE};
use super::exhaustive::{bytes, family, tokens, Alphabet};
use super::random::Dice;
use super::*;
use crate::theirs::Theirs;

pub fn families(amount: Amount, seed: u64) -> Vec<Family> {
    let mut families: Vec<Family> = alphabets().into_iter().map(|alphabet| family(alphabet, amount)).collect();
    families.extend([
        contents::places("a byte in every place of a tag", TEMPLATES),
        two_places(amount),
        names(),
        lengths(amount),
        many(amount),
    ]);
    families.extend([tags(amount, seed), soups(amount, seed), noise(amount, seed)]);
    families
}

/// The contents of all tags in the documents of a family.
pub fn of_documents(family: Family) -> Family {
    Family::new(family.name, family.jobs, move |job, sink| (family.run)(job, &mut Tags { sink }))
}

struct Tags<'s> {
    sink: &'s mut dyn Sink,
}

impl Sink for Tags<'_> {
    fn case(&mut self, document: &[u8], settings: u16, _: usize) -> Flow {
        if settings != DEFAULT {
            return ON;
        }
        let mut theirs = Theirs::new(document, DEFAULT);
        loop {
            let seen = theirs.read();
            match (seen.kind, seen.content) {
                (EOF, _) => return ON,
                (START | EMPTY, Some((from, to))) => {
                    let content = &document[from..to];
                    let name = content.split(|b| b" \t\n\r".contains(b)).next().unwrap_or_default();
                    assert_eq!(seen.name, name.len(), "the crate's name length");
                    self.sink.case(content, DEFAULT, NONE)?;
                }
                _ => (),
            }
        }
    }
}

fn alphabets() -> Vec<Alphabet> {
    const TOKENS: &[&[u8]] = &[b" ", b"a", b"b", b"='1'", b"=\"\"", b"=", b"'", b"\"", b"<", b"\t", b"\xC3\xA9"];
    const WHOLE: &[&[u8]] =
        &[b" a='1'", b" b=\"2\"", b" ab=''", b" c = \"'\"", b"\na='<'", b" a", b" a=", b" b=1", b" ", b"d='4'", b" ='x'", b" 'a'='1'"];
    vec![
        bytes("bytes of a tag", b"", b"ab='\" <\n", (5, 7), &[]),
        bytes("bytes of an attribute", b" ", b"ab='\" <\n", (6, 8), &[]),
        bytes("a few bytes of a tag", b"", b"a=' ", (9, 12), &[]),
        bytes("bytes behind a value", b"r a=''", b"ab=' <", (6, 8), &[]),
        bytes("bytes of a second attribute", b"r a='' ", b"ab='\" ", (6, 9), &[]),
        bytes("bytes of a value", b"r b=\"\" a='", b"ab='\"< ", (5, 8), &[]),
        bytes("names behind two", b"r a='' ab=\"\" ", b"ab= '", (6, 9), &[]),
        bytes("white space and what is none", b"r", b" \t\r\n\x0B\x0Ca=''\xC2\xA0", (4, 6), &[]),
        tokens("tokens of a tag", TOKENS, (5, 7), vec![DEFAULT], vec![NONE]),
        tokens("attributes", WHOLE, (4, 6), vec![DEFAULT], vec![NONE]),
    ]
}

/// Small contents, in which bytes are changed.
const TEMPLATES: &[&[u8]] = &[
    b"r a='1'",
    b"r a='1' b=\"2\"",
    b"r a = '1'\tb=\"\" c=''",
    b"row n=\"12\" n2='<' n='3'",
    b" a=''",
    b"r a='1' a='2' b='3'",
    b"r a='1'b='2'",
    b"r a=1 b='2'",
    b"r a b='2'",
    b"r \xC3\xA9='\xE2\x82\xAC' a=''",
    b"t\ta='\"' b=\"'\"\n",
];

/// Every two bytes behind each other, and the same two in any two places.
fn two_places(amount: Amount) -> Family {
    const OF: &[u8] = b"r a='1' b=\"2\"";
    const SOME: &[u8] = b"ab='\" <\t/\xC3";
    let step = amount.of(11, 1);
    Family::new("two bytes in every place of a tag", 256, move |job, sink| {
        let first = job as u8;
        for place in 0..OF.len() - 1 {
            let mut content = OF.to_vec();
            for second in (first % step..=u8::MAX).step_by(step.into()) {
                content[place] = first;
                content[place + 1] = second;
                sink.case(&content, DEFAULT, NONE)?;
            }
            if !SOME.contains(&first) {
                continue;
            }
            for other in place + 2..OF.len() {
                for &second in SOME {
                    let mut content = OF.to_vec();
                    content[place] = first;
                    content[other] = second;
                    sink.case(&content, DEFAULT, NONE)?;
                }
            }
        }
        ON
    })
}

/// Two names of up to 40 bytes that are the same, or other in one byte, or one a byte longer, next to each other and with others between them, with all that may
/// follow.
fn names() -> Family {
    const BEHIND: &[&str] =
        &["='2'", " = \"2\"", "", " ", "=", "=x", "='", "'='1'", "\"", "='<'", "='2' b='3'", "='2'c", " b='3'", "=x b='3'"];
    Family::new("two names", 40, |job, sink| {
        let name = vec![b'n'; job + 1];
        let mut others = vec![name.clone(), [&name[..], b"n"].concat(), name[1..].to_vec(), [&name[..], b"\xC3\xA9"].concat()];
        let few = others.len() + 2;
        for at in (0..name.len()).rev() {
            for b in [b'o', b'N', b'<', b'=', b'\'', 0xFF] {
                let mut other = name.clone();
                other[at] = b;
                others.push(other);
            }
        }
        for between in [0, 1, 2, 31, 32, 33] {
            let fill: String = (0..between).map(|i| format!(" f{i}='{i}'")).collect();
            let near = if between == 0 { others.len() } else { few };
            for (i, other) in others[..near].iter().enumerate() {
                let ends = if i < few && between < 3 { BEHIND } else { &BEHIND[..3] };
                for behind in ends {
                    let content = [b"r ", &name[..], b"='1'", fill.as_bytes(), b" ", other, behind.as_bytes()].concat();
                    sink.case(&content, DEFAULT, NONE)?;
                }
            }
        }
        ON
    })
}

/// Names, white space and values of every length up to some hundred bytes, with what ends them and what comes instead.
fn lengths(amount: Amount) -> Family {
    let longest = amount.of(140, 600);
    Family::new("parts of every length", longest, |length, sink| {
        let run = |b: u8| vec![b; length];
        let (n, s, v, e) = (run(b'n'), run(b' '), run(b'v'), "\u{e9}".repeat(length / 2).into_bytes());
        let mixed: Vec<u8> = (0..length).map(|i| b"v\"> /=&n"[i % 8]).collect();
        let lists: [&[&[u8]]; 22] = [
            &[&n, b" a='1'"],
            &[b"r ", &n, b"='1' b=''"],
            &[b"r ", &n, b"='1' ", &n, b"='2'"],
            &[b"r ", &n, b"='1' ", &n, b"n='2'"],
            &[b"r ", &n],
            &[b"r ", &n, b"'='1'"],
            &[b"r", &s, b"a='1'"],
            &[b"r a", &s, b"='1'"],
            &[b"r a=", &s, b"'1'"],
            &[b"r a=", &s, b"x b='1'"],
            &[b"r a='1'", &s],
            &[b"r a='1'", &s, b"b='2'"],
            &[b"r a='", &v, b"' b=''"],
            &[b"r a='", &v, b"\" b=''"],
            &[b"r a='", &v, b"<' b=''"],
            &[b"r a='", &v],
            &[b"r a='", &v, b"'b='' c"],
            &[b"r a='", &mixed, b"' b=\"", &v, b"\""],
            &[b"r a='", &s, b"' a='", &s, b" b=''"],
            &[b"r a='", &e, b"' ", &e, b"=''"],
            &[b"r a='", &v, b"\xFF' b"],
            &[b"r a='1' a='", &s, b"c='2' d='3'"],
        ];
        lists.iter().try_for_each(|parts| sink.case(&parts.concat(), DEFAULT, NONE))
    })
}

/// What stands behind the name of a last attribute.
const LAST: &[&str] = &["='1' z='2'", " z='2'", "='1'", "", "='a b' c='d'", "=1 z='2'", "'='1'", "='<'", "=''z", "='1' z='2' z='3' n0='4'"];

/// As many attributes as the crate keeps without a hash, some more or fewer, and some hundred; with a duplicate of each of some, and others behind it.
fn many(amount: Amount) -> Family {
    let counts =
        amount.of(vec![29, 30, 31, 32, 33, 34, 70], vec![5, 20, 29, 30, 31, 32, 33, 34, 35, 50, 63, 64, 65, 66, 127, 128, 129, 256, 300]);
    Family::new("many attributes", counts.len(), move |job, sink| {
        let count = counts[job];
        let few = count > 100;
        for form in 0..if few { 1 } else { 4 } {
            let name = |i: usize| match form {
                0 => format!("n{i}"),
                1 => format!("{i:03}"),
                2 => "x".repeat(i % 60 + 1) + &"y".repeat(i / 60),
                _ => format!("\u{e9}{i}:b"),
            };
            let all: String = (0..count).map(|i| format!(" {}=\"{i}\"", name(i))).collect();
            let again = [0, count / 2, 32, count - 1, count, 1, 30, 31, 33, count - 2];
            for which in again.into_iter().take(if few { 5 } else { again.len() }).filter(|&which| which <= count) {
                for end in &LAST[..if few { 2 } else { LAST.len() }] {
                    let content = format!("r{all} {}{end}", name(which));
                    sink.case(content.as_bytes(), DEFAULT, NONE)?;
                }
            }
        }
        ON
    })
}

const NAMES: &[&str] =
    &["a", "b", "n", "id", "at", "xml:lang", "xmlns", "xmlns:x", "A", "tr\u{e4}m", "\u{99c5}", "a1", "a-b", "n2", "/", "<", "&"];
const SPACES: &[&str] = &[" ", " ", " ", " ", "\n", "\t", "\r\n", "\n  ", "  "];
const VALUES: &[&str] =
    &["", "1", "06:15", "a b", "b='2'", "/", "x > y", "&lt;", "&#10;", "Z\u{fc}rich", "\u{1f686}", "\t", "=", "a=1 c", "true"];

/// A tag with some attributes, of which one in so many is used before; 0 for none.
fn tag(dice: &mut Dice, out: &mut Vec<u8>, count: usize, again: usize) {
    out.clear();
    let put = |out: &mut Vec<u8>, dice: &mut Dice, of: &[&str]| out.extend(dice.pick(of).as_bytes());
    put(out, dice, &["r", "row", "", "a:b", "t", "\u{99c5}", "r/"]);
    let mut used = Vec::new();
    for i in 0..count {
        put(out, dice, SPACES);
        let name = match again > 0 && !used.is_empty() && dice.below(again) == 0 {
            true => used[dice.below(used.len())],
            false => dice.pick(NAMES),
        };
        out.extend(name.as_bytes());
        if again == 0 {
            out.extend(i.to_string().as_bytes());
        }
        used.push(name);
        if dice.below(4) == 0 {
            put(out, dice, SPACES);
        }
        out.push(b'=');
        if dice.below(4) == 0 {
            put(out, dice, SPACES);
        }
        let quote = if dice.below(2) == 0 { b'"' } else { b'\'' };
        out.push(quote);
        for _ in 0..[0, 1, 1, 2, 9][dice.below(5)] {
            out.extend(dice.pick(VALUES).bytes().filter(|&b| b != quote));
        }
        if dice.below(9) == 0 {
            out.push(b'"' ^ b'\'' ^ quote);
        }
        out.push(quote);
    }
    if dice.below(4) == 0 {
        put(out, dice, SPACES);
    }
}

/// Bytes that matter.
const MATTERING: &[&u8] = &[&b' ', &b'=', &b'\'', &b'"', &b'<', &b'a', &b'\n', &b'/'];

/// Random tags with few attributes or many, and damaged copies of each.
fn tags(amount: Amount, seed: u64) -> Family {
    const EACH: usize = 1_000;
    Family::new("random tags and damaged copies", amount.of(40, 1_200), move |job, sink| {
        let mut dice = Dice::new(seed ^ (job as u64) << 20 ^ 0x6174_7472);
        let mut content = Vec::new();
        for turn in 0..EACH {
            let count = if turn % 50 == 0 { 20 + dice.below(60) } else { dice.below(7) };
            let again = [0, 0, 3, 12][dice.below(4)];
            tag(&mut dice, &mut content, count, again);
            contents::damaged(sink, &mut dice, &content, MATTERING)?;
        }
        ON
    })
}

/// Names, values and all else in any order.
fn soups(amount: Amount, seed: u64) -> Family {
    contents::drawn("random tokens of a tag", amount.of(60, 1_600), seed, 0x746F_6B73, |dice, content| {
        content.extend(dice.pick(&["r", "r ", "", " ", "a='1'"]).as_bytes());
        for _ in 0..1 + dice.below(12) {
            match dice.below(10) {
                0 | 1 => content.extend(dice.pick(&NAMES[..4]).as_bytes()),
                2 => content.extend(dice.pick(NAMES).as_bytes()),
                3 | 4 => content.extend(dice.pick(SPACES).as_bytes()),
                5 => content.extend(dice.pick(VALUES).as_bytes()),
                6 | 7 => content.extend(dice.pick(&["='1'", "=\"2\"", "=''", " = \"\"", "='"]).as_bytes()),
                _ => content.extend(dice.pick(&["=", "'", "\"", "<", "/", "&", "\x0B", "\0"]).as_bytes()),
            }
        }
    })
}

/// Any bytes, mostly those that matter, UTF-8 or not.
fn noise(amount: Amount, seed: u64) -> Family {
    contents::drawn("random bytes", amount.of(20, 400), seed, 0x6E6F_6973, |dice, content| {
        let any = [2, 9, 40][dice.below(3)];
        for _ in 0..dice.below(40) {
            let byte =
                if dice.below(any) == 0 { dice.next() as u8 } else { *dice.pick(&[&b' ', &b'=', &b'\'', &b'"', &b'a', &b'b', &b'<']) };
            content.push(byte);
        }
    })
}
