//! Contents with references: all sequences of a few bytes and of tokens, the reference of every value, numbers at the limits of machine words, names that are nearly
//! one of the five, every byte in every place, long texts, random ones and damaged copies of them; and the texts of documents. Each comes in the place of a document,
//! with the default settings.

use super::contents::{self, NONE};
use super::exhaustive::{bytes, family, tokens, Alphabet};
use super::random::Dice;
use super::*;

/// A document with one does.
const WITHIN: usize = 8;

pub fn families(amount: Amount, seed: u64) -> Vec<Family> {
    let mut families: Vec<Family> = alphabets().into_iter().map(|alphabet| family(alphabet, amount)).collect();
    families.extend([
        values(amount),
        limits(),
        names(),
        contents::places("a byte in every place of a text", TEMPLATES),
        two_places(amount),
        runs(amount),
        long(amount),
    ]);
    families.extend([texts(amount, seed), soups(amount, seed), noise(amount, seed)]);
    families
}

/// The documents of a family as they are; what stands between `<` and `>` and outside; and what stands there between quotes.
pub fn of_documents(family: Family) -> Family {
    Family::new(family.name, family.jobs, move |job, sink| (family.run)(job, &mut Texts { sink }))
}

struct Texts<'s> {
    sink: &'s mut dyn Sink,
}

impl Sink for Texts<'_> {
    fn case(&mut self, document: &[u8], settings: u16, _: usize) -> Flow {
        if settings != DEFAULT {
            return ON;
        }
        self.sink.case(document, DEFAULT, NONE)?;
        for piece in document.split(|b| b"<>".contains(b)).filter(|piece| !piece.is_empty() && piece.len() < document.len()) {
            self.sink.case(piece, DEFAULT, NONE)?;
            for part in piece.split(|b| b"'\"".contains(b)).filter(|part| !part.is_empty() && part.len() < piece.len()) {
                self.sink.case(part, DEFAULT, NONE)?;
            }
        }
        ON
    }
}

/// The quick contents in documents: as a value, and as the text behind it.
pub fn in_documents(seed: u64) -> Vec<Family> {
    let within = |family: Family| {
        Family::new(family.name, family.jobs, move |job, sink| (family.run)(job, &mut Within { sink, document: Vec::new() }))
    };
    families(Amount::Quick, seed).into_iter().map(within).collect()
}

struct Within<'s> {
    sink: &'s mut dyn Sink,
    document: Vec<u8>,
}

impl Sink for Within<'_> {
    fn case(&mut self, content: &[u8], settings: u16, _: usize) -> Flow {
        self.document.clear();
        [b"<r v='", content, b"'>", content, b"</r>"].iter().for_each(|part| self.document.extend(*part));
        self.sink.case(&self.document, settings, WITHIN)
    }
}

fn alphabets() -> Vec<Alphabet> {
    const ALL: &[&[u8]] =
        &[b"&", b";", b"#", b"x", b"X", b"0", b"1", b"9", b"a", b"f", b"F", b"g", b"l", b"t", b"<", b"+", b"-", b" ", b"\xC3\xA9"];
    const PARTS: &[&[u8]] = &[b"&", b"&#", b"&#x", b";", b"lt", b"amp", b"1", b"41", b"0", b"D800", b"\xE2\x82\xAC", b" ", b"zz"];
    const WHOLE: &[&[u8]] = &[
        b"&lt;",
        b"&amp;",
        b"&quot;",
        b"&#65;",
        b"&#xE9;",
        b"&#x20AC;",
        b"&#x1F686;",
        b"&#0;",
        b"&#1;",
        b"&#xFFFF;",
        b"&#xD800;",
        b"&#4294967296;",
        b"&#4294967296a;",
        b"&zz;",
        b"&",
        b"a",
        b"\xC3\xA9",
    ];
    vec![
        tokens("bytes of a text", ALL, (3, 5), vec![DEFAULT], vec![NONE]),
        bytes("a few bytes of a text", b"", b"&;#x1a", (6, 9), &[]),
        bytes("bytes of a reference", b"&", b"#x019aAlt;&", (4, 6), &[]),
        bytes("bytes of a decimal reference", b"&#", b"019;ax&+ ", (5, 7), &[]),
        bytes("bytes of a hexadecimal reference", b"&#x", b"01DF8ag;&", (5, 7), &[]),
        bytes("bytes of a name", b"&", b"lgtampsoqu;", (5, 6), &[]),
        bytes("bytes of a decimal number near 32 bits", b"&#42949672", b"0569;a&", (5, 7), &[]),
        bytes("bytes of a hexadecimal number past 32 bits", b"&#x1000000", b"0F1;g&", (5, 7), &[]),
        bytes("bytes of a hexadecimal number near 32 bits", b"&#xFFFFFFF", b"0F1;g&", (4, 7), &[]),
        tokens("parts of references", PARTS, (4, 6), vec![DEFAULT], vec![NONE]),
        tokens("references", WHOLE, (3, 5), vec![DEFAULT], vec![NONE]),
    ]
}

/// A little more than the values of Unicode.
const VALUES: u32 = 0x11_0010;
/// Where what a value stands for changes, and how it is written.
const BORDERS: &[u32] =
    &[0, 9, 0xA, 0xD, 0x20, 0x7F, 0x80, 0xA0, 0xFF, 0x7FF, 0x800, 0xD7FF, 0xDBFF, 0xDFFF, 0xFDD0, 0xFFFD, 0x1_0000, 0x1_FFFE, 0x10_FFFF];

/// References of all values, or of those near a border and some others: decimal, hexadecimal with small and with large letters, with zeros in front, without
/// their marks, and with something around.
fn values(amount: Amount) -> Family {
    const EACH: u32 = 0x400;
    let all = amount == Amount::Full;
    Family::new("references of all values", VALUES.div_ceil(EACH) as usize, move |job, sink| {
        let from = job as u32 * EACH;
        for value in from..(from + EACH).min(VALUES) {
            if !all && !value.is_multiple_of(61) && !BORDERS.iter().any(|border| border.abs_diff(value) < 9) {
                continue;
            }
            let zeros = "0".repeat(value as usize % 9);
            for reference in [
                format!("&#{value};"),
                format!("&#x{value:x};"),
                format!("&#x{value:X};"),
                format!("&#{zeros}{value};"),
                format!("&#x{zeros}{value:X};"),
            ] {
                sink.case(reference.as_bytes(), DEFAULT, NONE)?;
            }
            for other in [format!("#{value}"), format!("#x{zeros}{value:x}"), format!("a&#x{value:x};\u{e9}&#{value}")] {
                sink.case(other.as_bytes(), DEFAULT, NONE)?;
            }
        }
        ON
    })
}

/// Numbers near the powers of two and of ten of up to a hundred digits, and those that leave a character when they are cut to 32 or 64 bits; with zeros in front, and with a
/// byte in front, behind or within that is no digit.
fn limits() -> Family {
    const BITS: [u32; 12] = [7, 8, 15, 16, 20, 21, 31, 32, 33, 63, 64, 65];
    Family::new("numbers at the limits", BITS.len() + 1, |job, sink| {
        let mut each = |digits: &str, front: &str, bad: &str| {
            for zeros in [0, 1, 2, 8, 9, 19, 40, 100] {
                let digits = format!("{}{digits}", "0".repeat(zeros));
                sink.case(format!("&{front}{digits};").as_bytes(), DEFAULT, NONE)?;
                sink.case(format!("{front}{digits}").as_bytes(), DEFAULT, NONE)?;
                sink.case(format!("{front}{digits}{bad}").as_bytes(), DEFAULT, NONE)?;
                for b in [bad, "g", "-", " ", "&", "\u{e9}", "x"] {
                    sink.case(format!("&{front}{digits}{b};").as_bytes(), DEFAULT, NONE)?;
                    let at = digits.len() / 2;
                    sink.case(format!("&{front}{}{b}{};", &digits[..at], &digits[at..]).as_bytes(), DEFAULT, NONE)?;
                    sink.case(format!("&{front}{b}{digits};").as_bytes(), DEFAULT, NONE)?;
                }
                sink.case(format!("a&{front}{digits};&lt;").as_bytes(), DEFAULT, NONE)?;
            }
            ON
        };
        let Some(&bits) = BITS.get(job) else {
            for count in 1..=100 {
                let power = format!("1{}", "0".repeat(count - 1));
                for digits in [&"4".repeat(count), &"9".repeat(count), &power] {
                    each(digits, "#", "a")?;
                }
                for digits in [&"F".repeat(count), &"a".repeat(count), &power] {
                    each(digits, "#x", "G")?;
                }
            }
            return ON;
        };
        let near = |around: u128| (-3..=3_i128).map(move |by| around.wrapping_add_signed(by));
        let cut = [9, 0x20, 0x26, 0x41, 0x7F, 0xE9, 0x20AC, 0xFFFE, 0xD800, 0x1F686].map(|value| (1_u128 << bits) + value);
        for number in near(1 << bits).chain(near(10_u128.pow(bits / 3))).chain(near((1 << bits) * 10)).chain(cut) {
            each(&number.to_string(), "#", "a")?;
            each(&format!("{number:x}"), "#x", "G")?;
            each(&format!("{number:X}"), "#x", "\u{ff11}")?;
        }
        ON
    })
}

/// The five, and others that are none.
const NAMES: &[&str] = &["lt", "gt", "amp", "apos", "quot", "", "LT", "nbsp", "ltgt", "l", "xlt", "#lt", "#xlt"];

/// Each name with every byte put in and put over in every place, one taken out, two changed places, repeated, in other cases; with and without its marks.
fn names() -> Family {
    Family::new("names", NAMES.len(), |job, sink| {
        let name = NAMES[job].as_bytes();
        let mut all: Vec<Vec<u8>> = vec![name.to_vec(), name.repeat(2), name.repeat(40), name.to_ascii_uppercase()];
        for at in 0..=name.len() {
            for b in 0..=u8::MAX {
                let mut other = name.to_vec();
                other.insert(at, b);
                all.push(other.clone());
                other.remove(at);
                if at < name.len() {
                    other[at] = b;
                    all.push(other);
                }
            }
            if at < name.len() {
                let mut other = name.to_vec();
                other.remove(at);
                all.push(other);
                let mut other = name.to_vec();
                other.swap(at, 0);
                all.push(other);
            }
        }
        for name in all {
            let marked = [&b"&"[..], &name, b";"].concat();
            let behind = [b"a", &marked[..], b"b&gt;"].concat();
            [&name, &marked, &behind].into_iter().try_for_each(|content| sink.case(content, DEFAULT, NONE))?;
        }
        ON
    })
}

/// Small contents, in which bytes are changed.
const TEMPLATES: &[&[u8]] = &[
    b"&lt;",
    b"a&amp;b",
    b"&#65;",
    b"&#x4A;",
    b"&#x1f686;c",
    b"a&apos;&quot;b",
    b"&gt;&#8364;;",
    b"\xC3\xA9&#xE9;\xE2\x82\xAC",
    b"a&b;&lt;",
    b"&#1;&#00000000000065;",
    b"&#4294967295;",
    b"plain; text\r\n\t",
];

/// Every two bytes behind each other in two small contents.
fn two_places(amount: Amount) -> Family {
    const OF: [&[u8]; 2] = [b"&#65;&lt;", b"&#xA0;b"];
    let step = amount.of(17, 1);
    Family::new("two bytes in every place of a text", 256, move |job, sink| {
        for template in OF {
            for place in 0..template.len() - 1 {
                let mut content = template.to_vec();
                for second in (job as u8 % step..=u8::MAX).step_by(step.into()) {
                    content[place] = job as u8;
                    content[place + 1] = second;
                    sink.case(&content, DEFAULT, NONE)?;
                }
            }
        }
        ON
    })
}

/// Plain runs of every length with a reference, good or bad, before and behind them, and between two.
fn runs(amount: Amount) -> Family {
    const RUN: &[&str] = &["a", ";", "\u{e9}", "\u{20ac}", "\u{1f686}", "#x41;", "\0", "<"];
    const MARKS: &[&str] = &["&lt;", "&", "&zz;", "&#1;", "&#xFFFD;", "&#0;", "&amp", ";", "&#x1F686;"];
    Family::new("runs with a reference", amount.of(70, 300), |job, sink| {
        for run in RUN {
            let plain = run.repeat(job);
            for mark in MARKS {
                for content in
                    [format!("{mark}{plain}"), format!("{plain}{mark}"), format!("{plain}{mark}{plain}"), format!("{mark}{plain}{mark}")]
                {
                    sink.case(content.as_bytes(), DEFAULT, NONE)?;
                }
            }
        }
        ON
    })
}

/// Long texts: plain, of references alone, and of digits.
fn long(amount: Amount) -> Family {
    Family::new("long texts", amount.of(10, 18), |job, sink| {
        let count = 1 << job;
        for piece in ["a", "&lt;", "a&#65;", "&#x10FFFF;", "\u{20ac}", ";", "0"] {
            let text = piece.repeat(count);
            for content in
                [&text, &format!("{text}&zz;"), &format!("&#0{text}65;"), &format!("&#x{text};"), &format!("{text}&#xFFFF;{text}")]
            {
                sink.case(content.as_bytes(), DEFAULT, NONE)?;
            }
        }
        ON
    })
}

const GOOD: &[&str] =
    &["&lt;", "&gt;", "&amp;", "&apos;", "&quot;", "&#10;", "&#x9;", "&#65;", "&#xe9;", "&#x20AC;", "&#128646;", "&#0009;"];
const BAD: &[&str] = &[
    "&nbsp;",
    "&;",
    "&",
    "&#;",
    "&#x;",
    "&#X41;",
    "&#+65;",
    "&#x-1;",
    "&# 65;",
    "&#6 5;",
    "&#0;",
    "&#xD800;",
    "&#x110000;",
    "&#4294967361;",
    "&#99999999999g;",
    "&LT;",
    "&lt",
    "&a&lt;",
    "&<;",
    "&#1;",
    "&#x1F;",
    "&#xFFFE;",
    "&#65535;",
    "&#12;",
];
const PLAIN: &[&str] = &[
    "a",
    " ",
    "06:15",
    "Z\u{fc}rich",
    "\u{6771}\u{4eac}",
    "\u{1f686}",
    "x > y",
    "<b>",
    ";",
    "#65;",
    "lt;",
    "\r\n",
    "\t",
    "]]>",
    "\u{feff}",
    "\0",
];

/// A text with references, of which one in so many is bad.
fn text(dice: &mut Dice, out: &mut Vec<u8>, bad: usize) {
    out.clear();
    for _ in 0..dice.below(9) {
        match dice.below(8) {
            0..=2 => out.extend(dice.pick(PLAIN).as_bytes()),
            3 => number(dice, out),
            4 if dice.below(bad) == 0 => out.extend(dice.pick(BAD).as_bytes()),
            _ => out.extend(dice.pick(GOOD).as_bytes()),
        }
    }
}

/// A number of some size, decimal or hexadecimal, with zeros in front now and then.
fn number(dice: &mut Dice, out: &mut Vec<u8>) {
    let value = match dice.below(4) {
        0 => 0x20 + dice.next() % 0x60,
        1 => dice.next() % 0x1_0000,
        _ => dice.next() >> (43 + dice.below(9)),
    };
    let value = if dice.below(40) == 0 { dice.next() >> dice.below(40) } else { value };
    let zeros = if dice.below(6) == 0 { dice.below(12) } else { 0 };
    let zeros = "0".repeat(zeros);
    let reference = match dice.below(3) {
        0 => format!("&#{zeros}{value};"),
        1 => format!("&#x{zeros}{value:x};"),
        _ => format!("&#x{zeros}{value:X};"),
    };
    out.extend(reference.as_bytes());
}

/// Bytes that matter.
const MATTERING: &[&u8] = &[&b'&', &b';', &b'#', &b'x', &b'0', &b'7', &b'a', &b'l', &b'<'];

/// Random texts with good references and bad ones, and damaged copies of each.
fn texts(amount: Amount, seed: u64) -> Family {
    const EACH: usize = 1_000;
    Family::new("random texts and damaged copies", amount.of(40, 2_400), move |job, sink| {
        let mut dice = Dice::new(seed ^ (job as u64) << 20 ^ 0x7465_7874);
        let mut content = Vec::new();
        for _ in 0..EACH {
            let bad = [1, 4, 40][dice.below(3)];
            text(&mut dice, &mut content, bad);
            contents::damaged(sink, &mut dice, &content, MATTERING)?;
        }
        ON
    })
}

/// References good and bad, text and parts of references in any order.
fn soups(amount: Amount, seed: u64) -> Family {
    const PARTS: &[&str] = &["&", ";", "#", "x", "&#", "&#x", "0", "41", "D8", "FF", "FE", "lt", "amp", "X", "+", "g"];
    contents::drawn("random parts of references", amount.of(30, 2_000), seed, 0x7061_7274, |dice, content| {
        for _ in 0..1 + dice.below(9) {
            let part = match dice.below(8) {
                0 | 1 => dice.pick(GOOD),
                2 if dice.below(3) == 0 => dice.pick(BAD),
                3 => dice.pick(PLAIN),
                _ => dice.pick(PARTS),
            };
            content.extend(part.as_bytes());
        }
    })
}

/// Any bytes, mostly those that matter, UTF-8 or not.
fn noise(amount: Amount, seed: u64) -> Family {
    contents::drawn("random bytes", amount.of(20, 400), seed, 0x6E6F_6973, |dice, content| {
        let any = [2, 9, 40][dice.below(3)];
        for _ in 0..dice.below(40) {
            let byte = if dice.below(any) == 0 { dice.next() as u8 } else { *dice.pick(&[&b'a', &b'b', &b';', &b'#', &b'1', &b' ']) };
            content.push(byte);
            if dice.below(9) == 0 {
                content.extend(dice.pick(GOOD).as_bytes());
            }
        }
    })
}
