//! Contents for scans that are fed in pieces: all sequences of the bytes that matter to each, long ones rich in what nearly closes, around the blocks that ours looks at
//! at a time, up to the greatest length; and what begins at a mark in documents. Each comes in the place of a document, with the default settings, and with the scans
//! that it is for, none for all.

use super::contents::{drawn, NONE};
use super::exhaustive::{bytes, family, Alphabet};
use super::limits::made;
use super::random::Dice;
use super::*;
use crate::pieces::{CDATA, COMMENT, PI, PIECE, TAG, TEXT};

pub fn families(amount: Amount, seed: u64) -> Vec<Family> {
    let mut families: Vec<Family> = alphabets().into_iter().map(|alphabet| family(alphabet, amount)).collect();
    families.extend([runs(amount), middling(amount, seed), long(amount, seed), noise(amount, seed)]);
    families.extend((amount == Amount::Full).then(longest));
    families
}

/// The scan by which a content is run.
const fn scan(made: usize) -> usize {
    1 << made
}

fn alphabets() -> Vec<Alphabet> {
    let of = |name, prefix, letters: &[u8], most, made: usize| bytes(name, prefix, letters, most, &[]).with(scan(made));
    vec![
        of("bytes of a tag", b"", b">'\"a", (6, 7), TAG),
        of("more bytes of a tag", b"", b"<>'\"/a", (4, 6), TAG),
        of("bytes of an instruction", b"", b"<?>a", (6, 8), PI),
        of("bytes of a comment", b"", b"<!->a", (5, 7), COMMENT),
        of("bytes behind a comment's opener", b"<!--", b"->a", (4, 6), COMMENT),
        of("bytes behind a part of a comment's opener", b"<!", b"->a", (5, 7), COMMENT),
        of("bytes of character data", b"", b"[]>a", (6, 8), CDATA),
        of("more bytes of character data", b"", b"<![]>a", (4, 6), CDATA),
        of("bytes of text", b"", b"<&a", (6, 8), TEXT),
        of("bytes of any piece", b"", b"<!-?[]>&;a'", (4, 5), PIECE),
        of("bytes behind `<`", b"<", b"!-?[]>'a", (4, 5), PIECE),
        of("bytes behind `<!`", b"<!", b"-[]>a", (4, 6), PIECE),
        of("bytes behind `&`", b"&", b";&<a", (4, 6), PIECE),
    ]
}

/// What a content begins with, is filled with, and is closed by.
type Kind = (&'static [u8], &'static [&'static [u8]], &'static [u8]);

const KINDS: &[Kind] = &[
    (b"<a", &[b"a", b" ", b"/", b"=", b"<", b"'>'", b"\">\"", b"'\"'", b"''", b"\xC3\xA9"], b">"),
    (b"<?p", &[b"a", b" ", b"?", b">", b"? >", b"??", b"<?"], b"?>"),
    (b"<!--", &[b"a", b" ", b"-", b">", b"->", b"- ->", b"--", b"-- >", b"<!--"], b"-->"),
    (b"<![CDATA[", &[b"a", b" ", b"]", b">", b"]>", b"] ]>", b"]]", b"]] >", b"["], b"]]>"),
    (b"&", &[b"a", b"#", b">", b" "], b";"),
    (b"t", &[b"a", b" ", b">", b";", b"-->", b"\xC3\xA9"], b"<"),
    (b"", &[b"a", b"'", b"\"", b"-", b"?", b"]", b">"], b"&"),
];

/// A content of about so many bytes, mostly one filling, with its closer near the end or not at all, and more behind it.
fn content(dice: &mut Dice, length: usize, out: &mut Vec<u8>) {
    let (opener, fill, closer) = KINDS[dice.below(KINDS.len())];
    let often = 1 + dice.below(60);
    out.extend(opener);
    let main = dice.pick(fill);
    while out.len() < length {
        out.extend(if dice.below(often) == 0 { dice.pick(fill) } else { main });
    }
    if dice.below(5) > 0 {
        out.extend(closer);
    }
    for _ in 0..dice.below(3) * dice.below(9) {
        out.extend(dice.pick(fill));
    }
}

/// Runs of every length up to some hundred bytes before the closer, and before what is none.
fn runs(amount: Amount) -> Family {
    let longest = amount.of(70, 270);
    Family::new("runs of every length", longest, move |length, sink| {
        for &(opener, fill, closer) in KINDS {
            for filling in fill {
                let mut content = opener.to_vec();
                content.extend(filling.iter().cycle().take(length));
                content.extend(closer);
                content.extend(b"a-->");
                sink.case(&content, DEFAULT, NONE)?;
            }
        }
        ON
    })
}

fn middling(amount: Amount, seed: u64) -> Family {
    drawn("random contents", amount.of(1, 8), seed, 0x7069_6563, |dice, out| {
        let length = [dice.below(30), 55 + dice.below(20), 120 + dice.below(20), dice.below(300)][dice.below(4)];
        content(dice, length, out);
    })
}

fn long(amount: Amount, seed: u64) -> Family {
    const EACH: usize = 8;
    Family::new("long random contents", amount.of(3, 150), move |job, sink| {
        let mut dice = Dice::new(seed ^ (job as u64) << 20 ^ 0x6C6F_6E67);
        let mut out = Vec::new();
        for _ in 0..EACH {
            out.clear();
            let length = [1_000, 4_096, 20_000, 130_000][dice.below(4)];
            let length = length - dice.below(200);
            content(&mut dice, length, &mut out);
            sink.case(&out, DEFAULT, NONE)?;
        }
        ON
    })
}

/// Any bytes, mostly those that matter.
fn noise(amount: Amount, seed: u64) -> Family {
    drawn("random bytes", amount.of(1, 8), seed, 0x6E6F_6973, |dice, out| {
        let any = [2, 9, 40][dice.below(3)];
        for _ in 0..11 + dice.below(40) {
            let mattering = *dice.pick(&[&b'<', &b'!', &b'-', &b'?', &b'>', &b'[', &b']', &b'\'', &b'"', &b'&', &b';', &b'a']);
            out.push(if dice.below(any) == 0 { dice.next() as u8 } else { mattering });
        }
    })
}

/// Contents near the greatest length, with the byte that is looked for just within it and just behind; and one that is closed early and much longer.
fn longest() -> Family {
    const LENGTHS: [usize; 3] = [LONGEST - 1, LONGEST, LONGEST + 1];
    let each: [(usize, &[u8], &[u8]); 6] = [
        (TAG, b"<a b='", b"'>"),
        (PI, b"<?", b"?>"),
        (COMMENT, b"<!--", b"-->"),
        (CDATA, b"<![CDATA[", b"]]>"),
        (TEXT, b"t", b"<"),
        (PIECE, b"&", b";"),
    ];
    Family::new("contents of the greatest length", each.len(), move |job, sink| {
        let (which, opener, closer) = each[job];
        LENGTHS.iter().try_for_each(|&length| sink.case(&made(opener, b"a", closer, length), DEFAULT, scan(which)))?;
        sink.case(&made(&[opener, closer].concat(), b"a", b"", LONGEST + 40), DEFAULT, scan(which))
    })
}

/// What begins at the marks of a family's documents.
pub fn of_documents(family: Family) -> Family {
    Family::new(family.name, family.jobs, move |job, sink| (family.run)(job, &mut Marks { sink }))
}

struct Marks<'s> {
    sink: &'s mut dyn Sink,
}

impl Sink for Marks<'_> {
    fn case(&mut self, document: &[u8], settings: u16, _: usize) -> Flow {
        /// Of each document so many marks at most, and so many bytes behind each.
        const MOST: usize = 40;
        const LONG: usize = 700;
        if settings != DEFAULT {
            return ON;
        }
        let marks: Vec<usize> = (0..document.len()).filter(|&at| at == 0 || b"<&".contains(&document[at])).collect();
        for &at in marks.iter().step_by(marks.len() / MOST + 1) {
            let to = document.len().min(at + LONG);
            self.sink.case(&document[at..to], DEFAULT, NONE)?;
        }
        ON
    }
}
