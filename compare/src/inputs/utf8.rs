//! Byte sequences around the borders of UTF-8, in every kind of piece.

use super::*;

/// Bytes at which a row of the table of well-formed sequences begins or ends.
const BORDERS: &[u8] = &[
    0x00, 0x7F, 0x80, 0x8F, 0x90, 0x9F, 0xA0, 0xBE, 0xBF, 0xC0, 0xC1, 0xC2, 0xDF, 0xE0, 0xE1, 0xEC, 0xED, 0xEE, 0xEF, 0xF0, 0xF1, 0xF3,
    0xF4, 0xF5, 0xF7, 0xF8, 0xFF, b'a',
];

/// What stands before and behind the bytes.
const AROUND: &[(&[u8], &[u8])] = &[
    (b"", b""),
    (b"a", b"<b>"),
    (b"<a ", b">t"),
    (b"&", b";"),
    (b"<!--", b"-->"),
    (b"<![CDATA[", b"]]>"),
    (b"<?", b"?>"),
    (b"<a></", b">"),
    (b"<a b='", b"'/>"),
    (b"&", b"&t"),
    (b"<a>", b"</a>"),
];

fn put(around: usize, middle: &[u8], settings: &[u16], sink: &mut dyn Sink) -> Flow {
    let (before, behind) = AROUND[around];
    let mut room = [0; 48];
    let ends = [before.len(), before.len() + middle.len(), before.len() + middle.len() + behind.len()];
    room[..ends[0]].copy_from_slice(before);
    room[ends[0]..ends[1]].copy_from_slice(middle);
    room[ends[1]..ends[2]].copy_from_slice(behind);
    sink.each(&room[..ends[2]], settings, 6)
}

pub fn families(amount: Amount) -> Vec<Family> {
    let settings = [DEFAULT, TURNED];
    let two = Family::new("all sequences of two bytes", AROUND.len() * 256, move |job, sink| {
        (0..=u8::MAX).try_for_each(|second| put(job / 256, &[(job % 256) as u8, second], &settings, sink))
    });
    let pieces = amount.of(1, 4);
    let three = Family::new("all sequences of three bytes", pieces * 256, move |job, sink| {
        let first = (job % 256) as u8;
        let step = amount.of(if first < 0xC0 { 61 } else { 5 }, 1);
        for second in (0..=u8::MAX).step_by(step) {
            for third in (0..=u8::MAX).step_by(step) {
                put(job / 256, &[first, second, third], &[DEFAULT], sink)?;
            }
        }
        ON
    });
    let around = amount.of(1, AROUND.len());
    let four = Family::new("border sequences of four bytes", around * BORDERS.len(), move |job, sink| {
        let first = BORDERS[job % BORDERS.len()];
        for &second in BORDERS {
            for &third in BORDERS {
                for &fourth in BORDERS {
                    put(job / BORDERS.len(), &[first, second, third, fourth], &[DEFAULT], sink)?;
                }
            }
        }
        ON
    });
    let leads = Family::new("all sequences of a four byte lead", 16, move |job, sink| {
        let first = 0xF0 + job as u8;
        for second in (0..=u8::MAX).step_by(amount.of(3, 1)) {
            for &third in BORDERS {
                for fourth in (0..=u8::MAX).step_by(amount.of(31, 1)) {
                    put(1, &[first, second, third, fourth], &[DEFAULT], sink)?;
                }
            }
        }
        ON
    });
    vec![two, three, four, leads, behind_characters()]
}

/// No character, one of each length, and all of them.
const CHARACTERS: &[&[u8]] = &[b"", b"a", b"\xC3\xA9", b"\xE2\x82\xAC", b"\xF0\x9F\x9A\x86", b"\xF0\x9F\x9A\x86\xE2\x82\xACa\xC3\xA9"];

/// Sequences that are no character: a byte that begins none, one too long, a surrogate, one beyond the last, and characters cut off after each byte.
const ILL: &[&[u8]] = &[
    b"\x80",
    b"\xBF\xBF",
    b"\xFF",
    b"\xC0\x80",
    b"\xC1\xBF",
    b"\xE0\x9F\xBF",
    b"\xED\xA0\x80",
    b"\xF0\x8F\xBF\xBF",
    b"\xF4\x90\x80\x80",
    b"\xF5\x80\x80\x80",
    b"\xC3",
    b"\xE2",
    b"\xE2\x82",
    b"\xF0",
    b"\xF0\x9F",
    b"\xF0\x9F\x9A",
];

/// In every kind of piece, with characters and other such sequences around them, so that the first of them counts.
fn behind_characters() -> Family {
    let settings = [DEFAULT, TURNED, DEFAULT | TRIM_START | COMMENTS];
    Family::new("ill-formed sequences behind characters", AROUND.len() * ILL.len(), move |job, sink| {
        let (around, ill) = (job / ILL.len(), ILL[job % ILL.len()]);
        for before in CHARACTERS {
            for behind in CHARACTERS.iter().chain(ILL) {
                put(around, &[before, ill, behind].concat(), &settings, sink)?;
                put(around, &[b" \n", *before, ill, behind].concat(), &settings, sink)?;
            }
        }
        ON
    })
}
