//! Long runs with something at every offset, since both sides look at many bytes at a time.

use super::*;

/// Before the run, the bytes of the run, behind the run.
pub const RUNS: &[(&[u8], u8, &[u8])] = &[
    (b"", b't', b"<a>"),
    (b"<a>", b't', b"</a>"),
    (b"", b' ', b"t<a>"),
    (b"", b't', b" \n&a;"),
    (b"&", b'r', b";t"),
    (b"<", b'n', b"/>"),
    (b"<a b='", b'v', b"'>"),
    (b"<a b=\"", b'>', b"\">"),
    (b"<!--", b'c', b"-->t"),
    (b"<!--", b'-', b">"),
    (b"<!--c-", b'c', b"--c-->t"),
    (b"<![CDATA[", b'd', b"]]>t"),
    (b"<![CDATA[", b']', b">"),
    (b"<?xml ", b'i', b"?>"),
    (b"<?", b'?', b">"),
    (b"<a></a", b' ', b">"),
    (b"\xEF\xBB\xBF", b't', b"<a>"),
];

/// What is put into the run.
const WITHIN: &[&[u8]] = &[
    b"",
    b"<",
    b"&",
    b">",
    b"-->",
    b"--",
    b"]]>",
    b"?>",
    b"'",
    b"\"",
    b";",
    b" ",
    b"\xFF",
    b"\xC3\xA9",
    b"\xC3",
    b"\xE2\x82\xAC",
    b"\xE2\x82",
    b"\xF0\x9F\x9A\x86",
    b"\xED\xA0\x80",
    b"\x80",
    b"\x7F",
    b"/",
    b"</a>",
    b"\0",
];

/// How many bytes of a run stand before what is put into it: around 8, 16, 64 and 128, which is how many bytes ours looks at at a time, and
/// around the sums of these that it comes to, as 16 and 64 or 64, 128 and 128.
const BORDERS: &[usize] = &[
    0, 1, 2, 7, 8, 9, 14, 15, 16, 17, 18, 24, 31, 32, 33, 62, 63, 64, 65, 66, 78, 79, 80, 81, 82, 126, 127, 128, 129, 130, 131, 143, 144,
    145, 146, 190, 191, 192, 193, 194, 195, 255, 256, 257, 258, 319, 320, 321,
];

/// How many stand behind it.
const BEYOND: &[usize] = &[0, 1, 15, 16, 17, 62, 63, 64, 65, 127, 128, 129, 192];

/// What runs of more than one byte are made of.
const UNITS: &[&[u8]] = &[b"\xC3\xA9", b"\xE2\x82\xAC", b"\xF0\x9F\x9A\x86", b"a\xC3\xA9", b"aaaaaaaaaaaaaaa\xC3\xA9", b"\x7F"];

/// Stands behind a document in memory, and would close any piece that is read too far.
const BEHIND: &[u8] = b"-->]]>?>;'\">&<a>";

/// Gives the case with so many bytes before it in memory, for every alignment, and `BEHIND` behind it.
fn lend(room: &mut Vec<u8>, before: usize, parts: [&[u8]; 5], settings: &[u16], sink: &mut dyn Sink) -> Flow {
    room.clear();
    room.resize(before, b'>');
    parts.iter().for_each(|part| room.extend(*part));
    let end = room.len();
    room.extend(BEHIND);
    sink.each(&room[before..end], settings, 16)
}

pub fn families(amount: Amount) -> Vec<Family> {
    vec![every_offset(amount), borders(amount), characters(amount)]
}

fn every_offset(amount: Amount) -> Family {
    let longest = amount.of(140, 280);
    let step = amount.of(5, 1);
    let settings = amount.of(vec![DEFAULT, TURNED], several());
    Family::new("runs with something at every offset", RUNS.len() * WITHIN.len(), move |job, sink| {
        let (before, byte, behind) = RUNS[job / WITHIN.len()];
        let within = WITHIN[job % WITHIN.len()];
        let run = vec![byte; longest];
        let mut room = Vec::new();
        for length in (0..longest).step_by(amount.of(3, 7)) {
            for at in (length % step..=length).step_by(step) {
                let (left, right) = run[..length].split_at(at);
                lend(&mut room, at % 17, [before, left, within, right, b""], &settings, sink)?;
                lend(&mut room, at % 17, [before, left, within, right, behind], &settings, sink)?;
            }
        }
        ON
    })
}

/// The same at the borders of blocks, with blocks behind it that fit and that do not.
fn borders(amount: Amount) -> Family {
    let settings = amount.of(vec![DEFAULT, TURNED], several());
    Family::new("runs with something at the borders of blocks", RUNS.len() * WITHIN.len(), move |job, sink| {
        let (before, byte, behind) = RUNS[job / WITHIN.len()];
        let within = WITHIN[job % WITHIN.len()];
        let run = vec![byte; 321];
        let mut room = Vec::new();
        for &at in BORDERS {
            for &beyond in BEYOND {
                let (left, right) = (&run[..at], &run[..beyond]);
                lend(&mut room, (at + job) % 17, [before, left, within, right, b""], &settings, sink)?;
                lend(&mut room, (at + job) % 17, [before, left, within, right, behind], &settings, sink)?;
            }
        }
        ON
    })
}

/// Runs of characters of more than one byte, or with one such in every block, from every offset of 16 on, whole and without the last byte.
fn characters(amount: Amount) -> Family {
    let step = amount.of(3, 1);
    let settings = [DEFAULT, TURNED];
    Family::new("runs of characters of many bytes", RUNS.len() * UNITS.len(), move |job, sink| {
        let (before, _, behind) = RUNS[job / UNITS.len()];
        let unit = UNITS[job % UNITS.len()];
        let run = unit.repeat(330 / unit.len());
        let first = [b'a'; 17];
        let mut room = Vec::new();
        for shift in 0..=16 {
            for length in (shift % step * unit.len()..=run.len()).step_by(step * unit.len()) {
                let (left, whole) = (&first[..shift], &run[..length]);
                let cut = &run[..length.saturating_sub(1)];
                lend(&mut room, shift, [before, left, whole, b"", behind], &settings, sink)?;
                lend(&mut room, shift, [before, left, cut, b"", behind], &settings, sink)?;
                lend(&mut room, shift, [before, left, cut, b"", b""], &settings, sink)?;
            }
        }
        ON
    })
}
