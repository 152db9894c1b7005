//! The limits: names up to the capacity and one more, long documents, and documents of the greatest length and beyond.

use super::*;

pub fn families(amount: Amount) -> Vec<Family> {
    vec![short(), deep(), names(), long(amount)]
}

/// Those at the limits of a document and of its names, which take long.
pub fn largest(amount: Amount) -> Vec<Family> {
    vec![deepest(amount), longest(amount)]
}

/// No bytes and one byte, under all settings and small stacks.
fn short() -> Family {
    Family::new("no byte and one byte", 257, |job, sink| {
        let byte = [job.wrapping_sub(1) as u8];
        let document: &[u8] = if job == 0 { b"" } else { &byte };
        (0..=5).try_for_each(|slots| sink.each(document, &every(), slots))
    })
}

/// What stands in the opening tags of names that are open at once.
const NAMES_OPEN: [&str; 3] = ["a", "", "n\u{e9}me x='1'"];

/// Small stacks, and two of some thousand slots.
fn deep() -> Family {
    let sizes: Vec<usize> = (0..=40).chain([63, 64, 65, 127, 128, 200, 8191, 8192]).collect();
    Family::new("names up to the capacity", sizes.len(), move |job, sink| {
        let settings: &[u16] =
            if sizes[job] > 1000 { &[DEFAULT, DEFAULT | EXPAND] } else { &[DEFAULT, TURNED, DEFAULT | EXPAND, 0, THEIR_ALL] };
        NAMES_OPEN.iter().try_for_each(|name| filled(sink, name, sizes[job], settings))
    })
}

/// Stacks that hold as many names as may be open, one fewer, and slots for one more and for many more, which hold no more names.
fn deepest(amount: Amount) -> Family {
    const FULL: usize = 2 * MOST_NAMES;
    const SIZES: [usize; 7] = [FULL - 2, FULL - 1, FULL, FULL + 1, FULL + 2, FULL + 9, FULL + 10_000];
    let names = amount.of(1, NAMES_OPEN.len());
    Family::new("as many names as may be open", SIZES.len() * names, |job, sink| {
        filled(sink, NAMES_OPEN[job / SIZES.len()], SIZES[job % SIZES.len()], &[DEFAULT, DEFAULT | EXPAND])
    })
}

/// As many names open as the stack holds, one fewer and one more, closed again or not.
fn filled(sink: &mut dyn Sink, name: &str, slots: usize, settings: &[u16]) -> Flow {
    let full = capacity(slots);
    for names in [full.saturating_sub(1), full, full + 1] {
        let opened = format!("<{name}>").repeat(names);
        let closer = format!("</{}>", name.split(' ').next().unwrap_or_default());
        sink.each(opened.as_bytes(), settings, slots)?;
        sink.each(format!("{opened}<e/>").as_bytes(), settings, slots)?;
        sink.each(format!("{opened}t<e/>{}", closer.repeat(names + 1)).as_bytes(), settings, slots)?;
        sink.each(format!("{opened}</x>{closer}<y>").as_bytes(), settings, slots)?;
    }
    ON
}

/// Names of many lengths in every kind of tag, closed by themselves, and by names that are shorter, longer or other in one byte.
fn names() -> Family {
    const LENGTHS: &[usize] =
        &[7, 8, 9, 15, 16, 17, 31, 32, 33, 63, 64, 65, 127, 128, 129, 255, 256, 257, 600, 4097, 65_535, 65_537, 300_000];
    Family::new("long names", LENGTHS.len(), |job, sink| {
        let length = LENGTHS[job];
        let name = "n".repeat(length);
        let settings = combinations(&[NAMES, TRIM_NAMES, EXPAND]);
        let spaces = " ".repeat(length);
        for document in [
            format!("<{name}>t</{name}>"),
            format!("<{name}\t/></{name}\n>"),
            format!("<{name}></{name}{spaces}>"),
            format!("<a><{name}></{name}n></a>"),
            format!("<a><{name}></{}></a>", &name[1..]),
            format!("</{name}>"),
            format!("<?{name}?><?{name} {name}?>"),
            format!("<?xml{name}?><?xml {name}"),
        ] {
            sink.each(document.as_bytes(), &settings, 8)?;
        }
        // at every place of a name that is not long, since ours compares eight bytes at a time
        let every = if length <= 65 { length } else { 18 };
        for at in (0..every).chain([31, 32, 63, 64, length / 2, length - 2, length - 1]) {
            let mut document = format!("<a><{name}></{name}></a>").into_bytes();
            if let Some(byte) = document.get_mut(length + 7 + at.min(length - 1)) {
                *byte = b'm';
            }
            sink.each(&document, &settings, 8)?;
        }
        ON
    })
}

/// What a long document is made of, again and again, and what comes behind it.
const REPEATED: &[(&[u8], &[u8])] = &[
    (b"text ", b""),
    (b" ", b"t"),
    (b"<a>t</a>", b"</a>"),
    (b"<a/>", b"<b"),
    (b"&r;", b"&"),
    (b"& ", b"<a>"),
    (b"<!--c-->", b"<!--"),
    (b"<![CDATA[d]]>", b"<![CDATA["),
    (b"<?p i?>\n", b"<?xml"),
    (b"\xC3\xA9", b"\xC3"),
    (b"</a>", b"\xFF"),
];

/// What a document begins with, is made of, and ends with.
const ENDS: &[(&[u8], &[u8], &[u8])] = &[
    (b"", b"t", b""),
    (b"<a>", b"t ", b"</a>"),
    (b"<a b='", b"v", b"'/>"),
    (b"<!--", b"c", b"-->"),
    (b"<![CDATA[", b"d", b"]]>"),
    (b"<?p ", b"i", b"?>"),
    (b"<", b"n", b""),
    (b"<", b"n", b"/>"),
    (b"t", b" ", b"<a>"),
    (b"t", b" ", b""),
    (b"&", b"r", b";"),
    (b"", b" \r\n\t", b""),
    (b"", b" \r\n\t", b"t"),
    (b"", b"t", b"&a;"),
    (b"&", b"r", b"&"),
    (b"\xEF\xBB\xBF", b"\xE2\x82\xAC", b"<a>"),
    (b"<r>", b"<stop n=\"1\">06:15</stop>\n", b"</r>"),
    (b"", b"<a></b>", b""),
    (b"<a b=\"", b"\xC3\xA9", b"\xC3"),
];

/// A document of exactly this length: the head, the part again and again, and the tail.
pub fn made(head: &[u8], part: &[u8], tail: &[u8], length: usize) -> Vec<u8> {
    let between = length.saturating_sub(head.len() + tail.len());
    [head, &part.repeat(between.div_ceil(part.len()))[..between], tail].concat()
}

/// Lengths around 4,096 and 65,536, where a count might run over.
fn long(amount: Amount) -> Family {
    let lengths: Vec<usize> = [4096usize, 8192, 65_536, 70_000].into_iter().flat_map(|n| n - 2..=n + 2).collect();
    let settings = amount.of(several()[..4].to_vec(), several());
    Family::new("long documents", (REPEATED.len() + ENDS.len()) * lengths.len(), move |job, sink| {
        let (which, length) = (job / lengths.len(), lengths[job % lengths.len()]);
        if which >= REPEATED.len() {
            let (head, part, tail) = ENDS[which - REPEATED.len()];
            return sink.each(&made(head, part, tail, length), &settings, 8);
        }
        let (part, tail) = REPEATED[which];
        sink.each(&made(b"", part, tail, length), &settings, 8)?;
        sink.each(&made(b"<a 'b' ", part, b">", length), &settings, 8)?;
        sink.each(&made(b"\xEF\xBB\xBF<r>", part, b"</r>", length), &settings, 8)
    })
}

/// Documents of the greatest length, of one byte less, and of one more, which ours refuses to make a reader of.
fn longest(amount: Amount) -> Family {
    let settings = amount.of(vec![DEFAULT], vec![DEFAULT, TURNED, DEFAULT | TRIM_START, DEFAULT | TRIM_START | TRIM_END]);
    let documents = amount.of(3, ENDS.len());
    Family::new("documents of the greatest length", 3 * documents, move |job, sink| {
        let (head, part, tail) = ENDS[job / 3];
        sink.each(&made(head, part, tail, LONGEST - 1 + job % 3), &settings, 64)
    })
}
