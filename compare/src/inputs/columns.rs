//! Documents with times, for the column reader: every time and what is nearly one, all sequences of tokens, random timetables and damaged copies of them, large
//! ones, those at the limits, and real files with times put in. All come with the default settings.

use super::exhaustive::{bytes, family, tokens, Alphabet};
use super::files::without_doctype;
use super::random::{damage, Dice};
use super::*;
use std::fs;

/// A stack for all that most documents open.
const STACK: usize = 16;

pub fn families(amount: Amount, seed: u64) -> Vec<Family> {
    let mut families = vec![deep(), places(amount), names(amount)];
    families.extend(alphabets().into_iter().map(|alphabet| family(alphabet, amount)));
    families.extend([timetables(amount, seed), soups(amount, seed), white(amount)]);
    families.extend([two_places(amount), times(amount), pairs(amount)]);
    families.extend([large(amount, seed), many(), deepest(amount), longest(amount)]);
    families
}

/// Gives a document that is made of parts.
fn give(sink: &mut dyn Sink, room: &mut Vec<u8>, parts: &[&[u8]], slots: usize) -> Flow {
    room.clear();
    parts.iter().for_each(|part| room.extend(*part));
    sink.case(room, DEFAULT, slots)
}

/// Two digits, a colon and two digits.
fn form(hours: usize, minutes: usize) -> String {
    format!("{hours:02}:{minutes:02}")
}

/// A time by its value.
fn clock(value: usize) -> String {
    form(value / 60, value % 60)
}

/// How many times there are.
const TIMES: usize = 48 * 60;

/// What stands at an end of a text: white space, and what is none.
const ENDS: &[&str] =
    &["", " ", "\t", "\n", "\r", "\r\n", " \t\r\n ", "\x0B", "\x0C", "\u{a0}", "\u{2003}", "\u{feff}", "\u{85}", "\0", "x"];

/// All numbers of two digits as hours and as minutes, with everything at both ends; all times in one document, forwards and backwards.
fn times(amount: Amount) -> Family {
    let step = amount.of(13, 1);
    Family::new("every time", 101, move |job, sink| {
        let mut room = Vec::new();
        if job == 100 {
            let of = |value| format!("<t>{}</t>\n", clock(value));
            sink.case((0..TIMES).map(of).collect::<String>().as_bytes(), DEFAULT, STACK)?;
            return sink.case((0..TIMES).rev().map(of).collect::<String>().as_bytes(), DEFAULT, STACK);
        }
        for minutes in 0..100 {
            let time = form(job, minutes);
            for ends in (0..ENDS.len() * ENDS.len()).filter(|&ends| ends == 0 || (ends + job + minutes) % step == 0) {
                let (before, behind) = (ENDS[ends / ENDS.len()].as_bytes(), ENDS[ends % ENDS.len()].as_bytes());
                give(sink, &mut room, &[b"<t>", before, time.as_bytes(), behind, b"</t>"], STACK)?;
            }
        }
        ON
    })
}

/// Two times, of every value each; and behind the last time 48:00, which is none.
fn pairs(amount: Amount) -> Family {
    let step = amount.of(61, 1);
    Family::new("every pair of times", TIMES, move |first, sink| {
        let mut room = Vec::new();
        let time = clock(first);
        for second in (first % step..TIMES).step_by(step).chain([first.saturating_sub(1), first, first + 1]) {
            let other = clock(second);
            give(sink, &mut room, &[b"<t>", time.as_bytes(), b"</t><t>", other.as_bytes()], STACK)?;
        }
        ON
    })
}

/// Small documents, in which bytes are changed.
const TEMPLATES: &[&[u8]] = &[
    b"<t>06:15</t>",
    b"<t> 47:59\n</t>",
    b"<t>23:50</t><t>24:10</t>",
    b"<t>24:10</t><b><t>23:50</t></b>",
    b"<t>00:00<b/>00:00</t>",
    b"<t a='1'>06:15<!---->05:00</t>",
    b"<t>06:15<![CDATA[x]]>\t</t>",
    b"<t><b>&a;</b>06:15</t>",
    b"<r><t>06:15</t>&a;<t>06:20",
    b"\xEF\xBB\xBF<t>06:15</t>",
    b"<t>06:15\xC2\xA0</t>",
    b"<t/><t>06:15</t >x",
];

/// Every byte value in every place, put in and put over, and the document cut off there.
fn places(amount: Amount) -> Family {
    let stacks = amount.of(vec![STACK], vec![0, 2, 3, STACK]);
    Family::new("a byte in every place of times", TEMPLATES.len(), move |job, sink| {
        let template = TEMPLATES[job];
        for place in 0..=template.len() {
            for value in 0..=u8::MAX {
                let mut document = template.to_vec();
                document.insert(place, value);
                stacks.iter().try_for_each(|&slots| sink.case(&document, DEFAULT, slots))?;
                document.remove(place);
                if place < template.len() {
                    document[place] = value;
                    stacks.iter().try_for_each(|&slots| sink.case(&document, DEFAULT, slots))?;
                }
            }
            sink.case(&template[..place], DEFAULT, STACK)?;
        }
        ON
    })
}

/// Every two bytes behind each other.
fn two_places(amount: Amount) -> Family {
    let step = amount.of(11, 1);
    Family::new("two bytes in every place of a time", 256, move |job, sink| {
        let first = job as u8;
        let mut document = *b"<t>06:15</t>";
        for place in 0..document.len() - 1 {
            let before = document;
            for second in (first % step..=u8::MAX).step_by(step.into()) {
                document[place] = first;
                document[place + 1] = second;
                sink.case(&document, DEFAULT, STACK)?;
            }
            document = before;
        }
        ON
    })
}

/// Every sequence of a few bytes in the place of the name in `<t>`, and of the white space and the attributes behind it.
fn names(amount: Amount) -> Family {
    const BYTES: &[u8] = b"tT /:\t\n='a>&\xC2\xA0";
    let most = amount.of(3, 5);
    Family::new("names that are nearly `t`", BYTES.len(), move |job, sink| {
        let mut room = Vec::new();
        let mut count = vec![0; most];
        // behind the job's byte, every sequence of each length
        for length in 0..most {
            count[..length].fill(0);
            loop {
                room.clear();
                room.extend([b'<', BYTES[job]]);
                room.extend(count[..length].iter().map(|&digit: &usize| BYTES[digit]));
                room.extend(b">06:15<b></b>05:00</t>");
                sink.case(&room, DEFAULT, STACK)?;
                let Some(at) = count[..length].iter().position(|&digit| digit + 1 < BYTES.len()) else { break };
                count[at] += 1;
                count[..at].fill(0);
            }
        }
        ON
    })
}

/// White space of many lengths before and behind a time and alone, and with another byte in it.
fn white(amount: Amount) -> Family {
    const UNITS: &[&[u8]] = &[b" ", b"\t", b"\n", b"\r", b"\r\n\t ", b"\x0C"];
    const FEW: &[usize] = &[0, 1, 2, 7, 8, 9, 15, 16, 17, 31, 32, 33, 63, 64, 65, 127, 128, 129, 192, 257, 320];
    let step = amount.of(9, 1);
    Family::new("white space of many lengths", UNITS.len() * FEW.len(), move |job, sink| {
        let run = UNITS[job % UNITS.len()].repeat(330);
        let behind = &run[..FEW[job / UNITS.len()]];
        let mut room = Vec::new();
        for length in (job % step..330).step_by(step) {
            let before = &run[..length];
            give(sink, &mut room, &[b"<t>", before, b"06:15", behind, b"</t>"], STACK)?;
            give(sink, &mut room, &[b"<t>", behind, b"06:15", before], STACK)?;
            give(sink, &mut room, &[b"<t>", before, behind, b"</t><t>06:15</t>"], STACK)?;
            give(sink, &mut room, &[b"<t>06:15</t><t>", before, b"x", behind, b"06:15</t>"], STACK)?;
            give(sink, &mut room, &[b"<t>", before, b"06:", behind, b"15</t>"], STACK)?;
            give(sink, &mut room, &[b"<t>", before, b"&a;", behind, b"</t>"], STACK)?;
        }
        ON
    })
}

/// Every number of slots up to some, and names up to what they hold and one more, the last of them `t` or all.
fn deep() -> Family {
    Family::new("times in names up to the capacity", 44, |slots, sink| {
        let full = capacity(slots);
        (full.saturating_sub(1)..=full + 1).try_for_each(|names| filled(sink, names, slots))
    })
}

/// Stacks that hold as many names as may be open, one fewer, and slots for more.
fn deepest(amount: Amount) -> Family {
    const FULL: usize = 2 * MOST_NAMES;
    let sizes = amount.of(vec![FULL, FULL + 1, FULL + 2], vec![FULL - 2, FULL - 1, FULL, FULL + 1, FULL + 2, FULL + 10_000]);
    Family::new("times in as many names as may be open", sizes.len(), move |job, sink| {
        let full = capacity(sizes[job]);
        (full.saturating_sub(1)..=full + 1).try_for_each(|names| filled(sink, names, sizes[job]))
    })
}

/// So many names open, with times in the latest, behind names that are closed, and in all.
fn filled(sink: &mut dyn Sink, names: usize, slots: usize) -> Flow {
    let outer = "<b>".repeat(names.saturating_sub(1));
    let closers = "</b>".repeat(names.saturating_sub(1));
    let same = "<t>06:15".repeat(names);
    let inner = if names > 0 { "<t>" } else { "" };
    sink.case(format!("{outer}{inner}06:15").as_bytes(), DEFAULT, slots)?;
    sink.case(format!("{outer}{inner}06:15<t/>05:00<t></t>05:10").as_bytes(), DEFAULT, slots)?;
    sink.case(format!("{outer}{inner}06:15</t>{closers}<t>05:00</t>").as_bytes(), DEFAULT, slots)?;
    sink.case(same.as_bytes(), DEFAULT, slots)?;
    sink.case(format!("{same}</t>06:10&a;").as_bytes(), DEFAULT, slots)
}

/// A document of the greatest length, with a time at its start and one at its end, and one that is longer, which is refused.
fn longest(amount: Amount) -> Family {
    let lengths = amount.of(vec![LONGEST, LONGEST + 1], vec![LONGEST - 1, LONGEST, LONGEST + 1, LONGEST + 2]);
    Family::new("columns of the greatest length", lengths.len(), move |job, sink| {
        let mut document = b"<t>06:15</t>".to_vec();
        document.resize(lengths[job] - 8, b' ');
        document.extend(b"<t>05:00");
        sink.case(&document, DEFAULT, 2)
    })
}

/// Tokens and bytes in every order.
fn alphabets() -> Vec<Alphabet> {
    const TOKENS: &[&[u8]] = &[
        b"<t>",
        b"</t>",
        b"<b>",
        b"</b>",
        b"<t/>",
        b"06:15",
        b"05:00",
        b"24:10",
        b" ",
        b"&a;",
        b"<!---->",
        b"<![CDATA[05:00]]>",
        b"<?p?>",
        b"x",
        b"<tt>",
        b"\xC2\xA0",
    ];
    const NESTED: &[&[u8]] = &[b"<t>", b"</t>", b"<b>", b"</b>", b"06:15", b"05:00", b"\n"];
    const SMALL: &[&[u8]] = &[b"<t>", b"</t>", b"<b>", b"</b>", b"06:15"];
    const CUT: &[&[u8]] = &[
        b"<t",
        b">",
        b"06:",
        b"15",
        b"<",
        b"/",
        b"&",
        b";",
        b"<!--",
        b"-->",
        b"<![CDATA[",
        b"]]>",
        b"<?",
        b"?>",
        b"'",
        b"</t>",
        b"<!D",
        b"\xFF",
    ];
    let default = || vec![DEFAULT];
    vec![
        tokens("tokens of a timetable", TOKENS, (4, 6), default(), vec![STACK]),
        tokens("nested `t`", NESTED, (5, 8), default(), vec![STACK]),
        tokens("nested `t` with every small stack", SMALL, (4, 7), default(), (0..=7).collect()),
        tokens("tokens that are cut off", CUT, (3, 5), default(), vec![STACK]),
        bytes("bytes of a time", b"<t>", b"0245679: ", (5, 7), &[]),
        bytes("bytes of a time behind one", b"<t>06:15</t><t>0", b"0569: <", (5, 7), &[]),
        bytes("white space around a time", b"<t>", b" \t\r\n\x0B\x0C&<", (4, 6), &[]),
    ]
}

/// Tags that open `t`, by what stands between `<` and `>`.
const OF_T: &[&str] = &["t", "t", "t", "t", "t", "t ", "t\n", "t n=\"1\"", "t\tat='06:15'", "t\r\nd=\"a>b\"", "t  e='/'"];
/// Tags that open another name, some of which nearly are `t`.
const OTHERS: &[&str] = &[
    "r", "b", "row", "tt", "T", "b:t", "t:b", "at", "ta", "t.", "t-1", "t=''", "t'x'", " t", "", "t/ ", "\u{ff54}", "t\u{a0}", "t\0",
    "\x0Bt", "t\x0C", "stop",
];
const SPACES: &[&str] = &["", "", "", " ", "\n", "\t", "\r\n", "\n  ", " \t \r "];
/// What may stand anywhere and is passed over.
const PASSED: &[&str] = &[
    "<!--c-->",
    "<!---->",
    "<!--05:00-->",
    "<!-- <t>05:00</t> -->",
    "<![CDATA[05:00]]>",
    "<![CDATA[<t>&x;]]>",
    "<![CDATA[]]>",
    "<?p 05:00?>",
    "<??>",
    "<t/>",
    "<t />",
    "<t a='05:00'/>",
    "<b/>",
    "<b>x</b>",
    "<b>&lt;</b>",
    "<b> 99:99 </b>",
    "<tt>x</tt>",
];
/// What is no time.
const NEARLY: &[&[u8]] = &[
    b"48:00",
    b"23:60",
    b"47:60",
    b"99:99",
    b"6:15",
    b"006:15",
    b"06.15",
    b"06:1",
    b"06:155",
    b"0615",
    b"06:15:00",
    b"06: 15",
    b"06 :15",
    b"+6:15",
    b"06:+5",
    b"-6:15",
    b":",
    b"06:",
    b":15",
    b"06:15 06:20",
    b"06:15\x0B",
    b"\x0C06:15",
    b"06:15\0",
    b"4a:00",
    b"0x:15",
    b"/6:15",
    b"0::15",
    b"06:1:",
    b"x",
    b"\xC2\xA006:15",
    b"06:15\xC2\xA0",
    b"\xE2\x80\x8306:15",
    b"\xEF\xBB\xBF06:15",
    b"06:15\xC2\x85",
    b"06\xEF\xBC\x9A15",
    b"\xEF\xBC\x90\xEF\xBC\x96:\xEF\xBC\x91\xEF\xBC\x95",
    b"\xD9\xA0\xD9\xA6:\xD9\xA1\xD9\xA5",
    b"06:15\xFF",
    b"\xC306:15",
    b"06:\xE2\x80",
    b"\x80",
];
/// What the reader refuses, or ours within `t`.
const REFUSED: &[&[u8]] = &[
    b"&lt;",
    b"&#54;",
    b"&;",
    b"& ",
    b"&a",
    b"</x>",
    b"</T>",
    b"</ t>",
    b"</t/>",
    b"</t a='1'>",
    b"</>",
    b"<!DOCTYPE t>",
    b"<!doctype",
    b"<!x>",
    b"<![x]]>",
    b"<!->",
    b"<!--",
    b"<![CDATA[",
    b"<?>",
    b"<?",
    b"<?xml",
    b"<t",
    b"<t a='",
    b"<t a=\"",
    b"<\xFF>",
    b"<",
];

/// A timetable that grows.
struct Page<'a> {
    dice: &'a mut Dice,
    out: &'a mut Vec<u8>,
    /// The open tags, as they stand between `<` and `>`.
    open: Vec<&'static str>,
    /// The latest time.
    now: usize,
    /// One in so many things is bad; 0 for none.
    bad: usize,
    /// One time in so many is any time at all; 0 for none, so that the column is in order.
    any: usize,
}

impl Page<'_> {
    fn one_in(&mut self, count: usize) -> bool {
        count > 0 && self.dice.below(count) == 0
    }

    fn put(&mut self, of: &[&str]) {
        self.out.extend(self.dice.pick(of).as_bytes());
    }

    fn tag(&mut self, of: &[&'static str]) {
        let tag = self.dice.pick(of);
        self.out.push(b'<');
        self.out.extend(tag.as_bytes());
        self.out.push(b'>');
        self.open.push(tag);
    }

    fn close(&mut self) {
        let Some(tag) = self.open.pop() else { return };
        let name = tag.split([' ', '\t', '\n', '\r']).next().unwrap_or_default();
        self.out.extend(b"</");
        self.out.extend(name.as_bytes());
        if self.dice.below(4) == 0 && !name.is_empty() {
            self.put(SPACES);
        }
        self.out.push(b'>');
    }

    fn within(&self) -> bool {
        self.open.last().is_some_and(|tag| OF_T.contains(tag))
    }

    fn time(&mut self) {
        self.now = match self.dice.below(8) {
            _ if self.one_in(self.any) => self.dice.below(TIMES),
            0 if self.any > 0 => self.now.saturating_sub(self.dice.below(3)),
            0 | 1 => self.now,
            _ => (self.now + self.dice.below(40)).min(TIMES - 1),
        };
        self.put(SPACES);
        self.out.extend(clock(self.now).as_bytes());
        self.put(SPACES);
    }

    fn bad(&mut self) {
        match self.dice.below(3) {
            0 => self.out.extend(self.dice.pick(REFUSED)),
            _ if !self.within() => self.tag(OF_T),
            _ => self.out.extend(self.dice.pick(NEARLY)),
        }
    }

    /// Within `t` mostly a time, and something between two of them.
    fn inside(&mut self) {
        match self.dice.below(10) {
            0..=3 => {
                self.time();
                match self.dice.below(6) {
                    0 => self.put(PASSED),
                    1 => self.tag(OTHERS),
                    _ => self.close(),
                }
            }
            4 => {
                self.put(SPACES);
                self.put(PASSED)
            }
            5 => self.tag(OTHERS),
            6 => self.tag(OF_T),
            _ => self.close(),
        }
    }

    fn outside(&mut self, deepest: usize) {
        match self.dice.below(10) {
            0..=3 if self.open.len() < deepest => self.tag(OF_T),
            4 if self.open.len() < deepest => self.tag(OTHERS),
            5 => self.put(PASSED),
            6 => self.put(SPACES),
            7 => self.put(&["Basel", "x", "&amp;", "05:00", "99:99", "\u{6771}"]),
            _ => self.close(),
        }
    }
}

/// A timetable of some such length: nested names, times in `t`, and what may stand around them. One thing in so many is bad, and one time in so many is any time.
fn timetable(dice: &mut Dice, out: &mut Vec<u8>, length: usize, bad: usize, any: usize) {
    out.clear();
    if dice.below(8) == 0 {
        out.extend(b"\xEF\xBB\xBF");
    }
    if dice.below(4) == 0 {
        out.extend(b"<?xml version=\"1.0\"?>\n");
    }
    let deepest = 1 + dice.below(6);
    let now = dice.below(TIMES);
    let mut page = Page { dice, out, open: Vec::new(), now, bad, any };
    while page.out.len() < length {
        match page.within() {
            _ if page.one_in(page.bad) => page.bad(),
            true => page.inside(),
            false => page.outside(deepest),
        }
    }
    while !page.open.is_empty() && page.dice.below(12) > 0 {
        page.close();
    }
}

/// The slots of a stack that holds what most timetables need, or sometimes too few, or an odd number of them.
fn slots(dice: &mut Dice) -> usize {
    match dice.below(6) {
        0 => dice.below(8),
        1 => 5 + 2 * dice.below(8),
        _ => 24 + dice.below(17),
    }
}

/// Random timetables, and damaged copies of each.
fn timetables(amount: Amount, seed: u64) -> Family {
    const EACH: usize = 1_000;
    Family::new("random columns and damaged copies", amount.of(60, 1_600), move |job, sink| {
        let mut dice = Dice::new(seed ^ (job as u64) << 20 ^ 0x636F_6C75);
        let (mut document, mut copy) = (Vec::new(), Vec::new());
        for _ in 0..EACH {
            let bad = [0, 0, 60, 10][dice.below(4)];
            let any = [0, 0, 20, 3][dice.below(4)];
            let length = 20 + dice.below(300);
            timetable(&mut dice, &mut document, length, bad, any);
            sink.case(&document, DEFAULT, slots(&mut dice))?;
            for damages in 1..4 {
                copy.clone_from(&document);
                (0..damages).for_each(|_| hurt(&mut dice, &mut copy));
                sink.case(&copy, DEFAULT, slots(&mut dice))?;
            }
        }
        ON
    })
}

/// Tags, times, what is nearly one and all else in any order, within `t` or not.
fn soups(amount: Amount, seed: u64) -> Family {
    const EACH: usize = 5_000;
    Family::new("random tokens of a timetable", amount.of(20, 1_600), move |job, sink| {
        let mut dice = Dice::new(seed ^ (job as u64) << 20 ^ 0x746F_6B65);
        let mut document = Vec::new();
        for _ in 0..EACH {
            document.clear();
            document.extend(if dice.below(3) > 0 { "<t>".as_bytes() } else { b"" });
            for _ in 0..1 + dice.below(9) {
                match dice.below(16) {
                    0..=3 => document.extend(clock(dice.below(TIMES)).as_bytes()),
                    4 | 5 => document.extend(format!("<{}>", dice.pick(OF_T)).as_bytes()),
                    6 => document.extend(b"<b>"),
                    7 | 8 => document.extend(b"</t>"),
                    9 => document.extend(b"</b>"),
                    10 | 11 => document.extend(dice.pick(SPACES).as_bytes()),
                    12 | 13 => document.extend(dice.pick(PASSED).as_bytes()),
                    14 => document.extend(dice.pick(NEARLY)),
                    _ => document.extend(dice.pick(REFUSED)),
                }
            }
            sink.case(&document, DEFAULT, slots(&mut dice))?;
        }
        ON
    })
}

/// Damages a document anywhere, or a digit or a colon of it.
fn hurt(dice: &mut Dice, document: &mut Vec<u8>) {
    let from = dice.below(document.len().max(1));
    let at = document[from..].iter().position(|b| b.is_ascii_digit() || *b == b':');
    match (dice.below(2), at) {
        (0, Some(at)) => document[from + at] = *dice.pick(&[&b'0', &b'1', &b'3', &b'4', &b'5', &b'6', &b'9', &b':', &b' ', &b'/', &b'<']),
        _ => damage(dice, document),
    }
}

/// Timetables of up to some megabytes, whole or with something bad far behind.
fn large(amount: Amount, seed: u64) -> Family {
    let lengths = amount.of(vec![1 << 16, 1 << 20], vec![1 << 14, 1 << 16, 1 << 18, 1 << 20, 4 << 20]);
    Family::new("large columns", 4 * lengths.len(), move |job, sink| {
        let mut dice = Dice::new(seed ^ (job as u64) << 20 ^ 0x6C61_7267);
        let length = lengths[job / 4];
        let mut document = Vec::new();
        timetable(&mut dice, &mut document, length, [0, 0, length / 30, length / 60][job % 4], [0, length / 40, 100, 0][job % 4]);
        for _ in 0..4 {
            sink.case(&document, DEFAULT, 64)?;
            hurt(&mut dice, &mut document);
        }
        ON
    })
}

/// As many equal times as an index of 8 or 16 bits tells, some more or fewer, and a lower one behind them.
fn many() -> Family {
    const COUNTS: [usize; 8] = [254, 255, 256, 65_534, 65_535, 65_536, 65_537, 200_000];
    Family::new("a lower time behind many", COUNTS.len(), |job, sink| {
        let document = format!("{}<t>23:59</t><t>x</t>", "<t>24:00</t>".repeat(COUNTS[job]));
        sink.case(document.as_bytes(), DEFAULT, STACK)?;
        sink.case(&document.as_bytes()[..document.len() - 8], DEFAULT, STACK)
    })
}

/// Real files, without their DOCTYPE, in which a name of theirs is `t` and texts are times.
pub fn of_files(paths: Vec<PathBuf>, seed: u64) -> Family {
    Family::new("files with times put in", paths.len(), move |job, sink| {
        let document = fs::read(&paths[job]).unwrap_or_else(|error| panic!("{}: {error}", paths[job].display()));
        let document = without_doctype(&document).unwrap_or(document);
        let mut dice = Dice::new(seed ^ (job as u64) << 20 ^ 0x6669_6C65);
        for kept in [0, 0, 40, 4] {
            sink.case(&with_times(&mut dice, &document, kept), DEFAULT, 512)?;
        }
        ON
    })
}

/// The document with one of its names as `t`, and texts as times, but for one in so many that stays; 0 for none.
fn with_times(dice: &mut Dice, document: &[u8], kept: usize) -> Vec<u8> {
    let ends = |b: &u8| b" \t\r\n/>".contains(b);
    let length = |from: usize| document[from..].iter().take_while(|b| !ends(b)).count();
    let starts: Vec<usize> = (1..document.len()).filter(|&at| document[at - 1] == b'<' && document[at].is_ascii_alphabetic()).collect();
    let name = match starts.len() {
        0 => 0..0,
        count => {
            let from = starts[dice.below(count)];
            from..from + length(from)
        }
    };
    let mut out = Vec::with_capacity(document.len());
    let mut at = 0;
    while at < document.len() {
        let rest = &document[at..];
        let opener = if rest.starts_with(b"</") { 2 } else { 1 };
        if rest[0] == b'<'
            && !name.is_empty()
            && rest[opener.min(rest.len())..].starts_with(&document[name.clone()])
            && length(at + opener) == name.len()
        {
            out.extend(&rest[..opener]);
            out.push(b't');
            at += opener + name.len();
        } else if rest[0] == b'>' {
            let text = 1 + rest[1..].iter().take_while(|&&b| b != b'<' && b != b'&').count();
            let blank = rest[1..text].iter().all(|b| b.is_ascii_whitespace());
            match blank || kept > 0 && dice.below(kept) == 0 {
                true => out.extend(&rest[..text]),
                false => out.extend(format!("> {}\n", clock(dice.below(TIMES))).as_bytes()),
            }
            at += text;
        } else {
            out.push(rest[0]);
            at += 1;
        }
    }
    out
}
