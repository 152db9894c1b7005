//! Wrong accounts, by what is wrong in them, each of which has to be noticed.

use super::account::*;
use super::*;
use crate::ours::{CDATA, COMMENT, DECL, EMPTY, PI};
use crate::theirs::Seen;

pub const ALL: &[&[Account]] = &[TIMES, ENDS, NAMES, EVENTS, VERDICTS, PLACES, ORDER, COLUMNS, STACKS, ANSWERS];

const fn timing(name: &'static str, time: fn(&str) -> Option<usize>) -> Account {
    Account { name, time, ..SOUND }
}

const fn clearing(name: &'static str, clear: fn(&str) -> &str) -> Account {
    Account { name, clear, ..SOUND }
}

const fn naming(name: &'static str, within: fn(&Reading) -> bool) -> Account {
    Account { name, within, reference: within, ..SOUND }
}

const fn referring(name: &'static str, reference: fn(&Reading) -> bool) -> Account {
    Account { name, reference, ..SOUND }
}

const fn taking(name: &'static str, taken: fn(&Reading, &mut Seen)) -> Account {
    Account { name, taken, ..SOUND }
}

const fn closing(name: &'static str, close: fn(&mut Reading)) -> Account {
    Account { name, close, ..SOUND }
}

const fn judging(name: &'static str, verdict: fn(Word, &Reading) -> Verdict) -> Account {
    Account { name, verdict, ..SOUND }
}

const fn refusing(name: &'static str, refuse: fn(&Reading, &mut Refusal)) -> Account {
    Account { name, refuse, ..SOUND }
}

const fn ordering(name: &'static str, lower: fn(&[usize]) -> usize) -> Account {
    Account { name, lower, ..SOUND }
}

const fn opening(name: &'static str, open: fn(&mut Reading, (usize, usize))) -> Account {
    Account { name, open, ..SOUND }
}

const fn holding(name: &'static str, holds: fn(usize) -> usize) -> Account {
    Account { name, holds, ..SOUND }
}

const fn ending(name: &'static str, end: fn(&mut Ended)) -> Account {
    Account { name, end, ..SOUND }
}

/// Hours and minutes of any digits, by Rust's own reading of numbers.
fn parsed(text: &str) -> Option<(usize, usize)> {
    let (hours, minutes) = text.split_once(':')?;
    Some((hours.parse().ok()?, minutes.parse().ok()?))
}

/// Two digits, a colon and two digits, with hours and minutes below these.
fn below(text: &str, hours: usize, minutes: usize) -> Option<usize> {
    let digits = text.len() == 5 && text.bytes().enumerate().all(|(at, b)| at == 2 || b.is_ascii_digit());
    let (h, m) = parsed(text).filter(|_| digits)?;
    (h < hours && m < minutes).then_some(60 * h + m)
}

/// A time if the text has so many bytes, with one put in at a place.
fn put(text: &str, bytes: usize, at: usize, more: &str) -> Option<usize> {
    time(&[text.get(..at)?, more, text.get(at..)?].concat()).filter(|_| text.len() == bytes)
}

/// The minutes of a day.
const DAY: usize = 24 * 60;

const TIMES: &[Account] = &[
    timing("hours up to 23 only", |text| time(text).filter(|&time| time < DAY)),
    timing("hours up to 46 only", |text| time(text).filter(|&time| time < 47 * 60)),
    timing("hours 48", |text| below(text, 49, 60)),
    timing("minutes 60", |text| below(text, 48, 61)),
    timing("minutes up to 58 only", |text| time(text).filter(|time| time % 60 < 59)),
    timing("any hours", |text| below(text, 100, 60)),
    timing("any minutes", |text| below(text, 48, 100)),
    timing("24:10 as 10", |text| time(text).map(|time| time % DAY)),
    timing("24:00 as 0", |text| time(text).map(|time| if time == DAY { 0 } else { time })),
    timing("an hour counts 100", |text| time(text).map(|time| time / 60 * 100 + time % 60)),
    timing("hours and minutes exchanged", |text| time(text).map(|time| time % 60 * 60 + time / 60)),
    timing("the tens of the hours lost", |text| time(text).map(|time| time % 600)),
    timing("values in 11 bits", |text| time(text).map(|time| time % 2_048)),
    timing("one digit of the hours suffices", |text| time(text).or(put(text, 4, 0, "0"))),
    timing("one digit of the minutes suffices", |text| time(text).or(put(text, 4, 3, "0"))),
    timing("three digits of the hours", |text| time(text.strip_prefix('0').filter(|_| text.len() == 6).unwrap_or(text))),
    timing("three digits of the minutes", |text| time(text.get(..5).filter(|_| text.ends_with('5') && text.len() == 6).unwrap_or(text))),
    timing("numbers with a sign", |text| parsed(text).filter(|&(h, m)| text.len() == 5 && h < 48 && m < 60).map(|(h, m)| 60 * h + m)),
    timing("a point for the colon", |text| time(&text.replace('.', ":"))),
    timing("no colon", |text| time(text).or(put(text, 4, 2, ":"))),
    timing("seconds", |text| time(text.strip_suffix(":00").unwrap_or(text))),
    timing("what follows five bytes passes", |text| time(text.get(..5)?)),
    timing("what goes before five bytes passes", |text| time(text.get(text.len().checked_sub(5)?..)?)),
    timing("digits of full width", |text| {
        time(&text.replace('\u{ff10}', "0").replace('\u{ff16}', "6").replace('\u{ff11}', "1").replace('\u{ff15}', "5"))
    }),
    timing("a colon of full width", |text| time(&text.replace('\u{ff1a}', ":"))),
    timing("the byte before `0` is a digit", |text| time(&text.replace('/', "0"))),
    timing("the byte behind `9` is a digit", |text| time(text).or(time(&text.replace("::", "9:")))),
    timing("white space within a time", |text| time(&text.replace(' ', ""))),
    timing("a byte of zero does not count", |text| time(&text.replace('\0', ""))),
];

const ENDS: &[Account] = &[
    clearing("the start is not cleared", |text| text.trim_end_matches(WHITE)),
    clearing("the end is not cleared", |text| text.trim_start_matches(WHITE)),
    clearing("nothing is cleared", |text| text),
    clearing("a space is no white space", |text| text.trim_matches(['\t', '\n', '\r'])),
    clearing("a tab is no white space", |text| text.trim_matches([' ', '\n', '\r'])),
    clearing("a line feed is no white space", |text| text.trim_matches([' ', '\t', '\r'])),
    clearing("a carriage return is no white space", |text| text.trim_matches([' ', '\t', '\n'])),
    clearing("a form feed is white space", |text| text.trim_matches(|c: char| c.is_ascii_whitespace())),
    clearing("a vertical tab is white space", |text| text.trim_matches([' ', '\t', '\n', '\r', '\x0B'])),
    clearing("a byte of zero is white space", |text| text.trim_matches([' ', '\t', '\n', '\r', '\0'])),
    clearing("a space that does not break is white space", |text| text.trim_matches([' ', '\t', '\n', '\r', '\u{a0}'])),
    clearing("white space is that of Unicode", |text| text.trim()),
    clearing("a byte order mark is white space", |text| text.trim_matches([' ', '\t', '\n', '\r', '\u{feff}'])),
    clearing("one byte is cleared at the start", |text| text.strip_prefix(WHITE).unwrap_or(text).trim_end_matches(WHITE)),
    clearing("one byte is cleared at the end", |text| text.strip_suffix(WHITE).unwrap_or(text).trim_start_matches(WHITE)),
    clearing("cleared up to 64 bytes", |text| if text.len() > 69 { text } else { text.trim_matches(WHITE) }),
];

/// Whether a name that is open, but for the latest, is `t`.
fn around(reading: &Reading) -> bool {
    reading.open.iter().any(|&name| reading.bytes(name) == b"t")
}

const NAMES: &[Account] = &[
    naming("`t` by its first byte", |reading| reading.latest().is_some_and(|name| name.starts_with(b"t"))),
    naming("`t` by its last byte", |reading| reading.latest().is_some_and(|name| name.ends_with(b"t"))),
    naming("`T` too", |reading| reading.latest().is_some_and(|name| name.eq_ignore_ascii_case(b"t"))),
    naming("any name of one byte", |reading| reading.latest().is_some_and(|name| name.len() == 1)),
    naming("a name of no bytes too", |reading| within(reading) || reading.latest() == Some(b"")),
    naming("no name is as good as `t`", |reading| within(reading) || reading.open.is_empty()),
    naming("`t` behind a colon", |reading| reading.latest().is_some_and(|name| name == b"t" || name.ends_with(b":t"))),
    naming("`t` before a colon", |reading| reading.latest().is_some_and(|name| name == b"t" || name.starts_with(b"t:"))),
    naming("`t` before a slash", |reading| reading.latest().is_some_and(|name| name == b"t" || name.starts_with(b"t/"))),
    naming("`t` with attributes is none", |reading| {
        within(reading) && reading.open.last().is_some_and(|name| reading.document[name.1] == b'>')
    }),
    naming("any open name", around),
    naming("the outermost name", |reading| reading.open.first().is_some_and(|&name| reading.bytes(name) == b"t")),
    naming("within `t` in `t` nothing", |reading| {
        within(reading) && reading.open.iter().filter(|&&name| reading.bytes(name) == b"t").count() == 1
    }),
    naming("not below depth 20", |reading| within(reading) && reading.open.len() <= 20),
    naming("all text", |_| true),
    naming("none", |_| false),
];

/// Passes an answer of the crate over.
fn pass(seen: &mut Seen) {
    *seen = Seen { kind: COMMENT, ..Seen::default() };
}

const EVENTS: &[Account] = &[
    taking("CDATA is taken", |_, seen| {
        if seen.kind == CDATA {
            seen.kind = TEXT
        }
    }),
    taking("comments are taken", |_, seen| {
        if seen.kind == COMMENT {
            seen.kind = TEXT
        }
    }),
    taking("instructions are taken", |_, seen| {
        if matches!(seen.kind, PI | DECL) {
            seen.kind = TEXT
        }
    }),
    taking("CDATA is as bad as a reference", |_, seen| {
        if seen.kind == CDATA {
            seen.kind = REF
        }
    }),
    taking("`<t/>` opens `t`", |_, seen| {
        if seen.kind == EMPTY && seen.name == 1 {
            seen.kind = START
        }
    }),
    taking("an empty element closes the latest name", |_, seen| {
        if seen.kind == EMPTY {
            seen.kind = END
        }
    }),
    taking("text behind markup in `t` is passed over", |reading, seen| {
        if seen.kind == TEXT && reading.document[..reading.piece.0].ends_with(b"/>") {
            pass(seen)
        }
    }),
    taking("text behind an end tag is passed over", |reading, seen| {
        let behind = reading.document[..reading.piece.0].rsplit(|&b| b == b'<').next().is_some_and(|tag| tag.starts_with(b"/"));
        if seen.kind == TEXT && behind {
            pass(seen)
        }
    }),
    taking("text at the document's end is passed over", |reading, seen| {
        if seen.kind == TEXT && reading.piece.1 == reading.document.len() {
            pass(seen)
        }
    }),
    taking("text before a reference is passed over", |reading, seen| {
        if seen.kind == TEXT && reading.document.get(reading.piece.1) == Some(&b'&') {
            pass(seen)
        }
    }),
    taking("a document ends with its first element", |reading, seen| {
        if reading.kind == TEXT && reading.open.is_empty() && reading.piece.0 > 3 {
            seen.kind = EOF
        }
    }),
    closing("a name is never closed", |_| ()),
    closing("a name closes all", |reading| reading.open.clear()),
    closing("the second name closes the first too", |reading| reading.open.truncate(reading.open.len().saturating_sub(2))),
    referring("references are passed over", |_| false),
    referring("references anywhere are refused", |_| true),
    referring("references in any open `t` are refused", around),
    referring("references outside every name are refused", |reading| within(reading) || reading.open.is_empty()),
    referring("references to characters are passed over", |reading| within(reading) && !reading.bytes(reading.content).starts_with(b"#")),
    referring("a reference without a name is passed over", |reading| within(reading) && !reading.bytes(reading.content).is_empty()),
    referring("references in an empty column are passed over", |reading| within(reading) && !reading.times.is_empty()),
    taking("all refusals are passed over", |_, seen| {
        if seen.number != 0 {
            pass(seen)
        }
    }),
    taking("10 is passed over", |_, seen| {
        if seen.number == MISMATCHED {
            *seen = Seen { kind: END, ..Seen::default() }
        }
    }),
    taking("11 is passed over", |_, seen| {
        if seen.number == UNMATCHED_END {
            pass(seen)
        }
    }),
    taking("12 is passed over", |_, seen| {
        if seen.number == 12 {
            pass(seen)
        }
    }),
    taking("13 is passed over", |_, seen| {
        if seen.number == ENCODING {
            pass(seen)
        }
    }),
    taking("13 ends the document", |_, seen| {
        if seen.number == ENCODING {
            *seen = Seen { kind: EOF, ..Seen::default() }
        }
    }),
    taking("14 is passed over", |_, seen| {
        if seen.number == DOCTYPE {
            pass(seen)
        }
    }),
    taking("1 at the end is the end", |_, seen| {
        if seen.number == 1 {
            pass(seen)
        }
    }),
];

/// Whether the column is full.
fn full(reading: &Reading) -> bool {
    reading.times.len() >= reading.room
}

const VERDICTS: &[Account] = &[
    judging("a full column stops silently", |word, reading| match word {
        Word::Time(_) if full(reading) => Verdict::Pass,
        _ => verdict(word, reading),
    }),
    judging(
        "31 before 30",
        |word, reading| if word == Word::Bad && full(reading) { Verdict::Refuse(COLUMN_FULL) } else { verdict(word, reading) },
    ),
    judging("31 for empty text", |word, reading| if full(reading) { Verdict::Refuse(COLUMN_FULL) } else { verdict(word, reading) }),
    judging("31 a time early", |word, reading| match word {
        Word::Time(_) if reading.times.len() + 1 >= reading.room => Verdict::Refuse(COLUMN_FULL),
        _ => verdict(word, reading),
    }),
    judging("30 for a full column", |word, reading| match verdict(word, reading) {
        Verdict::Refuse(_) => Verdict::Refuse(BAD_TIME),
        other => other,
    }),
    judging("15 for a full column", |word, reading| match verdict(word, reading) {
        Verdict::Refuse(COLUMN_FULL) => Verdict::Refuse(STACK_FULL),
        other => other,
    }),
    judging(
        "empty text is refused",
        |word, reading| if word == Word::Nothing { Verdict::Refuse(BAD_TIME) } else { verdict(word, reading) },
    ),
    judging("empty text is refused in a column with times", |word, reading| match word {
        Word::Nothing if !reading.times.is_empty() => Verdict::Refuse(BAD_TIME),
        _ => verdict(word, reading),
    }),
    judging(
        "empty text is midnight",
        |word, reading| if word == Word::Nothing { verdict(Word::Time(0), reading) } else { verdict(word, reading) },
    ),
    judging("bad text is passed over", |word, reading| if word == Word::Bad { Verdict::Pass } else { verdict(word, reading) }),
    judging("bad text at a full column is passed over", |word, reading| {
        if word == Word::Bad && full(reading) {
            Verdict::Pass
        } else {
            verdict(word, reading)
        }
    }),
    judging("a time that stood there is passed over", |word, reading| match word {
        Word::Time(value) if reading.times.contains(&value) => Verdict::Pass,
        _ => verdict(word, reading),
    }),
    judging("a time that is lower is refused", |word, reading| match word {
        Word::Time(value) if reading.times.last().is_some_and(|&last| value < last) => Verdict::Refuse(BAD_TIME),
        _ => verdict(word, reading),
    }),
];

/// How many bytes of white space a piece starts with.
fn blanks(reading: &Reading) -> usize {
    reading.bytes(reading.piece).iter().take_while(|&&b| WHITE.contains(&char::from(b))).count()
}

const PLACES: &[Account] = &[
    refusing("the place of 30 is that of the cleared text", |reading, refusal| {
        if refusal.number == BAD_TIME {
            refusal.place += blanks(reading)
        }
    }),
    refusing("the place of 31 is that of the time", |reading, refusal| {
        if refusal.number == COLUMN_FULL {
            refusal.place += blanks(reading)
        }
    }),
    refusing("the place of 30 is the piece's end", |_, refusal| {
        if refusal.number == BAD_TIME {
            refusal.place = refusal.piece.1
        }
    }),
    refusing("the place of 31 is the piece's end", |_, refusal| {
        if refusal.number == COLUMN_FULL {
            refusal.place = refusal.piece.1
        }
    }),
    refusing("the place of a reference is behind its ampersand", |reading, refusal| {
        if refusal.number == BAD_TIME && reading.kind == REF {
            refusal.place += 1
        }
    }),
    refusing("the place of 30 is that of the name", |reading, refusal| {
        if refusal.number == BAD_TIME {
            refusal.place = reading.open[reading.open.len() - 1].0
        }
    }),
    refusing("the place of 13 is the piece's start", |_, refusal| {
        if refusal.number == ENCODING {
            refusal.place = refusal.piece.0
        }
    }),
    refusing("a byte order mark does not count", |reading, refusal| {
        if reading.document.starts_with(b"\xEF\xBB\xBF") && refusal.number != 0 {
            refusal.place -= 3
        }
    }),
    refusing("30 has no piece", |_, refusal| {
        if refusal.number == BAD_TIME {
            refusal.piece.1 = refusal.piece.0
        }
    }),
    refusing("31 has no piece", |_, refusal| {
        if refusal.number == COLUMN_FULL {
            refusal.piece = (0, 0)
        }
    }),
    refusing("the piece of 30 is cleared", |reading, refusal| {
        if refusal.number == BAD_TIME {
            refusal.piece.0 += blanks(reading)
        }
    }),
    refusing("the piece of a reference is its content", |reading, refusal| {
        if refusal.number == BAD_TIME && reading.kind == REF {
            refusal.piece = reading.content
        }
    }),
    refusing("the reader's refusals have no piece", |_, refusal| {
        if refusal.number < BAD_TIME {
            refusal.piece = (0, 0)
        }
    }),
    refusing("15 has the piece of the tag", |reading, refusal| {
        if refusal.number == STACK_FULL {
            refusal.piece.1 = reading.piece.1
        }
    }),
    refusing("14 has the rest as its piece", |reading, refusal| {
        if refusal.number == DOCTYPE {
            refusal.piece.1 = reading.document.len()
        }
    }),
    refusing("10 has no name expected", |_, refusal| refusal.expected = (0, 0)),
    refusing("10 and 11 have no name found", |_, refusal| refusal.found = (0, 0)),
    refusing("names expected and found exchanged", |_, refusal| std::mem::swap(&mut refusal.expected, &mut refusal.found)),
    refusing("30 has the name as expected", |reading, refusal| {
        if refusal.number == BAD_TIME {
            refusal.expected = reading.open[reading.open.len() - 1]
        }
    }),
    refusing("30 has the text as found", |reading, refusal| {
        if refusal.number == BAD_TIME {
            refusal.found = reading.piece
        }
    }),
    refusing("16 has the document's length as its place", |reading, refusal| {
        if refusal.number == TOO_LONG {
            refusal.place = reading.document.len()
        }
    }),
];

/// The first index of which this holds, with the time before it; 0 for none.
fn first(times: &[usize], holds: fn(usize, usize) -> bool) -> usize {
    times.windows(2).position(|pair| holds(pair[0], pair[1])).map_or(0, |before| before + 1)
}

const ORDER: &[Account] = &[
    ordering("order against the first time only", |times| times.iter().position(|time| *time < times[0]).unwrap_or(0)),
    ordering("equal times are no order", |times| first(times, |before, time| time <= before)),
    ordering("the index of the time before", |times| first(times, |before, time| time < before).saturating_sub(1)),
    ordering("indices from 1", |times| match first(times, |before, time| time < before) {
        0 => 0,
        lower => lower + 1,
    }),
    ordering("the last index that is lower", |times| times.windows(2).rposition(|pair| pair[1] < pair[0]).map_or(0, |before| before + 1)),
    ordering("the first index that is higher", |times| first(times, |before, time| time > before)),
    ordering("order of the times of a day", |times| first(times, |before, time| time % DAY < before % DAY)),
    ordering("order of the hours", |times| first(times, |before, time| time / 60 < before / 60)),
    ordering("lower by more than a minute", |times| first(times, |before, time| time + 1 < before)),
    ordering("order against the second time before", |times| {
        times.windows(3).position(|three| three[2] < three[0]).map_or(0, |before| before + 2)
    }),
    ordering("the first two do not count", |times| first(&times[times.len().min(1)..], |before, time| time < before)),
    ordering("the last two do not count", |times| first(&times[..times.len().saturating_sub(1)], |before, time| time < before)),
    ordering("never told", |_| 0),
    ordering("indices in a byte", |times| first(times, |before, time| time < before) % 256),
    ordering("indices in 16 bits", |times| first(times, |before, time| time < before) % 65_536),
    ending("order not told on refusal", |ended| {
        if ended.returned != 0 {
            ended.answer[LOWER] = 0
        }
    }),
    ending("order not told on 31", |ended| {
        if ended.returned == COLUMN_FULL {
            ended.answer[LOWER] = 0
        }
    }),
    ending("the count where it is in order", |ended| {
        if ended.answer[LOWER] == 0 {
            ended.answer[LOWER] = ended.times.len()
        }
    }),
];

/// The slots of the column past the count.
fn past<'a>(ended: &'a mut Ended) -> &'a mut [usize] {
    &mut ended.column[ended.times.len()..]
}

const COLUMNS: &[Account] = &[
    ending("a slot past the count", |ended| past(ended).iter_mut().take(1).for_each(|slot| *slot = 0)),
    ending("a slot past the count where there are times", |ended| {
        let last = ended.times.last().copied();
        past(ended).iter_mut().zip(last).for_each(|(slot, last)| *slot = last);
    }),
    ending("the column's last slot", |ended| past(ended).iter_mut().next_back().into_iter().for_each(|slot| *slot = 0)),
    ending("a slot past the count at 30", |ended| {
        if ended.returned == BAD_TIME {
            past(ended).iter_mut().take(1).for_each(|slot| *slot = 0)
        }
    }),
    ending("all slots past the count", |ended| past(ended).fill(0)),
    ending("times lost on refusal", |ended| {
        if ended.returned != 0 {
            ended.column[..ended.times.len()].fill(0)
        }
    }),
    ending("the count lost on refusal", |ended| {
        if ended.returned != 0 {
            ended.answer[COUNT] = 0
        }
    }),
    ending("the count of 31 is one more", |ended| {
        if ended.returned == COLUMN_FULL {
            ended.answer[COUNT] += 1
        }
    }),
    ending("the count is the column's room", |ended| ended.answer[COUNT] = ended.column.len()),
    ending("the count in 16 bits", |ended| ended.answer[COUNT] %= 65_536),
    ending("the last slot of a full column is midnight", |ended| {
        if ended.returned == COLUMN_FULL {
            ended.column.iter_mut().next_back().into_iter().for_each(|slot| *slot = 0)
        }
    }),
    ending("times backwards", |ended| ended.column[..ended.times.len()].reverse()),
    ending("times sorted", |ended| ended.column[..ended.times.len()].sort()),
    ending("the first time lost", |ended| {
        if ended.times.len() > 1 {
            ended.column[0] = ended.times[1]
        }
    }),
];

const STACKS: &[Account] = &[
    opening("the stack is as it was", |reading, name| reading.open.push(name)),
    opening("the stack has the outermost name alone", |reading, name| {
        if reading.open.is_empty() {
            write(reading, 0, name)
        }
        reading.open.push(name);
    }),
    opening("a name is written from the stack's start", |reading, name| {
        write(reading, 0, name);
        reading.open.push(name);
    }),
    opening("a name is written a slot late", |reading, name| {
        write(reading, 2 * reading.open.len() + 1, name);
        reading.open.push(name);
    }),
    opening("a name has its tag's end", |reading, name| {
        write(reading, 2 * reading.open.len(), (name.0, reading.piece.1));
        reading.open.push(name);
    }),
    opening("a name has its tag's start", |reading, name| {
        write(reading, 2 * reading.open.len(), (reading.piece.0, name.1));
        reading.open.push(name);
    }),
    opening("a name has its length", |reading, name| {
        write(reading, 2 * reading.open.len(), (name.0, name.1 - name.0));
        reading.open.push(name);
    }),
    opening("`t` alone is written", |reading, name| {
        if reading.bytes(name) == b"t" {
            write(reading, 2 * reading.open.len(), name)
        }
        reading.open.push(name);
    }),
    closing("a closed name is wiped", |reading| {
        reading.open.pop();
        write(reading, 2 * reading.open.len(), (0, 0));
    }),
    ending("the stack is wiped at the end", |ended| ended.stack.fill(0)),
    ending("the stack is wiped past the open names", |ended| ended.stack.iter_mut().skip(2 * ended.open.len()).for_each(|slot| *slot = 0)),
    ending("a slot of the stack at 15", |ended| {
        if ended.returned == STACK_FULL {
            ended.stack.iter_mut().next_back().into_iter().for_each(|slot| *slot = 0)
        }
    }),
    ending("a slot of the stack at 30", |ended| {
        if ended.returned == BAD_TIME {
            ended.stack[2 * ended.open.len() - 1] += 1
        }
    }),
    holding("room for a name less", |slots| (slots / 2).saturating_sub(1).min(MOST_NAMES)),
    holding("an odd slot is room for a name", |slots| slots.div_ceil(2).min(MOST_NAMES)),
    holding("a slot is room for a name", |slots| slots.min(MOST_NAMES)),
    holding("4,096 names at most", |slots| (slots / 2).min(4_096)),
    holding("65,534 names at most", |slots| (slots / 2).min(MOST_NAMES - 1)),
    holding("65,536 names at most", |slots| (slots / 2).min(MOST_NAMES + 1)),
    taking("an empty element needs room", |reading, seen| {
        if seen.kind == EMPTY && reading.open.len() >= reading.stack.len() / 2 {
            seen.kind = START
        }
    }),
];

const ANSWERS: &[Account] = &[
    ending("a slot of the answer past the tenth", |ended| ended.answer.iter_mut().skip(SLOTS).take(1).for_each(|slot| *slot = 0)),
    ending("all slots of the answer", |ended| ended.answer.iter_mut().skip(SLOTS).for_each(|slot| *slot = 0)),
    ending("0 is answered", |ended| ended.returned = 0),
    ending("0 is answered for 31", |ended| {
        if ended.returned == COLUMN_FULL {
            ended.returned = 0
        }
    }),
    ending("the count is answered", |ended| ended.returned = ended.times.len()),
    ending("31 is told as 30", |ended| {
        if ended.returned == COLUMN_FULL {
            ended.answer[NUMBER] = BAD_TIME
        }
    }),
    ending("the end is told as a piece", |ended| {
        if ended.returned == 0 {
            ended.answer[PIECE_FROM..PIECE_FROM + 2].fill(ended.document.len())
        }
    }),
    Account { name: "nine slots suffice", few: |slots| slots + 1 < SLOTS, ..SOUND },
    Account { name: "any slots suffice", few: |_| false, ..SOUND },
    Account { name: "ten slots are too few", few: |slots| slots <= SLOTS, ..SOUND },
    Account { name: "a document may have a byte more", long: |bytes| bytes > LONGEST + 1, ..SOUND },
    Account { name: "a document may have a byte less", long: |bytes| bytes >= LONGEST, ..SOUND },
    Account { name: "16 for more than 16,777,216 bytes", long: |bytes| bytes > 1 << 24, ..SOUND },
];
