//! Wrong accounts of ours and of the crate's rules, by what is wrong in them, each of which has to be noticed.

use super::account::{self, used, value, wanted, white, Account, Call, Reading, Step, Tag, Value};
use super::theirs::{self, next_white, Rules};
use super::*;
use crate::contents::Fault;

type Wrong = (&'static str, Account);

pub fn all() -> Vec<Fault<Account, Rules>> {
    contents::wrong(
        &[WHITE, NAMES, APART, DUPLICATES, VALUES, PLACES, STEPS, REACHED, FINDS, ANSWERS],
        RULES,
        (&account::SOUND, &theirs::SOUND),
    )
}

const SOUND: Account = account::SOUND;

const fn spacing(name: &'static str, white: fn(u8) -> bool) -> Wrong {
    (name, Account { white, ..SOUND })
}

const fn measuring(name: &'static str, length: fn(&[u8]) -> usize) -> Wrong {
    (name, Account { length, ..SOUND })
}

const fn naming(name: &'static str, of_a_name: fn(&[u8], usize, usize) -> bool) -> Wrong {
    (name, Account { of_a_name, ..SOUND })
}

const fn parting(name: &'static str, apart: fn(&Tag, usize, usize) -> bool) -> Wrong {
    (name, Account { apart, ..SOUND })
}

const fn using(name: &'static str, used: fn(&Tag, Span) -> Option<usize>) -> Wrong {
    (name, Account { used, ..SOUND })
}

const fn valuing(name: &'static str, value: fn(&[u8], usize) -> Value) -> Wrong {
    (name, Account { value, ..SOUND })
}

const fn quoting(name: &'static str, is_quote: fn(u8) -> bool) -> Wrong {
    (name, Account { is_quote, ..SOUND })
}

const fn telling(name: &'static str, told: fn(&Tag, &mut Step)) -> Wrong {
    (name, Account { told, ..SOUND })
}

const fn reaching(name: &'static str, reached: fn(&[u8], &Reading, usize) -> Option<usize>) -> Wrong {
    (name, Account { reached, ..SOUND })
}

const fn finding(name: &'static str, wanted: fn(&[u8], &Reading, &[u8]) -> usize) -> Wrong {
    (name, Account { wanted, ..SOUND })
}

const fn ending(name: &'static str, end: fn(&mut Call)) -> Wrong {
    (name, Account { end, ..SOUND })
}

const WHITE: &[Wrong] = &[
    spacing("a tab is no white space", |b| white(b) && b != b'\t'),
    spacing("a line feed is no white space", |b| white(b) && b != b'\n'),
    spacing("a carriage return is no white space", |b| white(b) && b != b'\r'),
    spacing("a space is no white space", |b| white(b) && b != b' '),
    spacing("a form feed is white space", |b| b.is_ascii_whitespace()),
    spacing("a vertical tab is white space", |b| white(b) || b == 0x0B),
    spacing("a byte of zero is white space", |b| white(b) || b == 0),
    measuring("the element's name ends at `=` too", |content| content.iter().position(|&b| white(b) || b == b'=').unwrap_or(content.len())),
    measuring("the element's name ends at a tab alone", |content| content.iter().position(|&b| b == b'\t').unwrap_or(content.len())),
    measuring("the element's name ends at `/` too", |content| content.iter().position(|&b| white(b) || b == b'/').unwrap_or(content.len())),
    measuring("white space in front does not count", |content| {
        let from = content.iter().take_while(|&&b| white(b)).count();
        from + (SOUND.length)(&content[from..])
    }),
    measuring("an element's name of 100 bytes at most", |content| (SOUND.length)(content).min(100)),
];

fn of_a_name(content: &[u8], from: usize, at: usize) -> bool {
    (SOUND.of_a_name)(content, from, at)
}

const NAMES: &[Wrong] = &[
    naming("a name may begin with `=`", |content, from, at| of_a_name(content, from, at) || at == from && content[at] == b'='),
    naming("a name may begin with a single quote", |content, from, at| of_a_name(content, from, at) || at == from && content[at] == b'\''),
    naming("a name may begin with a double quote", |content, from, at| of_a_name(content, from, at) || at == from && content[at] == b'"'),
    naming("a name may hold a single quote", |content, from, at| of_a_name(content, from, at) || at > from && content[at] == b'\''),
    naming("a name may hold a double quote", |content, from, at| of_a_name(content, from, at) || at > from && content[at] == b'"'),
    naming("a name may hold `=`", |content, from, at| {
        of_a_name(content, from, at) || content[at] == b'=' && content[at + 1..].contains(&b'=')
    }),
    naming("`<` ends a name", |content, from, at| of_a_name(content, from, at) && content[at] != b'<'),
    naming("`/` ends a name", |content, from, at| of_a_name(content, from, at) && content[at] != b'/'),
    naming("`&` ends a name", |content, from, at| of_a_name(content, from, at) && content[at] != b'&'),
    naming("`:` ends a name", |content, from, at| of_a_name(content, from, at) && content[at] != b':'),
    naming("a name is ASCII", |content, from, at| of_a_name(content, from, at) && content[at].is_ascii()),
    naming("a name of 64 bytes at most", |content, from, at| of_a_name(content, from, at) && at < from + 64),
    naming("a name of two bytes at least", |content, from, at| of_a_name(content, from, at) || at == from + 1 && content[at] != b'='),
];

const APART: &[Wrong] = &[
    parting("19 is not given", |_, _, _| true),
    parting("19 is not given before a letter", |tag, at, from| at < from || tag.content[from].is_ascii_alphabetic()),
    parting("19 is not given before `=`", |tag, at, from| at < from || tag.content[from] == b'='),
    parting("19 is not given before a quote", |tag, at, from| at < from || b"'\"".contains(&tag.content[from])),
    parting("19 is not given behind the first attribute", |tag, at, from| at < from || tag.names.len() == 1),
    parting("19 is not given behind the second attribute", |tag, at, from| at < from || tag.names.len() == 2),
    parting("19 is not given behind a double quote", |tag, at, from| at < from || at > 0 && tag.content[at - 1] == b'"'),
    parting("19 where two bytes of white space are missing", |_, at, from| at + 1 < from),
    parting("19 where a line feed parts two attributes", |tag, at, from| at < from && (tag.names.is_empty() || tag.content[at] != b'\n')),
    parting("24 before 19", |tag, at, from| {
        let to = (from..tag.content.len()).find(|&i| !of_a_name(tag.content, from, i)).unwrap_or(tag.content.len());
        at < from || from < to && used(tag, (from, to)).is_some()
    }),
];

/// Where the first name stands that is the same by some test.
fn by(tag: &Tag, name: Span, same: impl Fn(&[u8], &[u8]) -> bool) -> Option<usize> {
    tag.names.iter().find(|&&other| same(tag.bytes(other), tag.bytes(name))).map(|other| other.0)
}

/// The first place without white space behind a name.
fn behind(tag: &Tag, name: Span) -> usize {
    (name.1..tag.content.len()).find(|&at| !white(tag.content[at])).unwrap_or(tag.content.len())
}

const DUPLICATES: &[Wrong] = &[
    using("24 is not given", |_, _| None),
    using("24 by length", |tag, name| by(tag, name, |a, b| a.len() == b.len())),
    using("24 by the first byte", |tag, name| by(tag, name, |a, b| a[0] == b[0])),
    using("24 by the last byte", |tag, name| by(tag, name, |a, b| a.last() == b.last())),
    using("24 by the bytes that both have", |tag, name| by(tag, name, |a, b| a.starts_with(b) || b.starts_with(a))),
    using("24 where a name before begins so", |tag, name| by(tag, name, |a, b| a.starts_with(b))),
    using("24 without regard to case", |tag, name| by(tag, name, |a, b| a.eq_ignore_ascii_case(b))),
    using("24 by what is behind the colon", |tag, name| {
        let local = |name: &[u8]| name.rsplit(|&b| b == b':').next().unwrap_or_default().to_vec();
        by(tag, name, |a, b| local(a) == local(b))
    }),
    using("24 by eight bytes", |tag, name| by(tag, name, |a, b| a.len() == b.len() && a[..a.len().min(8)] == b[..b.len().min(8)])),
    using("24 by sixteen bytes", |tag, name| by(tag, name, |a, b| a.len() == b.len() && a[..a.len().min(16)] == b[..b.len().min(16)])),
    using("24 but for the byte before the last", |tag, name| {
        by(tag, name, |a, b| a.len() == b.len() && (0..a.len()).all(|i| i + 2 == a.len() || a[i] == b[i]))
    }),
    using("24 of neighbours alone", |tag, name| used(tag, name).filter(|&first| tag.names.last().is_some_and(|last| last.0 == first))),
    using("24 of the first name alone", |tag, name| used(tag, name).filter(|&first| tag.names[0].0 == first)),
    using("24 but of the first name", |tag, name| used(tag, name).filter(|&first| tag.names[0].0 != first)),
    using("24 up to 32 names", |tag, name| used(tag, name).filter(|_| tag.names.len() <= 32)),
    using("24 of the first 32 names", |tag, name| used(tag, name).filter(|&first| tag.names.iter().take(32).any(|name| name.0 == first))),
    using("24 behind `=` alone", |tag, name| used(tag, name).filter(|_| tag.content.get(behind(tag, name)) == Some(&b'='))),
    using("24 but where a quote ends the name", |tag, name| {
        used(tag, name).filter(|_| !matches!(tag.content.get(name.1), Some(b'\'' | b'"')))
    }),
    using("24 at the end of the content is 21", |tag, name| used(tag, name).filter(|_| name.1 < tag.content.len())),
    using("24 but where a quoted value follows", |tag, name| {
        used(tag, name).filter(|_| !tag.content[name.1..].starts_with(b"='") && !tag.content[name.1..].starts_with(b"=\""))
    }),
    using("the element's name is used", |tag, name| {
        let element = (0, (SOUND.length)(tag.content));
        if tag.bytes(element) == tag.bytes(name) {
            Some(0)
        } else {
            used(tag, name)
        }
    }),
    using("24 has the latest name before as its first", |tag, name| used(tag, name).and(tag.names.last()).map(|last| last.0)),
    using("24 has its own name as its first", |tag, name| used(tag, name).map(|_| name.0)),
    using("24 has no first", |tag, name| used(tag, name).map(|_| 0)),
];

/// Where a value ends by some test of its bytes: closed, or refused with 23.
fn until(content: &[u8], opened: usize, closes: impl Fn(u8) -> bool, less: impl Fn(u8) -> bool) -> Value {
    match (opened + 1..content.len()).find(|&at| closes(content[at]) || less(content[at])) {
        None => Value::Open(content.len()),
        Some(at) if closes(content[at]) => Value::Closed(at),
        Some(at) => Value::Less(at),
    }
}

const VALUES: &[Wrong] = &[
    valuing("`<` is allowed", |content, opened| until(content, opened, |b| b == content[opened], |_| false)),
    valuing("`<` is allowed in double quotes", |content, opened| {
        until(content, opened, |b| b == content[opened], |b| b == b'<' && content[opened] == b'\'')
    }),
    valuing("`<` is allowed in single quotes", |content, opened| {
        until(content, opened, |b| b == content[opened], |b| b == b'<' && content[opened] == b'"')
    }),
    valuing("`<` is allowed at the start of a value", |content, opened| match value(content, opened) {
        Value::Less(at) if at == opened + 1 => value(&[&content[..at], b"a", &content[at + 1..]].concat(), opened),
        value => value,
    }),
    valuing("`<` that is never closed is 22", |content, opened| match value(content, opened) {
        Value::Less(_) if !content[opened + 1..].contains(&content[opened]) => Value::Open(content.len()),
        value => value,
    }),
    valuing("a later `<` refuses what is closed", |content, opened| match content[opened..].iter().position(|&b| b == b'<') {
        Some(at) => Value::Less(opened + at),
        None => value(content, opened),
    }),
    valuing("`>` is refused", |content, opened| until(content, opened, |b| b == content[opened], |b| b == b'<' || b == b'>')),
    valuing("`&` is refused", |content, opened| until(content, opened, |b| b == content[opened], |b| b == b'<' || b == b'&')),
    valuing("the other quote closes", |content, opened| until(content, opened, |b| b == b'\'' || b == b'"', |b| b == b'<')),
    valuing("a double quote closes a single one", |content, opened| {
        until(content, opened, |b| b == content[opened] || b == b'"', |b| b == b'<')
    }),
    valuing("a single quote closes a double one", |content, opened| {
        until(content, opened, |b| b == content[opened] || b == b'\'', |b| b == b'<')
    }),
    valuing("a double quote alone closes", |content, opened| until(content, opened, |b| b == b'"', |b| b == b'<')),
    valuing("a line feed closes", |content, opened| until(content, opened, |b| b == content[opened] || b == b'\n', |b| b == b'<')),
    valuing("the last quote closes", |content, opened| {
        match (value(content, opened), content.iter().rposition(|&b| b == content[opened])) {
            (Value::Closed(_), Some(last)) => Value::Closed(last),
            (value, _) => value,
        }
    }),
    valuing("a value has a byte at least", |content, opened| match value(content, opened) {
        Value::Closed(at) if at == opened + 1 => Value::Open(content.len()),
        value => value,
    }),
    valuing("the end of the content closes", |content, opened| match value(content, opened) {
        Value::Open(at) => Value::Closed(at),
        value => value,
    }),
    valuing("a value of 128 bytes at most", |content, opened| match value(content, opened) {
        Value::Closed(at) if at > opened + 129 => Value::Open(content.len()),
        value => value,
    }),
    valuing("22 for the closing quote at the opening one", |content, opened| match value(content, opened) {
        Value::Open(_) => Value::Open(opened),
        value => value,
    }),
    valuing("22 for the closing quote at the last byte", |content, opened| match value(content, opened) {
        Value::Open(at) => Value::Open(at - 1),
        value => value,
    }),
    valuing("23 at the value's start", |content, opened| match value(content, opened) {
        Value::Less(_) => Value::Less(opened + 1),
        value => value,
    }),
    valuing("23 at the last `<`", |content, opened| match value(content, opened) {
        Value::Less(at) => Value::Less(content.iter().rposition(|&b| b == b'<').unwrap_or(at)),
        value => value,
    }),
    quoting("a single quote is none", |b| b == b'"'),
    quoting("a double quote is none", |b| b == b'\''),
    quoting("a back quote is one", |b| b == b'\'' || b == b'"' || b == b'`'),
];

/// Puts a refusal at another place.
fn moved(step: &mut Step, number: usize, place: impl Fn(usize) -> usize) {
    if step.number == number {
        step.slots[PLACE] = place(step.slots[PLACE]);
    }
}

/// The end of the white space, going back from a place.
fn back(tag: &Tag, mut place: usize) -> usize {
    while place > 0 && white(tag.content[place - 1]) {
        place -= 1;
    }
    place
}

const PLACES: &[Wrong] = &[
    telling("19 at the byte before", |_, step| moved(step, NO_SPACE, |place| place - 1)),
    telling("20 behind the white space's start", |tag, step| moved(step, NO_NAME, |place| back(tag, place))),
    telling("20 a byte late", |_, step| moved(step, NO_NAME, |place| place + 1)),
    telling("21 at the name's end", |tag, step| moved(step, NO_EQUALS, |place| back(tag, place))),
    telling("21 at the content's end", |tag, step| moved(step, NO_EQUALS, |_| tag.content.len())),
    telling("22 for the opening quote behind the `=`", |tag, step| {
        if step.slots[QUOTE] == 0 {
            moved(step, NO_QUOTE, |place| back(tag, place))
        }
    }),
    telling("22 for the opening quote at the content's end", |tag, step| moved(step, NO_QUOTE, |_| tag.content.len())),
    telling("24 at the name's end", |tag, step| {
        moved(step, DUPLICATE, |place| (place..tag.content.len()).find(|&at| !of_a_name(tag.content, place, at)).unwrap_or(place))
    }),
    telling("24 at the first use", |_, step| {
        let first = step.slots[FIRST];
        moved(step, DUPLICATE, |_| first)
    }),
    telling("a refusal at the place of the call", |_, step| {
        if step.number != 0 {
            step.slots[PLACE] = step.at
        }
    }),
    telling("23 as 22", |_, step| {
        if step.number == LESS_THAN {
            step.number = NO_QUOTE
        }
    }),
    telling("21 as 20", |_, step| {
        if step.number == NO_EQUALS {
            step.number = NO_NAME
        }
    }),
    telling("22 at the content's end as 21", |tag, step| {
        if step.number == NO_QUOTE && step.slots[QUOTE] == 0 && step.slots[PLACE] == tag.content.len() {
            step.number = NO_EQUALS
        }
    }),
    telling("no quote with 22", |_, step| step.slots[QUOTE] = 0),
    telling("the other quote with 22", |_, step| {
        if step.slots[QUOTE] != 0 {
            step.slots[QUOTE] ^= (b'\'' ^ b'"') as usize
        }
    }),
    telling("a quote with 22 where none opens", |_, step| {
        if step.number == NO_QUOTE && step.slots[QUOTE] == 0 {
            step.slots[QUOTE] = b'"' as usize
        }
    }),
    telling("the opened quote with 23", |tag, step| {
        if step.number == LESS_THAN {
            step.slots[QUOTE] = tag.content[..step.slots[PLACE]].iter().rfind(|b| b"'\"".contains(b)).map_or(0, |&b| b.into())
        }
    }),
];

/// Changes an attribute that is found.
fn change(step: &mut Step, how: impl Fn(&mut [usize; SLOTS])) {
    if step.found() {
        how(&mut step.slots)
    }
}

const STEPS: &[Wrong] = &[
    telling("the value with its quotes", |_, step| {
        change(step, |slots| {
            slots[VALUE_FROM] -= 1;
            slots[VALUE_TO] += 1
        })
    }),
    telling("the value with its first quote", |_, step| change(step, |slots| slots[VALUE_FROM] -= 1)),
    telling("the value with its last quote", |_, step| change(step, |slots| slots[VALUE_TO] += 1)),
    telling("the value trimmed", |tag, step| {
        change(step, |slots| {
            while slots[VALUE_FROM] < slots[VALUE_TO] && white(tag.content[slots[VALUE_TO] - 1]) {
                slots[VALUE_TO] -= 1
            }
        })
    }),
    telling("an empty value at 0", |_, step| {
        change(step, |slots| {
            if slots[VALUE_FROM] == slots[VALUE_TO] {
                (slots[VALUE_FROM], slots[VALUE_TO]) = (0, 0)
            }
        })
    }),
    telling("the name with the white space behind it", |tag, step| {
        change(step, |slots| slots[NAME_TO] = behind(tag, (slots[NAME_FROM], slots[NAME_TO])))
    }),
    telling("the name without its last byte", |_, step| change(step, |slots| slots[NAME_TO] -= 1)),
    telling("the name with the byte before it", |_, step| change(step, |slots| slots[NAME_FROM] -= 1)),
    telling("the name without its prefix", |tag, step| {
        change(step, |slots| {
            let name = &tag.content[slots[NAME_FROM]..slots[NAME_TO]];
            slots[NAME_FROM] += name.iter().position(|&b| b == b':').map_or(0, |colon| colon + 1)
        })
    }),
    telling("name and value exchanged", |_, step| {
        change(step, |slots| {
            slots.swap(NAME_FROM, VALUE_FROM);
            slots.swap(NAME_TO, VALUE_TO)
        })
    }),
    telling("next a byte late", |tag, step| change(step, |slots| slots[NEXT] = (slots[NEXT] + 1).min(tag.content.len()))),
    telling("next at the closing quote", |_, step| change(step, |slots| slots[NEXT] -= 1)),
    telling("next behind the white space", |tag, step| change(step, |slots| slots[NEXT] = behind(tag, (0, slots[NEXT])))),
    telling("none before white space at the end", |tag, step| {
        if step.found() && tag.content[step.slots[NEXT]..].iter().all(|&b| white(b)) && step.slots[NEXT] < tag.content.len() {
            *step = Step { number: 0, slots: [0; SLOTS], ..*step }
        }
    }),
    telling("none behind 40 attributes", |tag, step| {
        if tag.names.len() == 40 {
            *step = Step { number: 0, slots: [0; SLOTS], ..*step }
        }
    }),
    telling("none has the content's end as next", |tag, step| {
        if step.number == 0 && !step.found() {
            step.slots[NEXT] = tag.content.len()
        }
    }),
    telling("none has the content's end as place", |tag, step| {
        if step.number == 0 && !step.found() {
            step.slots[PLACE] = tag.content.len()
        }
    }),
    telling("a refusal has a place to go on", |_, step| {
        if step.number != 0 {
            step.slots[NEXT] = step.slots[PLACE]
        }
    }),
    telling("a refusal is none", |_, step| {
        if step.number != 0 {
            *step = Step { number: 0, slots: [0; SLOTS], ..*step }
        }
    }),
];

/// Whether a place lies within a span.
fn within(at: usize, (from, to): Span) -> bool {
    from <= at && at < to
}

const REACHED: &[Wrong] = &[
    reaching("a place in the middle of a value", |_, reading, at| {
        let value = reading.steps.iter().position(|step| step.found() && within(at, step.value()));
        account::reached(&[], reading, at).or(value.map(|step| step + 1))
    }),
    reaching("a place in the middle of a name", |_, reading, at| {
        account::reached(&[], reading, at).or(reading.steps.iter().position(|step| step.found() && within(at, step.name())))
    }),
    reaching("a place behind the white space", |content, reading, at| {
        let start = content.get(..at).map(|before| before.iter().rposition(|&b| !white(b)).map_or(0, |last| last + 1));
        account::reached(&[], reading, at).or(account::reached(&[], reading, start?))
    }),
    reaching("the content's end", |content, reading, at| {
        account::reached(&[], reading, at).or((at == content.len()).then_some(reading.steps.len() - 1))
    }),
    reaching("a place past the content's end", |content, reading, at| {
        account::reached(&[], reading, at).or((at > content.len()).then_some(reading.steps.len() - 1))
    }),
    reaching("the content's start", |_, reading, at| account::reached(&[], reading, at).or((at == 0).then_some(0))),
    reaching("the place of a refusal", |_, reading, at| {
        let last = reading.steps.len() - 1;
        account::reached(&[], reading, at).or((reading.steps[last].number != 0 && reading.steps[last].slots[PLACE] == at).then_some(last))
    }),
    reaching("the name's end alone", |_, reading, at| account::reached(&[], reading, at).filter(|&step| step == 0)),
    reaching("all but the last place", |_, reading, at| {
        account::reached(&[], reading, at).filter(|&step| step + 1 < reading.steps.len() || step == 0)
    }),
    reaching("no place behind 8 attributes", |_, reading, at| account::reached(&[], reading, at).filter(|&step| step <= 8)),
    ("any name length", Account { named: |_, _| true, ..SOUND }),
    ("a shorter name length", Account { named: |reading, name| name <= reading.name, ..SOUND }),
    ("a name length a byte longer", Account { named: |reading, name| name == reading.name || name == reading.name + 1, ..SOUND }),
    ("a name length of 0 is bad", Account { named: |reading, name| name == reading.name && name > 0, ..SOUND }),
];

/// The first step of a name by some test, or the last one.
fn first(content: &[u8], reading: &Reading, is: impl Fn(&[u8]) -> bool) -> usize {
    let bytes = |step: &Step| content.get(step.name().0..step.name().1).unwrap_or_default();
    reading.steps.iter().position(|step| step.found() && is(bytes(step))).unwrap_or(reading.steps.len() - 1)
}

const FINDS: &[Wrong] = &[
    finding("the first attribute is found", |_, _, _| 0),
    finding("nothing is found", |_, reading, _| reading.steps.len() - 1),
    finding("found by length", |content, reading, wanted| first(content, reading, |name| name.len() == wanted.len())),
    finding("found by how the name begins", |content, reading, wanted| first(content, reading, |name| name.starts_with(wanted))),
    finding("found by what begins so", |content, reading, wanted| first(content, reading, |name| wanted.starts_with(name))),
    finding("found without regard to case", |content, reading, wanted| first(content, reading, |name| name.eq_ignore_ascii_case(wanted))),
    finding("found by the first byte", |content, reading, wanted| first(content, reading, |name| name.first() == wanted.first())),
    finding("found by no name", |content, reading, name| if name.is_empty() { 0 } else { wanted(content, reading, name) }),
    finding("a refusal behind what is found is given", |content, reading, name| {
        let last = reading.steps.len() - 1;
        if reading.steps[last].number != 0 {
            last
        } else {
            wanted(content, reading, name)
        }
    }),
    finding("found but in the first place", |content, reading, name| match wanted(content, reading, name) {
        0 => reading.steps.len() - 1,
        step => step,
    }),
    finding("found but in the last place", |content, reading, name| match wanted(content, reading, name) {
        step if step + 2 == reading.steps.len() => step + 1,
        step => step,
    }),
    finding("found among the first 20", |content, reading, name| match wanted(content, reading, name) {
        step if step >= 20 => reading.steps.len() - 1,
        step => step,
    }),
    finding("the attribute behind it", |content, reading, name| (wanted(content, reading, name) + 1).min(reading.steps.len() - 1)),
];

const ANSWERS: &[Wrong] = &[
    ("8 slots suffice", Account { few: |slots| slots < SLOTS - 1, ..SOUND }),
    ("10 slots are needed", Account { few: |slots| slots < SLOTS + 1, ..SOUND }),
    ("a span may end behind the document", Account { lies: |(from, to), _| from <= to, ..SOUND }),
    ("a span has to end before the document's end", Account { lies: |(from, to), length| from <= to && to < length, ..SOUND }),
    ("a span has to have a byte", Account { lies: |(from, to), length| from < to && to <= length, ..SOUND }),
    ending("a tenth slot is written", |call| {
        if call.answer.len() > SLOTS {
            call.answer[SLOTS] = 0
        }
    }),
    ending("the last slot that is lent is written", |call| *call.answer.last_mut().unwrap() = 0),
    ending("places count in the content", |call| {
        if call.answer[FOUND] == 1 {
            call.answer[NAME_FROM..=NEXT].iter_mut().for_each(|slot| *slot -= call.from)
        }
    }),
    ending("the place of a refusal counts in the content", |call| call.answer[PLACE] = call.answer[PLACE].saturating_sub(call.from)),
    ending("the first place of 24 counts in the content", |call| call.answer[FIRST] = call.answer[FIRST].saturating_sub(call.from)),
    ending("17 at the content's start", |call| {
        if call.number == BAD_STATE {
            call.answer[PLACE] = call.from
        }
    }),
    ending("17 is none", |call| {
        if call.number == BAD_STATE {
            call.number = 0
        }
    }),
    ending("a refusal is answered with 0", |call| call.number = 0),
    ending("24 is answered with 19", |call| {
        if call.number == DUPLICATE {
            call.number = NO_SPACE
        }
    }),
    ending("none counts as found", |call| {
        if call.number == 0 {
            call.answer[FOUND] = 1
        }
    }),
    ending("what is found is not marked", |call| call.answer[FOUND] = 0),
];

const RULES: &[(&str, Rules)] = &[
    ("the crate: `=` ends a name at once", Rules { ends: |content, _, at| content[at] == b'=' || white(content[at]), ..theirs::SOUND }),
    (
        "the crate: a quote ends a name",
        Rules { ends: |content, from, at| from < at && (b"='\"".contains(&content[at]) || white(content[at])), ..theirs::SOUND },
    ),
    ("the crate: the other quote closes", Rules { closes: |content, at, _| b"'\"".contains(&content[at]), ..theirs::SOUND }),
    ("the crate: `<` closes", Rules { closes: |content, at, quote| content[at] == quote || content[at] == b'<', ..theirs::SOUND }),
    ("the crate: nothing behind a name without `=`", Rules { behind_name: |_, _| None, ..theirs::SOUND }),
    ("the crate: behind a name without `=` white space is looked for", Rules { behind_name: next_white, ..theirs::SOUND }),
    ("the crate: nothing behind a duplicate", Rules { behind_duplicate: |_, _| None, ..theirs::SOUND }),
    (
        "the crate: behind a duplicate its value is skipped",
        Rules {
            behind_duplicate: |content, equals| {
                let opened = (equals + 1..content.len()).find(|&at| !white(content[at]))?;
                match content[opened] {
                    quote @ (b'\'' | b'"') => (opened + 1..content.len()).find(|&at| content[at] == quote).map(|closed| closed + 1),
                    _ => next_white(content, opened),
                }
            },
            ..theirs::SOUND
        },
    ),
    ("the crate: nothing behind a value without quotes", Rules { behind_value: |_, _| None, ..theirs::SOUND }),
    ("the crate: behind a value without quotes at its start", Rules { behind_value: |_, opened| Some(opened), ..theirs::SOUND }),
    ("the crate: a name whose value is refused is not kept", Rules { kept: |good| good, ..theirs::SOUND }),
    ("the crate: no name is kept", Rules { kept: |_| false, ..theirs::SOUND }),
];
