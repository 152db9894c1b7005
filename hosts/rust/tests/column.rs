//! The column of times: what is taken and what is refused, each with its place, and the memory that is lent.

mod common;

use common::Numbers;
use sporebasket::column::{column, read_column, Column, Refusal, Time};
use sporebasket::errors::{Error, IllFormedError, Refused};
use sporebasket::lent::{self, LONGEST, MOST_NAMES};

/// What a slot holds that nothing was written to.
const LEFT: usize = 99_999;

/// All that a call writes, and its number.
#[derive(Debug, PartialEq)]
struct Called {
    number: usize,
    answer: Vec<usize>,
    column: Vec<usize>,
    stack: Vec<usize>,
}

/// A call with room for so many names and times.
fn called(document: &[u8], names: usize, times: usize) -> Called {
    let mut answer = vec![LEFT; lent::COLUMN_SLOTS];
    let mut column = vec![LEFT; times];
    let mut stack = vec![LEFT; names * lent::NAME_SLOTS];
    Called {
        number: lent::column(document, &mut stack, &mut column, &mut answer),
        answer,
        column,
        stack,
    }
}

impl Called {
    /// The times, the order of them, and the refusal, if there is one.
    fn told(&self) -> String {
        let [count, lower, number, place] = [0, 1, 2, 3].map(|slot| self.answer[slot]);
        let span = |slot: usize| format!("{}..{}", self.answer[slot], self.answer[slot + 1]);
        let mut said = String::new();
        for &minutes in &self.column[..count] {
            let time = u16::try_from(minutes)
                .ok()
                .and_then(Time::from_minutes)
                .expect("a time");
            said += &format!("{time} ");
        }
        said += &if lower == 0 {
            "in order".to_owned()
        } else {
            format!("lower at {lower}")
        };
        assert!(self.column[count..].iter().all(|&slot| slot == LEFT));
        assert_eq!(self.number, number);
        if number == 0 {
            assert_eq!(self.answer[3..], [0; 7]);
            return said;
        }
        said += &format!(", refused {number} {place} piece {}", span(4));
        if number == 10 {
            said += &format!(" expected {}", span(6));
        } else {
            assert_eq!(self.answer[6..8], [0; 2]);
        }
        if number == 10 || number == 11 {
            said += &format!(" found {}", span(8));
        } else {
            assert_eq!(self.answer[8..], [0; 2]);
        }
        said
    }
}

/// What a call should write: a second account, by the calls of a reader and by [`Time`]'s own parser.
fn beside(document: &[u8], names: usize, times: usize) -> Called {
    let mut state = [0; lent::STATE_SLOTS];
    let mut event = [0; lent::ANSWER_SLOTS];
    let mut column = vec![LEFT; times];
    let mut stack = vec![LEFT; names * lent::NAME_SLOTS];
    let mut found = Vec::new();
    assert_eq!(lent::new(document, lent::default_settings(), &mut state), 0);
    let number = loop {
        let number = lent::read_event(document, &mut stack, &mut state, &mut event);
        if number != 0 {
            break number;
        }
        let [kind, _, _, from, to, ..] = event;
        let depth = state[2];
        let within = depth > 0 && document[stack[2 * depth - 2]..stack[2 * depth - 1]] == *b"t";
        let text = match kind {
            10 => break 0,
            4 | 5 if within => std::str::from_utf8(&document[from..to]).expect("text"),
            _ => continue,
        };
        let text = text.trim_matches([' ', '\t', '\n', '\r']);
        match text.parse::<Time>() {
            _ if text.is_empty() => (),
            Err(_) => break 30,
            Ok(_) if found.len() == times => break 31,
            Ok(time) => found.push(usize::from(time.minutes())),
        }
    };
    let lower = (1..found.len()).find(|&index| found[index] < found[index - 1]);
    column[..found.len()].copy_from_slice(&found);
    let mut answer = vec![found.len(), lower.unwrap_or(0), number];
    answer.extend(match number {
        0 => [0; 7],
        // the place, the piece, and the names expected and found
        1..30 => [2, 3, 4, 8, 9, 10, 11].map(|slot| event[slot]),
        _ => [event[3], event[3], event[4], 0, 0, 0, 0],
    });
    Called {
        number,
        answer,
        column,
        stack,
    }
}

/// What the package says of a document, in the words of [`Called::told`], without the names that a refusal tells.
fn read(document: &[u8]) -> String {
    let Column {
        times, lower, refusal, ..
    } = read_column(document);
    let mut said: String = times.iter().map(|time| format!("{time} ")).collect();
    said += &lower.map_or("in order".to_owned(), |index| format!("lower at {index}"));
    match (column(document), &refusal) {
        (Ok(only), None) => assert_eq!(only, times),
        (Err(error), Some(refusal)) => {
            assert_eq!((&error.times, &error.refusal), (&times, refusal));
            assert_eq!(
                (error.number(), error.position()),
                (refusal.number(), refusal.position())
            );
            assert_eq!(error.to_string(), refusal.to_string());
        }
        other => panic!("{other:?}"),
    }
    if let Some(refusal) = refusal {
        said += &format!(", refused {} {}", refusal.number(), refusal.position());
    }
    said
}

/// Documents, and what they give where there is room enough.
const DOCUMENTS: &[(&[u8], &str)] = &[
    // no times
    (b"", "in order"),
    (b"06:15", "in order"),
    (b"<a>06:15</a>", "in order"),
    (b"<t></t>", "in order"),
    (b"<t/>06:15", "in order"),
    (b"<t> </t><t>\t</t><t>\n</t><t>\r</t><t> \r\n\t </t>", "in order"),
    (b"<t> ", "in order"),
    // times
    (b"<t>06:15</t>", "06:15 in order"),
    (b"<t>00:00</t>", "00:00 in order"),
    (b"<t>47:59</t>", "47:59 in order"),
    (
        b"<t>19:59</t><t>20:00</t><t>39:00</t><t>40:00</t>",
        "19:59 20:00 39:00 40:00 in order",
    ),
    (b"\xEF\xBB\xBF<?xml version='1.0'?><t>06:15</t>", "06:15 in order"),
    (b"<r><t>23:50</t> <t>24:10</t></r>", "23:50 24:10 in order"),
    (b"<t>06:15", "06:15 in order"),
    (b"<t>06:15</t", "06:15 in order, refused 1 8 piece 8..11"),
    // white space at each end
    (b"<t> 06:15</t>", "06:15 in order"),
    (b"<t>\t06:15</t>", "06:15 in order"),
    (b"<t>\n06:15</t>", "06:15 in order"),
    (b"<t>\r06:15</t>", "06:15 in order"),
    (b"<t>06:15 </t>", "06:15 in order"),
    (b"<t>06:15\t</t>", "06:15 in order"),
    (b"<t>06:15\n</t>", "06:15 in order"),
    (b"<t>06:15\r</t>", "06:15 in order"),
    (b"<t>\r\n\t 06:15 \t\n\r</t>", "06:15 in order"),
    (b"<t>06:15\n", "06:15 in order"),
    // other space is none
    (b"<t>\x0B06:15</t>", "in order, refused 30 3 piece 3..9"),
    (b"<t>06:15\x0C</t>", "in order, refused 30 3 piece 3..9"),
    (b"<t>\x0006:15</t>", "in order, refused 30 3 piece 3..9"),
    (b"<t>\xC2\xA006:15</t>", "in order, refused 30 3 piece 3..10"),
    (b"<t>06:15\xE2\x80\x89</t>", "in order, refused 30 3 piece 3..11"),
    // the place is the start of the text, not of what is left of it
    (b"<t>  6:15  </t>", "in order, refused 30 3 piece 3..11"),
    (
        b"<t>06:15</t>\n<t>\n6:15\n</t>",
        "06:15 in order, refused 30 16 piece 16..22",
    ),
    // no times
    (b"<t>48:00</t>", "in order, refused 30 3 piece 3..8"),
    (b"<t>47:60</t>", "in order, refused 30 3 piece 3..8"),
    (b"<t>23:60</t>", "in order, refused 30 3 piece 3..8"),
    (b"<t>99:99</t>", "in order, refused 30 3 piece 3..8"),
    (b"<t>6:15</t>", "in order, refused 30 3 piece 3..7"),
    (b"<t>006:15</t>", "in order, refused 30 3 piece 3..9"),
    (b"<t>06:015</t>", "in order, refused 30 3 piece 3..9"),
    (b"<t>06:5</t>", "in order, refused 30 3 piece 3..7"),
    (b"<t>06:15 07:00</t>", "in order, refused 30 3 piece 3..14"),
    (b"<t>06:1507:00</t>", "in order, refused 30 3 piece 3..13"),
    (b"<t>06: 15</t>", "in order, refused 30 3 piece 3..9"),
    (b"<t>06 15</t>", "in order, refused 30 3 piece 3..8"),
    (b"<t>06.15</t>", "in order, refused 30 3 piece 3..8"),
    (b"<t>0615</t>", "in order, refused 30 3 piece 3..7"),
    (b"<t>:0615</t>", "in order, refused 30 3 piece 3..8"),
    (b"<t>+6:15</t>", "in order, refused 30 3 piece 3..8"),
    (b"<t>06:15:00</t>", "in order, refused 30 3 piece 3..11"),
    (b"<t>06:1a</t>", "in order, refused 30 3 piece 3..8"),
    (b"<t>/0:00</t>", "in order, refused 30 3 piece 3..8"),
    (b"<t>:0:00</t>", "in order, refused 30 3 piece 3..8"),
    (b"<t>-</t>", "in order, refused 30 3 piece 3..4"),
    (b"<t>6", "in order, refused 30 3 piece 3..4"),
    (b"<t>>06:15</t>", "in order, refused 30 3 piece 3..9"),
    // characters that are not ASCII
    (b"<t>\xD9\xA06:15</t>", "in order, refused 30 3 piece 3..9"),
    (b"<t>\xC3\xA9:15</t>", "in order, refused 30 3 piece 3..8"),
    (b"<t>06\xEF\xBC\x9A15</t>", "in order, refused 30 3 piece 3..10"),
    // bytes that are not UTF-8: the reader's refusal
    (b"<t>06:1\xB5</t>", "in order, refused 13 7 piece 3..8"),
    (b"<t>06:15</t><t>\xFF", "06:15 in order, refused 13 15 piece 15..16"),
    // text in pieces
    (b"<t>06:<!-- -->15</t>", "in order, refused 30 3 piece 3..6"),
    (b"<t>06:15<!-- -->07:00</t>", "06:15 07:00 in order"),
    (b"<t> <!-- --> 06:15 <?x?> </t>", "06:15 in order"),
    (b"<t>06:15<a/>07:00</t>", "06:15 07:00 in order"),
    (b"<t>06:15<t/>07:00</t>", "06:15 07:00 in order"),
    (
        b"<t>06:15<![CDATA[]]>0</t>",
        "06:15 in order, refused 30 20 piece 20..21",
    ),
    // what is passed over within `t`
    (b"<t><![CDATA[06:15]]></t>", "in order"),
    (b"<t><![CDATA[&a; 6:15]]>06:15</t>", "06:15 in order"),
    (b"<t><!-- 6:15 &a; <t> --><?t 6:15?><?xml?>06:15</t>", "06:15 in order"),
    // the latest open name
    (b"<t><b>06:15</b></t>", "in order"),
    (b"<t><b>6:15</b>06:15</t>", "06:15 in order"),
    (b"<t>06:15<b>6:45</b>07:15</t>", "06:15 07:15 in order"),
    (b"<b><t>06:15</t>6:45</b>", "06:15 in order"),
    (b"<t>06:15<t>06:45</t>07:15</t>7:45", "06:15 06:45 07:15 in order"),
    (b"<t><b><t>06:15</t>6:45</b>07:15</t>", "06:15 07:15 in order"),
    (b"<t><b>06:15", "in order"),
    (b"<t></t>06:15", "in order"),
    // its bytes are `t`, all of them
    (b"<t a=\"1\">06:15</t>", "06:15 in order"),
    (b"<t\n>06:15</t >", "06:15 in order"),
    (b"<t a='>6:15'>06:15</t>", "06:15 in order"),
    (b"<tt>06:15</tt>", "in order"),
    (b"<T>06:15</T>", "in order"),
    (b"<b:t>06:15</b:t>", "in order"),
    (b"<t:b>06:15</t:b>", "in order"),
    (b"<>06:15</>", "in order"),
    (b"< t>06:15", "in order"),
    (b"<t/ >06:15", "in order"),
    // references
    (b"<t>&lt;</t>", "in order, refused 30 3 piece 3..7"),
    (
        b"<t>06:15</t><t> &#48;6:45</t>",
        "06:15 in order, refused 30 16 piece 16..21",
    ),
    (b"<t>06:15&nbsp;</t>", "06:15 in order, refused 30 8 piece 8..14"),
    (b"<t>06&#58;15</t>", "in order, refused 30 3 piece 3..5"),
    (b"<t>&;", "in order, refused 30 3 piece 3..5"),
    (b"&a;<b>&b;</b><t><b>&lt;</b>06:15</t>&c;", "06:15 in order"),
    // the order
    (b"<t>06:15</t><t>06:15</t>", "06:15 06:15 in order"),
    (b"<t>06:15</t><t>06:14</t>", "06:15 06:14 lower at 1"),
    (b"<t>23:50</t><t>00:10</t><t>00:05</t>", "23:50 00:10 00:05 lower at 1"),
    (
        b"<t>23:35</t><t>23:50</t><t>00:10</t><t>24:25</t>",
        "23:35 23:50 00:10 24:25 lower at 2",
    ),
    (b"<t>06:15</t><t>07:15</t><t>07:14</t>", "06:15 07:15 07:14 lower at 2"),
    (b"<t>10:00</t><t>09:59</t>", "10:00 09:59 lower at 1"),
    (
        b"<t>06:15</t><t>06:15</t><t>07:00</t><t>06:59</t>",
        "06:15 06:15 07:00 06:59 lower at 3",
    ),
    (
        b"<t>24:10</t><t>23:50</t><t>x</t>",
        "24:10 23:50 lower at 1, refused 30 27 piece 27..28",
    ),
    // the reader's refusals, with the times before them; also those after which a reader goes on
    (
        b"<t>06:15</t><t>06:45</r>",
        "06:15 06:45 in order, refused 10 20 piece 20..24 expected 13..14 found 22..23",
    ),
    (
        b"<t>06:15</t></r><t>06:45",
        "06:15 in order, refused 11 12 piece 12..16 found 14..15",
    ),
    (
        b"<t>06:15</t>a & b<t>06:45",
        "06:15 in order, refused 12 14 piece 14..17",
    ),
    (b"<t>06:15&", "06:15 in order, refused 12 8 piece 8..9"),
    (b"<t>06:15</t><r a='", "06:15 in order, refused 2 12 piece 12..18"),
    (b"<t>06:15</t><r a=\"", "06:15 in order, refused 3 12 piece 12..18"),
    (b"<t>06:15</t><!-", "06:15 in order, refused 4 12 piece 12..15"),
    (b"<t>06:15</t><![CDATA[", "06:15 in order, refused 5 12 piece 12..21"),
    (b"<t>06:15</t><?x", "06:15 in order, refused 6 12 piece 12..15"),
    (b"<t>06:15</t><?xml", "06:15 in order, refused 7 12 piece 12..17"),
    (b"<t>06:15</t><!x>", "06:15 in order, refused 8 12 piece 12..12"),
    (b"<!DOCTYPE timetable><t>06:15</t>", "in order, refused 14 0 piece 0..0"),
    (
        b"<t>06:15</t><!doctype x>",
        "06:15 in order, refused 14 12 piece 12..12",
    ),
    (b"<t>06:15</t>\xC3(", "06:15 in order, refused 13 12 piece 12..14"),
    // two hyphens in a comment are no refusal by default
    (b"<!-- -- --><t>06:15</t>", "06:15 in order"),
    // the first from the left
    (b"<t>x</t></r>", "in order, refused 30 3 piece 3..4"),
    (b"</r><t>x</t>", "in order, refused 11 0 piece 0..4 found 2..3"),
];

/// The like with room for so many names and times.
const LENT: &[(usize, usize, &[u8], &str)] = &[
    // no column at all
    (1, 0, b"", "in order"),
    (1, 0, b"<t> </t>", "in order"),
    (1, 0, b"<t>06:15</t>", "in order, refused 31 3 piece 3..8"),
    (1, 0, b"<t>6:15</t>", "in order, refused 30 3 piece 3..7"),
    // full, and nothing more there
    (1, 1, b"<t>06:15</t>", "06:15 in order"),
    (
        1,
        1,
        b"<t>06:15</t><t> </t><a>06:45</a><t><!--06:45--></t>",
        "06:15 in order",
    ),
    (1, 2, b"<t>06:15</t><t>06:14</t>", "06:15 06:14 lower at 1"),
    // one more: its whole piece, white space included
    (
        1,
        1,
        b"<t>06:15</t><t> 06:14 </t>",
        "06:15 in order, refused 31 15 piece 15..22",
    ),
    (
        1,
        2,
        b"<t>06:15</t><t>06:14</t><t>06:13",
        "06:15 06:14 lower at 1, refused 31 27 piece 27..32",
    ),
    // no time at a full column
    (
        1,
        1,
        b"<t>06:15</t><t>48:00</t>",
        "06:15 in order, refused 30 15 piece 15..20",
    ),
    (
        1,
        1,
        b"<t>06:15</t><t>&lt;</t>",
        "06:15 in order, refused 30 15 piece 15..19",
    ),
    // a refusal of the reader at a full column
    (
        1,
        1,
        b"<t>06:15</t><t></r>",
        "06:15 in order, refused 10 15 piece 15..19 expected 13..14 found 17..18",
    ),
    // no stack, and one that is full
    (0, 9, b"06:15", "in order"),
    (0, 9, b"<t/>", "in order"),
    (0, 9, b"<t>06:15</t>", "in order, refused 15 0 piece 0..0"),
    (1, 9, b"<t>06:15</t><t>06:45", "06:15 06:45 in order"),
    (1, 9, b"<t>06:15<b>06:45", "06:15 in order, refused 15 8 piece 8..8"),
    (
        2,
        9,
        b"<r><t>06:15</t><t>06:45<b></b></t>",
        "06:15 06:45 in order, refused 15 23 piece 23..23",
    ),
];

#[test]
fn documents() {
    for (document, wanted) in DOCUMENTS {
        let shown = String::from_utf8_lossy(document);
        let got = called(document, 8, 8);
        assert_eq!(got.told(), *wanted, "{shown}");
        assert_eq!(got, beside(document, 8, 8), "{shown}");
        let short = wanted.split(" piece ").next();
        assert_eq!(Some(&*read(document)), short, "{shown}");
    }
}

#[test]
fn documents_with_little_room() {
    for (names, times, document, wanted) in LENT {
        let shown = String::from_utf8_lossy(document);
        let got = called(document, *names, *times);
        assert_eq!(got.told(), *wanted, "{shown}");
        assert_eq!(got, beside(document, *names, *times), "{shown}");
    }
}

#[test]
fn a_stack_with_an_odd_slot_and_slots_to_spare() {
    let mut stack = [LEFT; 3];
    let mut column = [LEFT; 2];
    let mut answer = [LEFT; lent::COLUMN_SLOTS + 2];
    let number = lent::column(b"<t>24:10<b>", &mut stack, &mut column, &mut answer);
    assert_eq!((number, stack, column), (15, [1, 2, LEFT], [1450, LEFT]));
    assert_eq!(answer, [1, 0, 15, 8, 8, 8, 0, 0, 0, 0, LEFT, LEFT]);
}

#[test]
fn an_answer_with_too_few_slots_is_refused_and_nothing_is_written() {
    for slots in 0..lent::COLUMN_SLOTS {
        let (mut stack, mut column, mut answer) = ([LEFT; 4], [LEFT; 4], vec![LEFT; slots]);
        assert_eq!(lent::column(b"<t>06:15</t>", &mut stack, &mut column, &mut answer), 17);
        assert_eq!((stack, column, answer), ([LEFT; 4], [LEFT; 4], vec![LEFT; slots]));
    }
}

#[test]
fn a_byte_more_than_a_document_may_have() {
    let mut document = b"<t>06:15</t>".to_vec();
    document.resize(LONGEST + 1, b' ');
    let got = called(&document, 2, 2);
    assert_eq!(got.told(), "in order, refused 16 0 piece 0..0");
    assert_eq!((got.column, got.stack), (vec![LEFT; 2], vec![LEFT; 4]));
    assert_eq!(read(&document), "in order, refused 16 0");
    assert_eq!(
        read_column(&document).refusal,
        Some(Refusal::Reader {
            error: Error::Refused(Refused::SliceTooLong),
            position: 0
        })
    );
    // for want of slots nothing is written even so
    let mut answer = [LEFT; 9];
    assert_eq!(lent::column(&document, &mut [], &mut [], &mut answer), 17);
    assert_eq!(answer, [LEFT; 9]);

    document.pop();
    assert_eq!(read(&document), "06:15 in order");
    let end = LONGEST - 8;
    document[end..].copy_from_slice(b"<t>24:10");
    assert_eq!(read(&document), "06:15 24:10 in order");
}

#[test]
fn every_byte_at_every_place_of_a_time() {
    for place in 0..5 {
        for byte in 0..=255 {
            let mut document = *b"<t>11:11</t>";
            document[3 + place] = byte;
            assert_eq!(called(&document, 2, 2), beside(&document, 2, 2), "{document:?}");
        }
    }
}

#[test]
fn every_text_of_five_letters_that_times_are_made_of() {
    const LETTERS: &[u8] = b"0124569: ";
    let mut times = 0;
    for number in 0..LETTERS.len().pow(5) {
        let mut document = *b"<t>.....</t>";
        let mut rest = number;
        for byte in &mut document[3..8] {
            *byte = LETTERS[rest % LETTERS.len()];
            rest /= LETTERS.len();
        }
        let got = called(&document, 1, 1);
        assert_eq!(got, beside(&document, 1, 1), "{}", String::from_utf8_lossy(&document));
        times += got.answer[0];
    }
    // hours of two of the seven digits up to 47, minutes up to 59
    assert_eq!(times, 27 * 35);
}

#[test]
fn every_time() {
    let document: String = (0..2880)
        .map(|n| format!("<t>{:02}:{:02}</t>", n / 60, n % 60))
        .collect();
    let Called { number, column, .. } = called(document.as_bytes(), 1, 2880);
    assert_eq!((number, column), (0, (0..2880).collect::<Vec<_>>()));
    let Column {
        times, lower, refusal, ..
    } = read_column(document.as_bytes());
    assert_eq!((lower, refusal), (None, None));
    assert!(times.iter().map(|time| time.minutes()).eq(0..2880));
}

/// What stands between the tags of a timetable.
const GOOD: [&[u8]; 16] = [
    b"06:15",
    b"23:50",
    b"24:10",
    b"47:59",
    b"00:00",
    b" 07:00\n",
    b"\t08:00",
    b"09:00\r",
    b" ",
    b"\r\n\t",
    b"<!-- 6 -->",
    b"<?p 6?>",
    b"<![CDATA[6]]>",
    b"<t/>",
    b"<b>&lt; 6</b>",
    b"<t>10:00</t>",
];

/// With these a document is mostly refused.
const BAD: [&[u8]; 12] = [
    b"6:15", b"48:00", b"x", b"&lt;", b"&", b"</r>", b"</t>", b"\xFF", b"<!D", b"<!-", b"<t", b"<t a='",
];

/// A timetable of some pieces, of which one of so many is bad.
fn random_document(numbers: &mut Numbers, rare: usize) -> Vec<u8> {
    let mut document = Vec::new();
    let mut open = Vec::new();
    for _ in 0..numbers.below(40) {
        match numbers.below(8) {
            _ if numbers.below(rare) == 0 => document.extend(BAD[numbers.below(BAD.len())]),
            0 | 1 => {
                let name = ["t", "t", "t", "r", "tt"][numbers.below(5)];
                let more = ["", "", " n='1'", "\n"][numbers.below(4)];
                document.extend(format!("<{name}{more}>").bytes());
                open.push(name);
            }
            2 | 3 => document.extend(open.pop().map(|name| format!("</{name}>")).unwrap_or_default().bytes()),
            _ => document.extend(GOOD[numbers.below(GOOD.len())]),
        }
    }
    document
}

#[test]
fn any_document_with_any_room() {
    let mut numbers = Numbers(11);
    let mut ended = [0; 32];
    let mut lower = 0;
    for _ in 0..40_000 {
        let rare = [5, 20, 1000][numbers.below(3)];
        let document = random_document(&mut numbers, rare);
        let (names, times) = (numbers.below(10), numbers.below(10));
        let got = called(&document, names, times);
        let shown = String::from_utf8_lossy(&document);
        assert_eq!(got, beside(&document, names, times), "{shown}");
        ended[got.number] += 1;
        lower += usize::from(got.answer[1] > 1);
        let whole = called(&document, 64, 64).told();
        assert_eq!(Some(&*read(&document)), whole.split(" piece ").next(), "{shown}");
    }
    for number in [0, 1, 2, 4, 10, 11, 12, 13, 14, 15, 30, 31] {
        assert!(ended[number] > 100, "{number}: {ended:?}");
    }
    assert!(lower > 500, "{lower} columns decrease after the first two times");
}

/// So many names, one in the other, as many times in the innermost, and all closed again.
fn timetable(names: usize, times: usize) -> String {
    let time = |n: usize| format!("<t>{:02}:{:02}</t>", n / 60 % 48, n % 60);
    let rows: String = (0..times).map(time).collect();
    "<r>".repeat(names) + &rows + &"</r>".repeat(names)
}

#[test]
fn room_is_made_as_it_is_needed() {
    for names in [0, 1, 30, 31, 32, 33, 63, 64, 1_000, MOST_NAMES - 1] {
        for times in [0, 1, 1_023, 1_024, 1_025, 10_000, 200_000] {
            if names > 64 && times > 10_000 {
                continue;
            }
            let document = timetable(names, times);
            let Column {
                times: read,
                lower,
                refusal,
                ..
            } = read_column(document.as_bytes());
            assert_eq!((read.len(), refusal), (times, None));
            assert!(read
                .iter()
                .map(|time| time.minutes())
                .eq((0..times).map(|n| (n % 2880) as u16)));
            assert_eq!(lower, (times > 2880).then_some(2880));
        }
    }
}

#[test]
fn a_name_more_than_may_be_open() {
    let document = timetable(MOST_NAMES, 0);
    assert_eq!(read(document.as_bytes()), "in order");
    for (names, times) in [(MOST_NAMES, 1), (MOST_NAMES + 1, 0)] {
        let document = timetable(names, times);
        let wanted = format!("in order, refused 15 {}", 3 * MOST_NAMES);
        assert_eq!(read(document.as_bytes()), wanted);
    }
    // a name to a time, as close as they come: the column has to grow as well
    let document = "<t>06:15".repeat(MOST_NAMES + 1);
    let error = column(document.as_bytes()).unwrap_err();
    assert_eq!((error.number(), error.position()), (15, 8 * MOST_NAMES as u64));
    assert_eq!(error.times.len(), MOST_NAMES);
    assert_eq!(
        error.refusal,
        Refusal::Reader {
            error: Error::Refused(Refused::NameStackFull),
            position: error.position()
        }
    );
}

#[test]
fn errors_tell_what_the_reader_tells_and_the_text_as_it_stands() {
    let mismatch = Error::IllFormed(IllFormedError::MismatchedEndTag {
        expected: "t".into(),
        found: "stop".into(),
    });
    let rows: [(&[u8], Refusal, &str); 5] = [
        (
            b"<t>06:15</stop>",
            Refusal::Reader {
                error: mismatch,
                position: 8,
            },
            "ill-formed document: expected `</t>`, but `</stop>` was found, at byte 8",
        ),
        (
            b"</t>",
            Refusal::Reader {
                error: Error::IllFormed(IllFormedError::UnmatchedEndTag("t".into())),
                position: 0,
            },
            "ill-formed document: close tag `</t>` does not match any open tag, at byte 0",
        ),
        (
            b"<t>ab\xFF",
            Refusal::Reader {
                error: std::str::from_utf8(&b"ab\xFF"[..]).unwrap_err().into(),
                position: 5,
            },
            "cannot decode input using UTF-8: invalid utf-8 sequence of 1 bytes from index 2, at byte 5",
        ),
        (
            b"<t>\n  6:15\n</t>",
            Refusal::BadTime {
                text: "\n  6:15\n".into(),
                position: 3,
            },
            "\"6:15\" is not a time from 00:00 to 47:59, at byte 3",
        ),
        (
            b"<t>06:15&nbsp;</t>",
            Refusal::BadTime {
                text: "&nbsp;".into(),
                position: 8,
            },
            "\"&nbsp;\" is not a time from 00:00 to 47:59, at byte 8",
        ),
    ];
    for (document, refusal, text) in rows {
        let error = column(document).unwrap_err();
        assert_eq!((&error.refusal, &*error.to_string()), (&refusal, text));
        let source = std::error::Error::source(&error).map(ToString::to_string);
        let own = match refusal {
            Refusal::Reader { error, .. } => Some(error.to_string()),
            _ => None,
        };
        assert_eq!(source, own);
    }
}
