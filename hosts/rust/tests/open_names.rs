//! A document that ends while names are open, with `check_open_names`: refusal 18, when it comes, and the mark in the state that remembers it.

mod common;

use sporebasket::errors::{Error, Refused};
use sporebasket::events::Event;
use sporebasket::ext::{ErrorExt, Phase, ReaderExt};
use sporebasket::name::QName;
use sporebasket::{lent, Reader};

/// A document, the letters of its settings, and the answers up to end of file.
type Row = (&'static [u8], &'static str, &'static [&'static str]);

/// Documents that give 18.
const UNCLOSED: &[Row] = &[
    (
        b"<a>",
        "o",
        &[
            "start 0 3 1 2 1 | text 3 1 1..2",
            "refused 18 1 piece 3..3 | done 3 1 1..2",
            "eof 3 3 3 3 0 | done 3 1 1..2",
        ],
    ),
    // the piece is that of the end of file which it replaces
    (
        b"<a>  ",
        "oe",
        &[
            "start 0 3 1 2 1 | text 3 1 1..2",
            "refused 18 1 piece 3..5 | done 5 1 1..2",
            "eof 5 5 5 5 0 | done 5 1 1..2",
        ],
    ),
    (
        b"<a>  ",
        "os",
        &[
            "start 0 3 1 2 1 | text 3 1 1..2",
            "refused 18 1 piece 5..5 | done 5 1 1..2",
            "eof 5 5 5 5 0 | done 5 1 1..2",
        ],
    ),
    (
        b"<a>  ",
        "oT",
        &[
            "start 0 3 1 2 1 | text 3 1 1..2",
            "refused 18 1 piece 5..5 | done 5 1 1..2",
            "eof 5 5 5 5 0 | done 5 1 1..2",
        ],
    ),
    (
        b"<a>  ",
        "ot",
        &[
            "start 0 3 1 2 1 | text 3 1 1..2",
            "text 3 5 3 5 0 | done 5 1 1..2",
            "refused 18 1 piece 5..5 | done 5 1 1..2",
            "eof 5 5 5 5 0 | done 5 1 1..2",
        ],
    ),
    // the latest open name, not the latest that was opened
    (
        b"<a><bc d='e'>",
        "o",
        &[
            "start 0 3 1 2 1 | text 3 1 1..2",
            "start 3 13 4 12 2 | text 13 2 1..2 4..6",
            "refused 18 4 piece 13..13 | done 13 2 1..2 4..6",
            "eof 13 13 13 13 0 | done 13 2 1..2 4..6",
        ],
    ),
    (
        b"<a><b></b>",
        "ok",
        &[
            "start 0 3 1 2 1 | text 3 1 1..2",
            "start 3 6 4 5 1 | text 6 2 1..2 4..5",
            "end 6 10 8 9 1 | text 10 1 1..2",
            "refused 18 1 piece 10..10 | done 10 1 1..2",
            "eof 10 10 10 10 0 | done 10 1 1..2",
        ],
    ),
    (
        b"\xEF\xBB\xBF<>",
        "oK",
        &[
            "start 3 5 4 4 0 | text 5 1 4..4",
            "refused 18 4 piece 5..5 | done 5 1 4..4",
            "eof 5 5 5 5 0 | done 5 1 4..4",
        ],
    ),
    // an expanded empty element is ended before
    (
        b"<a><b/>",
        "ox",
        &[
            "start 0 3 1 2 1 | text 3 1 1..2",
            "start 3 7 4 5 1 | empty 7 2 1..2 4..5",
            "end 7 7 4 5 1 | text 7 1 1..2",
            "refused 18 1 piece 7..7 | done 7 1 1..2",
            "eof 7 7 7 7 0 | done 7 1 1..2",
        ],
    ),
    // after the refusals that do not end the run, also after the one that leaves nothing to read
    (
        b"<a><!--b--c-->",
        "oc",
        &[
            "start 0 3 1 2 1 | text 3 1 1..2",
            "refused 9 8 piece 3..14 | text 14 1 1..2",
            "refused 18 1 piece 14..14 | done 14 1 1..2",
            "eof 14 14 14 14 0 | done 14 1 1..2",
        ],
    ),
    (
        b"<a><b></c>",
        "o",
        &[
            "start 0 3 1 2 1 | text 3 1 1..2",
            "start 3 6 4 5 1 | text 6 2 1..2 4..5",
            "refused 10 6 piece 6..10 expected 4..5 found 8..9 | text 10 1 1..2",
            "refused 18 1 piece 10..10 | done 10 1 1..2",
            "eof 10 10 10 10 0 | done 10 1 1..2",
        ],
    ),
    (
        b"</a><b>",
        "o",
        &[
            "refused 11 0 piece 0..4 found 2..3 | text 4 0",
            "start 4 7 5 6 1 | text 7 1 5..6",
            "refused 18 5 piece 7..7 | done 7 1 5..6",
            "eof 7 7 7 7 0 | done 7 1 5..6",
        ],
    ),
    (
        b"<a>&b<c/>",
        "o",
        &[
            "start 0 3 1 2 1 | text 3 1 1..2",
            "refused 12 3 piece 3..5 | markup 5 1 1..2",
            "empty 5 9 6 7 1 | text 9 1 1..2",
            "refused 18 1 piece 9..9 | done 9 1 1..2",
            "eof 9 9 9 9 0 | done 9 1 1..2",
        ],
    ),
    (
        b"<a>&b",
        "o",
        &[
            "start 0 3 1 2 1 | text 3 1 1..2",
            "refused 12 3 piece 3..5 | done 5 1 1..2",
            "refused 18 1 piece 5..5 | done 5 1 1..2",
            "eof 5 5 5 5 0 | done 5 1 1..2",
        ],
    ),
    // with a dangling `&`, which is text
    (
        b"<a>&b",
        "oa",
        &[
            "start 0 3 1 2 1 | text 3 1 1..2",
            "text 3 5 3 5 0 | done 5 1 1..2",
            "refused 18 1 piece 5..5 | done 5 1 1..2",
            "eof 5 5 5 5 0 | done 5 1 1..2",
        ],
    ),
];

/// Documents that give none: with the setting on, but nothing open at the end; and with names open, but the setting off.
const NOT_TOLD: &[Row] = &[
    (b"", "o", &["eof 0 0 0 0 0 | done 0 0"]),
    (b" ", "oT", &["eof 1 1 1 1 0 | done 1 0"]),
    (
        b"<a/>",
        "o",
        &["empty 0 4 1 2 1 | text 4 0", "eof 4 4 4 4 0 | done 4 0"],
    ),
    (
        b"<a/>",
        "ox",
        &[
            "start 0 4 1 2 1 | empty 4 1 1..2",
            "end 4 4 1 2 1 | text 4 0",
            "eof 4 4 4 4 0 | done 4 0",
        ],
    ),
    (
        b"<a></a>",
        "o",
        &[
            "start 0 3 1 2 1 | text 3 1 1..2",
            "end 3 7 5 6 1 | text 7 0",
            "eof 7 7 7 7 0 | done 7 0",
        ],
    ),
    (
        b"<a></b>",
        "o",
        &[
            "start 0 3 1 2 1 | text 3 1 1..2",
            "refused 10 3 piece 3..7 expected 1..2 found 5..6 | text 7 0",
            "eof 7 7 7 7 0 | done 7 0",
        ],
    ),
    (
        b"<a></b>",
        "on",
        &[
            "start 0 3 1 2 1 | text 3 1 1..2",
            "end 3 7 5 6 1 | text 7 0",
            "eof 7 7 7 7 0 | done 7 0",
        ],
    ),
    (
        b"<a>",
        "-",
        &["start 0 3 1 2 1 | text 3 1 1..2", "eof 3 3 3 3 0 | done 3 1 1..2"],
    ),
    (
        b"<a>",
        "KT",
        &["start 0 3 1 2 1 | text 3 1 1..2", "eof 3 3 3 3 0 | done 3 1 1..2"],
    ),
];

#[test]
fn it_comes_once_where_names_are_open() {
    for (document, settings, answers) in UNCLOSED.iter().chain(NOT_TOLD) {
        let mut reader = Reader::from_reader(document);
        common::set(reader.config_mut(), settings);
        assert_eq!(common::run(&mut reader), *answers, "{document:?} {settings}");
        let (at, state) = (reader.buffer_position(), common::state(&reader));
        for _ in 0..3 {
            assert_eq!(common::answer(&mut reader), format!("eof {at} {at} {at} {at} 0"));
            assert_eq!(common::state(&reader), state);
        }
    }
}

/// Documents with a name open and room for no other, and the refusal that ends their run.
const ENDED: [(&[u8], u8); 11] = [
    (b"<a><b", 1),
    (b"<a><b c='", 2),
    (b"<a><b c=\"", 3),
    (b"<a><!--", 4),
    (b"<a><![CDATA[", 5),
    (b"<a><?b", 6),
    (b"<a><?xml", 7),
    (b"<a><!b>", 8),
    (b"<a>\xFF", 13),
    (b"<a><!DOCTYPE b>", 14),
    (b"<a><b>", 15),
];

#[test]
fn it_does_not_come_after_a_refusal_that_ended_the_run() {
    for (document, number) in ENDED {
        // the setting may come late
        for late in [false, true] {
            let mut reader = Reader::with_capacity(document, 1);
            reader.config_mut().check_open_names = !late;
            assert!(matches!(reader.read_event(), Ok(Event::Start(_))));
            assert_eq!(reader.read_event().unwrap_err().number(), Some(number));
            reader.config_mut().check_open_names = true;
            for _ in 0..3 {
                assert_eq!(reader.read_event(), Ok(Event::Eof), "{number}");
                assert_eq!((reader.depth(), reader.phase()), (1, Phase::Done), "{number}");
            }
        }
    }
}

#[test]
fn the_error_tells_the_latest_open_name_and_takes_none_away() {
    let document = "<t><zürich n='1'>06:15";
    let mut reader = Reader::from_str(document);
    reader.config_mut().check_open_names = true;
    for _ in 0..3 {
        assert!(reader.read_event().is_ok());
    }
    let error = reader.read_event().unwrap_err();
    assert_eq!(error, Refused::UnclosedElements("zürich".into()).into());
    assert_eq!(error.number(), Some(18));
    assert_eq!(error.to_string(), "the document ends while `<zürich>` is open");
    assert_eq!(reader.error_position(), 4);
    assert_eq!(reader.piece(), document.len()..document.len());
    assert_eq!(reader.buffer_position(), document.len() as u64);
    assert_eq!((reader.expected(), reader.found()), (None, None));
    assert_eq!((reader.depth(), reader.phase()), (2, Phase::Done));
    assert!(reader.open_names().eq([QName("t"), QName("zürich")]));
    assert_eq!(reader.read_event(), Ok(Event::Eof));
    assert_eq!((reader.error_position(), reader.depth()), (4, 2));
}

#[test]
fn the_name_is_the_latest_however_many_are_open() {
    let document: String = (0..70).map(|i| format!("<n{i}>")).collect();
    for names in 1..=70 {
        let end: usize = (0..names).map(|i| format!("<n{i}>").len()).sum();
        for mut reader in [
            Reader::from_str(&document[..end]),
            Reader::with_capacity(&document.as_bytes()[..end], names),
        ] {
            reader.config_mut().check_open_names = true;
            for _ in 0..names {
                assert!(matches!(reader.read_event(), Ok(Event::Start(_))));
            }
            let latest = format!("n{}", names - 1);
            assert_eq!(reader.error_position(), 0);
            assert_eq!(
                reader.read_event(),
                Err(Error::Refused(Refused::UnclosedElements(latest.clone())))
            );
            assert_eq!(reader.error_position() as usize, end - 1 - latest.len());
            assert_eq!(reader.open_names().len(), names);
        }
    }
}

/// Reads with the setting as it is told before each call, on by `+` and off by `-`; an answer is told by its first word and, of a refusal, its number.
fn turned(document: &str, turns: &str) -> Vec<String> {
    let mut reader = Reader::from_str(document);
    let mut said = Vec::new();
    for turn in turns.chars() {
        reader.config_mut().check_open_names = turn == '+';
        // a clone keeps the mark
        reader = reader.clone();
        let answer = common::answer(&mut reader);
        let words: Vec<&str> = answer.split(' ').collect();
        let shown = if words[0] == "refused" { words[1] } else { words[0] };
        said.push(shown.to_owned());
    }
    said
}

#[test]
fn the_setting_counts_at_the_end_alone() {
    let rows: [(&str, &str, &[&str]); 10] = [
        ("<a>", "-+++", &["start", "18", "eof", "eof"]),
        ("<a>", "+---", &["start", "eof", "eof", "eof"]),
        // end of file was told
        ("<a>", "--++", &["start", "eof", "eof", "eof"]),
        ("<a>", "+-++", &["start", "eof", "eof", "eof"]),
        // 18 was told
        ("<a>", "-+-+", &["start", "18", "eof", "eof"]),
        // the reader is done, but its end was not told
        ("<a>b", "--++", &["start", "text", "18", "eof"]),
        ("<a>b", "++-+", &["start", "text", "eof", "eof"]),
        ("<a>&b", "--++", &["start", "12", "18", "eof"]),
        ("<a>&b", "++-+", &["start", "12", "eof", "eof"]),
        // nothing was open
        ("b", "-+-+", &["text", "eof", "eof", "eof"]),
    ];
    for (document, turns, answers) in rows {
        assert_eq!(turned(document, turns), answers, "{document} {turns}");
    }
}

#[test]
fn a_clone_has_a_mark_of_its_own() {
    let mut reader = Reader::from_str("<a>");
    reader.config_mut().check_open_names = true;
    assert!(reader.read_event().is_ok());
    let mut before = reader.clone();
    assert_eq!(reader.read_event().unwrap_err().number(), Some(18));
    let mut after = reader.clone();
    assert_eq!(before.read_event().unwrap_err().number(), Some(18));
    for reader in [&mut reader, &mut before, &mut after] {
        assert_eq!(reader.read_event(), Ok(Event::Eof));
    }
}

const DANGLING: usize = 1;
const UNMATCHED: usize = 2;
const COMMENTS: usize = 4;
const NAMES: usize = 8;
const EXPAND: usize = 16;
const TRIM_START: usize = 64;
const TRIM_END: usize = 128;
const OPEN: usize = 256;

/// Marks: off, and some that are on.
const MARKS: [usize; 7] = [0, 1, 7, 255, 256, usize::MAX - 1, usize::MAX];

/// A call: the document, the phase, the position, the depth and the settings before it, the stack, and the kind and the number that are answered.
type Call = (&'static [u8], [usize; 3], usize, &'static [usize], [usize; 2]);

const FRESH: [usize; 3] = [0; 3];

/// In the text behind `<a>`, which is open.
const INSIDE: [usize; 3] = [1, 3, 1];

/// Makes the call with more settings and this mark, and gives the mark after it. What a call leaves alone is not written.
fn mark_after((document, place, settings, stack, wanted): &Call, more: usize, mark: usize) -> usize {
    let [phase, position, depth] = *place;
    let mut state = [phase, position, depth, document.len(), settings | more, mark, 9];
    let mut answer = [0; lent::ANSWER_SLOTS];
    let number = lent::read_event(document, &mut stack.to_vec(), &mut state, &mut answer);
    assert_eq!([answer[0], number], *wanted, "{document:?} {place:?} {settings} {mark}");
    assert_eq!(answer[1], number);
    assert_eq!(state[3..5], [document.len(), settings | more]);
    assert_eq!(state[6], 9);
    state[5]
}

#[test]
fn the_mark_is_kept_by_answers_that_are_not_the_end() {
    let calls: [Call; 20] = [
        (b"<a>", FRESH, 0, &[0; 2], [1, 0]),
        (b"<a/>", FRESH, EXPAND, &[0; 2], [1, 0]),
        (b"</a>", FRESH, UNMATCHED, &[], [2, 0]),
        (b"<a></a>", INSIDE, NAMES, &[1, 2], [2, 0]),
        (b"<a/>", [4, 4, 1], EXPAND, &[1, 2], [2, 0]),
        (b"<a/>", FRESH, 0, &[], [3, 0]),
        (b"a", FRESH, 0, &[], [4, 0]),
        (b"<a>b", INSIDE, 0, &[1, 2], [4, 0]),
        (b"<a> <", INSIDE, TRIM_END, &[1, 2], [4, 0]),
        (b"&", FRESH, DANGLING, &[], [4, 0]),
        (b"&a;", FRESH, 0, &[], [5, 0]),
        (b"<!---->", FRESH, 0, &[], [6, 0]),
        (b"<![CDATA[]]>", FRESH, 0, &[], [7, 0]),
        (b"<?xml?><?a?>", FRESH, 0, &[], [8, 0]),
        (b"<?xml?><?a?>", [1, 7, 0], 0, &[], [9, 0]),
        (b"<!----->", FRESH, COMMENTS, &[], [0, 9]),
        (b"<a></b>", INSIDE, NAMES, &[1, 2], [0, 10]),
        (b"</a>", FRESH, 0, &[], [0, 11]),
        (b"&<", FRESH, 0, &[], [0, 12]),
        // done, but its end was not told
        (b"<a>&b", INSIDE, 0, &[1, 2], [0, 12]),
    ];
    for call in &calls {
        for mark in MARKS {
            assert_eq!(mark_after(call, 0, mark), mark, "{call:?}");
            assert_eq!(mark_after(call, OPEN, mark), mark, "{call:?}");
        }
    }
}

#[test]
fn the_mark_is_turned_on_by_the_end() {
    let ends: [Call; 16] = [
        (b"", FRESH, 0, &[], [10, 0]),
        (b"  ", FRESH, TRIM_START, &[], [10, 0]),
        (b"  ", FRESH, TRIM_END, &[], [10, 0]),
        (b"a", [1, 1, 0], 0, &[], [10, 0]),
        (b"a", [5, 1, 0], 0, &[], [10, 0]),
        (b"<", FRESH, 0, &[], [0, 1]),
        (b"<'", FRESH, 0, &[], [0, 2]),
        (b"<\"", FRESH, 0, &[], [0, 3]),
        (b"<!-", FRESH, 0, &[], [0, 4]),
        (b"<![", FRESH, 0, &[], [0, 5]),
        (b"<?", FRESH, 0, &[], [0, 6]),
        (b"<?xml", FRESH, 0, &[], [0, 7]),
        (b"<a><!b>", INSIDE, 0, &[1, 2], [0, 8]),
        (b"<a>\xFF", INSIDE, 0, &[1, 2], [0, 13]),
        (b"<!D", FRESH, 0, &[], [0, 14]),
        (b"<a><b>", INSIDE, 0, &[1, 2], [0, 15]),
    ];
    // with the setting off, while a name is open
    let open: [Call; 3] = [
        (b"<a>", INSIDE, 0, &[1, 2], [10, 0]),
        (b"<a>", [5, 3, 1], 0, &[1, 2], [10, 0]),
        (b"<a>  ", INSIDE, TRIM_END, &[1, 2], [10, 0]),
    ];
    for mark in MARKS {
        for call in ends.iter().chain(&open) {
            assert_eq!(mark_after(call, 0, mark), mark.max(1), "{call:?}");
        }
        for call in &ends {
            assert_eq!(mark_after(call, OPEN, mark), mark.max(1), "{call:?}");
        }
    }
}

/// The document, the phase, the position, the depth and the settings before a call, the stack, and the place and the piece of 18.
type AtTheEnd = (&'static [u8], [usize; 3], usize, &'static [usize], [usize; 3]);

const AT_THE_END: [AtTheEnd; 9] = [
    (b"<a>", [1, 3, 1], 0, &[1, 2], [1, 3, 3]),
    (b"<a>  ", [1, 3, 1], TRIM_END, &[1, 2], [1, 3, 5]),
    (b"<a>  ", [1, 3, 1], TRIM_START, &[1, 2], [1, 5, 5]),
    (b"<a>  ", [1, 3, 1], TRIM_START + TRIM_END, &[1, 2], [1, 5, 5]),
    (b"<a>", [5, 3, 1], 0, &[1, 2], [1, 3, 3]),
    // states that no run comes to
    (b"<a>", [5, 2, 1], 0, &[1, 2], [1, 2, 2]),
    (b"<a>", [5, 0, 1], 0, &[0, 0], [0, 0, 0]),
    (b"<a>", [5, 3, 2], 0, &[9, 8, 2, 3], [2, 3, 3]),
    (b"<a>", [5, 3, 1], 0, &[3, 3, 0, 1], [3, 3, 3]),
];

/// Makes a call from such a state, and one more: 18 if it is due, or else end of file, which follows it.
fn hold_to_the_end((document, place, settings, stack, told): AtTheEnd, more: usize, mark: usize) {
    let ([phase, position, depth], [place, from, to]) = (place, told);
    let (length, settings) = (document.len(), settings | more);
    let mut names = stack.to_vec();
    let mut state = [phase, position, depth, length, settings, mark];
    let mut answer = [9; lent::ANSWER_SLOTS];
    let number = lent::read_event(document, &mut names, &mut state, &mut answer);
    let wanted = if mark == 0 && more == OPEN {
        [0, 18, place, from, to, 0, 0, 0, 0, 0, 0, 0]
    } else {
        [10, 0, 0, from, to, from, from, 0, 0, 0, 0, 0]
    };
    assert_eq!((number, answer), (wanted[1], wanted));
    let left = [5, to, depth, length, settings, mark.max(1)];
    assert_eq!((state, &names[..]), (left, stack));
    assert_eq!(lent::read_event(document, &mut names, &mut state, &mut answer), 0);
    assert_eq!(answer, [10, 0, 0, to, to, to, to, 0, 0, 0, 0, 0]);
    assert_eq!((state, &names[..]), (left, stack));
}

#[test]
fn it_comes_from_any_state_whose_mark_is_off() {
    for call in AT_THE_END {
        for mark in MARKS {
            hold_to_the_end(call, OPEN, mark);
            hold_to_the_end(call, 0, mark);
        }
    }
}

#[test]
fn a_bad_state_is_left_alone_whatever_its_mark() {
    let length = 3;
    let settings = NAMES + OPEN;
    let bad: [([usize; 5], &[usize]); 8] = [
        ([5, 3, 1, length, 512], &[1, 2]),
        ([6, 3, 1, length, settings], &[1, 2]),
        ([5, 3, 1, length + 1, settings], &[1, 2]),
        ([5, 4, 1, length, settings], &[1, 2]),
        ([5, 3, 2, length, settings], &[1, 2]),
        ([5, 3, 1, length, settings], &[2, 1]),
        ([5, 3, 1, length, settings], &[1, 4]),
        ([0, 0, 1, length, settings], &[0, 0]),
    ];
    for (slots, stack) in bad {
        for mark in MARKS {
            let [phase, position, depth, length, settings] = slots;
            let before = [phase, position, depth, length, settings, mark];
            let (mut state, mut names) = (before, stack.to_vec());
            let mut answer = [9; lent::ANSWER_SLOTS];
            assert_eq!(lent::read_event(b"<a>", &mut names, &mut state, &mut answer), 17);
            assert_eq!(answer, [0, 17, 0, 0, 0, 0, 0, 0, 0, 0, 0, 0]);
            assert_eq!((state, &names[..]), (before, stack));
        }
    }
}

#[test]
fn a_fresh_reader_has_the_mark_off() {
    let mut state = [9; lent::STATE_SLOTS];
    assert_eq!(lent::new(b"<a>", NAMES + OPEN, &mut state), 0);
    assert_eq!(state, [0, 0, 0, 3, NAMES + OPEN, 0]);
}

#[test]
fn a_state_without_its_mark_is_too_short() {
    let mut state = [9; 5];
    assert_eq!(lent::new(b"<a>", NAMES, &mut state), 17);
    assert_eq!(state, [9; 5]);
    state = [0, 0, 0, 3, NAMES];
    let (mut stack, mut answer) = ([0; 2], [9; lent::ANSWER_SLOTS]);
    assert_eq!(lent::read_event(b"<a>", &mut stack, &mut state, &mut answer), 17);
    assert_eq!((state, stack), ([0, 0, 0, 3, NAMES], [0; 2]));
    assert_eq!(answer, [0, 17, 0, 0, 0, 0, 0, 0, 0, 0, 0, 0]);
}
