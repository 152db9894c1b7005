//! The worked examples of the reader's definition, P1 to P16, and the cases that it wants run: every answer, and the state after it, by both engines.

mod common;

use sporebasket::ext::ReaderExt;
use sporebasket::plain::{Engine, Main, Plain};
use sporebasket::reader::ReaderBy;
use sporebasket::Reader;

struct Row {
    name: &'static str,
    document: &'static [u8],
    settings: &'static str,
    names: usize,
    answers: &'static [&'static str],
}

/// A row with the default settings and room for 64 names.
const fn row(name: &'static str, document: &'static [u8], answers: &'static [&'static str]) -> Row {
    Row {
        name,
        document,
        settings: "-",
        names: 64,
        answers,
    }
}

const ROWS: &[Row] = &[
    row("P1", b"", &["eof 0 0 0 0 0 | done 0 0"]),
    row(
        "P2",
        b"<t><r n=\"1\"/>06:15</t>",
        &[
            "start 0 3 1 2 1 | text 3 1 1..2",
            "empty 3 13 4 11 1 | text 13 1 1..2",
            "text 13 18 13 18 0 | markup 18 1 1..2",
            "end 18 22 20 21 1 | text 22 0",
            "eof 22 22 22 22 0 | done 22 0",
        ],
    ),
    row(
        "P3",
        b"<a></b>",
        &[
            "start 0 3 1 2 1 | text 3 1 1..2",
            "refused 10 3 piece 3..7 expected 1..2 found 5..6 | text 7 0",
            "eof 7 7 7 7 0 | done 7 0",
        ],
    ),
    row(
        "P4",
        b"</a>",
        &[
            "refused 11 0 piece 0..4 found 2..3 | text 4 0",
            "eof 4 4 4 4 0 | done 4 0",
        ],
    ),
    row(
        "P5",
        b"<?>",
        &["refused 6 0 piece 0..3 | done 3 0", "eof 3 3 3 3 0 | done 3 0"],
    ),
    row("P6", b"<??>", &["pi 0 4 2 2 0 | text 4 0", "eof 4 4 4 4 0 | done 4 0"]),
    row(
        "P7",
        b"<!-->",
        &["refused 4 0 piece 0..5 | done 5 0", "eof 5 5 5 5 0 | done 5 0"],
    ),
    row(
        "P7, the other",
        b"<!--->",
        &["refused 4 0 piece 0..6 | done 6 0", "eof 6 6 6 6 0 | done 6 0"],
    ),
    row(
        "P8",
        b"<!---->",
        &["comment 0 7 4 4 0 | text 7 0", "eof 7 7 7 7 0 | done 7 0"],
    ),
    row(
        "P9",
        b"< ></ >",
        &[
            "start 0 3 1 2 0 | text 3 1 1..1",
            "refused 10 3 piece 3..7 expected 1..1 found 5..6 | text 7 0",
            "eof 7 7 7 7 0 | done 7 0",
        ],
    ),
    row(
        "P10",
        b"<a b='>'>",
        &["start 0 9 1 8 1 | text 9 1 1..2", "eof 9 9 9 9 0 | done 9 1 1..2"],
    ),
    row(
        "P11",
        b"<a b='>",
        &["refused 2 0 piece 0..7 | done 7 0", "eof 7 7 7 7 0 | done 7 0"],
    ),
    row(
        "P12",
        b"<![]]>",
        &["refused 5 0 piece 0..6 | done 6 0", "eof 6 6 6 6 0 | done 6 0"],
    ),
    row(
        "P13",
        b"<!x>",
        &["refused 8 0 piece 0..0 | done 0 0", "eof 0 0 0 0 0 | done 0 0"],
    ),
    row(
        "P14",
        b"<!doctype x>",
        &["refused 14 0 piece 0..0 | done 0 0", "eof 0 0 0 0 0 | done 0 0"],
    ),
    row(
        "P15",
        b"a&b;c",
        &[
            "text 0 1 0 1 0 | ref 1 0",
            "ref 1 4 2 3 0 | text 4 0",
            "text 4 5 4 5 0 | done 5 0",
            "eof 5 5 5 5 0 | done 5 0",
        ],
    ),
    row(
        "P16",
        b"a&b",
        &[
            "text 0 1 0 1 0 | ref 1 0",
            "refused 12 1 piece 1..3 | done 3 0",
            "eof 3 3 3 3 0 | done 3 0",
        ],
    ),
    Row {
        name: "a pair of hyphens",
        document: b"<!--a-b--c-->",
        settings: "c",
        names: 64,
        answers: &["refused 9 7 piece 0..13 | text 13 0", "eof 13 13 13 13 0 | done 13 0"],
    },
    row(
        "C0 80",
        b"\xC0\x80",
        &["refused 13 0 piece 0..2 | done 2 0", "eof 2 2 2 2 0 | done 2 0"],
    ),
    row(
        "ab, then FF",
        b"ab\xFF",
        &["refused 13 2 piece 0..3 | done 3 0", "eof 3 3 3 3 0 | done 3 0"],
    ),
    row(
        "ab, then FF, in an element",
        b"<a>ab\xFF",
        &[
            "start 0 3 1 2 1 | text 3 1 1..2",
            "refused 13 5 piece 3..6 | done 6 1 1..2",
            "eof 6 6 6 6 0 | done 6 1 1..2",
        ],
    ),
    Row {
        name: "a name too many",
        document: b"<a><b>",
        settings: "-",
        names: 1,
        answers: &[
            "start 0 3 1 2 1 | text 3 1 1..2",
            "refused 15 3 piece 3..3 | done 3 1 1..2",
            "eof 3 3 3 3 0 | done 3 1 1..2",
        ],
    },
    Row {
        name: "room for none",
        document: b"<a/>",
        settings: "-",
        names: 0,
        answers: &["empty 0 4 1 2 1 | text 4 0", "eof 4 4 4 4 0 | done 4 0"],
    },
];

fn hold<E: Engine>() {
    for row in ROWS {
        let mut reader = ReaderBy::<_, E>::with_capacity(row.document, row.names);
        common::set(reader.config_mut(), row.settings);
        assert_eq!(common::run(&mut reader), row.answers, "{}", row.name);
        // end of file stays
        let last = row.answers[row.answers.len() - 1];
        assert_eq!(common::run(&mut reader), [last], "{}", row.name);
    }
}

#[test]
fn worked_examples() {
    hold::<Main>();
}

#[test]
fn worked_examples_by_the_plain_engine() {
    hold::<Plain>();
}

#[test]
fn a_byte_order_mark_is_skipped() {
    let mut reader = Reader::from_reader(b"\xEF\xBB\xBF<a/>");
    assert_eq!(
        common::run(&mut reader),
        ["empty 3 7 4 5 1 | text 7 0", "eof 7 7 7 7 0 | done 7 0"],
    );
}

#[test]
fn an_end_of_file_has_the_piece_of_the_text_that_was_trimmed_away() {
    let mut reader = Reader::from_str("<a/> \n");
    reader.config_mut().trim_text_end = true;
    assert_eq!(
        common::run(&mut reader),
        ["empty 0 4 1 2 1 | text 4 0", "eof 4 6 4 4 0 | done 6 0"],
    );
}
