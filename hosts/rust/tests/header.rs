//! The numbers that `include/sporebasket.h` gives to C are those of the archive and of this package.

use sporebasket::feed::Scan;
use sporebasket::lent::{self, LONGEST, MOST_NAMES};
use std::collections::HashMap;
use std::fs;

const HEADER: &str = concat!(env!("CARGO_MANIFEST_DIR"), "/../../include/sporebasket.h");

/// The header's constants, by their names without `SPOREBASKET_`.
struct Header(HashMap<String, usize>);

impl Header {
    fn read() -> Self {
        let text = fs::read_to_string(HEADER).expect("the header");
        let mut constants = HashMap::new();
        for body in text.split("enum {").skip(1) {
            let body = body.split('}').next().unwrap_or_default();
            let mut next = 0;
            for constant in body.split(',') {
                let mut sides = constant.split('=').map(str::trim);
                let name = sides.next().and_then(|name| name.strip_prefix("SPOREBASKET_"));
                let value = sides.next().map_or(next, |value| value.parse().expect("a number"));
                constants.insert(name.expect("a name").to_owned(), value);
                next = value + 1;
            }
        }
        Header(constants)
    }

    fn get(&self, name: &str) -> usize {
        *self.0.get(name).unwrap_or_else(|| panic!("no {name} in the header"))
    }

    /// The state and the last answer after some calls, with the settings of these names.
    fn after(&self, calls: usize, document: &[u8], settings: &[&str]) -> (Vec<usize>, Vec<usize>) {
        let settings = settings.iter().map(|name| self.get(name)).sum();
        let mut state = vec![0; self.get("STATE_SLOTS")];
        let mut answer = vec![0; self.get("ANSWER_SLOTS")];
        let mut stack = vec![0; self.get("NAME_SLOTS")];
        assert_eq!(lent::new(document, settings, &mut state), 0);
        for _ in 0..calls {
            let number = lent::read_event(document, &mut stack, &mut state, &mut answer);
            assert_eq!(number, answer[self.get("ANSWER_NUMBER")]);
        }
        (state, answer)
    }

    /// The answer to a call for the attribute at this place in the tag with this content, whose name has one byte.
    fn attribute(&self, content: &[u8], at: usize) -> (usize, Vec<usize>) {
        let mut answer = vec![0; self.get("ATTRIBUTE_SLOTS")];
        let number = lent::attribute(content, 0, content.len(), 1, at, &mut answer);
        (number, answer)
    }

    /// The answer to a content with references, in a buffer with room for two bytes.
    fn unescape(&self, content: &[u8]) -> (usize, Vec<usize>) {
        let mut answer = vec![0; self.get("UNESCAPE_SLOTS")];
        let number = lent::unescape(content, &mut [0; 2], 0, &mut answer);
        (number, answer)
    }

    /// A scan that begins in the state of this name and is fed these bytes.
    fn scan(&self, state: &str, bytes: &[u8]) -> Vec<usize> {
        let mut scan = vec![0; self.get("SCAN_SLOTS")];
        assert_eq!(lent::scan(self.get(&format!("SCAN_{state}")), &mut scan), 0);
        assert_eq!(lent::feed(bytes, &mut scan), 0);
        scan
    }

    /// The answer to a column with room for two times and one name.
    fn column(&self, document: &[u8]) -> Vec<usize> {
        let mut stack = vec![0; self.get("NAME_SLOTS")];
        let mut answer = vec![0; self.get("COLUMN_SLOTS")];
        let number = lent::column(document, &mut stack, &mut [0; 2], &mut answer);
        assert_eq!(number, answer[self.get("COLUMN_NUMBER")]);
        answer
    }
}

#[test]
fn limits_and_slots() {
    let header = Header::read();
    assert_eq!(header.get("LONGEST"), LONGEST);
    assert_eq!(header.get("MOST_NAMES"), MOST_NAMES);
    assert_eq!(header.get("NAME_SLOTS"), lent::NAME_SLOTS);
    assert_eq!(header.get("STATE_SLOTS"), lent::STATE_SLOTS);
    assert_eq!(header.get("ANSWER_SLOTS"), lent::ANSWER_SLOTS);
    assert_eq!(header.get("ROW_SLOTS"), lent::ROW_SLOTS);
    assert_eq!(header.get("FILLED_SLOTS"), lent::FILLED_SLOTS);
    assert_eq!(header.get("PART_SLOTS"), lent::PART_SLOTS);
    assert_eq!(header.get("ATTRIBUTE_SLOTS"), lent::ATTRIBUTE_SLOTS);
    assert_eq!(header.get("UNESCAPE_SLOTS"), lent::UNESCAPE_SLOTS);
    assert_eq!(header.get("COLUMN_SLOTS"), lent::COLUMN_SLOTS);
    assert_eq!(header.get("SCAN_SLOTS"), lent::SCAN_SLOTS);
    let defaults = header.get("CHECK_END_NAMES") + header.get("TRIM_MARKUP_NAMES_IN_CLOSING_TAGS");
    assert_eq!(lent::default_settings(), defaults);
}

#[test]
fn kinds() {
    let header = Header::read();
    let rows: [(&str, &[u8], &[&str]); 12] = [
        ("START", b"<a>", &[]),
        ("START", b"<a/>", &["EXPAND_EMPTY_ELEMENTS"]),
        ("END", b"</a>", &["ALLOW_UNMATCHED_ENDS"]),
        ("EMPTY", b"<a/>", &[]),
        ("TEXT", b"a", &[]),
        ("TEXT", b"&", &["ALLOW_DANGLING_AMP"]),
        ("GENERAL_REF", b"&a;", &[]),
        ("COMMENT", b"<!---->", &[]),
        ("CDATA", b"<![CDATA[]]>", &[]),
        ("DECL", b"<?xml?>", &[]),
        ("PI", b"<?a?>", &[]),
        ("EOF", b"", &[]),
    ];
    for (kind, document, settings) in rows {
        let (_, answer) = header.after(1, document, settings);
        assert_eq!(answer[header.get("ANSWER_KIND")], header.get(kind), "{kind}");
    }
}

#[test]
fn refusals() {
    let header = Header::read();
    let rows: [(&str, usize, &[u8], &[&str]); 17] = [
        ("UNCLOSED_TAG", 1, b"<", &[]),
        ("UNCLOSED_SINGLE_QUOTED_ATTRIBUTE_VALUE", 1, b"<'", &[]),
        ("UNCLOSED_DOUBLE_QUOTED_ATTRIBUTE_VALUE", 1, b"<\"", &[]),
        ("UNCLOSED_COMMENT", 1, b"<!-", &[]),
        ("UNCLOSED_CDATA", 1, b"<![", &[]),
        ("UNCLOSED_PI", 1, b"<?", &[]),
        ("UNCLOSED_XML_DECL", 1, b"<?xml", &[]),
        ("INVALID_BANG_MARKUP", 1, b"<!", &[]),
        ("DOUBLE_HYPHEN_IN_COMMENT", 1, b"<!----->", &["CHECK_COMMENTS"]),
        ("MISMATCHED_END_TAG", 2, b"<a></b>", &["CHECK_END_NAMES"]),
        ("MISMATCHED_END_TAG", 2, b"<a></a >", &["CHECK_END_NAMES"]),
        ("UNMATCHED_END_TAG", 1, b"</a>", &[]),
        ("UNCLOSED_REFERENCE", 1, b"&", &[]),
        ("ENCODING", 1, b"\xFF", &[]),
        ("DOCTYPE", 1, b"<!D", &[]),
        ("NAME_STACK_FULL", 2, b"<a><b>", &[]),
        ("UNCLOSED_ELEMENTS", 2, b"<a>", &["CHECK_OPEN_NAMES"]),
    ];
    for (refusal, calls, document, settings) in rows {
        let (_, answer) = header.after(calls, document, settings);
        assert_eq!(answer[header.get("ANSWER_NUMBER")], header.get(refusal), "{refusal}");
    }
    let too_long = vec![0; header.get("LONGEST") + 1];
    let mut state = [0; lent::STATE_SLOTS];
    assert_eq!(lent::new(&too_long, 0, &mut state), header.get("SLICE_TOO_LONG"));
    assert_eq!(lent::new(b"", 0, &mut []), header.get("BAD_STATE"));
}

#[test]
fn phases() {
    let header = Header::read();
    let rows: [(&str, usize, &[u8]); 6] = [
        ("INIT", 0, b"a"),
        ("INSIDE_TEXT", 1, b"<a>"),
        ("INSIDE_MARKUP", 1, b"a<"),
        ("INSIDE_REF", 1, b"a&"),
        ("INSIDE_EMPTY", 1, b"<a/>"),
        ("DONE", 1, b""),
    ];
    for (phase, calls, document) in rows {
        let (state, _) = header.after(calls, document, &["EXPAND_EMPTY_ELEMENTS"]);
        assert_eq!(state[header.get("STATE_PHASE")], header.get(phase), "{phase}");
    }
}

#[test]
fn slots_of_a_state_and_of_an_answer() {
    let header = Header::read();
    let settings = ["TRIM_TEXT_START", "TRIM_TEXT_END"];
    let (state, answer) = header.after(1, b"  ab  <", &settings);
    let slots = [
        ("POSITION", 6),
        ("DEPTH", 0),
        ("LENGTH", 7),
        ("SETTINGS", 64 + 128),
        ("MARK", 0),
    ];
    for (slot, value) in slots {
        assert_eq!(state[header.get(&format!("STATE_{slot}"))], value, "{slot}");
    }
    let slots = [
        ("PIECE_FROM", 2),
        ("PIECE_TO", 6),
        ("CONTENT_FROM", 2),
        ("CONTENT_TO", 4),
        ("PLACE", 0),
    ];
    for (slot, value) in slots {
        assert_eq!(answer[header.get(&format!("ANSWER_{slot}"))], value, "{slot}");
    }
    let (state, answer) = header.after(1, b"<abc d>", &[]);
    assert_eq!(
        (state[header.get("STATE_DEPTH")], answer[header.get("ANSWER_NAME")]),
        (1, 3)
    );
    let (state, _) = header.after(1, b"", &["CHECK_OPEN_NAMES"]);
    assert_eq!(
        (state[header.get("STATE_SETTINGS")], state[header.get("STATE_MARK")]),
        (256, 1)
    );
    let (_, answer) = header.after(2, b"<a></bc>", &["CHECK_END_NAMES"]);
    let slots = [
        ("PLACE", 3),
        ("EXPECTED_FROM", 1),
        ("EXPECTED_TO", 2),
        ("FOUND_FROM", 5),
        ("FOUND_TO", 7),
    ];
    for (slot, value) in slots {
        assert_eq!(answer[header.get(&format!("ANSWER_{slot}"))], value, "{slot}");
    }
}

#[test]
fn slots_and_refusals_of_rows() {
    let header = Header::read();
    let (state, _) = header.after(1, b"<abc d>", &[]);
    // the name that is left on the stack
    let stack = [1, 4];
    let slots = [("START", 1), ("END", 4), ("DEPTH", 1)];
    let mut row = vec![0; header.get("ROW_SLOTS")];
    assert_eq!(lent::open_row(&stack, &state, 1, &mut row), 0);
    let mut rows = vec![0; header.get("ROW_SLOTS")];
    let mut answer = vec![0; header.get("FILLED_SLOTS")];
    assert_eq!(lent::open_rows(&stack, &state, &mut rows, &mut answer), 0);
    assert_eq!(answer[header.get("FILLED_ROWS")], 1);
    for (slot, value) in slots {
        let place = header.get(&format!("ROW_{slot}"));
        assert_eq!([row[place], rows[place]], [value; 2], "{slot}");
    }
    let refusals = [
        lent::open_row(&stack, &state, 2, &mut row),
        lent::open_rows(&[], &state, &mut rows, &mut answer),
    ];
    assert_eq!(refusals, [header.get("BAD_STATE"); 2]);
    assert_eq!(answer[header.get("FILLED_ROWS")], 0);
}

#[test]
fn refusals_of_an_attribute() {
    let header = Header::read();
    let rows: [(&str, &[u8], usize); 9] = [
        ("NO_SPACE", b"r a=''b", 6),
        ("EMPTY_NAME", b"r =", 1),
        ("NO_EQUALS", b"r a", 1),
        ("NO_QUOTE", b"r a=", 1),
        ("NO_QUOTE", b"r a=b", 1),
        ("NO_QUOTE", b"r a='", 1),
        ("LESS_THAN", b"r a='<'", 1),
        ("NAME_USED", b"r a='' a=''", 6),
        ("BAD_STATE", b"r a=''", 0),
    ];
    for (refusal, content, at) in rows {
        assert_eq!(header.attribute(content, at).0, header.get(refusal), "{refusal}");
    }
    assert_eq!(
        lent::find_attribute(b"r", 0, 1, 1, b"a", &mut []),
        header.get("BAD_STATE")
    );
}

#[test]
fn slots_of_an_attribute() {
    let header = Header::read();
    type Slots = &'static [(&'static str, usize)];
    let rows: [(&[u8], usize, Slots); 4] = [
        (
            b"r abc = 'de'",
            1,
            &[
                ("FOUND", 1),
                ("NAME_FROM", 2),
                ("NAME_TO", 5),
                ("VALUE_FROM", 9),
                ("VALUE_TO", 11),
                ("NEXT", 12),
                ("PLACE", 0),
            ],
        ),
        (
            b"r a=\"b",
            1,
            &[("FOUND", 0), ("PLACE", 6), ("QUOTE", 34), ("FIRST", 0)],
        ),
        (b"r a='' a=''", 6, &[("PLACE", 7), ("QUOTE", 0), ("FIRST", 2)]),
        (b"r  ", 1, &[("FOUND", 0), ("NEXT", 0), ("PLACE", 0)]),
    ];
    for (content, at, slots) in rows {
        let (_, answer) = header.attribute(content, at);
        for (slot, value) in slots {
            assert_eq!(answer[header.get(&format!("ATTRIBUTE_{slot}"))], *value, "{slot}");
        }
    }
}

#[test]
fn refusals_and_slots_of_references() {
    let header = Header::read();
    let rows: [(&str, &[u8], usize); 4] = [
        ("BAD_REFERENCE", b"a&b;", 1),
        ("BAD_REFERENCE", b"ab&", 2),
        ("BAD_CHARACTER", b"&lt;&#0;", 4),
        ("BUFFER_FULL", b"a&gt;b", 5),
    ];
    for (refusal, content, place) in rows {
        let (number, answer) = header.unescape(content);
        assert_eq!(number, header.get(refusal), "{refusal}");
        let slots = ["WRITTEN", "PLACE"].map(|slot| answer[header.get(&format!("UNESCAPE_{slot}"))]);
        assert_eq!(slots, [0, place], "{refusal}");
    }
    for (refusal, content) in [
        ("BAD_REFERENCE", "b"),
        ("BAD_CHARACTER", "#xFFFF"),
        ("BUFFER_FULL", "#xFFFD"),
    ] {
        let number = lent::reference(content.as_bytes(), &mut [0; 2], 0, &mut [0; 2]);
        assert_eq!(number, header.get(refusal), "{refusal}");
    }
    let (number, answer) = header.unescape(b"&#233;");
    assert_eq!((number, answer[header.get("UNESCAPE_WRITTEN")]), (0, 2));
    assert_eq!(lent::reference(b"lt", &mut [0], 0, &mut []), header.get("BAD_STATE"));
    assert_eq!(lent::unescape(b"", &mut [], 0, &mut []), header.get("BAD_STATE"));
}

#[test]
fn refusals_of_a_column() {
    let header = Header::read();
    let rows: [(&str, &[u8]); 5] = [
        ("BAD_TIME", b"<t>a"),
        ("BAD_TIME", b"<t>&a;"),
        ("COLUMN_FULL", b"<t>00:00</t><t>00:00</t><t>00:00</t>"),
        ("UNCLOSED_REFERENCE", b"&"),
        ("NAME_STACK_FULL", b"<t><t>"),
    ];
    for (refusal, document) in rows {
        let answer = header.column(document);
        assert_eq!(answer[header.get("COLUMN_NUMBER")], header.get(refusal), "{refusal}");
    }
    let too_long = vec![0; header.get("LONGEST") + 1];
    assert_eq!(
        header.column(&too_long)[header.get("COLUMN_NUMBER")],
        header.get("SLICE_TOO_LONG")
    );
    assert_eq!(lent::column(b"", &mut [], &mut [], &mut []), header.get("BAD_STATE"));
}

#[test]
fn slots_of_a_column() {
    let header = Header::read();
    type Slots = &'static [(&'static str, usize)];
    let rows: [(&[u8], Slots); 3] = [
        (
            b"<t>00:10</t><t>00:09</t><a></bcd>",
            &[
                ("COUNT", 2),
                ("LOWER", 1),
                ("PLACE", 27),
                ("EXPECTED_FROM", 25),
                ("EXPECTED_TO", 26),
                ("FOUND_FROM", 29),
                ("FOUND_TO", 32),
            ],
        ),
        (
            b"<t>00:10</t>ab\xFF",
            &[
                ("COUNT", 1),
                ("LOWER", 0),
                ("PLACE", 14),
                ("PIECE_FROM", 12),
                ("PIECE_TO", 15),
            ],
        ),
        (
            b"<t>00:10</t>",
            &[
                ("COUNT", 1),
                ("LOWER", 0),
                ("NUMBER", 0),
                ("PLACE", 0),
                ("PIECE_FROM", 0),
                ("PIECE_TO", 0),
            ],
        ),
    ];
    for (document, slots) in rows {
        let answer = header.column(document);
        for (slot, value) in slots {
            assert_eq!(answer[header.get(&format!("COLUMN_{slot}"))], *value, "{slot}");
        }
    }
}

#[test]
fn states_of_a_scan() {
    let header = Header::read();
    let rows: [(&str, &[u8]); 12] = [
        ("CLOSED", b"<!x"),
        ("PIECE", b""),
        ("OPENED", b"<"),
        ("BANG", b"<!"),
        ("TAG", b"<a"),
        ("SINGLE_QUOTED", b"<'"),
        ("DOUBLE_QUOTED", b"<\""),
        ("PI", b"<?"),
        ("COMMENT", b"<!-"),
        ("CDATA", b"<!["),
        ("REFERENCE", b"&"),
        ("TEXT", b"a"),
    ];
    for (state, bytes) in rows {
        let number = header.get(&format!("SCAN_{state}"));
        let scan = header.scan("PIECE", bytes);
        assert_eq!(scan[header.get("SCAN_STATE")], number, "{state}");
        let mut scan = Scan::piece();
        scan.feed(bytes).unwrap();
        assert_eq!(scan.state() as usize, number, "{state}");
        let begins = ["PIECE", "TAG", "PI", "COMMENT", "CDATA", "TEXT"].contains(&state);
        let answer = if begins { 0 } else { header.get("BAD_STATE") };
        assert_eq!(lent::scan(number, &mut [0; 4]), answer, "{state}");
    }
    assert_eq!(lent::scan(rows.len(), &mut [0; 4]), header.get("BAD_STATE"));
    for (state, scan) in [
        ("PIECE", Scan::piece()),
        ("TAG", Scan::tag()),
        ("PI", Scan::pi()),
        ("COMMENT", Scan::comment()),
        ("CDATA", Scan::cdata()),
        ("TEXT", Scan::text()),
    ] {
        assert_eq!(scan.state() as usize, header.get(&format!("SCAN_{state}")), "{state}");
    }
}

#[test]
fn slots_and_refusals_of_a_scan() {
    let header = Header::read();
    type Slots = &'static [(&'static str, usize)];
    let rows: [(&str, &[u8], Slots); 5] = [
        ("COMMENT", b"", &[("COUNT", 0), ("LEFT", 4), ("SEEN", 0)]),
        ("PIECE", b"<!-", &[("COUNT", 3), ("LEFT", 1), ("SEEN", 0)]),
        ("PIECE", b"<!--a--", &[("COUNT", 7), ("LEFT", 0), ("SEEN", 2)]),
        ("PI", b"<?a?", &[("COUNT", 4), ("SEEN", 1)]),
        (
            "CDATA",
            b"<![CDATA[]]]>a",
            &[("STATE", 0), ("COUNT", 12), ("LEFT", 0), ("SEEN", 0)],
        ),
    ];
    for (state, bytes, slots) in rows {
        let scan = header.scan(state, bytes);
        for (slot, value) in slots {
            assert_eq!(scan[header.get(&format!("SCAN_{slot}"))], *value, "{slot}");
        }
    }
    let mut scan = header.scan("TEXT", b"a");
    let longest = vec![b'a'; header.get("LONGEST")];
    assert_eq!(lent::feed(&longest, &mut scan), header.get("SLICE_TOO_LONG"));
    scan[header.get("SCAN_SEEN")] = 1;
    assert_eq!(lent::feed(b"a", &mut scan), header.get("BAD_STATE"));
}
