//! The names that are open: the archive's rows, held to the answers of runs and at every refusal, and the way down that a reader and a feeder give by them.

mod common;

use common::{Numbers, DOCUMENTS, LETTERS, MARKUP};
use sporebasket::errors::Error;
use sporebasket::events::Event;
use sporebasket::ext::{ErrorExt, ReaderExt, Row, WayDown};
use sporebasket::feed::Feeder;
use sporebasket::lent::{self, ANSWER_SLOTS, FILLED_SLOTS, MOST_NAMES, NAME_SLOTS, ROW_SLOTS, STATE_SLOTS};
use sporebasket::name::QName;
use sporebasket::Reader;

/// What no call writes: neither a place, nor a depth, nor a count.
const UNTOUCHED: usize = usize::MAX - 6;

/// The rows in a list of so many slots, with the number that is answered, how many rows were filled, and the whole list.
fn listed(stack: &[usize], state: &[usize], slots: usize) -> (usize, usize, Vec<usize>) {
    let (mut rows, mut answer) = (vec![UNTOUCHED; slots + 2], [UNTOUCHED; FILLED_SLOTS + 1]);
    let lent = (stack.to_vec(), state.to_vec());
    let number = lent::open_rows(stack, state, &mut rows[..slots], &mut answer[..FILLED_SLOTS]);
    assert_eq!((stack, state), (&lent.0[..], &lent.1[..]));
    assert_eq!((&rows[slots..], answer[1]), (&[UNTOUCHED; 2][..], UNTOUCHED));
    rows.truncate(slots);
    (number, answer[0], rows)
}

/// The row of a depth, with the number that is answered.
fn row(stack: &[usize], state: &[usize], depth: usize) -> (usize, [usize; ROW_SLOTS]) {
    let lent = (stack.to_vec(), state.to_vec());
    // in as many slots as it needs, and in one more
    let [told, in_more] = [ROW_SLOTS, ROW_SLOTS + 1].map(|slots| {
        let mut row = [UNTOUCHED; ROW_SLOTS + 1];
        let number = lent::open_row(stack, state, depth, &mut row[..slots]);
        let [start, end, depth, behind] = row;
        assert_eq!(behind, UNTOUCHED);
        (number, [start, end, depth])
    });
    assert_eq!((stack, state), (&lent.0[..], &lent.1[..]));
    assert_eq!(told, in_more);
    told
}

/// Holds both functions to the open names, for each room from none to more than is needed, and for each depth.
fn hold(stack: &[usize], state: &[usize], names: &[(usize, usize)]) {
    let all: Vec<usize> = (1..)
        .zip(names)
        .flat_map(|(depth, (start, end))| [*start, *end, depth])
        .collect();
    for slots in 0..=all.len() + 4 {
        let filled = names.len().min(slots / ROW_SLOTS);
        let mut wanted = all[..filled * ROW_SLOTS].to_vec();
        wanted.resize(slots, UNTOUCHED);
        assert_eq!(listed(stack, state, slots), (0, filled, wanted));
    }
    for (i, wanted) in all.chunks(ROW_SLOTS).enumerate() {
        assert_eq!(row(stack, state, i + 1), (0, wanted.try_into().unwrap()));
    }
    for depth in [0, names.len() + 1, names.len() + 2, usize::MAX / 2 + 2, usize::MAX] {
        assert_eq!(row(stack, state, depth), (17, [UNTOUCHED; ROW_SLOTS]));
    }
}

/// A run by the archive alone, and the names that its answers left open.
struct Run<'a> {
    document: &'a [u8],
    stack: Vec<usize>,
    state: [usize; STATE_SLOTS],
    answer: [usize; ANSWER_SLOTS],
    open: Vec<(usize, usize)>,
}

impl<'a> Run<'a> {
    fn new(document: &'a [u8], settings: usize, names: usize) -> Self {
        let mut state = [0; STATE_SLOTS];
        assert_eq!(lent::new(document, settings, &mut state), 0);
        Run {
            document,
            stack: vec![0; names * NAME_SLOTS],
            state,
            answer: [0; ANSWER_SLOTS],
            open: Vec::new(),
        }
    }

    /// Makes a call, and goes by its answer alone: a Start opens its name, an End closes the latest, if there is one, and so does a closing tag that is refused for its name.
    fn call(&mut self) -> usize {
        let number = lent::read_event(self.document, &mut self.stack, &mut self.state, &mut self.answer);
        let [kind, _, _, _, _, from, _, name, ..] = self.answer;
        match (kind, number) {
            (1, 0) => self.open.push((from, from + name)),
            (2, 0) | (0, 10) => {
                self.open.pop();
            }
            _ => (),
        }
        number
    }

    fn is_at_end(&self) -> bool {
        self.answer[0] == 10
    }

    fn hold(&self) {
        hold(&self.stack, &self.state, &self.open);
    }

    /// The rows in words.
    fn said(&self) -> String {
        let (number, filled, rows) = listed(&self.stack, &self.state, self.open.len() * ROW_SLOTS);
        assert_eq!((number, filled), (0, self.open.len()));
        let said: Vec<String> = rows
            .chunks(ROW_SLOTS)
            .map(|row| format!("{} {}-{}", row[2], row[0], row[1]))
            .collect();
        said.join(", ")
    }
}

/// A document, the letters of its settings, and the rows after each call up to end of file.
type Worked = (&'static [u8], &'static str, &'static [&'static str]);

const WORKED: &[Worked] = &[
    (b"", "-", &[""]),
    (b"06:15", "-", &["", ""]),
    (b"<d>", "-", &["1 1-2", "1 1-2"]),
    // one in the other, with attributes and text between
    (
        b"<d><t n='1'>06:15<b></b></t></d>",
        "-",
        &[
            "1 1-2",
            "1 1-2, 2 4-5",
            "1 1-2, 2 4-5",
            "1 1-2, 2 4-5, 3 18-19",
            "1 1-2, 2 4-5",
            "1 1-2",
            "",
            "",
        ],
    ),
    // names one after the other, of one depth
    (
        b"<d><tt></tt><u></u>",
        "-",
        &["1 1-2", "1 1-2, 2 4-6", "1 1-2", "1 1-2, 2 13-14", "1 1-2", "1 1-2"],
    ),
    // closed crosswise: refused, and closed nevertheless
    (b"<a><b></a></b>", "-", &["1 1-2", "1 1-2, 2 4-5", "1 1-2", "", ""]),
    // without that check they are closed as they come
    (b"<a><b></a></b>", "n", &["1 1-2", "1 1-2, 2 4-5", "1 1-2", "", ""]),
    // no name to close
    (b"</a><b></b></b>", "-", &["", "1 5-6", "", "", ""]),
    (b"</a><b></b></b>", "u", &["", "1 5-6", "", "", ""]),
    // an empty element opens no name, but where it is expanded
    (b"<a><b/>", "-", &["1 1-2", "1 1-2", "1 1-2"]),
    (b"<a><b c='d'/>", "x", &["1 1-2", "1 1-2, 2 4-5", "1 1-2", "1 1-2"]),
    // a name of no bytes
    (b"<><b>", "-", &["1 1-1", "1 1-1, 2 3-4", "1 1-1, 2 3-4"]),
    // behind a byte order mark, which counts
    (
        b"\xEF\xBB\xBF<z\xC3\xBCrich>\n<t>",
        "-",
        &["1 4-11", "1 4-11", "1 4-11, 2 14-15", "1 4-11, 2 14-15"],
    ),
    // at the end that is refused, and behind it
    (
        b"<d><t>",
        "o",
        &["1 1-2", "1 1-2, 2 4-5", "1 1-2, 2 4-5", "1 1-2, 2 4-5"],
    ),
];

/// The settings of these letters.
fn settings(letters: &str) -> usize {
    let mut reader = Reader::from_str("");
    common::set(reader.config_mut(), letters);
    common::settings(reader.config())
}

#[test]
fn the_rows_of_worked_documents() {
    for (document, letters, wanted) in WORKED {
        let mut run = Run::new(document, settings(letters), 4);
        run.hold();
        for wanted in *wanted {
            run.call();
            assert_eq!(run.said(), *wanted, "{document:?} {letters}");
            run.hold();
        }
        assert!(run.is_at_end(), "{document:?} {letters}");
    }
}

/// What each refusal of a reader leaves open of `<d><t>`, where the two are all that there is room for.
const REFUSED: [(&[u8], &str, usize, &str); 17] = [
    (b"<b", "-", 1, "1 1-2, 2 4-5"),
    (b"<b c='", "-", 2, "1 1-2, 2 4-5"),
    (b"<b c=\"", "-", 3, "1 1-2, 2 4-5"),
    (b"<!--", "-", 4, "1 1-2, 2 4-5"),
    (b"<![CDATA[", "-", 5, "1 1-2, 2 4-5"),
    (b"<?b", "-", 6, "1 1-2, 2 4-5"),
    (b"<?xml", "-", 7, "1 1-2, 2 4-5"),
    (b"<!b>", "-", 8, "1 1-2, 2 4-5"),
    (b"<!--a--b-->", "c", 9, "1 1-2, 2 4-5"),
    (b"</d>", "-", 10, "1 1-2"),
    (b"</t></d></d>", "-", 11, ""),
    (b"&b", "-", 12, "1 1-2, 2 4-5"),
    (b"\xFF", "-", 13, "1 1-2, 2 4-5"),
    (b"<!DOCTYPE d>", "-", 14, "1 1-2, 2 4-5"),
    (b"<b>", "-", 15, "1 1-2, 2 4-5"),
    (b"", "o", 18, "1 1-2, 2 4-5"),
    (b"</t>", "o", 18, "1 1-2"),
];

#[test]
fn the_rows_after_each_refusal() {
    for (rest, letters, refused, wanted) in REFUSED {
        let document = [b"<d><t>", rest].concat();
        let mut run = Run::new(&document, settings(letters), 2);
        let number = loop {
            let number = run.call();
            run.hold();
            if number != 0 || run.is_at_end() {
                break number;
            }
        };
        assert_eq!((number, run.said().as_str()), (refused, wanted));
        // and at the end of file
        while !run.is_at_end() {
            run.call();
            run.hold();
        }
    }
}

#[test]
fn every_document_with_all_settings() {
    let mut deepest = 0;
    for settings in 0..512 {
        for document in DOCUMENTS {
            for names in [0, 1, 3] {
                let mut run = Run::new(document, settings, names);
                while !run.is_at_end() {
                    run.call();
                    run.hold();
                    deepest = deepest.max(run.open.len());
                }
            }
        }
    }
    assert_eq!(deepest, 3);
}

#[test]
fn a_stack_that_grows_changes_nothing() {
    let document = "<a><bc><d e='f'>".repeat(12);
    let mut run = Run::new(document.as_bytes(), lent::default_settings(), 0);
    while !run.is_at_end() {
        // room for a name more, and behind it what the host had there
        run.stack.resize((run.open.len() + 1) * NAME_SLOTS, UNTOUCHED);
        run.hold();
        assert_eq!(run.call(), 0);
        run.hold();
        let stack = run.stack.clone();
        for more in [1, 2, 7] {
            run.stack.resize(stack.len() + more, UNTOUCHED);
            run.hold();
        }
        run.stack = stack;
    }
    assert_eq!(run.open.len(), 36);
}

#[test]
fn settings_that_change_and_any_document() {
    let (mut numbers, mut rows) = (Numbers(2), 0);
    for _ in 0..2000 {
        let parts = numbers.below(60);
        let document: Vec<u8> = (0..parts)
            .flat_map(|_| MARKUP[numbers.below(MARKUP.len())].iter().copied())
            .collect();
        let mut run = Run::new(&document, numbers.below(512), numbers.below(8));
        while !run.is_at_end() {
            if numbers.below(4) == 0 {
                run.state[4] = numbers.below(512);
            }
            run.call();
            run.hold();
            rows += run.open.len();
        }
    }
    assert!(rows > 5_000, "{rows}");
}

/// The state at a position, with a depth, and in the slots that are not looked at what no reader has there.
fn state(position: usize, depth: usize) -> [usize; STATE_SLOTS] {
    [6, position, depth, 0, 512, 7]
}

const STACK: [usize; 6] = [1, 2, 4, 5, 7, 9];

#[test]
fn of_the_state_the_position_and_the_depth_count_alone() {
    for rest in [0, 1, 6, 511, 512, usize::MAX] {
        for (depth, names) in [(0, &[][..]), (2, &[(1, 2), (4, 5)]), (3, &[(1, 2), (4, 5), (7, 9)])] {
            hold(&STACK, &[rest, 9, depth, rest, rest, rest], names);
        }
    }
    // slots behind them are not looked at either
    hold(&STACK, &[6, 9, 1, 0, 512, 7, usize::MAX], &[(1, 2)]);
}

/// Holds that the list is refused, whatever its room, and the row of each depth.
fn refused(stack: &[usize], state: &[usize]) {
    for slots in 0..=11 {
        assert_eq!(listed(stack, state, slots), (17, 0, vec![UNTOUCHED; slots]));
    }
    for depth in [0, 1, 2, 3, 4, MOST_NAMES, MOST_NAMES + 1, usize::MAX] {
        assert_eq!(row(stack, state, depth), (17, [UNTOUCHED; ROW_SLOTS]));
    }
}

#[test]
fn too_few_slots() {
    let state = state(9, 3);
    for slots in 0..STATE_SLOTS {
        refused(&STACK, &state[..slots]);
    }
    // an answer without a slot is not written, and nothing else is
    let mut rows = [UNTOUCHED; 9];
    assert_eq!(lent::open_rows(&STACK, &state, &mut rows, &mut []), 17);
    assert_eq!(rows, [UNTOUCHED; 9]);
    assert_eq!(lent::open_rows(&STACK, &[], &mut rows, &mut []), 17);
    for slots in 0..ROW_SLOTS {
        let mut row = [UNTOUCHED; ROW_SLOTS];
        assert_eq!(lent::open_row(&STACK, &state, 1, &mut row[..slots]), 17);
        assert_eq!(row, [UNTOUCHED; ROW_SLOTS]);
    }
}

#[test]
fn a_list_takes_whole_rows() {
    let state = state(9, 3);
    let rows: [(usize, &[usize]); 9] = [
        (0, &[]),
        (1, &[]),
        (2, &[]),
        (3, &[1, 2, 1]),
        (5, &[1, 2, 1]),
        (6, &[1, 2, 1, 4, 5, 2]),
        (8, &[1, 2, 1, 4, 5, 2]),
        (9, &[1, 2, 1, 4, 5, 2, 7, 9, 3]),
        (12, &[1, 2, 1, 4, 5, 2, 7, 9, 3]),
    ];
    for (slots, filled) in rows {
        let mut wanted = filled.to_vec();
        wanted.resize(slots, UNTOUCHED);
        assert_eq!(listed(&STACK, &state, slots), (0, filled.len() / 3, wanted));
    }
    // more slots of an answer are left alone
    let mut answer = [UNTOUCHED; 3];
    assert_eq!(lent::open_rows(&STACK, &state, &mut [0; 9], &mut answer), 0);
    assert_eq!(answer, [3, UNTOUCHED, UNTOUCHED]);
    assert_eq!(lent::open_rows(&STACK, &[], &mut [0; 9], &mut answer), 17);
    assert_eq!(answer, [0, UNTOUCHED, UNTOUCHED]);
}

#[test]
fn a_depth_that_the_stack_does_not_hold() {
    for depth in [
        4,
        5,
        MOST_NAMES,
        MOST_NAMES + 1,
        usize::MAX / 2 + 1,
        usize::MAX - 1,
        usize::MAX,
    ] {
        // with room for no row too
        refused(&STACK, &state(9, depth));
    }
    // a slot alone holds no name
    for (slots, depth) in [(0, 0), (1, 0), (2, 1), (3, 1), (4, 2), (5, 2)] {
        let names = [(1, 2), (4, 5)];
        hold(&STACK[..slots], &state(9, depth), &names[..depth]);
        refused(&STACK[..slots], &state(9, depth + 1));
    }
}

#[test]
fn as_many_names_as_may_be_and_no_more() {
    let stack: Vec<usize> = (0..=MOST_NAMES).flat_map(|i| [3 * i + 1, 3 * i + 2]).collect();
    let all: Vec<usize> = (0..MOST_NAMES).flat_map(|i| [3 * i + 1, 3 * i + 2, i + 1]).collect();
    let last = 3 * MOST_NAMES - 1;
    for stack in [&stack[..], &stack[..2 * MOST_NAMES]] {
        assert_eq!(
            listed(stack, &state(last, MOST_NAMES), all.len()),
            (0, MOST_NAMES, all.clone())
        );
        let fewer = listed(stack, &state(last, MOST_NAMES), all.len() - 1);
        assert_eq!((fewer.0, fewer.1), (0, MOST_NAMES - 1));
        assert_eq!(
            row(stack, &state(last, MOST_NAMES), MOST_NAMES),
            (0, [last - 1, last, MOST_NAMES])
        );
        assert_eq!(row(stack, &state(last - 1, MOST_NAMES), MOST_NAMES).0, 17);
        refused(stack, &state(usize::MAX, MOST_NAMES + 1));
    }
}

/// Stacks and positions of which the entry of this depth, of three, is bad.
const BAD: [([usize; 6], usize, usize); 8] = [
    ([2, 1, 4, 5, 7, 9], 9, 1),
    ([1, 10, 4, 5, 7, 9], 9, 1),
    ([1, 2, 6, 5, 7, 9], 9, 2),
    ([1, 2, 4, usize::MAX, 7, 9], 9, 2),
    ([1, 2, 4, 5, 7, 9], 8, 3),
    ([1, 2, 4, 5, 10, 9], 9, 3),
    ([1, 2, 4, 5, usize::MAX, 0], usize::MAX, 3),
    ([1, 2, 4, 5, usize::MAX, usize::MAX], usize::MAX - 1, 3),
];

#[test]
fn an_entry_that_is_bad_counts_where_it_is_read() {
    for (stack, position, bad) in BAD {
        let state = state(position, 3);
        let all: Vec<usize> = (0..3).flat_map(|i| [stack[2 * i], stack[2 * i + 1], i + 1]).collect();
        for slots in 0..=11 {
            let room = slots / ROW_SLOTS;
            let (number, filled) = if room < bad { (0, room) } else { (17, 0) };
            let mut wanted = all[..filled * ROW_SLOTS].to_vec();
            wanted.resize(slots, UNTOUCHED);
            assert_eq!(
                listed(&stack, &state, slots),
                (number, filled, wanted),
                "{stack:?} {slots}"
            );
        }
        for depth in 1..=3 {
            let good = (0, all[3 * depth - 3..3 * depth].try_into().unwrap());
            let wanted = if depth == bad {
                (17, [UNTOUCHED; ROW_SLOTS])
            } else {
                good
            };
            assert_eq!(row(&stack, &state, depth), wanted, "{stack:?} {depth}");
        }
        // one that is not open is not read
        let before = listed(&stack, &[6, position, bad - 1, 0, 512, 7], 9);
        assert_eq!((before.0, before.1), (0, bad - 1));
    }
}

#[test]
fn entries_need_not_be_those_of_a_run() {
    const MOST: usize = usize::MAX;
    // the largest numbers, names that lie one in the other or out of order, and at the position
    hold(&[MOST, MOST, 0, MOST], &state(MOST, 2), &[(MOST, MOST), (0, MOST)]);
    hold(&[0, 0, 0, 0], &state(0, 2), &[(0, 0), (0, 0)]);
    hold(&[7, 9, 1, 9, 2, 3], &state(9, 3), &[(7, 9), (1, 9), (2, 3)]);
}

/// What a way has to be, by the names that the reader tells and where these stand in the document.
fn hold_the_way(way: WayDown, names: &[QName], document: &[u8]) {
    assert_eq!(way.len(), names.len());
    for ((row, name), depth) in way.zip(names).zip(1..) {
        assert_eq!((row.name, row.depth), (*name, depth));
        assert_eq!(row.span, common::place(document, name.0.as_bytes()));
    }
}

#[test]
fn the_way_down_is_that_of_the_open_names() {
    let (mut numbers, mut rows) = (Numbers(1), 0);
    for _ in 0..3000 {
        let parts = numbers.below(80);
        let document: Vec<u8> = (0..parts)
            .flat_map(|_| MARKUP[numbers.below(MARKUP.len())].iter().copied())
            .collect();
        let mut reader = Reader::with_capacity(&document, [0, 1, 3, 40][numbers.below(4)]);
        loop {
            if numbers.below(4) == 0 {
                let turned = numbers.below(LETTERS.len());
                common::set(reader.config_mut(), &LETTERS[turned..=turned]);
            }
            let answer = reader.read_event();
            let names: Vec<QName> = reader.open_names().collect();
            hold_the_way(reader.way_down(), &names, &document);
            rows += names.len();
            if answer == Ok(Event::Eof) {
                break;
            }
        }
    }
    assert!(rows > 10_000, "{rows}");
}

/// The way in words.
fn said(way: WayDown) -> String {
    let said: Vec<String> = way
        .map(|row| format!("{} {} {}-{}", row.depth, row.name.0, row.span.start, row.span.end))
        .collect();
    said.join(", ")
}

#[test]
fn the_way_down_to_a_refusal() {
    let rows: [(&str, u8, &str); 7] = [
        ("<d>\n<t n='1'>06:15 & 06:45</t>", 12, "1 d 1-2, 2 t 5-6"),
        // the name that was to be closed is
        ("<d><t></q>", 10, "1 d 1-2"),
        ("</q>", 11, ""),
        ("<d><t", 1, "1 d 1-2"),
        ("<d><zürich n='1'>06:15", 18, "1 d 1-2, 2 zürich 4-11"),
        // a byte order mark counts
        ("\u{feff}<d><t>", 18, "1 d 4-5, 2 t 7-8"),
        ("\u{feff}<!x>", 8, ""),
    ];
    for (document, number, wanted) in rows {
        let mut reader = Reader::from_str(document);
        reader.config_mut().check_open_names = true;
        let mut feeder = Feeder::new();
        feeder.config_mut().check_open_names = true;
        feeder.feed(document.as_bytes()).unwrap();
        feeder.finish();
        let refusals: [Error; 2] = [
            loop {
                if let Err(error) = reader.read_event() {
                    break error;
                }
            },
            loop {
                if let Err(error) = feeder.read_event() {
                    break error;
                }
            },
        ];
        for error in refusals {
            assert_eq!(error.number(), Some(number), "{document}");
        }
        for way in [reader.way_down(), feeder.way_down()] {
            assert_eq!(said(way), wanted, "{document}");
        }
    }
}

#[test]
fn a_way_is_walked_from_both_ends() {
    let document = "<a><b><c><d>";
    let mut reader = Reader::from_str(document);
    assert_eq!(reader.way_down().next(), None);
    while reader.read_event() != Ok(Event::Eof) {}
    let mut way = reader.way_down();
    let name = |row: Option<Row<'static>>| row.map(|row| (row.name.0, row.depth));
    assert_eq!((way.len(), way.size_hint()), (4, (4, Some(4))));
    assert_eq!(name(way.next()), Some(("a", 1)));
    assert_eq!(name(way.next_back()), Some(("d", 4)));
    let rest = way.clone();
    assert_eq!(rest.len(), 2);
    assert_eq!(name(way.next_back()), Some(("c", 3)));
    assert_eq!(name(way.next()), Some(("b", 2)));
    assert_eq!((way.len(), name(way.next()), name(way.next_back())), (0, None, None));
    assert_eq!(name(way.next()), None);
    assert_eq!(said(rest), "2 b 4-5, 3 c 7-8");
    let depths: Vec<usize> = reader.way_down().rev().map(|row| row.depth).collect();
    assert_eq!(depths, [4, 3, 2, 1]);
}

#[test]
fn a_way_is_kept_while_the_reader_goes_on_and_its_names_as_long_as_the_document() {
    let document = String::from("<a><b></b></a>");
    let (before, after): (WayDown, Vec<Row>) = {
        let mut reader = Reader::from_str(&document);
        for _ in 0..2 {
            assert!(reader.read_event().is_ok());
        }
        let before = reader.way_down();
        assert!(reader.read_event().is_ok());
        let after = reader.way_down().collect();
        (before, after)
    };
    assert_eq!(said(before), "1 a 1-2, 2 b 4-5");
    assert_eq!(after.len(), 1);
    assert_eq!((after[0].name, &document[after[0].span.clone()]), (QName("a"), "a"));
}

#[test]
fn rows_as_their_user_meets_them() {
    fn check<T: Clone + Send + Sync>(_: &T) {}
    let mut reader = Reader::from_str("<t><t>");
    while reader.read_event() != Ok(Event::Eof) {}
    let way = reader.way_down();
    check(&way);
    let rows: Vec<Row> = way.clone().collect();
    check(&rows);
    assert_eq!(rows[0], rows[0].clone());
    // of one name, and not the same row
    assert_eq!(rows[0].name, rows[1].name);
    assert_ne!(rows[0], rows[1]);
    let shown = "Row { name: QName(\"t\"), span: 1..2, depth: 1 }";
    assert_eq!(format!("{:?}", rows[0]), shown);
    assert!(format!("{way:?}").starts_with(&format!("[{shown}, Row {{ ")));
}
