//! A reader beside the archive itself, which is lent all room for names from the start and the settings anew for every call. That a reader makes
//! room as names open, and keeps the settings until they change, is seen in no answer.

mod common;

use common::{Numbers, LETTERS, PHASES};
use sporebasket::errors::{Error, Refused};
use sporebasket::ext::ReaderExt;
use sporebasket::lent::{self, LONGEST, MOST_NAMES};
use sporebasket::Reader;

/// The archive's memory, lent whole.
#[derive(Clone)]
struct Beside<'a> {
    document: &'a [u8],
    state: [usize; lent::STATE_SLOTS],
    stack: Vec<usize>,
}

impl<'a> Beside<'a> {
    fn new(document: &'a [u8], names: usize) -> Self {
        let mut state = [0; lent::STATE_SLOTS];
        assert_eq!(lent::new(document, 0, &mut state), 0);
        let stack = vec![0; names * lent::NAME_SLOTS];
        Beside { document, state, stack }
    }

    fn answer(&mut self, settings: usize) -> String {
        let mut answer = [0; lent::ANSWER_SLOTS];
        self.state[4] = settings;
        lent::read_event(self.document, &mut self.stack, &mut self.state, &mut answer);
        common::told(&answer)
    }

    fn state(&self) -> String {
        let [phase, position, depth, ..] = self.state;
        let mut said = format!("{} {position} {depth}", PHASES[phase]);
        for name in self.stack.chunks(lent::NAME_SLOTS).take(depth) {
            said += &format!(" {}..{}", name[0], name[1]);
        }
        said
    }
}

/// A reader, and the archive beside it.
#[derive(Clone)]
struct Both<'a>(Reader<&'a [u8]>, Beside<'a>);

impl<'a> Both<'a> {
    fn new(document: &'a [u8], names: usize) -> Self {
        Both(
            Reader::with_capacity(document, names),
            Beside::new(document, names.min(MOST_NAMES)),
        )
    }

    /// The next answer, which both give.
    fn answer(&mut self) -> String {
        let Both(reader, beside) = self;
        let settings = common::settings(reader.config());
        let said = common::answer(reader);
        assert_eq!(said, beside.answer(settings));
        assert_eq!(reader.depth(), beside.state[2]);
        said
    }

    fn hold_the_same_state(&self) {
        assert_eq!(common::state(&self.0), self.1.state());
    }
}

/// Where a stack that doubles may be full, and beside it, up to as many names as may be.
fn capacities() -> impl Iterator<Item = usize> {
    let borders = (5..16).flat_map(|power| (1 << power) - 1..=(1 << power) + 1);
    (0..=3).chain(borders).chain([MOST_NAMES - 1, MOST_NAMES])
}

/// As many elements, one in the other, with names of different lengths.
fn nested(depth: usize) -> String {
    let name = |i: usize| "n".repeat(i % 5 + 1);
    let opened = (0..depth).map(|i| format!("<{} a='b'>", name(i)));
    let closed = (0..depth).rev().map(|i| format!("</{}>", name(i)));
    opened.chain(closed).collect()
}

#[test]
fn a_name_too_many_is_refused_at_the_capacity() {
    for names in capacities().chain([MOST_NAMES + 1, usize::MAX]) {
        let document = nested(names.min(MOST_NAMES) + 1);
        let mut both = Both::new(document.as_bytes(), names);
        for _ in 0..names.min(MOST_NAMES) {
            assert!(both.answer().starts_with("start "));
        }
        both.hold_the_same_state();
        assert!(both.answer().starts_with("refused 15 "));
        assert!(both.answer().starts_with("eof "));
        both.hold_the_same_state();
    }
}

#[test]
fn as_many_names_as_the_capacity_are_closed_again() {
    for names in capacities() {
        let document = nested(names);
        let mut both = Both::new(document.as_bytes(), names);
        for calls in 1..=2 * names {
            let wanted = if calls <= names { "start " } else { "end " };
            assert!(both.answer().starts_with(wanted));
        }
        assert!(both.answer().starts_with("eof "));
        both.hold_the_same_state();
    }
}

#[test]
fn at_the_capacity_reading_goes_on() {
    let document = "<a/>b&c;<!--d-->".repeat(3);
    for names in [0, 1, 32, 33] {
        let document = "<e>".repeat(names) + &document + &"</e>".repeat(names) + &document;
        let mut both = Both::new(document.as_bytes(), names);
        for _ in 0..2 * names + 24 {
            assert!(!both.answer().starts_with("refused "));
            both.hold_the_same_state();
        }
        assert!(both.answer().starts_with("eof "));
    }
}

#[test]
fn a_clone_makes_room_of_its_own() {
    let document = nested(70);
    for depth in [0, 1, 31, 32, 33, 63, 64, 65] {
        let mut both = Both::new(document.as_bytes(), 70);
        for _ in 0..depth {
            both.answer();
        }
        let mut clone = both.clone();
        for mut each in [both.clone(), both] {
            while !each.answer().starts_with("eof ") {
                each.hold_the_same_state();
            }
        }
        clone.hold_the_same_state();
        while !clone.answer().starts_with("eof ") {
            clone.hold_the_same_state();
        }
    }
}

#[test]
fn settings_change_where_the_stack_is_full() {
    let document = "<a>".repeat(33) + "<b/> c </d>" + &"</a>".repeat(33);
    for names in [33, 34, 64, MOST_NAMES] {
        for changed in 0..=35 {
            let mut both = Both::new(document.as_bytes(), names);
            for calls in 0.. {
                if calls == changed {
                    common::set(both.0.config_mut(), "xnT");
                    // the settings of a reader that is put aside
                    both = both.clone();
                }
                if both.answer().starts_with("eof ") {
                    break;
                }
                both.hold_the_same_state();
            }
        }
    }
}

#[test]
fn settings_that_are_asked_for_and_left() {
    let mut both = Both::new(b"<a> </a> <a/>", MOST_NAMES);
    common::set(both.0.config_mut(), "sx");
    for _ in 0..6 {
        let config = both.0.config_mut().clone();
        assert_eq!(*both.0.config(), config);
        both.answer();
        both.hold_the_same_state();
    }
}

/// Openings, more of them than closings, and what else a reader keeps a state for.
const PIECES: [&str; 12] = [
    "<a>",
    "<b c='d'>",
    "<e >",
    "<f>",
    "<g>",
    "</a>",
    "</b>",
    "</e >",
    "<h/>",
    " i ",
    "&j;",
    "<!--k-->",
];

#[test]
fn any_document_with_settings_that_change() {
    let mut numbers = Numbers(7);
    for _ in 0..300 {
        let count = numbers.below(200);
        let document: String = (0..count).map(|_| PIECES[numbers.below(PIECES.len())]).collect();
        let names = numbers.below(80);
        let mut both = Both::new(document.as_bytes(), names);
        // some calls more than up to end of file
        let mut ends = 0;
        while ends < 4 {
            if numbers.below(8) == 0 {
                let letters: String = LETTERS.chars().filter(|_| numbers.below(4) == 0).collect();
                common::set(both.0.config_mut(), &letters);
            }
            if numbers.below(16) == 0 {
                both = both.clone();
            }
            let said = both.answer();
            both.hold_the_same_state();
            ends += usize::from(said.starts_with("eof "));
        }
    }
}

#[test]
fn a_reader_that_was_not_made_never_is() {
    let document = vec![b'<'; LONGEST + 1];
    let mut reader = Reader::with_capacity(&document, 1);
    for _ in 0..3 {
        reader.config_mut().check_end_names = false;
        assert_eq!(reader.clone().read_event(), Err(Error::Refused(Refused::SliceTooLong)));
        assert_eq!(reader.read_event(), Err(Error::Refused(Refused::SliceTooLong)));
        assert_eq!(common::state(&reader), "init 0 0");
        assert_eq!((reader.piece(), reader.error_position()), (0..0, 0));
        assert_eq!((reader.expected(), reader.found()), (None, None));
        assert_eq!(reader.way_down().len(), 0);
    }
}
