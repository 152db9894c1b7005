//! The account of a run: each byte before the position is in exactly one part. It is held over every setting, and it notices what would break it.

mod common;

use common::{word, Numbers, BYTES, DOCUMENTS, LETTERS, MARKUP};
use sporebasket::errors::Error;
use sporebasket::events::Event;
use sporebasket::ext::{ErrorExt, Layout, LayoutError, Parts, ReaderExt};
use sporebasket::lent::{self, ANSWER_SLOTS, STATE_SLOTS};
use sporebasket::Reader;
use std::collections::BTreeSet;
use std::ops::Range;

/// What runs were seen to have, so that no clause is held of nothing.
#[derive(Default)]
struct Seen {
    refusals: BTreeSet<u8>,
    marks: usize,
    whites: usize,
    /// White space that was skipped right before a refusal that ended the run.
    whites_before_a_stop: usize,
    /// Ends of expanded elements.
    empty_ends: usize,
    /// Text that was trimmed away, in the piece of the end of file.
    trimmed_ends: usize,
    /// Runs that left bytes.
    left: usize,
}

impl Seen {
    fn add(&mut self, answer: &Result<Event, Error>, number: Option<u8>, parts: &Parts) {
        let white = usize::from(!parts.white.is_empty());
        self.refusals.extend(number);
        self.marks += usize::from(!parts.mark.is_empty());
        self.whites += white;
        if ends_the_run(number) {
            self.whites_before_a_stop += white;
        }
        match answer {
            Ok(Event::End(_)) => self.empty_ends += usize::from(parts.piece.is_empty()),
            Ok(Event::Eof) => self.trimmed_ends += usize::from(!parts.piece.is_empty()),
            _ => (),
        }
    }
}

fn ends_the_run(number: Option<u8>) -> bool {
    matches!(number, Some(1..=8 | 13..=15))
}

/// The lines of an answer's parts, as the example prints them.
fn lines(answer: &Result<Event, Error>, number: Option<u8>, parts: &Parts) -> impl Iterator<Item = String> {
    let kind = match answer {
        Ok(event) => word(event).to_owned(),
        Err(_) => format!("refused {}", number.unwrap()),
    };
    let line = |kind: &str, part: &Range<usize>| format!("{kind} {} {}", part.start, part.end);
    let skipped = |kind, part: &Range<usize>| (!part.is_empty()).then(|| line(kind, part));
    let piece = Some(line(&kind, &parts.piece));
    [skipped("mark", &parts.mark), skipped("white", &parts.white), piece]
        .into_iter()
        .flatten()
}

/// Reads to the end of file, and once more, with an account beside it. Holds the account to what the reader tells, and gives its lines.
fn held(reader: &mut Reader<&[u8]>, seen: &mut Seen) -> Vec<String> {
    let document = reader.document();
    let mut layout = Layout::new(document);
    let (mut said, mut all, mut bytes) = (Vec::new(), Vec::new(), Vec::new());
    let mut stop = None;
    for _ in 0..document.len() + 2 {
        let answer = reader.read_event();
        let number = answer.as_ref().err().map(|error| error.number().unwrap());
        let parts = layout.add(reader).unwrap_or_else(|fault| panic!("{fault}: {said:?}"));
        assert_eq!(parts.piece, reader.piece());
        for part in [&parts.mark, &parts.white, &parts.piece] {
            bytes.extend_from_slice(&document[part.clone()]);
        }
        assert_eq!(bytes, document[..reader.buffer_position() as usize]);
        seen.add(&answer, number, &parts);
        said.extend(lines(&answer, number, &parts));
        if ends_the_run(number) {
            stop = Some(parts.piece.end);
        }
        all.push(parts);
        if answer == Ok(Event::Eof) {
            break;
        }
    }
    let end = stop.unwrap_or(document.len());
    let left = document.len() - end;
    assert_eq!(layout.left(), end..document.len());
    seen.left += usize::from(left > 0);
    let sum = |part: fn(&Parts) -> &Range<usize>| all.iter().map(|parts| part(parts).len()).sum::<usize>();
    said.push(format!(
        "{} bytes: {} mark, {} white, {} in {} pieces",
        document.len(),
        sum(|parts| &parts.mark),
        sum(|parts| &parts.white),
        sum(|parts| &parts.piece),
        all.len()
    ));
    if stop.is_some() {
        said.last_mut().unwrap().push_str(&format!(", {left} left"));
    }
    assert_eq!(said.last(), Some(&layout.to_string()));
    // end of file stays, and adds nothing
    assert_eq!(reader.read_event(), Ok(Event::Eof));
    let parts = layout.add(reader).unwrap();
    assert_eq!((parts.mark, parts.white, parts.piece), (end..end, end..end, end..end));
    said
}

#[test]
fn every_document_with_all_settings() {
    let mut seen = Seen::default();
    for settings in 0..512 {
        let letters = common::letters(settings);
        for document in DOCUMENTS {
            for names in [0, 1, 64] {
                let mut reader = Reader::with_capacity(document, names);
                common::set(reader.config_mut(), &letters);
                held(&mut reader, &mut seen);
            }
        }
    }
    assert!(seen.refusals.into_iter().eq((1..=15).chain([18])));
    assert!(seen.marks > 0 && seen.whites > 0 && seen.whites_before_a_stop > 0);
    assert!(seen.empty_ends > 0 && seen.trimmed_ends > 0 && seen.left > 0);
}

#[test]
fn any_document_with_any_settings() {
    let (mut numbers, mut seen) = (Numbers(113), Seen::default());
    for turn in 0..60_000 {
        let mut document = Vec::new();
        if numbers.below(4) == 0 {
            document.extend(b"\xEF\xBB\xBF");
        }
        for _ in 0..numbers.below(20) {
            if turn % 2 == 0 {
                document.push(BYTES[numbers.below(BYTES.len())]);
            } else {
                document.extend(MARKUP[numbers.below(MARKUP.len())]);
            }
        }
        let letters: String = LETTERS.chars().filter(|_| numbers.below(2) == 0).collect();
        let mut reader = Reader::with_capacity(&document, [0, 1, 2, 64][numbers.below(4)]);
        common::set(reader.config_mut(), &letters);
        held(&mut reader, &mut seen);
    }
    assert!(seen.refusals.len() >= 14, "{:?}", seen.refusals);
    assert!(seen.marks > 10_000 && seen.whites > 4_000 && seen.whites_before_a_stop > 500);
    assert!(seen.empty_ends > 1_000 && seen.trimmed_ends > 100 && seen.left > 10_000);
}

#[test]
fn settings_that_change_count_for_the_calls_after_them() {
    let document = b" a <b/> c <d/> e";
    let mut reader = Reader::from_reader(document);
    let mut layout = Layout::new(document);
    let mut whites = Vec::new();
    for trim in [false, true, true, false, true] {
        reader.config_mut().trim_text_start = trim;
        reader.read_event().unwrap();
        // not yet for the answer that is there
        reader.config_mut().trim_text_start = !trim;
        whites.push(layout.add(&reader).unwrap().white);
    }
    assert_eq!(whites, [0..0, 3..3, 7..8, 10..10, 14..15]);
}

/// A document, the letters of its settings, and its layout.
type Row = (&'static str, &'static str, &'static [&'static str]);

const WORKED: [Row; 4] = [
    (
        "\u{feff}\n<t> <r n=\"1\"/> 06:15 </t>\n",
        "xT",
        &[
            "mark 0 3",
            "white 3 4",
            "start 4 7",
            "white 7 8",
            "start 8 18",
            "end 18 18",
            "white 18 19",
            "text 19 25",
            "end 25 29",
            "white 29 30",
            "eof 30 30",
            "30 bytes: 3 mark, 4 white, 23 in 6 pieces",
        ],
    ),
    // what is refused is set all the same, where the reader goes on
    (
        "<t>a &b<!--c--d--></u></v> e",
        "c",
        &[
            "start 0 3",
            "text 3 5",
            "refused 12 5 7",
            "refused 9 7 18",
            "refused 10 18 22",
            "refused 11 22 26",
            "text 26 28",
            "eof 28 28",
            "28 bytes: 0 mark, 0 white, 28 in 8 pieces",
        ],
    ),
    // the end of the run
    (
        "<t> \n<!x>06:15</t>",
        "s",
        &[
            "start 0 3",
            "white 3 5",
            "refused 8 5 5",
            "eof 5 5",
            "18 bytes: 0 mark, 2 white, 3 in 3 pieces, 13 left",
        ],
    ),
    // text that is trimmed away at the end is in the piece of the end
    (
        "<?xml version='1.0'?><t> \n",
        "oe",
        &[
            "decl 0 21",
            "start 21 24",
            "refused 18 24 26",
            "eof 26 26",
            "26 bytes: 0 mark, 0 white, 26 in 4 pieces",
        ],
    ),
];

#[test]
fn worked_documents() {
    for (document, letters, lines) in WORKED {
        let mut reader = Reader::from_str(document);
        common::set(reader.config_mut(), letters);
        assert_eq!(held(&mut reader, &mut Seen::default()), lines, "{document}");
    }
}

#[test]
fn a_document_that_is_too_long_has_no_part() {
    let mut document = vec![b'a'; lent::LONGEST + 1];
    document[..3].copy_from_slice(b"\xEF\xBB\xBF");
    let mut reader = Reader::from_reader(&document);
    let mut layout = Layout::new(&document);
    // before the first call there is no answer
    layout.add(&reader).unwrap();
    assert_eq!(
        layout.to_string(),
        "268435457 bytes: 0 mark, 0 white, 0 in 0 pieces, 268435457 left"
    );
    for _ in 0..2 {
        assert!(reader.read_event().is_err());
        let parts = layout.add(&reader).unwrap();
        assert_eq!((parts.mark, parts.white, parts.piece), (0..0, 0..0, 0..0));
        assert_eq!(layout.left(), 0..document.len());
    }
}

/// The slots of an answer and of a state that an account looks at, and what some hold.
const KIND: usize = 0;
const NUMBER: usize = 1;
const PIECE: usize = 3;
const PIECE_END: usize = 4;
const POSITION: usize = 1;
const LENGTH: usize = 3;
const SETTINGS: usize = 4;
const EOF: usize = 10;
const TRIM: usize = 64;
const EXPAND: usize = 16;

/// What a call tells: its answer, and the state that it leaves.
type Told = ([usize; ANSWER_SLOTS], [usize; STATE_SLOTS]);

/// What the calls over a document tell, up to end of file.
fn run(document: &[u8], settings: usize) -> Vec<Told> {
    let mut stack = [0; 64 * lent::NAME_SLOTS];
    let (mut state, mut answer) = ([0; STATE_SLOTS], [0; ANSWER_SLOTS]);
    assert_eq!(lent::new(document, settings, &mut state), 0);
    let mut told = Vec::new();
    while answer[KIND] != EOF {
        lent::read_event(document, &mut stack, &mut state, &mut answer);
        told.push((answer, state));
    }
    told
}

/// What the account of a run says that is told so.
fn account(document: &[u8], told: &[Told]) -> Result<(), LayoutError> {
    let mut layout = Layout::new(document);
    for (answer, state) in told {
        layout.add_lent(answer, state)?;
    }
    Ok(())
}

/// The account of a run in which this call is told wrongly. Told as it is, nothing is wrong.
fn wrong(document: &[u8], settings: usize, call: usize, change: impl Fn(&mut Told)) -> Result<(), LayoutError> {
    let mut told = run(document, settings | lent::default_settings());
    assert_eq!(account(document, &told), Ok(()));
    change(&mut told[call]);
    account(document, &told)
}

/// Tells end of file at this place.
fn end_of_file((answer, state): &mut Told, place: usize) {
    *answer = [0; ANSWER_SLOTS];
    answer[KIND] = EOF;
    answer[PIECE..=PIECE_END].fill(place);
    state[POSITION] = place;
}

#[test]
fn a_text_that_starts_a_byte_late_is_noticed() {
    for settings in [0, TRIM] {
        let said = wrong(b"<a>bc</a>", settings, 1, |(answer, _)| answer[PIECE] += 1);
        assert_eq!(said, Err(LayoutError::NotWhite(3)));
    }
    let said = wrong(b"<a> b</a>", TRIM, 1, |(answer, _)| answer[PIECE] += 1);
    assert_eq!(said, Err(LayoutError::NotWhite(4)));
}

#[test]
fn a_comment_that_ends_before_its_last_byte_is_noticed() {
    let document = b"<!--a-->b";
    let said = wrong(document, 0, 0, |(answer, _)| answer[PIECE_END] -= 1);
    assert_eq!(said, Err(LayoutError::Position { parts: 7, reader: 8 }));
    let said = wrong(document, TRIM, 0, |(answer, state)| {
        answer[PIECE_END] -= 1;
        state[POSITION] -= 1;
    });
    assert_eq!(said, Err(LayoutError::NotWhite(7)));
}

#[test]
fn a_comment_that_ends_behind_its_last_byte_is_noticed() {
    let said = wrong(b"<!--a-->b", 0, 0, |(answer, state)| {
        answer[PIECE_END] += 1;
        state[POSITION] += 1;
    });
    assert_eq!(said, Err(LayoutError::Apart { end: 9, start: 8 }));
}

#[test]
fn a_refusal_with_an_empty_piece_though_the_position_moved_is_noticed() {
    let said = wrong(b"<a></b>", 0, 1, |(answer, _)| answer[PIECE_END] = answer[PIECE]);
    assert_eq!(said, Err(LayoutError::Position { parts: 3, reader: 7 }));
}

#[test]
fn bytes_skipped_that_are_no_white_space_are_noticed() {
    // the whole of a reference, of a refusal, and what looks like white space
    for (document, call, place) in [
        (&b" a &b; c"[..], 1, 3),
        (b" a</b> c", 1, 2),
        (b" \x0Ba<b/>", 0, 1),
        (b"<a>\xC2\xA0</a>", 1, 3),
    ] {
        let said = wrong(document, TRIM, call, |told| told.0 = [0; ANSWER_SLOTS]);
        assert_eq!(said, Err(LayoutError::NotWhite(place)), "{document:?}");
    }
}

#[test]
fn white_space_skipped_though_not_asked_for_is_noticed() {
    let said = wrong(b"<a> b</a>", 0, 1, |(answer, _)| answer[PIECE] += 1);
    assert_eq!(said, Err(LayoutError::NotAsked(3)));
    let said = wrong(b"<a> \n</a>", TRIM, 1, |(_, state)| state[SETTINGS] -= TRIM);
    assert_eq!(said, Err(LayoutError::NotAsked(3)));
    let said = wrong(b"<a> \n", 0, 1, |told| told.0 = [0; ANSWER_SLOTS]);
    assert_eq!(said, Err(LayoutError::NotAsked(3)));
}

#[test]
fn a_mark_that_is_text_or_skipped_where_none_is_is_noticed() {
    let said = wrong(b"\xEF\xBB\xBFa", 0, 0, |(answer, _)| answer[PIECE] = 0);
    assert_eq!(said, Err(LayoutError::Apart { end: 3, start: 0 }));
    for (document, place) in [(&b"\xEF\xBB\xBEa"[..], 0), (b"\xEF\xBB\xBF\xEF\xBB\xBFa", 3)] {
        let said = wrong(document, TRIM, 0, |(answer, _)| answer[PIECE] += 3);
        assert_eq!(said, Err(LayoutError::NotWhite(place)));
    }
}

#[test]
fn bytes_set_twice_are_noticed() {
    // text that is in the tag behind it too; the closing of an expanded element with the piece of its opening; an answer that comes again
    let said = wrong(b"a<b/>", 0, 1, |(answer, _)| answer[PIECE] = 0);
    assert_eq!(said, Err(LayoutError::Apart { end: 1, start: 0 }));
    let said = wrong(b"<a/>", EXPAND, 1, |(answer, _)| answer[PIECE] = 0);
    assert_eq!(said, Err(LayoutError::Apart { end: 4, start: 0 }));
    let document = b"<a><b/>";
    let mut told = run(document, 0);
    told.insert(1, told[0]);
    assert_eq!(account(document, &told), Err(LayoutError::Apart { end: 3, start: 0 }));
}

#[test]
fn a_part_that_does_not_lie_in_the_document_is_noticed() {
    for (start, end) in [(0, 3), (2, 1), (3, 3), (usize::MAX, 0), (0, usize::MAX)] {
        let said = wrong(b"  ", TRIM, 0, |(answer, _)| {
            (answer[PIECE], answer[PIECE_END]) = (start, end)
        });
        assert!(
            matches!(said, Err(LayoutError::Outside { .. })),
            "{start} {end}: {said:?}"
        );
    }
}

#[test]
fn an_end_of_file_before_the_end_is_noticed() {
    for document in [&b"<a/>b"[..], b"<a/> ", b"<a/></b>", b"<a/><"] {
        let said = wrong(document, TRIM, 1, |told| end_of_file(told, 4));
        let count = LayoutError::Count {
            place: 4,
            parts: 0,
            wanted: 1,
        };
        assert_eq!(said, Err(count), "{document:?}");
    }
}

#[test]
fn a_bad_state_ends_no_run() {
    // an end of file before the end, behind a 17, is noticed
    let document = b"<a/>b";
    let mut told = run(document, 0);
    let mut bad = told[0];
    bad.0 = [0; ANSWER_SLOTS];
    bad.0[NUMBER] = 17;
    told.insert(1, bad);
    end_of_file(&mut told[2], 4);
    let count = LayoutError::Count {
        place: 4,
        parts: 0,
        wanted: 1,
    };
    assert_eq!(account(document, &told), Err(count));
    // and a host that lent another document for a call may go on
    let document = b"<a></a>";
    let mut told = run(document, 0);
    told.insert(1, (bad.0, told[0].1));
    assert_eq!(account(document, &told), Ok(()));
}

#[test]
fn bytes_set_behind_the_refusal_that_ended_the_run_are_noticed() {
    let count = LayoutError::Count {
        place: 1,
        parts: 1,
        wanted: 0,
    };
    let all_the_rest = |(answer, state): &mut Told| {
        answer[PIECE_END] = state[LENGTH];
        state[POSITION] = state[LENGTH];
    };
    for document in [&b"a<!x>"[..], b"a<"] {
        assert_eq!(wrong(document, 0, 2, all_the_rest), Err(count), "{document:?}");
    }
    // by another refusal that ends it
    let document = b"a<!x>";
    let mut told = run(document, 0);
    told.insert(2, told[1]);
    all_the_rest(&mut told[2]);
    end_of_file(&mut told[3], document.len());
    assert_eq!(account(document, &told), Err(count));
}

#[test]
fn every_number_that_is_off_by_one_is_noticed() {
    let mut faults = 0;
    for document in DOCUMENTS {
        for settings in (0..512).filter(|settings| settings & TRIM == 0) {
            let told = run(document, settings);
            assert_eq!(account(document, &told), Ok(()));
            for call in 0..told.len() {
                for step in [1, usize::MAX] {
                    for off in [
                        |(answer, _): &mut Told, step| answer[PIECE] = answer[PIECE].wrapping_add(step),
                        |(answer, _): &mut Told, step| answer[PIECE_END] = answer[PIECE_END].wrapping_add(step),
                        |(_, state): &mut Told, step| state[POSITION] = state[POSITION].wrapping_add(step),
                    ] {
                        let mut told = told.clone();
                        off(&mut told[call], step);
                        assert!(account(document, &told).is_err(), "{document:?} {settings} {call}");
                        faults += 1;
                    }
                }
            }
        }
    }
    assert!(faults > 100_000);
}

#[test]
fn every_fault_has_a_text_of_its_own() {
    let texts = [
        (
            LayoutError::Outside { start: 3, end: 2 },
            "a part from byte 3 to 2 does not lie in the document",
        ),
        (
            LayoutError::Apart { end: 2, start: 0 },
            "a part ends at byte 2, and the next begins at 0",
        ),
        (LayoutError::NotWhite(3), "byte 3 was skipped, and is no white space"),
        (
            LayoutError::NotAsked(3),
            "byte 3 was skipped, and white space was to stay",
        ),
        (
            LayoutError::Position { parts: 3, reader: 7 },
            "the parts end at byte 3, and the reader stands at 7",
        ),
        (
            LayoutError::Count {
                place: 4,
                parts: 0,
                wanted: 1,
            },
            "byte 4 is in 0 parts, not in 1",
        ),
    ];
    for (fault, text) in texts {
        assert_eq!(fault.to_string(), text);
    }
}
