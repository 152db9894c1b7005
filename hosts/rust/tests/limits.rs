//! The limits: the longest document, the most names, and slots that are too few.

use sporebasket::errors::{Error, Refused};
use sporebasket::events::Event;
use sporebasket::ext::{ErrorExt, ReaderExt};
use sporebasket::feed::{Feeder, Scan};
use sporebasket::lent::{self, LONGEST, MOST_NAMES};
use sporebasket::name::QName;
use sporebasket::Reader;

#[test]
fn the_longest_document_is_read() {
    let document = vec![b'a'; LONGEST];
    let mut reader = Reader::from_reader(&document);
    assert_eq!(reader.read_event().map(|event| event.len()), Ok(LONGEST));
    assert_eq!(reader.read_event(), Ok(Event::Eof));
    assert_eq!(reader.buffer_position(), LONGEST as u64);
}

#[test]
fn a_byte_more_is_refused_by_every_call() {
    let document = vec![b'<'; LONGEST + 1];
    let mut reader = Reader::from_reader(&document);
    for _ in 0..3 {
        let error = reader.read_event().unwrap_err();
        assert_eq!(
            (&error, error.number()),
            (&Error::Refused(Refused::SliceTooLong), Some(16))
        );
        assert_eq!((reader.error_position(), reader.buffer_position()), (0, 0));
        assert_eq!((reader.piece(), reader.depth()), (0..0, 0));
        reader.config_mut().trim_text(true);
    }
    let mut state = [7; lent::STATE_SLOTS];
    assert_eq!(lent::new(&document, 0, &mut state), 16);
    assert_eq!(state, [7; lent::STATE_SLOTS]);
}

#[test]
fn a_state_over_a_byte_more_is_refused() {
    let document = vec![b'a'; LONGEST + 1];
    let settings = lent::default_settings();
    for (length, number) in [(LONGEST, 0), (LONGEST + 1, 17)] {
        let fresh = [0, 0, 0, length, settings, 0];
        let mut state = fresh;
        let mut answer = [0; lent::ANSWER_SLOTS];
        assert_eq!(
            lent::read_event(&document[..length], &mut [], &mut state, &mut answer),
            number
        );
        let done = [5, length, 0, length, settings, 0];
        assert_eq!(state, if number == 0 { done } else { fresh });
    }
}

#[test]
fn a_document_in_chunks_is_as_long_at_most() {
    let chunk = vec![b'a'; LONGEST / 4 + 1];
    let mut feeder = Feeder::new();
    for _ in 0..3 {
        assert_eq!(feeder.feed(&chunk), Ok(()));
        assert_eq!(feeder.read_event(), Ok(None));
    }
    assert_eq!(feeder.feed(&chunk), Err(Error::Refused(Refused::SliceTooLong)));
    // nothing of it was taken, and there is room for what is left
    assert_eq!((feeder.document().len(), feeder.error_position()), (3 * chunk.len(), 0));
    assert_eq!(feeder.feed(&chunk[4..]), Ok(()));
    assert_eq!(feeder.read_event(), Ok(None));
    assert_eq!(feeder.feed(b"<"), Err(Error::Refused(Refused::SliceTooLong)));
    assert_eq!(feeder.feed(b""), Ok(()));
    feeder.finish();
    assert_eq!(
        feeder.read_event().map(|event| event.map(|text| text.len())),
        Ok(Some(LONGEST))
    );
    assert_eq!(feeder.read_event(), Ok(Some(Event::Eof)));
}

#[test]
fn a_scan_takes_as_many_bytes_as_a_document_has() {
    let most = vec![b'a'; LONGEST];
    let mut scan = Scan::text();
    assert_eq!(scan.feed(&most[1..]), Ok(None));
    let before = scan;
    assert_eq!(scan.feed(b"a<"), Err(Refused::SliceTooLong));
    // even if the byte would stand within the limit
    assert_eq!(scan.feed(b"<a"), Err(Refused::SliceTooLong));
    assert_eq!(scan, before);
    let mut full = scan;
    assert_eq!((full.feed(b"a"), full.taken()), (Ok(None), LONGEST));
    assert_eq!(full.feed(b""), Ok(None));
    assert_eq!(full.feed(b"<"), Err(Refused::SliceTooLong));
    // after the byte was found pieces of any length are taken
    assert_eq!(scan.feed(b"<"), Ok(Some(LONGEST - 1)));
    assert_eq!(scan.feed(&most), Ok(Some(LONGEST - 1)));
    assert_eq!(scan.feed(&most), Ok(Some(LONGEST - 1)));
}

/// Opens names, one in the other, and sees that they are.
fn open(reader: &mut Reader<&[u8]>, names: usize) {
    for opened in 1..=names {
        assert!(matches!(reader.read_event(), Ok(Event::Start(_))));
        assert_eq!(reader.depth(), opened);
    }
    assert_eq!(reader.open_names().len(), names);
    assert!(reader.open_names().all(|name| name == QName("a")));
    let way = reader.way_down();
    assert_eq!(way.len(), names);
    for (row, i) in way.zip(0..) {
        assert_eq!((row.name, row.depth), (QName("a"), i + 1));
        assert_eq!(row.span, 3 * i + 1..3 * i + 2);
    }
}

/// The name after so many is refused.
fn full(reader: &mut Reader<&[u8]>, names: usize) {
    open(reader, names);
    assert_eq!(reader.read_event(), Err(Error::Refused(Refused::NameStackFull)));
    assert_eq!(reader.error_position(), 3 * names as u64);
    assert_eq!(reader.read_event(), Ok(Event::Eof));
    assert_eq!(reader.open_names().len(), names);
}

#[test]
fn as_many_names_as_may_be_are_opened_and_closed_again() {
    for names in [MOST_NAMES - 1, MOST_NAMES] {
        let document = "<a>".repeat(names) + &"</a>".repeat(names);
        for mut reader in [
            Reader::from_str(&document),
            Reader::with_capacity(document.as_bytes(), names),
        ] {
            open(&mut reader, names);
            for left in (0..names).rev() {
                assert!(matches!(reader.read_event(), Ok(Event::End(_))));
                assert_eq!(reader.depth(), left);
            }
            assert_eq!(reader.read_event(), Ok(Event::Eof));
        }
    }
}

#[test]
fn a_name_more_is_refused_whatever_was_asked_for() {
    let document = "<a>".repeat(MOST_NAMES + 1);
    full(&mut Reader::from_str(&document), MOST_NAMES);
    for asked in [MOST_NAMES - 1, MOST_NAMES, MOST_NAMES + 1, usize::MAX] {
        let mut reader = Reader::with_capacity(document.as_bytes(), asked);
        full(&mut reader, asked.min(MOST_NAMES));
    }
}

#[test]
fn a_name_more_is_refused_whatever_is_lent() {
    let document = "<a>".repeat(MOST_NAMES + 1);
    for slots in [0, 1, 2].map(|more| MOST_NAMES * lent::NAME_SLOTS + more) {
        let mut stack = vec![7; slots];
        let mut state = [0; lent::STATE_SLOTS];
        let mut answer = [0; lent::ANSWER_SLOTS];
        assert_eq!(lent::new(document.as_bytes(), lent::default_settings(), &mut state), 0);
        for _ in 0..MOST_NAMES {
            assert_eq!(
                lent::read_event(document.as_bytes(), &mut stack, &mut state, &mut answer),
                0
            );
        }
        assert_eq!(
            lent::read_event(document.as_bytes(), &mut stack, &mut state, &mut answer),
            15
        );
        assert_eq!(state[2], MOST_NAMES);
        assert!(stack[MOST_NAMES * lent::NAME_SLOTS..].iter().all(|&slot| slot == 7));
    }
}

#[test]
fn too_few_slots_are_refused() {
    let document = b"<a>";
    for slots in 0..lent::STATE_SLOTS {
        let mut state = vec![9; slots];
        assert_eq!(lent::new(document, 0, &mut state), 17);
        let mut answer = [9; lent::ANSWER_SLOTS];
        assert_eq!(lent::read_event(document, &mut [], &mut state, &mut answer), 17);
        assert_eq!(state, vec![9; slots]);
        assert_eq!(answer, [0, 17, 0, 0, 0, 0, 0, 0, 0, 0, 0, 0]);
    }
    for slots in 0..lent::ANSWER_SLOTS {
        let (mut state, mut stack, mut answer) = ([0, 0, 0, 3, 40, 0], [9; 4], vec![9; slots]);
        assert_eq!(lent::read_event(document, &mut stack, &mut state, &mut answer), 17);
        assert_eq!((state, stack, answer), ([0, 0, 0, 3, 40, 0], [9; 4], vec![9; slots]));
    }
    for slots in 0..lent::SCAN_SLOTS {
        let mut scan = vec![4; slots];
        assert_eq!(lent::scan(4, &mut scan), 17);
        assert_eq!(lent::feed(b">", &mut scan), 17);
        assert_eq!(scan, vec![4; slots]);
    }
    for slots in 0..lent::PART_SLOTS {
        let mut part = vec![9; slots];
        assert_eq!(lent::content(document, 0, 1, &mut part), 17);
        assert_eq!(part, vec![9; slots]);
    }
}

#[test]
fn slots_to_spare_are_left_alone() {
    let document = b"<a>";
    let (mut state, mut stack, mut answer) = ([9; 8], [9; 5], [9; 14]);
    assert_eq!(lent::new(document, lent::default_settings(), &mut state), 0);
    assert_eq!(lent::read_event(document, &mut stack, &mut state, &mut answer), 0);
    assert_eq!(state, [1, 3, 1, 3, 40, 0, 9, 9]);
    assert_eq!(stack, [1, 2, 9, 9, 9]);
    assert_eq!(answer, [1, 0, 0, 0, 3, 1, 2, 1, 0, 0, 0, 0, 9, 9]);
    let mut scan = [9; 6];
    assert_eq!(lent::scan(4, &mut scan), 0);
    assert_eq!(lent::feed(document, &mut scan), 0);
    assert_eq!(scan, [0, 2, 0, 0, 9, 9]);
}

/// All bits above those of the nine settings.
const ABOVE: usize = usize::MAX - 511;

#[test]
fn bits_that_stand_for_no_setting_do_not_count() {
    for (settings, taken) in [(usize::MAX, 511), (ABOVE + 40, 40), (ABOVE + 256, 256), (ABOVE, 0)] {
        let mut state = [9; lent::STATE_SLOTS];
        assert_eq!(lent::new(b"a", settings, &mut state), 0);
        assert_eq!(state, [0, 0, 0, 1, taken, 0]);
    }
}

/// The number that a call over `a` answers, and the state after it.
fn called(mut state: [usize; lent::STATE_SLOTS]) -> (usize, [usize; lent::STATE_SLOTS]) {
    let mut answer = [0; lent::ANSWER_SLOTS];
    let number = lent::read_event(b"a", &mut [], &mut state, &mut answer);
    (number, state)
}

#[test]
fn states_with_any_settings_are_taken_and_no_others() {
    for settings in 0..512 {
        assert_eq!(called([0, 0, 0, 1, settings, 0]), (0, [5, 1, 0, 1, settings, 0]));
    }
    for settings in [512, 513, 1023, 1024, 1 << 63, ABOVE, usize::MAX] {
        let bad = [0, 0, 0, 1, settings, 0];
        assert_eq!(called(bad), (17, bad));
    }
    for bad in [[6, 0, 0, 1, 40, 0], [usize::MAX; lent::STATE_SLOTS]] {
        assert_eq!(called(bad), (17, bad));
    }
}
