//! The plain engine beside the main one: to every call it answers the same, and leaves the same in every slot. So either may make any call of a run, and a reader by either reads the same.

#[path = "../examples/beside/mod.rs"]
mod beside;
mod common;

use beside::{Beside, Fault};
use common::{Numbers, BYTES, DOCUMENTS, LETTERS, MARKUP};
use sporebasket::events::Event;
use sporebasket::ext::{ErrorExt, Layout, ReaderExt};
use sporebasket::lent::{self, ANSWER_SLOTS, LONGEST, MOST_NAMES, NAME_SLOTS, STATE_SLOTS};
use sporebasket::name::QName;
use sporebasket::plain::{Engine, Main, Plain};
use sporebasket::reader::ReaderBy;
use sporebasket::{plain, Reader};
use std::thread;

/// What stands in a slot before a call.
const UNTOUCHED: usize = 7_777;

const EOF: usize = 10;
const BAD_STATE: usize = 17;

/// Reads a document to its end by both engines, where so many names may be open, and gives how many calls were compared.
fn compared(document: &[u8], settings: usize, names: usize) -> usize {
    let engines = (lent::read_event, lent::plain_read_event);
    let mut beside = Beside::new(document, settings, names, engines).unwrap();
    loop {
        match beside.call() {
            Ok(Some(_)) => (),
            Ok(None) => return beside.calls(),
            Err(fault) => panic!("{document:?}: {fault}"),
        }
    }
}

#[test]
fn every_document_with_all_settings() {
    let mut calls = 0;
    for settings in 0..512 {
        for document in DOCUMENTS {
            for names in [0, 1, 3] {
                calls += compared(document, settings, names);
            }
        }
    }
    assert!(calls > 200_000, "{calls}");
}

/// All documents of up to three of these bytes.
fn short_documents(bytes: &[u8]) -> Vec<Vec<u8>> {
    let mut all = vec![Vec::new()];
    for length in 0..3 {
        let longer: Vec<Vec<u8>> = all
            .iter()
            .filter(|document| document.len() == length)
            .cloned()
            .collect();
        for document in longer {
            all.extend(bytes.iter().map(|byte| [&document[..], &[*byte]].concat()));
        }
    }
    all
}

#[test]
fn all_short_documents_with_all_settings() {
    let documents = short_documents(b"<>/!?-&;' a");
    assert_eq!(documents.len(), 1 + 11 + 121 + 1331);
    let calls: usize = (0..512)
        .flat_map(|settings| documents.iter().map(move |document| compared(document, settings, 1)))
        .sum();
    assert!(calls > 1_000_000, "{calls}");
}

/// A document of parts that are drawn.
fn drawn(numbers: &mut Numbers, most: usize) -> Vec<u8> {
    let count = numbers.below(most);
    if numbers.below(2) == 0 {
        return (0..count).map(|_| BYTES[numbers.below(BYTES.len())]).collect();
    }
    (0..count)
        .flat_map(|_| MARKUP[numbers.below(MARKUP.len())].iter().copied())
        .collect()
}

#[test]
fn any_document_with_any_settings() {
    let (mut numbers, mut calls) = (Numbers(112), 0);
    for _ in 0..20_000 {
        let document = drawn(&mut numbers, 60);
        let names = [0, 1, 2, 64][numbers.below(4)];
        calls += compared(&document, numbers.below(512), names);
    }
    assert!(calls > 100_000, "{calls}");
}

#[test]
fn many_names_and_a_long_text() {
    for names in [31, 32, 33, 1000] {
        let document = "<a b='c'>".repeat(names) + "<d/></e>" + &"</a>".repeat(names);
        for settings in [0, 8 + 32, 511] {
            // without room for the last: it is refused (15), and end of file follows
            assert_eq!(compared(document.as_bytes(), settings, names - 1), names + 1);
            // an empty element needs room where it is expanded
            compared(document.as_bytes(), settings, names);
            assert!(compared(document.as_bytes(), settings, names + 1) > 2 * names);
        }
    }
    assert_eq!(compared(&[b'a'; 1 << 20], 40, 0), 2);
    assert_eq!(compared(&[b' '; 1 << 20], 64, 0), 1);
}

/// A function of the archive that reads an event.
type ReadEvent = fn(&[u8], &mut [usize], &mut [usize], &mut [usize]) -> usize;

const ENGINES: [ReadEvent; 2] = [lent::read_event, lent::plain_read_event];

/// What a call answers and leaves: the number, the stack, the state and the answer.
type Left = (usize, Vec<usize>, Vec<usize>, Vec<usize>);

/// Makes a call by each engine from the same, which leaves the same. The answer has so many slots.
fn called(document: &[u8], stack: &[usize], state: &[usize], slots: usize) -> Left {
    let [main, plain] = ENGINES.map(|read_event| {
        let (mut stack, mut state, mut answer) = (stack.to_vec(), state.to_vec(), vec![UNTOUCHED; slots]);
        let number = read_event(document, &mut stack, &mut state, &mut answer);
        (number, stack, state, answer)
    });
    assert_eq!(main, plain, "{document:?} {stack:?} {state:?} {slots}");
    plain
}

/// Holds that a call is refused by 17, and leaves the stack and the state alone; an answer with fewer slots than it has too.
fn refused(document: &[u8], stack: &[usize], state: &[usize], slots: usize) {
    let mut answer = vec![UNTOUCHED; slots];
    if let Some(written) = answer.get_mut(..ANSWER_SLOTS) {
        written.fill(0);
        written[1] = BAD_STATE;
    }
    let wanted = (BAD_STATE, stack.to_vec(), state.to_vec(), answer);
    assert_eq!(called(document, stack, state, slots), wanted);
}

#[test]
fn too_few_slots_are_refused() {
    let state = [1, 3, 1, 6, 40, 0];
    for slots in 0..ANSWER_SLOTS {
        refused(b"<a><b>", &[1, 2, 9, 9], &state, slots);
        refused(b"<a><b>", &[], &[], slots);
    }
    for slots in 0..STATE_SLOTS {
        refused(b"<a><b>", &[1, 2, 9, 9], &state[..slots], ANSWER_SLOTS);
    }
    // a stack that does not hold the open name
    for slots in 0..NAME_SLOTS {
        refused(b"<a><b>", &[1, 2][..slots], &state, ANSWER_SLOTS);
    }
    // one that has no room for a name more
    for slots in 2..4 {
        let (number, stack, ..) = called(b"<a><b>", &[1, 2, 9, 9][..slots], &state, ANSWER_SLOTS);
        assert_eq!((number, &stack[..]), (15, &[1, 2, 9, 9][..slots]));
    }
}

#[test]
fn slots_to_spare_are_left_alone() {
    let (number, stack, state, answer) = called(b"<a><b>", &[1, 2, 9, 9, 9], &[1, 3, 1, 6, 40, 0, 9, 9], 14);
    assert_eq!((number, &stack[..]), (0, &[1, 2, 4, 5, 9][..]));
    assert_eq!(state, [1, 6, 2, 6, 40, 0, 9, 9]);
    assert_eq!(answer, [1, 0, 0, 3, 6, 4, 5, 1, 0, 0, 0, 0, UNTOUCHED, UNTOUCHED]);
}

#[test]
fn bad_states_are_refused_and_left_alone() {
    let document = b"<a>&b <";
    let length = document.len();
    let bad: [([usize; STATE_SLOTS], &[usize]); 18] = [
        ([6, 3, 1, length, 40, 0], &[1, 2]),
        ([usize::MAX, 3, 1, length, 40, 0], &[1, 2]),
        ([1, length + 1, 1, length, 40, 0], &[1, 2]),
        ([1, usize::MAX, 1, length, 40, 0], &[1, 2]),
        ([1, 3, 2, length, 40, 0], &[1, 2]),
        ([1, 3, usize::MAX / 2 + 2, length, 40, 0], &[1, 2]),
        ([1, 3, usize::MAX, length, 40, 0], &[1, 2]),
        ([1, 3, 1, length - 1, 40, 0], &[1, 2]),
        ([1, 3, 1, length + 1, 40, 0], &[1, 2]),
        ([1, 3, 1, length, 512, 0], &[1, 2]),
        ([1, 3, 1, length, usize::MAX, 0], &[1, 2]),
        ([1, 3, 1, length, 40, 0], &[2, 1]),
        ([1, 3, 1, length, 40, 0], &[1, 4]),
        ([0, 3, 0, length, 40, 0], &[]),
        ([0, 0, 1, length, 40, 0], &[0, 0]),
        ([2, 3, 0, length, 40, 0], &[]),
        ([3, 0, 0, length, 40, 0], &[]),
        ([4, 3, 0, length, 40, 0], &[1, 2]),
    ];
    for (state, stack) in bad {
        for mark in [0, 1, usize::MAX] {
            let state = [&state[..5], &[mark]].concat();
            refused(document, stack, &state, ANSWER_SLOTS);
            refused(document, stack, &state, ANSWER_SLOTS + 1);
        }
    }
    // a name more than may be open, on a stack that holds it
    let stack = vec![0; (MOST_NAMES + 1) * NAME_SLOTS];
    refused(document, &stack, &[1, 3, MOST_NAMES + 1, length, 40, 0], ANSWER_SLOTS);
    let (number, ..) = called(document, &stack, &[1, 3, MOST_NAMES, length, 40, 0], ANSWER_SLOTS);
    assert_eq!(number, 12);
}

#[test]
fn a_document_that_is_too_long_is_refused_in_any_state() {
    let document = vec![b'a'; LONGEST + 1];
    for length in [0, LONGEST, LONGEST + 1] {
        refused(&document, &[], &[1, 0, 0, length, 40, 0], ANSWER_SLOTS);
    }
}

/// A state and a stack that are drawn, most of which no run comes to.
fn drawn_state(numbers: &mut Numbers, document: &[u8]) -> ([usize; STATE_SLOTS], Vec<usize>) {
    let length = document.len();
    let near = |numbers: &mut Numbers| match numbers.below(20) {
        0 => usize::MAX,
        1 => length + 1,
        _ => numbers.below(length + 1),
    };
    let stack: Vec<usize> = (0..numbers.below(9)).map(|_| near(numbers)).collect();
    let position = near(numbers);
    // half of them fit the byte that stands there
    let phase = match document.get(position) {
        Some(b'<') if numbers.below(2) == 0 => 2,
        Some(b'&') if numbers.below(2) == 0 => 3,
        _ => numbers.below(6),
    };
    let state = [
        phase + numbers.below(30) / 29,
        position,
        numbers.below(stack.len() / 2 + 1) + numbers.below(20) / 19,
        length + numbers.below(30) / 29,
        numbers.below(512) + 512 * (numbers.below(30) / 29),
        [0, 0, 1, UNTOUCHED][numbers.below(4)],
    ];
    (state, stack)
}

#[test]
fn calls_from_any_state() {
    let mut numbers = Numbers(17);
    let mut counts = [0; 19];
    for _ in 0..200_000 {
        let document = match numbers.below(2) {
            0 => DOCUMENTS[numbers.below(DOCUMENTS.len())].to_vec(),
            _ => drawn(&mut numbers, 12),
        };
        let (state, stack) = drawn_state(&mut numbers, &document);
        let (number, stack_after, state_after, answer) = called(&document, &stack, &state, ANSWER_SLOTS);
        assert_eq!(number, answer[1]);
        if number == BAD_STATE {
            assert_eq!((&stack_after[..], &state_after[..]), (&stack[..], &state[..]));
        }
        counts[number] += 1;
    }
    // events, and every refusal of a call, are among them
    for (number, count) in counts.iter().enumerate() {
        assert!(*count > 0 || number == 16, "{number}: {counts:?}");
    }
}

/// The answers of a run to its end and two calls past it, with all that each call left. Each call is made by the engine that is chosen for it.
fn run_by(document: &[u8], settings: usize, names: usize, mut chosen: impl FnMut(usize) -> ReadEvent) -> Vec<Left> {
    let (mut state, mut stack) = (vec![0; STATE_SLOTS], vec![UNTOUCHED; names * NAME_SLOTS]);
    assert_eq!(lent::new(document, settings, &mut state), 0);
    let (mut told, mut ends) = (Vec::new(), 0);
    while ends < 3 {
        let mut answer = vec![UNTOUCHED; ANSWER_SLOTS];
        let number = chosen(told.len())(document, &mut stack, &mut state, &mut answer);
        ends += usize::from(answer[0] == EOF);
        told.push((number, stack.clone(), state.clone(), answer));
    }
    told
}

#[test]
fn any_call_of_a_run_may_be_made_by_either() {
    for document in DOCUMENTS {
        for settings in (0..512).step_by(7).chain([40, 511]) {
            let wanted = run_by(document, settings, 2, |_| lent::read_event);
            for counter in 0..8 {
                // by three bits of the counter, over and over
                let mixed = run_by(document, settings, 2, |call| ENGINES[counter >> (call % 3) & 1]);
                assert_eq!(mixed, wanted, "{document:?} {settings} {counter}");
            }
        }
    }
}

/// A run of which each call is made by an engine that is told.
struct Mixed<'d> {
    document: &'d [u8],
    stack: Vec<usize>,
    state: [usize; STATE_SLOTS],
}

impl<'d> Mixed<'d> {
    fn new(document: &'d [u8], names: usize) -> Self {
        let mut state = [0; STATE_SLOTS];
        assert_eq!(lent::new(document, 0, &mut state), 0);
        let stack = vec![UNTOUCHED; names * NAME_SLOTS];
        Mixed { document, stack, state }
    }

    fn answer(&mut self, settings: usize, engine: usize) -> String {
        let mut answer = [UNTOUCHED; ANSWER_SLOTS];
        self.state[4] = settings;
        ENGINES[engine](self.document, &mut self.stack, &mut self.state, &mut answer);
        common::told(&answer)
    }
}

#[test]
fn settings_and_engines_that_change_between_calls() {
    let (mut numbers, mut calls) = (Numbers(3), 0);
    for _ in 0..3_000 {
        let document = drawn(&mut numbers, 80);
        let names = [0, 1, 3, 40][numbers.below(4)];
        let mut main = Reader::with_capacity(&document, names);
        let mut plain = plain::Reader::with_capacity(&document, names);
        let mut mixed = Mixed::new(&document, names);
        let mut ends = 0;
        while ends < 2 {
            let turned = numbers.below(4 * LETTERS.len());
            let letters = LETTERS.get(turned..=turned).unwrap_or("-");
            common::set(main.config_mut(), letters);
            common::set(plain.config_mut(), letters);
            let said = common::answer(&mut main);
            assert_eq!(common::answer(&mut plain), said);
            assert_eq!(common::state(&plain), common::state(&main));
            let settings = common::settings(main.config());
            assert_eq!(mixed.answer(settings, numbers.below(2)), said);
            ends += usize::from(said.starts_with("eof "));
            calls += 1;
        }
    }
    assert!(calls > 20_000, "{calls}");
}

/// All that a reader tells between two calls, of the answer and beside it.
fn told<E: Engine>(reader: &ReaderBy<&[u8], E>) -> String {
    let way: Vec<_> = reader.way_down().collect();
    format!(
        "{:?} {} {} {:?} {:?} {:?} {:?} {way:?} {:?} {:?}",
        reader,
        reader.buffer_position(),
        reader.error_position(),
        reader.get_ref(),
        reader.piece(),
        reader.expected(),
        reader.found(),
        reader.open_names().collect::<Vec<_>>(),
        reader.document(),
    )
}

#[test]
fn a_reader_by_the_plain_engine_reads_the_same() {
    for document in DOCUMENTS {
        for settings in 0..512 {
            let mut main = Reader::with_capacity(document, 2);
            common::set(main.config_mut(), &common::letters(settings));
            let mut plain = plain::Reader::with_capacity(document, 2);
            *plain.config_mut() = main.config().clone();
            let mut layouts = [Layout::new(document), Layout::new(document)];
            assert_eq!(told(&plain), told(&main));
            loop {
                let answers = (main.read_event(), plain.read_event());
                assert_eq!(answers.0, answers.1);
                assert_eq!(format!("{:?}", answers.0), format!("{:?}", answers.1));
                assert_eq!(told(&plain), told(&main));
                assert_eq!(layouts[0].add(&main), layouts[1].add(&plain));
                if answers.1 == Ok(Event::Eof) {
                    break;
                }
            }
            assert_eq!(layouts[0].to_string(), layouts[1].to_string());
            assert_eq!(plain.into_inner(), main.into_inner());
        }
    }
}

/// What reading on by each of the other methods gives, in words.
fn read_on<E: Engine>(document: &[u8], trim: bool) -> Vec<String> {
    let mut said = Vec::new();
    for way in 0..4 {
        let mut reader = ReaderBy::<_, E>::from_reader(document);
        reader.config_mut().trim_text(trim);
        let mut buffer = Vec::new();
        loop {
            let event = reader.read_event_into(&mut buffer);
            said.push(format!("{event:?}"));
            match event {
                Ok(Event::Eof) => break,
                Ok(Event::Start(tag)) => {
                    let name = tag.name().as_ref().to_owned();
                    let end = QName(&name);
                    said.push(match way {
                        0 => String::new(),
                        1 => format!("{:?}", reader.read_to_end(end)),
                        2 => format!("{:?}", reader.read_to_end_into(end, &mut Vec::new())),
                        _ => format!("{:?}", reader.read_text(end)),
                    });
                }
                _ => (),
            }
            said.push(told(&reader));
        }
        said.push(format!("{buffer:?}"));
    }
    said
}

#[test]
fn the_other_methods_read_the_same() {
    let nested: &[u8] = b"<a> <a>b</a> &c; </a><d> </e> <f><!-- --></f>";
    for document in DOCUMENTS.iter().chain([&nested]) {
        for trim in [false, true] {
            assert_eq!(
                read_on::<Plain>(document, trim),
                read_on::<Main>(document, trim),
                "{document:?}"
            );
        }
    }
}

#[test]
fn a_reader_by_the_plain_engine_as_its_user_meets_it() {
    fn check<T: Clone + Send + Sync>(_: &T) {}
    let document = "<a>".repeat(100) + "b" + &"</a>".repeat(100);
    let mut reader = plain::Reader::from_str(&document);
    check(&reader);
    assert!(reader.read_event().is_ok());
    let mut clone = reader.clone();
    let wanted = common::run(&mut reader);
    assert_eq!((wanted.len(), clone.depth()), (201, 1));
    let moved = thread::spawn({
        let document = document.clone();
        move || {
            let mut reader = plain::Reader::from_reader(document.as_bytes());
            common::run(&mut reader)
        }
    });
    assert_eq!(common::run(&mut clone), wanted);
    assert_eq!(moved.join().unwrap()[1..], wanted);
    assert!(format!("{reader:?}").starts_with("Reader { phase: Done, position: 701, depth: 0, config: Config { "));
}

#[test]
fn the_limits_of_a_reader_by_the_plain_engine() {
    let document = "<a>".repeat(MOST_NAMES + 1);
    for asked in [0, 1, 40, MOST_NAMES] {
        let mut reader = plain::Reader::with_capacity(document.as_bytes(), asked);
        for opened in 1..=asked {
            assert!(reader.read_event().is_ok());
            assert_eq!(reader.depth(), opened);
        }
        assert_eq!(reader.read_event().unwrap_err().number(), Some(15));
        assert_eq!(reader.way_down().len(), asked);
        assert_eq!(reader.read_event(), Ok(Event::Eof));
    }
    let document = vec![b'a'; LONGEST + 1];
    let mut reader = plain::Reader::from_reader(&document);
    for _ in 0..2 {
        assert_eq!(reader.read_event().unwrap_err().number(), Some(16));
    }
    let mut reader = plain::Reader::from_reader(&document[1..]);
    assert_eq!(reader.read_event().map(|event| event.len()), Ok(LONGEST));
    assert_eq!(reader.read_event(), Ok(Event::Eof));
}

/// Which of the numbers a faulty engine gets wrong.
#[derive(Clone, Copy, Debug, PartialEq)]
enum Wrong {
    Number,
    Answer(usize),
    State(usize),
    Stack(usize),
    /// A slot of the answer that is left as it was.
    Unwritten(usize),
}

/// The plain engine, but for a fault in the call of this index.
fn faulty(wrong: Wrong, in_call: usize) -> impl FnMut(&[u8], &mut [usize], &mut [usize], &mut [usize]) -> usize {
    let mut calls = 0..;
    move |document, stack, state, answer| {
        let before = answer.to_vec();
        let mut number = lent::plain_read_event(document, stack, state, answer);
        if calls.next() == Some(in_call) {
            match wrong {
                Wrong::Number => number ^= 1,
                Wrong::Answer(slot) => answer[slot] ^= 1,
                Wrong::State(slot) => state[slot] ^= 1,
                Wrong::Stack(slot) => stack[slot] ^= 1,
                Wrong::Unwritten(slot) => answer[slot] = before[slot],
            }
        }
        number
    }
}

/// What is noticed of two engines on this document, and after how many calls.
fn noticed<M, P>(document: &[u8], settings: usize, engines: (M, P)) -> (Option<Fault>, usize)
where
    M: FnMut(&[u8], &mut [usize], &mut [usize], &mut [usize]) -> usize,
    P: FnMut(&[u8], &mut [usize], &mut [usize], &mut [usize]) -> usize,
{
    let mut beside = Beside::new(document, settings, MOST_NAMES, engines).unwrap();
    loop {
        match beside.call() {
            Ok(Some(_)) => (),
            Ok(None) => return (None, beside.calls()),
            Err(fault) => return (Some(fault), beside.calls()),
        }
    }
}

#[test]
fn a_wrong_number_is_noticed_wherever_it_stands() {
    let document = b"<a> <b c='d'></b></e>&f";
    let settings = lent::default_settings();
    let (none, calls) = noticed(document, settings, (lent::read_event, lent::plain_read_event));
    assert_eq!((none, calls), (None, 7));
    // one slot more than is written, of the answer and of the state, and all of the stack
    let slots = (0..=ANSWER_SLOTS).map(Wrong::Answer);
    let slots = slots.chain((0..=STATE_SLOTS).map(Wrong::State));
    let slots = slots.chain((0..32 * NAME_SLOTS).map(Wrong::Stack));
    let slots = slots.chain((0..ANSWER_SLOTS).map(Wrong::Unwritten));
    for wrong in slots.chain([Wrong::Number]) {
        for call in 0..calls {
            // in the place of either engine
            let found = [
                noticed(document, settings, (lent::read_event, faulty(wrong, call))),
                noticed(document, settings, (faulty(wrong, call), lent::plain_read_event)),
            ];
            for (fault, calls) in found {
                assert_eq!(calls, call + 1, "{wrong:?}");
                assert!(
                    matches!(fault, Some(Fault::Differ { call: told, .. }) if told == calls),
                    "{wrong:?}: {fault:?}"
                );
            }
        }
    }
}

#[test]
fn a_slot_that_neither_engine_writes_is_noticed() {
    for slot in 0..ANSWER_SLOTS {
        let engines = [0; 2].map(|call| faulty(Wrong::Unwritten(slot), call));
        let (fault, calls) = noticed(b"<a>", 40, engines.into());
        assert!(
            matches!(fault, Some(Fault::Differ { call: 1, .. })),
            "{slot}: {fault:?}"
        );
        assert_eq!(calls, 1);
    }
}

#[test]
fn a_fault_is_told_with_what_each_engine_answered_and_left() {
    let shown = |wrong, call| {
        let (fault, _) = noticed(b"<a>b", 40, (lent::read_event, faulty(wrong, call)));
        fault.unwrap().to_string()
    };
    assert_eq!(
        shown(Wrong::Answer(4), 1),
        "the engines differ in call 2, with the settings 40\n\
         main: 0, answer 4 0 0 3 4 3 4 0 0 0 0 0, state 5 4 1 4 40 0\n\
         plain: 0, answer 4 0 0 3 5 3 4 0 0 0 0 0, state 5 4 1 4 40 0"
    );
    assert_eq!(
        shown(Wrong::Stack(1), 0),
        "the engines differ in call 1, with the settings 40\n\
         main: 0, answer 1 0 0 0 3 1 2 1 0 0 0 0, state 1 3 1 4 40 0, slot 1 of the stack 2\n\
         plain: 0, answer 1 0 0 0 3 1 2 1 0 0 0 0, state 1 3 1 4 40 0, slot 1 of the stack 3"
    );
    // a slot that is not the state's
    assert!(shown(Wrong::State(STATE_SLOTS), 2).ends_with(", state 5 4 1 4 40 1 1431655764"));
}

#[test]
fn an_end_that_does_not_come_is_noticed() {
    let endless: ReadEvent = |document, stack, state, answer| {
        let number = lent::read_event(document, stack, state, answer);
        answer[0] %= EOF;
        number
    };
    for document in [&b""[..], b"<a>"] {
        let (fault, calls) = noticed(document, 0, (endless, endless));
        assert_eq!(calls, document.len() + 2);
        let wanted = format!("no end of file by call {calls}, with the settings 0");
        assert_eq!(fault.unwrap().to_string(), wanted);
    }
}
