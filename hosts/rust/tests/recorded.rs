//! The reader's cases of the repository (`crates/cases/stdout`), run through this package: whole documents by `Reader` and by `lent`, single calls
//! from any state and contents by `lent`; all but contents by both engines.

mod common;

use common::{letters, told, PHASES};
use sporebasket::ext::ReaderExt;
use sporebasket::lent;
use sporebasket::plain::{Engine, Main, Plain};
use sporebasket::reader::{Config, ReaderBy};
use std::fs;

const RECORDED: &str = concat!(env!("CARGO_MANIFEST_DIR"), "/../../crates/cases/stdout");

/// The cases of this word: the words of the line, and the lines below it.
fn cases(word: &str) -> Vec<(String, Vec<String>)> {
    let text = fs::read_to_string(RECORDED).expect("the recorded cases");
    let mut found: Vec<(String, Vec<String>)> = Vec::new();
    let mut inside = false;
    for line in text.lines() {
        if let Some(answer) = line.strip_prefix("  ") {
            if inside {
                found.last_mut().expect("a case").1.push(answer.into());
            }
            continue;
        }
        let rest = line.strip_prefix(word).and_then(|rest| rest.strip_prefix(' '));
        inside = rest.is_some();
        if let Some(rest) = rest {
            found.push((rest.into(), Vec::new()));
        }
    }
    assert!(!found.is_empty(), "no case of {word}");
    found
}

/// The bytes that are written with `\` and two hexadecimal digits for some.
fn unescaped(text: &str) -> Vec<u8> {
    let mut bytes = Vec::new();
    let mut rest = text.as_bytes();
    while let Some((first, after)) = rest.split_first() {
        if *first == b'\\' {
            let digits = std::str::from_utf8(&after[..2]).expect("two digits");
            bytes.push(u8::from_str_radix(digits, 16).expect("two digits"));
            rest = &after[2..];
        } else {
            bytes.push(*first);
            rest = after;
        }
    }
    bytes
}

fn number(text: &str) -> usize {
    text.parse().expect("a number")
}

/// The settings as a number, by the letters that turn a flag over.
fn settings(letters: &str) -> usize {
    let mut config = Config::default();
    common::set(&mut config, letters);
    common::settings(&config)
}

/// Where a state stands: the phase, with `!` before it where the mark is on, the position and the depth.
fn place(state: &[usize]) -> String {
    let mark = if state[5] == 0 { "" } else { "!" };
    format!("{mark}{} {} {}", PHASES[state[0]], state[1], state[2])
}

fn hold_whole_documents<E: Engine>() {
    for (line, mut answers) in cases("run") {
        let words: Vec<&str> = line.splitn(3, ' ').collect();
        let document = unescaped(words[2]);
        let mut reader = ReaderBy::<_, E>::with_capacity(&document, number(words[1]) / 2);
        common::set(reader.config_mut(), words[0]);
        let mut said = common::run(&mut reader);
        said.extend(common::run(&mut reader));
        answers.pop(); // the counts
        let unmarked: Vec<String> = answers.iter().map(|answer| answer.replace(" | !", " | ")).collect();
        assert_eq!(said, unmarked, "run {line}");
    }
}

#[test]
fn whole_documents() {
    hold_whole_documents::<Main>();
}

#[test]
fn whole_documents_by_the_plain_engine() {
    hold_whole_documents::<Plain>();
}

fn hold_whole_documents_with_all_memory_lent<E: Engine>() {
    for (line, mut answers) in cases("run") {
        let words: Vec<&str> = line.splitn(3, ' ').collect();
        let document = unescaped(words[2]);
        let mut stack = vec![0; number(words[1])];
        let (mut state, mut answer) = ([0; lent::STATE_SLOTS], [0; lent::ANSWER_SLOTS]);
        assert_eq!(lent::new(&document, settings(words[0]), &mut state), 0);
        answers.pop(); // the counts
        for wanted in answers {
            E::read_event(&document, &mut stack, &mut state, &mut answer);
            let mut said = format!("{} | {}", told(&answer), place(&state));
            for name in stack.chunks(lent::NAME_SLOTS).take(state[2]) {
                said += &format!(" {}..{}", name[0], name[1]);
            }
            assert_eq!(said, wanted, "run {line}");
        }
    }
}

#[test]
fn whole_documents_with_all_memory_lent() {
    hold_whole_documents_with_all_memory_lent::<Main>();
}

#[test]
fn whole_documents_with_all_memory_lent_by_the_plain_engine() {
    hold_whole_documents_with_all_memory_lent::<Plain>();
}

fn hold_single_calls<E: Engine>() {
    for (line, answers) in cases("state") {
        let words: Vec<&str> = line.splitn(8, ' ').collect();
        let document = unescaped(words[7]);
        let unmarked = words[1].trim_start_matches('!');
        let phase = PHASES.iter().position(|phase| *phase == unmarked).expect("a phase");
        let mut state = [
            phase,
            number(words[2]),
            number(words[3]),
            number(words[4]),
            settings(words[0]),
            usize::from(unmarked != words[1]),
        ];
        let mut stack = vec![0; number(words[5])];
        if words[6] != "-" {
            for (slot, value) in stack.iter_mut().zip(words[6].split(',')) {
                *slot = number(value);
            }
        }
        let mut answer = [0; lent::ANSWER_SLOTS];
        let refusal = E::read_event(&document, &mut stack, &mut state, &mut answer);
        assert_eq!(refusal, answer[1], "state {line}");
        let mut said = format!("{} | {} {}", told(&answer), letters(state[4]), place(&state));
        said += &format!(" {} |", state[3]);
        for (slot, value) in stack.iter().enumerate().filter(|(_, value)| **value != 0) {
            said += &format!(" {slot}={value}");
        }
        assert_eq!([said], answers[..], "state {line}");
    }
}

#[test]
fn single_calls() {
    hold_single_calls::<Main>();
}

#[test]
fn single_calls_by_the_plain_engine() {
    hold_single_calls::<Plain>();
}

#[test]
fn contents() {
    for (line, answers) in cases("content") {
        let words: Vec<&str> = line.splitn(3, ' ').collect();
        let document = unescaped(words[2]);
        let mut part = [0; lent::PART_SLOTS];
        assert_eq!(
            lent::content(&document, number(words[0]), number(words[1]), &mut part),
            0
        );
        assert_eq!(&document[part[0]..part[1]], unescaped(&answers[0]), "content {line}");
    }
}
