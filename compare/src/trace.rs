//! Lines that show a document, settings and answers, in the form that the recorded cases have.

use crate::check::{Case, CANARY, SMALL};
use crate::ours::*;
use crate::theirs::{Seen, Theirs};

/// Printable ASCII as it stands, every other byte and the backslash as two digits behind one.
pub fn escaped(bytes: &[u8]) -> String {
    let mut out = String::new();
    for &b in bytes {
        match b {
            b'\\' => out.push_str("\\5C"),
            0x20..=0x7E => out.push(b as char),
            _ => out.push_str(&format!("\\{b:02X}")),
        }
    }
    out
}

/// The letters of the flags that are not as by default, or a hyphen.
pub fn letters(settings: u16) -> String {
    let turned: String = (0..LETTERS.len()).filter(|i| (settings ^ DEFAULT) >> i & 1 == 1).map(|i| LETTERS[i]).collect();
    if turned.is_empty() {
        return "-".into();
    }
    turned
}

/// A case on a line, which ends in no space.
pub fn case_line(case: &Case) -> String {
    let mut line = format!("{} {}", letters(case.settings), case.slots);
    if !case.document.is_empty() {
        line.push(' ');
        line.push_str(&escaped(case.document));
    }
    if line.ends_with(' ') {
        line.truncate(line.len() - 1);
        line.push_str("\\20");
    }
    line
}

/// One answer on a line; `bytes` are the content, or the names that a refusal has.
fn line(kind: usize, number: usize, place: usize, state: [usize; 3], name: usize, bytes: &[&[u8]]) -> String {
    let [phase, position, depth] = state;
    let phase = PHASES.get(phase).unwrap_or(&"?");
    let bars: String = bytes.iter().map(|b| format!(" |{}|", escaped(b))).collect();
    match number {
        0 => format!("{} {phase} {position} {depth} {name}{bars}", KINDS.get(kind).unwrap_or(&"?")),
        _ => format!("refused {number} {place} {phase} {position} {depth}{bars}"),
    }
}

/// What the crate answered, with the place of its error.
pub fn their_line(theirs: &Theirs, seen: &Seen, document: &[u8]) -> String {
    let state = [theirs.phase(), theirs.position() + theirs.mark, theirs.depth()];
    let content = match seen.content {
        Some((from, to)) => document.get(from..to).unwrap_or(b"?"),
        None => seen.made.as_bytes(),
    };
    let names = [seen.made.as_bytes(), seen.found.as_bytes()];
    let bytes: &[&[u8]] = match seen.number {
        0 => &[content],
        MISMATCHED => &names,
        UNMATCHED_END => &names[1..],
        _ => &[],
    };
    line(seen.kind, seen.number, theirs.place() + theirs.mark, state, seen.name, bytes)
}

/// What ours answered.
pub fn our_line(state: &[usize], answer: &[usize], document: &[u8]) -> String {
    let part = |slot: usize| document.get(answer[slot]..answer[slot + 1]).unwrap_or(b"?");
    let names = [part(EXPECTED_FROM), part(FOUND_FROM)];
    let content = [part(CONTENT_FROM)];
    let bytes: &[&[u8]] = match answer[NUMBER] {
        0 => &content,
        MISMATCHED => &names,
        UNMATCHED_END => &names[1..],
        _ => &[],
    };
    let state = [state[PHASE], state[POSITION], state[DEPTH]];
    line(answer[KIND], answer[NUMBER], answer[PLACE], state, answer[NAME], bytes)
}

/// The lines of our side, up to Eof or so many.
pub fn our_lines<E: Engine>(engine: &mut E, case: &Case, most: usize) -> Vec<String> {
    answers(engine, case, most, |_, lent| our_line(lent.state, lent.answer, case.document))
}

/// The pieces of our side, and the positions that are left, up to Eof or so many.
pub fn our_pieces<E: Engine>(engine: &mut E, case: &Case, most: usize) -> Vec<String> {
    answers(engine, case, most, |_, Lent { state, answer, .. }| {
        format!("{}..{}, position {}", answer[PIECE_FROM], answer[PIECE_TO], state[POSITION])
    })
}

/// The rows of the open names behind each answer of our side, up to Eof or so many.
pub fn our_rows<E: Engine>(engine: &mut E, case: &Case, most: usize) -> Vec<String> {
    answers(engine, case, most, |engine, lent| {
        let mut rows = vec![0; ROW_SLOTS * lent.state[DEPTH].min(MOST_NAMES)];
        let mut filled = [0; FILLED_SLOTS];
        let number = engine.rows(lent.stack, lent.state, &mut rows, &mut filled);
        let rows: String =
            rows.chunks(ROW_SLOTS).map(|row| format!(", {}..{} at {}", row[ROW_START], row[ROW_END], row[ROW_DEPTH])).collect();
        format!("answered {number}, {} filled{rows}", filled[0])
    })
}

/// What was lent to a call.
struct Lent<'a> {
    stack: &'a [usize],
    state: &'a [usize],
    answer: &'a [usize],
}

/// All that so many calls, by the reader or by the plain engine, have left, with what the last returned.
pub fn slots<E: Engine>(engine: &mut E, read: Read<E>, case: &Case, calls: usize) -> String {
    let (mut state, mut answer, mut stack) = ([0; STATE_SLOTS], [0; ANSWER_SLOTS], vec![CANARY; case.slots]);
    engine.make(case.document, case.settings.into(), &mut state);
    state[MARK] = case.mark;
    let returned = (0..calls).fold(0, |_, _| read(engine, case.document, &mut stack, &mut state, &mut answer));
    let names = stack.iter().rposition(|&slot| slot != CANARY).map_or(0, |last| last + 1);
    format!("returned {returned}, answer {answer:?}, state {state:?}, stack {:?}", &stack[..names.min(SMALL)])
}

type Read<E> = fn(&mut E, &[u8], &mut [usize], &mut [usize], &mut [usize]) -> usize;

/// A line for each answer of our side.
fn answers<E: Engine>(engine: &mut E, case: &Case, most: usize, line: impl Fn(&mut E, Lent) -> String) -> Vec<String> {
    let mut state = [0; STATE_SLOTS];
    let mut answer = [0; ANSWER_SLOTS];
    let mut stack = vec![CANARY; case.slots];
    let made = engine.make(case.document, case.settings.into(), &mut state);
    if made != 0 {
        return vec![format!("refused {made}, no reader")];
    }
    state[MARK] = case.mark;
    let mut lines = Vec::new();
    while lines.len() < most && answer[KIND] != EOF {
        engine.read(case.document, &mut stack, &mut state, &mut answer);
        lines.push(line(engine, Lent { stack: &stack, state: &state, answer: &answer }));
    }
    lines
}

/// The lines of the crate, without end.
pub fn their_lines<'a>(case: &'a Case) -> impl Iterator<Item = String> + 'a {
    let mut theirs = Theirs::new(case.document, case.settings);
    std::iter::from_fn(move || {
        let seen = theirs.read();
        Some(their_line(&theirs, &seen, case.document))
    })
}
