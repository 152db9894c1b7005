//! The inputs that docs/DIFFERENCES.md names for attributes, with what both sides give for them.

use super::account::Step;
use super::summary::Tally;
use super::theirs::Item;
use super::*;
use crate::contents::Case;
use crate::run::Runs;

/// A content, whether the crate checks for duplicates, what ours and the crate give, and the rows by which they differ.
struct Example(&'static str, bool, &'static str, &'static str, &'static [&'static str]);

const ALL: &[Example] = &[
    Example(" a=''a", true, "a||, 19 at 5", "a||, ExpectedEq(6)", &["attribute-space"]),
    Example(" a=''b=''", true, "a||, 19 at 5", "a||, b||", &["attribute-space"]),
    Example(" =", true, "20 at 1", "ExpectedEq(2)", &["attribute-name-start"]),
    Example(" ==''", true, "20 at 1", "=||", &["attribute-name-start"]),
    Example(" '=''", true, "20 at 1", "'||", &["attribute-name-start"]),
    Example(" a'", true, "21 at 2", "ExpectedEq(3)", &["attribute-name-quote"]),
    Example(" a'=''", true, "21 at 2", "a'||", &["attribute-name-quote"]),
    Example(" a='' a'=''", true, "a||, 24 at 6", "a||, a'||", &["attribute-name-quote"]),
    Example(" a='<", true, "23 at 4", "ExpectedQuote(5, 39)", &["attribute-less-than"]),
    Example(" a='<'", true, "23 at 4", "a|<|", &["attribute-less-than"]),
    Example(" a='' a", true, "a||, 24 at 6", "a||, ExpectedEq(7)", &["attribute-duplicate-name"]),
    Example(" a='' a=", false, "a||, 24 at 6", "a||, ExpectedValue(8)", &["attribute-duplicate"]),
    Example(" a='' a=''", false, "a||, 24 at 6", "a||, a||", &["attribute-duplicate"]),
    Example(" a='' a=''", true, "a||, 24 at 6", "a||, Duplicated(6, 1)", &[]),
    Example(" a a", true, "21 at 3", "ExpectedEq(3), ExpectedEq(4)", &["attribute-goes-on"]),
    Example(" a='' a='b c' d=''", true, "a||, 24 at 6", "a||, Duplicated(6, 1), ExpectedEq(14), d||", &["attribute-goes-on"]),
    Example(" a='1' b = \"2\"\n", true, "a|1|, b|2|", "a|1|, b|2|", &[]),
    Example(" a =", true, "22 at 4", "ExpectedValue(4)", &[]),
    Example(" a =b", true, "22 at 4", "UnquotedValue(4)", &[]),
    Example(" a =\"'", true, "22 at 6", "ExpectedQuote(6, 34)", &[]),
];

/// The contents for which a side does not do what is listed, or for which another row is due.
pub fn refuted() -> Vec<&'static str> {
    let mut bench = Bench::new(&account::SOUND, &theirs::SOUND);
    let refuted = ALL.iter().filter(|example| !holds(&mut bench, example));
    let mut refuted: Vec<&'static str> = refuted.map(|example| example.0).collect();
    let without = |tag: &&&'static str| !ALL.iter().any(|example| example.4.contains(tag));
    refuted.extend(TAGS.iter().filter(without));
    refuted
}

fn holds(bench: &mut Bench, &Example(content, checks, ours, theirs, rows): &Example) -> bool {
    let mut tally = Tally::default();
    let alike = bench.run(&Case { content: content.as_bytes(), turn: 0 }, &mut tally).is_ok();
    let steps = bench.reading.steps.iter().filter_map(|step| of_ours(content, step));
    let items = theirs::items(content, bench.reading.name, checks).map(|item| of_the_crate(content, &item));
    let counted = (0..TAGS.len()).filter(|&row| tally.listed[!checks as usize][row] > 0).map(|row| TAGS[row]);
    alike
        && steps.collect::<Vec<_>>().join(", ") == ours
        && items.collect::<Vec<_>>().join(", ") == theirs
        && counted.eq(rows.iter().copied())
}

/// An attribute as `name|value|`.
fn attribute(content: &str, (name, value): (Span, Span)) -> String {
    format!("{}|{}|", &content[name.0..name.1], &content[value.0..value.1])
}

/// An answer of ours, none for none.
fn of_ours(content: &str, step: &Step) -> Option<String> {
    match step.number {
        0 => step.found().then(|| attribute(content, (step.name(), step.value()))),
        number => Some(format!("{number} at {}", step.slots[PLACE])),
    }
}

fn of_the_crate(content: &str, item: &Item) -> String {
    match item {
        Ok(spans) => attribute(content, *spans),
        Err(error) => format!("{error:?}"),
    }
}
