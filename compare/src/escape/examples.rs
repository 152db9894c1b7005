//! The inputs that docs/DIFFERENCES.md names for references, with what both sides give for them.

use super::summary::Tally;
use super::theirs::Fault;
use super::*;
use crate::contents::Case;
use crate::run::Runs;
use crate::trace::escaped;
use std::borrow::Cow;

/// A content, what ours and the crate give, and the row by which they differ.
struct Example(&'static str, &'static str, &'static str, Option<&'static str>);

const ALL: &[Example] = &[
    Example("&#1;", "26 at 0", "|\\01|", Some("reference-character")),
    Example("&#x1F;a&lt;", "26 at 0", "|\\1Fa<|", Some("reference-character")),
    Example("a&#xFFFE;&#xFFFF;", "26 at 1", "|a\\EF\\BF\\BE\\EF\\BF\\BF|", Some("reference-character")),
    Example("&#1;&a;", "26 at 0", "Unrecognized(5, 6)", Some("reference-character")),
    Example("&#1;&#0;", "26 at 0", "IllegalCharacter(0)", Some("reference-character")),
    Example("&#4294967296a;", "25 at 0", "PosOverflow", Some("reference-overflow")),
    Example("&#x100000000g;", "25 at 0", "PosOverflow", Some("reference-overflow")),
    Example("&#4294967295a;", "25 at 0", "InvalidDigit", None),
    Example("&#4294967296&;", "25 at 0", "Unterminated(0, 14)", None),
    Example("&#4294967296;", "26 at 0", "PosOverflow", None),
    Example("&#4294967361;", "26 at 0", "PosOverflow", None),
    Example("&#4294967295;", "26 at 0", "InvalidCodepoint(4294967295)", None),
    Example("&#xD800;", "26 at 0", "InvalidCodepoint(55296)", None),
    Example("&#0;", "26 at 0", "IllegalCharacter(0)", None),
    Example("&a&lt;", "25 at 0", "Unterminated(0, 6)", None),
    Example("a&a&lt;", "25 at 1", "Unterminated(1, 7)", None),
    Example("a&lt", "25 at 1", "Unterminated(1, 4)", None),
    Example("a&;", "25 at 1", "Unrecognized(2, 2)", None),
    Example("&#;", "25 at 0", "Empty", None),
    Example("&#x;", "25 at 0", "Empty", None),
    Example("&#+1;", "25 at 0", "UnexpectedSign", None),
    Example("&#x-1;", "25 at 0", "UnexpectedSign", None),
    Example("&#X41;", "25 at 0", "InvalidDigit", None),
    Example("&lt;", "|<|", "|<|", None),
    Example("&gt;", "|>|", "|>|", None),
    Example("&amp;", "|&|", "|&|", None),
    Example("&apos;", "|'|", "|'|", None),
    Example("&quot;", "|\"|", "|\"|", None),
    Example("&lt;&#x0041;&apos;&#8364;;", "|<A'\\E2\\82\\AC;|", "|<A'\\E2\\82\\AC;|", None),
];

/// All of them.
pub fn contents() -> impl Iterator<Item = &'static str> {
    ALL.iter().map(|example| example.0)
}

/// The contents for which a side does not do what is listed, or for which another row is due; and tags without an example.
pub fn refuted() -> Vec<&'static str> {
    let mut bench = sound();
    let refuted = ALL.iter().filter(|example| !holds(&mut bench, example));
    let mut refuted: Vec<&'static str> = refuted.map(|example| example.0).collect();
    refuted.extend(TAGS.iter().filter(|&&tag| !ALL.iter().any(|example| example.3 == Some(tag))));
    refuted
}

fn holds(bench: &mut Bench, &Example(content, ours, theirs, row): &Example) -> bool {
    let mut tally = Tally::default();
    let alike = bench.run(&Case { content: content.as_bytes(), turn: 0 }, &mut tally).is_ok();
    let counted: Vec<&str> = (0..TAGS.len()).filter(|&row| tally.listed[0][row] > 0).map(|row| TAGS[row]).collect();
    alike && of_ours(bench) == ours && of_the_crate(&theirs::given(content)) == theirs && counted.iter().eq(row.iter())
}

/// What ours gives: the bytes, or the refusal.
fn of_ours(bench: &Bench) -> String {
    match bench.reading.refused {
        None => format!("|{}|", escaped(&bench.reading.bytes)),
        Some((number, place)) => format!("{number} at {place}"),
    }
}

fn of_the_crate(given: &Result<Cow<str>, Fault>) -> String {
    match given {
        Ok(text) => format!("|{}|", escaped(text.as_bytes())),
        Err(fault) => format!("{fault:?}"),
    }
}
