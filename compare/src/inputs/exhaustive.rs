//! Every sequence of up to so many parts out of an alphabet, behind a fixed prefix.

use super::*;

pub struct Alphabet {
    name: &'static str,
    prefix: &'static [u8],
    parts: Vec<Vec<u8>>,
    /// The most parts, in a quick and in a full run.
    most: (usize, usize),
    settings: Vec<u16>,
    slots: Vec<usize>,
}

/// An alphabet of single bytes.
pub fn bytes(name: &'static str, prefix: &'static [u8], letters: &[u8], most: (usize, usize), bits: &[u16]) -> Alphabet {
    let parts = letters.iter().map(|&b| vec![b]).collect();
    Alphabet { name, prefix, parts, most, settings: combinations(bits), slots: vec![16] }
}

impl Alphabet {
    /// The same for other stacks.
    pub fn with(self, slots: usize) -> Self {
        Self { slots: vec![slots], ..self }
    }
}

pub fn tokens(name: &'static str, tokens: &[&[u8]], most: (usize, usize), settings: Vec<u16>, slots: Vec<usize>) -> Alphabet {
    let parts = tokens.iter().map(|t| t.to_vec()).collect();
    Alphabet { name, prefix: b"", parts, most, settings, slots }
}

const BYTES: &[u8] = b"<>/!-?&; a\"'[]x\xFF";
const TOKENS: &[&[u8]] = &[
    b"<a>",
    b"</a>",
    b"</a >",
    b"<b/>",
    b"</b>",
    b"<a ",
    b"/>",
    b">",
    b"<",
    b"<!--",
    b"-",
    b"-->",
    b"<![CDATA[",
    b"]]>",
    b"]",
    b"<?xml",
    b"<?",
    b"?>",
    b"&x;",
    b"&",
    b" ",
    b"\n",
    b"'",
    b"\"",
    b"\xEF\xBB\xBF",
    b"\xC3",
    b"\xA9",
    b"\xE2\x82",
    b"\xAC",
    b"t",
];
const NESTED: &[&[u8]] = &[b"<a>", b"</a>", b"<b/>", b"</b>", b"<>", b" "];

fn markup() -> Vec<Alphabet> {
    vec![
        bytes("tags", b"", b"<>/a '\"", (6, 8), &[NAMES, EXPAND, TRIM_NAMES]),
        bytes("end tags", b"<a>", b"</ab> ", (5, 8), &[NAMES, UNMATCHED, TRIM_NAMES]),
        bytes("end tags with white space", b"<a></a", b"> \t\r\na\x0B\x0C", (4, 6), &[NAMES, TRIM_NAMES]),
        bytes("names", b"<a b></", b"ab />'A", (5, 7), &[NAMES, TRIM_NAMES]),
        bytes("two names", b"<a><A><ab></", b"abA></", (5, 7), &[NAMES, EXPAND]),
        bytes("comments", b"<!--", b"->a<!", (7, 9), &[COMMENTS]),
        bytes("comments behind text", b"t<!--a", b"->a&", (6, 9), &[COMMENTS, TRIM_START, TRIM_END]),
        bytes("hyphens in comments", b"<!--", b"->a\xC3\xA9", (6, 9), &[COMMENTS]),
        bytes("comments behind a byte order mark", b"\xEF\xBB\xBF<!--", b"->a", (7, 11), &[COMMENTS]),
        bytes("comment openers", b"<!-", b"->a ", (6, 8), &[COMMENTS]),
        bytes("character data", b"<![CDATA[", b"]>[a<", (6, 9), &[TRIM_END]),
        bytes("character data openers", b"<!", b"[]>CDAT-d", (5, 6), &[COMMENTS]),
        bytes("instructions", b"<?", b"xml?> ", (6, 8), &[TRIM_START]),
        bytes("declarations", b"<?xml", b"?> \t\r\na<", (5, 6), &[TRIM_END]),
    ]
}

fn text() -> Vec<Alphabet> {
    vec![
        bytes("references", b"", b"&;<a >", (6, 8), &[DANGLING, TRIM_START, TRIM_END]),
        bytes("white space", b"", b" \t\n\r\x0B\x0Ca<&", (4, 6), &[DANGLING, TRIM_START, TRIM_END, TRIM_NAMES]),
        bytes("byte order marks", b"", b"\xEF\xBB\xBFa<> ", (5, 7), &[TRIM_START, TRIM_END]),
        bytes("behind a byte order mark", b"\xEF\xBB\xBF", b"<>/!-?&;a \xEF\xFF", (4, 5), &[DANGLING, TRIM_START, TRIM_END, EXPAND]),
        bytes("ill formed behind a byte order mark and two hyphens", b"\xEF\xBB\xBF<!--a-b--", b"->&\xFF", (6, 9), &[COMMENTS]),
        bytes("ill formed behind two hyphens", b"<!--a-b--", b"->a&;\xFF\xC3", (5, 7), &[COMMENTS, DANGLING]),
        bytes("ill formed behind a refusal", b"</>", b"</>a\xFF&;\xC3", (5, 6), &[DANGLING, TRIM_START]),
    ]
}

fn mixed() -> Vec<Alphabet> {
    let joint =
        [DEFAULT, 0, THEIR_ALL, DEFAULT | DANGLING | TRIM_START | TRIM_END, DEFAULT | EXPAND | UNMATCHED | COMMENTS, TRIM_END | EXPAND];
    let parts = BYTES.iter().map(|&b| vec![b]).collect();
    vec![
        Alphabet { name: "bytes with all settings", prefix: b"", parts, most: (3, 5), settings: every(), slots: vec![8] },
        tokens("tokens with all settings", TOKENS, (2, 3), every(), vec![8]),
        tokens("tokens", TOKENS, (3, 5), joint.to_vec(), vec![12]),
        tokens("nested names", NESTED, (4, 7), combinations(&[NAMES, EXPAND, UNMATCHED]), (0..=9).collect()),
    ]
}

pub fn families(amount: Amount) -> Vec<Family> {
    let mut alphabets = markup();
    alphabets.extend(text());
    alphabets.extend(mixed());
    alphabets.into_iter().map(|alphabet| family(alphabet, amount)).collect()
}

/// The shorter sequences of those that do not come with all settings.
pub fn short() -> Vec<Family> {
    let alphabets = markup().into_iter().chain(text()).chain(mixed()).filter(|alphabet| alphabet.settings.len() < every().len());
    let shorter = |alphabet: Alphabet| Alphabet { most: (alphabet.most.0.saturating_sub(2).max(2), 0), ..alphabet };
    alphabets.map(|alphabet| family(shorter(alphabet), Amount::Quick)).collect()
}

/// Elements whose names are alike on one side of a colon, within each other, for what reads up to an end tag.
pub fn prefixed(amount: Amount) -> Family {
    const TAGS: &[&[u8]] = &[b"<b>", b"</b>", b"<a:b c='d'>", b"</a:b>", b"<b:c>", b"</b:c >", b"<b/>", b"<a:b:c/>", b" "];
    family(tokens("names with prefixes", TAGS, (5, 6), combinations(&[NAMES, EXPAND, UNMATCHED, TRIM_START]), vec![12]), amount)
}

/// A job for each pair of first parts, and one for the sequences of less than two.
pub fn family(alphabet: Alphabet, amount: Amount) -> Family {
    let most = amount.of(alphabet.most.0, alphabet.most.1);
    let count = alphabet.parts.len();
    Family::new(alphabet.name, 1 + count * count, move |job, sink| {
        let mut document = alphabet.prefix.to_vec();
        if job == 0 {
            return grow(&alphabet, &mut document, 1, sink);
        }
        document.extend(&alphabet.parts[(job - 1) / count]);
        document.extend(&alphabet.parts[(job - 1) % count]);
        grow(&alphabet, &mut document, most - 2, sink)
    })
}

/// The document as it stands, and every way to go on with up to so many parts.
fn grow(alphabet: &Alphabet, document: &mut Vec<u8>, most: usize, sink: &mut dyn Sink) -> Flow {
    for &slots in &alphabet.slots {
        sink.each(document, &alphabet.settings, slots)?;
    }
    if most == 0 {
        return ON;
    }
    let length = document.len();
    for part in &alphabet.parts {
        document.extend(part);
        grow(alphabet, document, most - 1, sink)?;
        document.truncate(length);
    }
    ON
}
