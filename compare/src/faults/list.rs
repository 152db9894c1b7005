//! The faults, by what they spoil. Most act rarely.

use super::{act, flag, making, parting, Call, Fault};
use crate::ours::*;

pub const ALL: &[&[Fault]] = &[FLAGS, LENGTHS, CONTENTS, POSITIONS, PLACES, NUMBERS, STACKS, UTF8, ENDS, OPEN_AT_THE_END, THE_MARK, LENT];

/// Text that is refused for its encoding.
fn ill_formed(c: &Call) -> bool {
    c.number() == ENCODING && !matches!(c.piece().first(), Some(b'<' | b'&'))
}

/// Bytes that go on with a sequence.
fn more(bytes: &[u8]) -> bool {
    bytes.iter().all(|b| b & 0xC0 == 0x80)
}

const FLAGS: &[Fault] = &[
    flag("allow_dangling_amp ignored", |s| s & !DANGLING),
    flag("allow_unmatched_ends ignored", |s| s & !UNMATCHED),
    flag("check_comments ignored", |s| s & !COMMENTS),
    flag("check_end_names always on", |s| s | NAMES),
    flag("check_end_names always off", |s| s & !NAMES),
    flag("expand_empty_elements ignored", |s| s & !EXPAND),
    flag("trim_markup_names_in_closing_tags always on", |s| s | TRIM_NAMES),
    flag("trim_markup_names_in_closing_tags always off", |s| s & !TRIM_NAMES),
    flag("trim_text_start ignored", |s| s & !TRIM_START),
    flag("trim_text_end ignored", |s| s & !TRIM_END),
    flag("check_open_names ignored", |s| s & !OPEN_NAMES),
    flag("check_open_names always on", |s| s | OPEN_NAMES),
    flag("open names checked only where end names are", |s| if s & NAMES == 0 { s & !OPEN_NAMES } else { s }),
    flag("open names not checked where unmatched ends are let through", |s| if s & UNMATCHED != 0 { s & !OPEN_NAMES } else { s }),
    flag("open names checked with all other checks", |s| if s & COMMENTS != 0 { s | OPEN_NAMES } else { s }),
    flag("text trimmed where open names are checked", |s| if s & OPEN_NAMES != 0 { s | TRIM_END } else { s }),
    flag("comments not checked where open names are", |s| if s & OPEN_NAMES != 0 { s & !COMMENTS } else { s }),
    flag("trim_text_end trims the start too", |s| if s & TRIM_END != 0 { s | TRIM_START } else { s }),
    flag("names unchecked lets unmatched ends pass", |s| if s & NAMES == 0 { s | UNMATCHED } else { s }),
    flag("comments checked only where names are", |s| if s & NAMES == 0 { s & !COMMENTS } else { s }),
    flag("nothing expanded with all checks on", |s| if s & (NAMES | COMMENTS | TRIM_NAMES) == 44 { s & !EXPAND } else { s }),
    flag("two flags that change places", |s| s & !3 | (s & 1) << 1 | (s >> 1) & 1),
    act("settings lose a bit at Eof", |c| c.kind() == EOF, |c| c.state[SETTINGS] &= 127),
    act("settings lose the ninth bit at 18", |c| c.number() == UNCLOSED, |c| c.state[SETTINGS] &= 255),
    act("length becomes the position at Eof", |c| c.kind() == EOF, |c| c.state[LENGTH] = c.state[POSITION]),
];

const LENGTHS: &[Fault] = &[
    act("name length of a tag is 300 at most", |c| c.kind() == EMPTY && c.answer[NAME] > 300, |c| c.answer[NAME] = 300),
    act("name length of an instruction is 300 at most", |c| c.kind() == PI && c.answer[NAME] > 300, |c| c.answer[NAME] = 300),
    act("names of more than 65,535 bytes have no length", |c| c.answer[NAME] > 65_535, |c| c.answer[NAME] = 0),
    act("name length of a declaration is 4", |c| c.kind() == DECL, |c| c.answer[NAME] = 4),
    act("name length of an instruction is its content's", |c| c.kind() == PI, |c| c.answer[NAME] = c.content().len()),
    act(
        "name of an instruction ends at a question mark",
        |c| c.kind() == PI,
        |c| {
            let name = c.content().iter().take(c.answer[NAME]).take_while(|&&b| b != b'?').count();
            c.answer[NAME] = name;
        },
    ),
    act("name of an empty element has the slash", |c| c.kind() == EMPTY && c.content().len() == c.answer[NAME], |c| c.answer[NAME] += 1),
    act("a tab ends no name", |c| c.kind() == START && c.content().get(c.answer[NAME]) == Some(&b'\t'), |c| c.answer[NAME] += 1),
    act(
        "a carriage return ends no name",
        |c| c.kind() == EMPTY && c.content().get(c.answer[NAME]) == Some(&b'\r'),
        |c| c.answer[NAME] += 1,
    ),
    act(
        "a vertical tab ends a name",
        |c| c.kind() == START,
        |c| {
            let name = c.content().iter().take(c.answer[NAME]).take_while(|&&b| b != 0x0B).count();
            c.answer[NAME] = name;
        },
    ),
    act(
        "name of an end tag stops at white space",
        |c| c.kind() == END,
        |c| {
            let name = c.content().iter().take_while(|&&b| b != b' ').count();
            c.answer[NAME] = name;
        },
    ),
    act("name length of an expanded End is 0", |c| c.kind() == END && c.piece().is_empty(), |c| c.answer[NAME] = 0),
    act("name length past depth 16 off by one", |c| c.kind() == START && c.state[DEPTH] > 16, |c| c.answer[NAME] += 1),
    act("name length of a long name in a byte", |c| c.kind() == START || c.kind() == EMPTY, |c| c.answer[NAME] &= 127),
];

/// Text of a dangling `&` that ends in a space.
fn dangling(c: &Call) -> bool {
    c.kind() == TEXT && c.on(TRIM_END) && c.content().starts_with(b"&") && c.content().ends_with(b" ")
}

const CONTENTS: &[Fault] = &[
    act("text of a dangling ampersand loses a space", dangling, |c| c.answer[CONTENT_TO] -= 1),
    act(
        "text of a dangling ampersand is trimmed",
        dangling,
        |c| {
            let kept = c.content().iter().rposition(|b| !b.is_ascii_whitespace()).map_or(0, |last| last + 1);
            c.answer[CONTENT_TO] = c.answer[CONTENT_FROM] + kept;
        },
    ),
    act(
        "character data that ends in a bracket is cut",
        |c| c.kind() == CDATA && c.content().ends_with(b"]"),
        |c| c.answer[CONTENT_TO] -= 1,
    ),
    act("a comment that ends in a hyphen is cut", |c| c.kind() == COMMENT && c.content().ends_with(b"-"), |c| c.answer[CONTENT_TO] -= 1),
    act(
        "an instruction that ends in a question mark is cut",
        |c| c.kind() == PI && c.content().ends_with(b"?"),
        |c| c.answer[CONTENT_TO] -= 1,
    ),
    act("content of `<??>` goes backwards", |c| c.kind() == PI && c.content().is_empty(), |c| c.answer[CONTENT_TO] -= 1),
    act(
        "a carriage return at the end is kept",
        |c| {
            c.kind() == TEXT
                && c.on(TRIM_END)
                && c.document.get(c.answer[CONTENT_TO]) == Some(&b'\r')
                && c.answer[CONTENT_TO] < c.answer[PIECE_TO]
        },
        |c| c.answer[CONTENT_TO] += 1,
    ),
    act(
        "a vertical tab at the end is cut",
        |c| c.kind() == TEXT && c.on(TRIM_END) && c.content().ends_with(b"\x0B"),
        |c| c.answer[CONTENT_TO] -= 1,
    ),
    act(
        "a form feed at the end is cut",
        |c| c.kind() == TEXT && c.on(TRIM_END) && c.content().ends_with(b"\x0C"),
        |c| c.answer[CONTENT_TO] -= 1,
    ),
    act("a reference has its semicolon", |c| c.kind() == REF, |c| c.answer[CONTENT_TO] += 1),
    act("`&;` is no reference", |c| c.kind() == REF && c.content().is_empty(), |c| c.refuse(12, 2)),
    act("content of an empty element has the slash", |c| c.kind() == EMPTY && c.content().ends_with(b"/"), |c| c.answer[CONTENT_TO] += 1),
    act(
        "an end tag of white space becomes empty",
        |c| c.kind() == END && c.on(TRIM_NAMES) && !c.content().is_empty() && c.content().iter().all(|b| b" \t\r\n".contains(b)),
        |c| {
            c.answer[CONTENT_TO] = c.answer[CONTENT_FROM];
            c.answer[NAME] = 0;
        },
    ),
    act(
        "an end tag is trimmed in front",
        |c| c.kind() == END && c.content().starts_with(b" ") && c.content().len() > 1,
        |c| {
            c.answer[CONTENT_FROM] += 1;
            c.answer[NAME] -= 1
        },
    ),
    act(
        "an expanded End has the bytes at the position",
        |c| c.kind() == END && c.piece().is_empty(),
        |c| {
            c.answer[CONTENT_FROM] = c.answer[PIECE_FROM];
            c.answer[CONTENT_TO] = c.answer[PIECE_FROM] + c.answer[NAME];
        },
    ),
    act("content of a long comment in 16 bits", |c| c.kind() == COMMENT && c.content().len() > 65_535, |c| c.answer[CONTENT_TO] -= 65_536),
    act(
        "Eof has its content at the piece's end",
        |c| c.kind() == EOF,
        |c| (c.answer[CONTENT_FROM], c.answer[CONTENT_TO]) = (c.answer[PIECE_TO], c.answer[PIECE_TO]),
    ),
];

const POSITIONS: &[Fault] = &[
    act(
        "an unclosed comment keeps the position",
        |c| c.number() == 4 && c.state[POSITION] == c.document.len(),
        |c| c.go(c.answer[PIECE_FROM], DONE),
    ),
    act("a wrong opener of character data goes to the end", |c| c.number() == 5, |c| c.go(c.document.len(), DONE)),
    act("a wrong opener of a comment goes on", |c| c.number() == 4 && c.piece().ends_with(b">"), |c| c.state[PHASE] = TEXT_PHASE),
    act("`<?>` keeps the position", |c| c.number() == 6 && c.piece() == b"<?>", |c| c.go(c.answer[PIECE_FROM], DONE)),
    act("`<?>` goes on", |c| c.number() == 6 && c.piece() == b"<?>", |c| c.state[PHASE] = TEXT_PHASE),
    act("8 moves behind `<!`", |c| c.number() == 8, |c| c.go(c.answer[PIECE_FROM] + 2, DONE)),
    act("a lone `<` at the end is passed", |c| c.number() == 1 && c.piece().is_empty(), |c| c.go(c.document.len(), DONE)),
    act("9 ends the reading", |c| c.number() == DOUBLE_HYPHEN, |c| c.state[PHASE] = DONE),
    act("12 at the end goes on as text", |c| c.number() == 12 && c.state[PHASE] == DONE, |c| c.state[PHASE] = TEXT_PHASE),
    act("12 at `<` goes on as text", |c| c.number() == 12 && c.state[PHASE] == MARKUP_PHASE, |c| c.state[PHASE] = TEXT_PHASE),
    act("12 at `&` goes on as text", |c| c.number() == 12 && c.state[PHASE] == REF_PHASE, |c| c.state[PHASE] = TEXT_PHASE),
    act("13 goes on", |c| c.number() == ENCODING, |c| c.state[PHASE] = TEXT_PHASE),
    act("13 in a tag keeps the position", |c| c.number() == ENCODING && c.piece().starts_with(b"<"), |c| c.go(c.answer[PIECE_FROM], DONE)),
    act("text at the end goes on", |c| c.kind() == TEXT && c.state[PHASE] == DONE, |c| c.state[PHASE] = TEXT_PHASE),
    act(
        "a byte order mark moves no position",
        |c| c.before[PHASE] == INIT && c.document.starts_with(b"\xEF\xBB\xBF"),
        |c| c.state[POSITION] -= 3,
    ),
    act(
        "a byte order mark is skipped in every text",
        |c| c.kind() == TEXT && c.before[PHASE] == TEXT_PHASE && c.rest().starts_with(b"\xEF\xBB\xBF") && c.content().len() > 3,
        |c| {
            c.answer[PIECE_FROM] += 3;
            c.answer[CONTENT_FROM] += 3;
        },
    ),
    act(
        "half a byte order mark is skipped",
        |c| c.before[PHASE] == INIT && c.rest().starts_with(b"\xEF\xBB") && c.number() == ENCODING,
        |c| {
            c.answer[PIECE_FROM] = 2;
            c.answer[PLACE] = 2
        },
    ),
    act(
        "no white space skipped behind a byte order mark",
        |c| c.before[PHASE] == INIT && c.kind() == TEXT && c.answer[PIECE_FROM] > 3 && c.document.starts_with(b"\xEF"),
        |c| {
            c.answer[PIECE_FROM] = 3;
            c.answer[CONTENT_FROM] = 3
        },
    ),
    act(
        "a vertical tab in front is skipped",
        |c| c.kind() == TEXT && c.on(TRIM_START) && c.content().starts_with(b"\x0B"),
        |c| {
            c.answer[PIECE_FROM] += 1;
            c.answer[CONTENT_FROM] += 1
        },
    ),
    act(
        "white space skipped in the first text only",
        |c| c.kind() == TEXT && c.before[POSITION] > 0 && c.answer[PIECE_FROM] > c.before[POSITION],
        |c| {
            c.answer[PIECE_FROM] -= 1;
            c.answer[CONTENT_FROM] -= 1
        },
    ),
    act("positions in 16 bits", |c| c.state[POSITION] > 65_535 && c.kind() == TEXT, |c| c.answer[PIECE_TO] &= 65_535),
    act("positions in 24 bits", |c| c.state[POSITION] > 0xFF_FFFF && c.kind() == TEXT, |c| c.answer[PIECE_TO] &= 0xFF_FFFF),
    act("one byte short at the greatest length", |c| c.document.len() == LONGEST && c.kind() == EOF, |c| c.state[POSITION] -= 1),
    act("text split at 4,096 bytes", |c| c.kind() == TEXT && c.content().len() > 4096, |c| c.event(TEXT, 4096, (0, 0), 0)),
    act("text of more than 255 bytes cut", |c| c.kind() == TEXT && c.content().len() > 255, |c| c.answer[CONTENT_TO] -= 256),
    act("Text without bytes is Eof", |c| c.kind() == TEXT && c.content().is_empty(), |c| c.answer[KIND] = EOF),
    act("text trimmed to nothing at the end is Text", |c| c.kind() == EOF && !c.piece().is_empty(), |c| c.answer[KIND] = TEXT),
];

/// The place is the piece's start.
fn at_the_start(c: &mut Call) {
    c.answer[PLACE] = c.answer[PIECE_FROM];
}

/// The place counts from the piece's start.
fn in_the_piece(c: &mut Call) {
    c.answer[PLACE] -= c.answer[PIECE_FROM];
}

/// The place counts each character of the piece before it as one.
fn in_characters(c: &mut Call) {
    let before = &c.document[c.answer[PIECE_FROM]..c.answer[PLACE]];
    c.answer[PLACE] -= before.iter().filter(|&&b| matches!(b, 0x80..0xC0)).count();
}

const PLACES: &[Fault] = &[
    act("place of 9 is the second hyphen", |c| c.number() == DOUBLE_HYPHEN, |c| c.answer[PLACE] += 1),
    act(
        "place of 9 counts from the last lone hyphen",
        |c| c.number() == DOUBLE_HYPHEN,
        |c| {
            let content = c.answer[PIECE_FROM] + 4;
            let before = &c.document[content..c.answer[PLACE]];
            c.answer[PLACE] = content + before.rsplit(|&b| b == b'-').next().map_or(0, <[u8]>::len);
        },
    ),
    act(
        "place of 9 is the last pair",
        |c| c.number() == DOUBLE_HYPHEN,
        |c| {
            let content = &c.piece()[4..c.piece().len() - 2];
            let last = content.windows(2).rposition(|w| w == b"--").unwrap_or_default();
            c.answer[PLACE] = c.answer[PIECE_FROM] + 4 + last;
        },
    ),
    act("place of 9 is counted in the comment", |c| c.number() == DOUBLE_HYPHEN, in_the_piece),
    act("place of 9 is counted in characters", |c| c.number() == DOUBLE_HYPHEN, in_characters),
    act("place of 9 is the piece's start", |c| c.number() == DOUBLE_HYPHEN, at_the_start),
    act("the second refusal has the first one's place", |c| c.number() > 0 && c.last_place > 0, |c| c.answer[PLACE] = c.last_place),
    act("place of 13 is the piece's start", |c| c.number() == ENCODING, at_the_start),
    act("place of 13 in markup is the piece's start", |c| c.number() == ENCODING && c.piece().starts_with(b"<"), at_the_start),
    act("place of 13 in a reference is the piece's start", |c| c.number() == ENCODING && c.piece().starts_with(b"&"), at_the_start),
    act(
        "place of 13 is the last byte of the sequence",
        |c| c.number() == ENCODING,
        |c| c.answer[PLACE] += c.ill().map_or(0, |e| e.error_len().unwrap_or(c.piece().len() - e.valid_up_to()) - 1),
    ),
    act("place of 13 is behind the sequence's first byte", |c| c.number() == ENCODING, |c| c.answer[PLACE] += 1),
    act("place of 13 is counted in the piece", |c| c.number() == ENCODING, in_the_piece),
    act("place of 13 is counted in characters", |c| c.number() == ENCODING, in_characters),
    act(
        "place of 13 is the first byte beyond ASCII",
        |c| c.number() == ENCODING,
        |c| c.answer[PLACE] = c.answer[PIECE_FROM] + c.piece().iter().position(|b| !b.is_ascii()).unwrap_or_default(),
    ),
    act("place of 13 is that of its 16 bytes", |c| c.number() == ENCODING && c.answer[PLACE] > 15, |c| c.answer[PLACE] &= !15),
    act(
        "place of a character cut off is the piece's end",
        |c| c.number() == ENCODING && c.ill().is_some_and(|e| e.error_len().is_none()),
        |c| c.answer[PLACE] = c.answer[PIECE_TO],
    ),
    act(
        "place of the second ill-formed byte in a row",
        |c| c.number() == ENCODING && c.document.get(c.answer[PLACE] + 1) == Some(&0xFF),
        |c| c.answer[PLACE] += 1,
    ),
    act("place of ill-formed text is past the document", ill_formed, |c| c.answer[PLACE] = c.document.len() + 1),
    act("place of ill-formed text is the piece's end", ill_formed, |c| c.answer[PLACE] = c.answer[PIECE_TO]),
    act("place of ill-formed text is that of the refusal before", ill_formed, |c| c.answer[PLACE] = c.last_place),
    act("place of 12 is the piece's end", |c| c.number() == 12, |c| c.answer[PLACE] = c.answer[PIECE_TO]),
    act(
        "place of an unclosed value is its quote",
        |c| c.number() == 2,
        |c| {
            let quote = c.piece().iter().position(|&b| b == b'\'').unwrap_or_default();
            c.answer[PLACE] += quote
        },
    ),
    act("place of 10 is the name found", |c| c.number() == MISMATCHED, |c| c.answer[PLACE] = c.answer[FOUND_FROM]),
    act(
        "place behind a byte order mark counted without it",
        |c| c.number() > 0 && c.document.starts_with(b"\xEF\xBB\xBF") && c.answer[PLACE] >= 3,
        |c| c.answer[PLACE] -= 3,
    ),
    act("an event has the last refusal's place", |c| c.number() == 0, |c| c.answer[PLACE] = c.last_place),
];

const NUMBERS: &[Fault] = &[
    act("2 and 3 change places", |c| matches!(c.number(), 2 | 3), |c| c.answer[NUMBER] = 5 - c.number()),
    act("6 where 7 is due at the end of input", |c| c.number() == 7 && c.piece() == b"<?xml", |c| c.answer[NUMBER] = 6),
    act("6 where 7 is due before a question mark", |c| c.number() == 7 && c.piece().get(5) == Some(&b'?'), |c| c.answer[NUMBER] = 6),
    act("7 for every `<?xml`", |c| c.number() == 6 && c.piece().starts_with(b"<?xml"), |c| c.answer[NUMBER] = 7),
    act("7 with a vertical tab", |c| c.number() == 6 && c.piece().starts_with(b"<?xml\x0B"), |c| c.answer[NUMBER] = 7),
    act("13 before 1 in an unclosed tag", |c| c.number() == 1 && std::str::from_utf8(c.piece()).is_err(), |c| c.answer[NUMBER] = ENCODING),
    act("a comment closed at offset 5", |c| c.rest().starts_with(b"<!--->"), |c| c.event(COMMENT, 6, (4, 2), 0)),
    act("a comment closed at offset 4", |c| c.rest().starts_with(b"<!-->"), |c| c.event(COMMENT, 5, (4, 1), 0)),
    act("`<!-` opens a comment", |c| c.number() == 4 && c.piece().ends_with(b"-->"), |c| c.event(COMMENT, c.piece().len(), (3, 3), 0)),
    act(
        "`<![` opens character data",
        |c| c.number() == 5 && c.piece().len() > 5 && c.piece().ends_with(b"]]>"),
        |c| c.event(CDATA, c.piece().len(), (3, 3), 0),
    ),
    act("`<!` at the end is an unclosed tag", |c| c.number() == 8 && c.rest().len() == 2, |c| c.answer[NUMBER] = 1),
    act("`<!d` is no DOCTYPE", |c| c.number() == DOCTYPE && c.rest().starts_with(b"<!d"), |c| c.answer[NUMBER] = 8),
    act("`<?xml?>` is an instruction", |c| c.kind() == DECL && c.content().len() == 3, |c| c.answer[KIND] = PI),
    act(
        "a target of three letters from `xm` on is a declaration",
        |c| c.kind() == PI && c.answer[NAME] == 3 && c.content().starts_with(b"xm"),
        |c| c.answer[KIND] = DECL,
    ),
    act(
        "a target that begins with xml is a declaration",
        |c| c.kind() == PI && c.content().starts_with(b"xml"),
        |c| {
            c.answer[KIND] = DECL;
            c.answer[NAME] = 3
        },
    ),
    act(
        "a quoted `>` ends an end tag",
        |c| c.kind() == END && c.quoted(),
        |c| {
            let first = c.first_close();
            c.event(END, first, (2, 1), first - 3);
        },
    ),
    act("a quoted `>` ends a tag", |c| c.kind() == EMPTY && c.quoted(), |c| c.event(START, c.first_close(), (1, 1), c.answer[NAME])),
    act("0 is returned for 12", |c| c.number() == 12, |c| c.returned = Some(0)),
];

/// No room for the name of a Start.
fn full(c: &mut Call) {
    c.refuse(STACK_FULL, 0);
    c.state[DEPTH] -= 1;
}

const STACKS: &[Fault] = &[
    act("10 keeps the name", |c| c.number() == MISMATCHED, |c| c.state[DEPTH] += 1),
    act(
        "10 has expected and found changed",
        |c| c.number() == MISMATCHED,
        |c| {
            c.answer.swap(EXPECTED_FROM, FOUND_FROM);
            c.answer.swap(EXPECTED_TO, FOUND_TO)
        },
    ),
    act("11 found with the slash", |c| c.number() == UNMATCHED_END, |c| c.answer[FOUND_FROM] -= 1),
    act(
        "names compared without case",
        |c| c.number() == MISMATCHED && c.part(EXPECTED_FROM).eq_ignore_ascii_case(c.part(FOUND_FROM)),
        |c| c.event(END, c.piece().len(), (2, 1), c.part(FOUND_FROM).len()),
    ),
    act(
        "names compared by length",
        |c| c.number() == MISMATCHED && c.part(EXPECTED_FROM).len() == c.part(FOUND_FROM).len(),
        |c| c.event(END, c.piece().len(), (2, 1), c.part(FOUND_FROM).len()),
    ),
    act(
        "a name that begins like the open one closes it",
        |c| c.number() == MISMATCHED && !c.part(EXPECTED_FROM).is_empty() && c.part(FOUND_FROM).starts_with(c.part(EXPECTED_FROM)),
        |c| c.event(END, c.piece().len(), (2, 1), c.part(FOUND_FROM).len()),
    ),
    act("an End at depth 3 leaves two names", |c| c.kind() == END && c.before[DEPTH] == 3, |c| c.state[DEPTH] = 1),
    act(
        "a Start writes the slot above",
        |c| c.kind() == START && c.stack.len() >= 2 * c.state[DEPTH] + 2,
        |c| c.stack[2 * c.state[DEPTH]] = 0,
    ),
    act("a Start writes the slot below", |c| c.kind() == START && c.before[DEPTH] > 1, |c| c.stack[2 * c.before[DEPTH] - 1] += 1),
    act("an End wipes its name", |c| c.kind() == END && c.before[DEPTH] > 0, |c| c.stack[2 * c.before[DEPTH] - 2] = 0),
    act("a mismatch wipes the name", |c| c.number() == MISMATCHED, |c| c.stack[2 * c.state[DEPTH] + 1] = 0),
    act("an odd last slot is written", |c| c.stack.len() % 2 == 1 && c.kind() == START, |c| *c.stack.last_mut().unwrap() = 0),
    act(
        "the stack has the content's end",
        |c| c.kind() == START && c.before[DEPTH] > 0,
        |c| c.stack[2 * c.before[DEPTH] + 1] = c.answer[CONTENT_TO],
    ),
    act("15 one name too early", |c| c.kind() == START && c.state[DEPTH] == capacity(c.stack.len()), full),
    act("15 for the last name that may be open", |c| c.kind() == START && c.state[DEPTH] == MOST_NAMES, full),
    act(
        "a name more than may be open on a larger stack",
        |c| c.number() == STACK_FULL && c.before[DEPTH] == MOST_NAMES && c.stack.len() > 2 * MOST_NAMES + 1,
        |c| {
            let length = c.rest().iter().position(|&b| b == b'>').unwrap_or_default() + 1;
            c.event(START, length, (1, 1), length - 2);
            c.state[DEPTH] += 1;
        },
    ),
    act(
        "15 for an empty element on a full stack",
        |c| c.kind() == EMPTY && c.before[DEPTH] == capacity(c.stack.len()),
        |c| c.refuse(STACK_FULL, 0),
    ),
    act("depth past 255 in a byte", |c| c.state[DEPTH] > 255, |c| c.state[DEPTH] &= 255),
];

const UTF8: &[Fault] = &[
    act("surrogates are well formed", ill_formed, |c| c.accept(3, |w| w[0] == 0xED && (0xA0..0xC0).contains(&w[1]) && more(&w[2..]))),
    act("overlong sequences of two bytes are well formed", ill_formed, |c| c.accept(2, |w| w[0] == 0xC1 && more(&w[1..]))),
    act("overlong sequences of three bytes are well formed", ill_formed, |c| c.accept(3, |w| w[0] == 0xE0 && w[1] < 0xA0 && more(&w[1..]))),
    act("overlong sequences of four bytes are well formed", ill_formed, |c| c.accept(4, |w| w[0] == 0xF0 && w[1] == 0x8F && more(&w[2..]))),
    act("numbers past 10FFFF are well formed", ill_formed, |c| c.accept(4, |w| w[0] == 0xF4 && w[1] == 0x90 && more(&w[2..]))),
    act("F5 leads a sequence", ill_formed, |c| c.accept(4, |w| w[0] == 0xF5 && more(&w[1..]))),
    act("a sequence cut at the end is well formed", |c| ill_formed(c) && c.piece().ends_with(b"\xC3"), |c| c.accept(1, |w| w[0] == 0xC3)),
    act(
        "ill-formed bytes past the 64th are not seen",
        |c| ill_formed(c) && c.well_formed() >= 64,
        |c| c.event(TEXT, c.piece().len(), (0, 0), 0),
    ),
    act(
        "FFFE is ill formed",
        |c| c.kind() == TEXT && c.content().windows(3).any(|w| w == b"\xEF\xBF\xBE"),
        |c| c.refuse(ENCODING, c.piece().len()),
    ),
    act("a null byte is ill formed", |c| c.kind() == COMMENT && c.content().contains(&0), |c| c.refuse(ENCODING, c.piece().len())),
    act(
        "ill-formed bytes in an end tag are not seen",
        |c| c.number() == ENCODING && c.piece().starts_with(b"</"),
        |c| c.answer[NUMBER] = UNMATCHED_END,
    ),
];

const ENDS: &[Fault] = &[
    act("an Eof that does not stay", |c| c.eofs > 0, |c| c.answer[KIND] = TEXT),
    act("17 after Eof", |c| c.eofs > 0, |c| c.refuse(17, 0)),
    act(
        "Eof after 14 goes to the end",
        |c| c.kind() == EOF && c.state[POSITION] < c.document.len() && c.rest().starts_with(b"<!D"),
        |c| c.go(c.document.len(), DONE),
    ),
    act("14 keeps its phase", |c| c.number() == DOCTYPE, |c| c.state[PHASE] = MARKUP_PHASE),
    act("a slot behind the answer is written", |c| c.kind() == PI && c.answer.len() > ANSWER_SLOTS, |c| c.answer[ANSWER_SLOTS] = 0),
    act("a slot behind the state is written", |c| c.kind() == DECL && c.state.len() > STATE_SLOTS, |c| c.state[STATE_SLOTS] = 0),
    act("expected left over in a later answer", |c| c.kind() == START && c.last_place > 0, |c| c.answer[EXPECTED_FROM] = 1),
];

/// Makes an Eof 18.
fn unclosed(c: &mut Call) {
    c.refuse(UNCLOSED, c.piece().len());
    c.answer[PLACE] = c.latest().0;
}

/// Makes 18 the Eof that it stands for.
fn eof(c: &mut Call) {
    let length = c.piece().len();
    c.event(EOF, length, (0, length), 0);
    c.state[PHASE] = DONE;
}

/// An Eof with names open, behind a refusal of these.
fn behind(c: &Call, numbers: std::ops::RangeInclusive<usize>) -> bool {
    c.ends_open() && numbers.contains(&c.last_number)
}

const OPEN_AT_THE_END: &[Fault] = &[
    act("18 twice", |c| behind(c, 18..=18), unclosed),
    act("18 after 1", |c| behind(c, 1..=1), unclosed),
    act("18 after 2 to 7", |c| behind(c, 2..=7), unclosed),
    act("18 after 8", |c| behind(c, 8..=8), unclosed),
    act("18 after 13", |c| behind(c, 13..=13), unclosed),
    act("18 after 14", |c| behind(c, 14..=14), unclosed),
    act("18 after 15", |c| behind(c, 15..=15), unclosed),
    act("18 after Eof", |c| c.ends_open() && c.eofs > 0, unclosed),
    act("18 with nothing open", |c| c.kind() == EOF && c.on(OPEN_NAMES) && c.before[MARK] == 0, unclosed),
    act("no 18 behind 12", |c| c.number() == UNCLOSED && c.last_number == 12, eof),
    act("no 18 behind 9 to 11", |c| c.number() == UNCLOSED && matches!(c.last_number, 9..=11), eof),
    act("no 18 from Done", |c| c.number() == UNCLOSED && c.before[PHASE] == DONE, eof),
    act("no 18 where text is trimmed to nothing", |c| c.number() == UNCLOSED && !c.piece().is_empty(), eof),
    act("no 18 for a name without bytes", |c| c.number() == UNCLOSED && c.latest().0 == c.latest().1, eof),
    act("no 18 with more than one name open", |c| c.number() == UNCLOSED && c.state[DEPTH] > 1, eof),
    act("no 18 past depth 255", |c| c.number() == UNCLOSED && c.state[DEPTH] > 255, eof),
    act("no 18 with as many names open as may be", |c| c.number() == UNCLOSED && c.state[DEPTH] == MOST_NAMES, eof),
    act("no 18 with a full stack", |c| c.number() == UNCLOSED && c.state[DEPTH] == capacity(c.stack.len()), eof),
    act("no 18 past the 65,536th byte", |c| c.number() == UNCLOSED && c.document.len() > 65_536, eof),
    act("18 takes a name", |c| c.number() == UNCLOSED, |c| c.state[DEPTH] -= 1),
    act("18 takes all names", |c| c.number() == UNCLOSED && c.state[DEPTH] > 1, |c| c.state[DEPTH] = 0),
    act("the Eof behind 18 takes a name", |c| behind(c, 18..=18), |c| c.state[DEPTH] -= 1),
    act("18 wipes the name", |c| c.number() == UNCLOSED, |c| c.stack[2 * c.state[DEPTH] - 2] = 0),
    act(
        "18 writes the slot above",
        |c| c.number() == UNCLOSED && c.stack.len() > 2 * c.state[DEPTH],
        |c| c.stack[2 * c.state[DEPTH]] = c.answer[PLACE],
    ),
    act("place of 18 is the `<`", |c| c.number() == UNCLOSED, |c| c.answer[PLACE] -= 1),
    act("place of 18 is the name's end", |c| c.number() == UNCLOSED, |c| c.answer[PLACE] = c.latest().1),
    act("place of 18 is the first open name", |c| c.number() == UNCLOSED, |c| c.answer[PLACE] = c.stack[0]),
    act("place of 18 is the piece's start", |c| c.number() == UNCLOSED, at_the_start),
    act("place of 18 is that of the refusal before", |c| c.number() == UNCLOSED && c.last_place > 0, |c| c.answer[PLACE] = c.last_place),
    act(
        "place of 18 counted without a byte order mark",
        |c| c.number() == UNCLOSED && c.document.starts_with(b"\xEF\xBB\xBF"),
        |c| c.answer[PLACE] -= 3,
    ),
    act("place of 18 past depth 16 off by one", |c| c.number() == UNCLOSED && c.state[DEPTH] > 16, |c| c.answer[PLACE] += 1),
    act("place of 18 in 16 bits", |c| c.number() == UNCLOSED, |c| c.answer[PLACE] &= 65_535),
    act("piece of 18 is empty at its end", |c| c.number() == UNCLOSED, |c| c.answer[PIECE_FROM] = c.answer[PIECE_TO]),
    act("piece of 18 is empty at its start", |c| c.number() == UNCLOSED, |c| c.answer[PIECE_TO] = c.answer[PIECE_FROM]),
    act("piece of 18 has what is skipped", |c| c.number() == UNCLOSED, |c| c.answer[PIECE_FROM] = c.before[POSITION]),
    act("piece of 18 is the name", |c| c.number() == UNCLOSED, |c| (c.answer[PIECE_FROM], c.answer[PIECE_TO]) = c.latest()),
    act("18 keeps the position", |c| c.number() == UNCLOSED, |c| c.state[POSITION] = c.before[POSITION]),
    act("18 goes to its place", |c| c.number() == UNCLOSED, |c| c.state[POSITION] = c.answer[PLACE]),
    act("18 keeps its phase", |c| c.number() == UNCLOSED, |c| c.state[PHASE] = c.before[PHASE]),
    act(
        "18 has the content of the Eof",
        |c| c.number() == UNCLOSED,
        |c| (c.answer[CONTENT_FROM], c.answer[CONTENT_TO]) = (c.answer[PIECE_FROM], c.answer[PIECE_FROM]),
    ),
    act("18 has the kind of the Eof", |c| c.number() == UNCLOSED, |c| c.answer[KIND] = EOF),
    act("18 expects the name", |c| c.number() == UNCLOSED, |c| (c.answer[EXPECTED_FROM], c.answer[EXPECTED_TO]) = c.latest()),
    act("18 finds the name", |c| c.number() == UNCLOSED, |c| (c.answer[FOUND_FROM], c.answer[FOUND_TO]) = c.latest()),
    act("18 has the name's length", |c| c.number() == UNCLOSED, |c| c.answer[NAME] = c.latest().1 - c.latest().0),
    act("0 is returned for 18", |c| c.number() == UNCLOSED, |c| c.returned = Some(0)),
    act("1 where 18 is due", |c| c.number() == UNCLOSED, |c| c.answer[NUMBER] = 1),
    act(
        "the Eof behind 18 has the piece of 18",
        |c| behind(c, 18..=18) && c.document.ends_with(b" ") && c.on(TRIM_END),
        |c| c.answer[PIECE_FROM] -= 1,
    ),
];

/// The mark as it was before the call.
fn keep_mark(c: &mut Call) {
    c.state[MARK] = c.before[MARK];
}

fn turn_mark_on(c: &mut Call) {
    c.state[MARK] = 1;
}

fn turn_mark_off(c: &mut Call) {
    c.state[MARK] = 0;
}

const THE_MARK: &[Fault] = &[
    act("Eof leaves the mark off", |c| c.kind() == EOF, keep_mark),
    act("Eof leaves the mark off with the setting off", |c| c.kind() == EOF && !c.on(OPEN_NAMES), keep_mark),
    act("Eof with nothing open leaves the mark off", |c| c.kind() == EOF && c.state[DEPTH] == 0, keep_mark),
    act("Eof in Done leaves the mark off", |c| c.kind() == EOF && c.before[PHASE] == DONE, keep_mark),
    act("18 leaves the mark off", |c| c.number() == UNCLOSED, keep_mark),
    act("1 leaves the mark off", |c| c.number() == 1, keep_mark),
    act("2 leaves the mark off", |c| c.number() == 2, keep_mark),
    act("3 leaves the mark off", |c| c.number() == 3, keep_mark),
    act("4 leaves the mark off", |c| c.number() == 4, keep_mark),
    act("5 leaves the mark off", |c| c.number() == 5, keep_mark),
    act("6 leaves the mark off", |c| c.number() == 6, keep_mark),
    act("7 leaves the mark off", |c| c.number() == 7, keep_mark),
    act("8 leaves the mark off", |c| c.number() == 8, keep_mark),
    act("13 leaves the mark off", |c| c.number() == ENCODING, keep_mark),
    act("14 leaves the mark off", |c| c.number() == DOCTYPE, keep_mark),
    act("15 leaves the mark off", |c| c.number() == STACK_FULL, keep_mark),
    act("9 turns the mark on", |c| c.number() == DOUBLE_HYPHEN, turn_mark_on),
    act("10 turns the mark on", |c| c.number() == MISMATCHED, turn_mark_on),
    act("11 turns the mark on", |c| c.number() == UNMATCHED_END, turn_mark_on),
    act("12 turns the mark on", |c| c.number() == 12, turn_mark_on),
    act("12 at the end turns the mark on", |c| c.number() == 12 && c.state[PHASE] == DONE, turn_mark_on),
    act("text at the end turns the mark on", |c| c.kind() == TEXT && c.state[PHASE] == DONE, turn_mark_on),
    act("an End that leaves nothing open turns the mark on", |c| c.kind() == END && c.state[DEPTH] == 0, turn_mark_on),
    act("the mark is lost at a text", |c| c.kind() == TEXT, turn_mark_off),
    act("the mark is lost at a Start", |c| c.kind() == START, turn_mark_off),
    act("the mark is lost at an End", |c| c.kind() == END, turn_mark_off),
    act("the mark is lost at an expanded End", |c| c.kind() == END && c.piece().is_empty(), turn_mark_off),
    act("the mark is lost at an instruction", |c| c.kind() == PI, turn_mark_off),
    act("the mark is lost at 9", |c| c.number() == DOUBLE_HYPHEN, turn_mark_off),
    act("the mark is lost at 10", |c| c.number() == MISMATCHED, turn_mark_off),
    act("the mark is lost at 12", |c| c.number() == 12, turn_mark_off),
    act("the mark is lost at the second Eof", |c| c.eofs > 0, turn_mark_off),
    act("18 though another number than 1 stands for on", |c| c.ends_open() && c.eofs == 0 && c.before[MARK] > 1, unclosed),
    act("18 though the mark is on in a byte above the first", |c| c.ends_open() && c.before[MARK] > 255, unclosed),
    act("18 though the mark was on from the start", |c| c.ends_open() && c.eofs == 0 && c.last_number == 0 && c.before[MARK] > 0, unclosed),
    act("another number that stands for on becomes 1", |c| c.kind() == EOF && c.before[MARK] > 1, turn_mark_on),
    act("another number that stands for on becomes 1 at a text", |c| c.kind() == TEXT && c.before[MARK] > 1, turn_mark_on),
    act("17 for another number than 0 and 1", |c| c.before[MARK] > 1, |c| c.refuse(17, 0)),
    act("the mark is turned on with the number of the refusal", |c| c.number() == UNCLOSED, |c| c.state[MARK] = UNCLOSED),
    making("a reader begins with the mark on", |number, state| state[MARK] = (*number == 0) as usize),
    making("a reader has eight settings", |number, state| {
        if *number == 0 {
            state[SETTINGS] &= 255
        }
    }),
];

const LENT: &[Fault] = &[
    making("a reader begins behind the first byte", |number, state| state[POSITION] += (*number == 0) as usize),
    making("a reader begins in text", |number, state| state[PHASE] += (*number == 0) as usize),
    making("16 for a document of the greatest length", |number, state| {
        if *number == 0 && state[LENGTH] == LONGEST {
            *number = TOO_LONG
        }
    }),
    making("a document that is too long is not refused", |number, _| *number = 0),
    making("17 for a document that is too long", |number, _| *number += (*number > 0) as usize),
    parting("an empty part stands at the start", |part| {
        if part[0] == part[1] {
            *part = [0, 0]
        }
    }),
    parting("a part past the 65,536th byte is empty", |part| {
        if part[1] > 65_536 {
            part[0] = part[1]
        }
    }),
];
