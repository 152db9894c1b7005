//! Wrong accounts of ours and of the crate's rules, by what is wrong in them, each of which has to be noticed.

use super::account::{self, closes, seen, sort, way, Account, Call, Sort, Way};
use super::theirs::{self, ends, hyphens, question, Pieces, Rules};
use super::*;
use crate::contents::Fault;

type Wrong = (&'static str, Account);

pub fn all() -> Vec<Fault<Account, Rules>> {
    contents::wrong(&[MAKING, SORTS, CLOSERS, QUOTES, KEPT, REACHED, FED], RULES, (&account::SOUND, &theirs::SOUND))
}

const SOUND: Account = account::SOUND;

const fn making(name: &'static str, fresh: fn(usize) -> Option<Scan>) -> Wrong {
    (name, Account { fresh, ..SOUND })
}

const fn sorting(name: &'static str, sort: fn(&[u8]) -> Option<Sort>) -> Wrong {
    (name, Account { sort, ..SOUND })
}

const fn closing(name: &'static str, closes: fn(Sort, &[u8], usize) -> bool) -> Wrong {
    (name, Account { closes, ..SOUND })
}

const fn quoting(name: &'static str, is_quote: fn(u8) -> bool) -> Wrong {
    (name, Account { is_quote, ..SOUND })
}

const fn unquoting(name: &'static str, unquote: fn(&[u8], usize) -> Option<usize>) -> Wrong {
    (name, Account { unquote, ..SOUND })
}

const fn leaving(name: &'static str, left: fn(Sort, usize) -> usize) -> Wrong {
    (name, Account { left, ..SOUND })
}

const fn seeing(name: &'static str, seen: fn(Sort, &[u8]) -> usize) -> Wrong {
    (name, Account { seen, ..SOUND })
}

const fn reaching(name: &'static str, way: fn(&Scan) -> Option<Way>) -> Wrong {
    (name, Account { way, ..SOUND })
}

const fn ending(name: &'static str, end: fn(&mut Call)) -> Wrong {
    (name, Account { end, ..SOUND })
}

const MAKING: &[Wrong] = &[
    making("a scan is made in quotes too", |made| (SOUND.fresh)(made).or((made == SINGLE_QUOTED).then_some([made, 0, 0, 0]))),
    making("a scan is made closed", |made| (SOUND.fresh)(made).or((made == CLOSED).then_some([made, 0, 0, 0]))),
    making("a scan is made of a reference", |made| (SOUND.fresh)(made).or((made == REFERENCE).then_some([made, 0, 0, 0]))),
    making("no scan of text", |made| (SOUND.fresh)(made).filter(|_| made != TEXT)),
    making("a comment without an opener", |made| (SOUND.fresh)(made).map(|_| [made, 0, 0, 0])),
    making("an instruction with an opener of two bytes", |made| {
        let two = |[state, count, left, seen]: Scan| [state, count, if made == PI { 2 } else { left }, seen];
        (SOUND.fresh)(made).map(two)
    }),
];

/// Another sort for pieces that begin so.
fn begins(bytes: &[u8], with: &[u8], as_sort: Option<Sort>) -> Option<Sort> {
    if bytes.starts_with(with) {
        as_sort
    } else {
        sort(bytes)
    }
}

const SORTS: &[Wrong] = &[
    sorting("a piece is a tag whatever is behind `<`", |bytes| begins(bytes, b"<", Some(Sort::Tag))),
    sorting("`<!` is a comment at once", |bytes| begins(bytes, b"<!", Some(Sort::Comment))),
    sorting("`<!-` is not yet a comment", |bytes| if bytes == b"<!-" { None } else { sort(bytes) }),
    sorting("`<!D` goes on as a tag", |bytes| if sort(bytes) == Some(Sort::Other) { Some(Sort::Tag) } else { sort(bytes) }),
    sorting("`<!>` is a comment", |bytes| begins(bytes, b"<!>", Some(Sort::Comment))),
    sorting("`<?` is a tag", |bytes| begins(bytes, b"<?", Some(Sort::Tag))),
    sorting("`<![` is a tag", |bytes| begins(bytes, b"<![", Some(Sort::Tag))),
    sorting("a reference is text", |bytes| begins(bytes, b"&", Some(Sort::Text))),
    sorting("`>` at the start is no text", |bytes| begins(bytes, b">", Some(Sort::Tag))),
];

/// Closed behind these bytes too, if it is of this sort.
fn also(sort: Sort, bytes: &[u8], at: usize, of: Sort, behind: &[u8]) -> bool {
    closes(sort, bytes, at) || sort == of && bytes[at] == b'>' && bytes[..at].ends_with(behind)
}

/// Not closed where this is so, if it is of this sort.
fn not(sort: Sort, bytes: &[u8], at: usize, of: Sort, when: bool) -> bool {
    closes(sort, bytes, at) && !(sort == of && when)
}

const CLOSERS: &[Wrong] = &[
    closing("a comment is closed at offset 5", |sort, bytes, at| {
        closes(sort, bytes, at) || sort == Sort::Comment && at == 5 && bytes[..=at].ends_with(b"-->")
    }),
    closing("a comment is closed at any offset", |sort, bytes, at| also(sort, bytes, at, Sort::Comment, b"--")),
    closing("a comment is not closed at offset 6", |sort, bytes, at| not(sort, bytes, at, Sort::Comment, at == 6)),
    closing("a comment is closed behind one hyphen", |sort, bytes, at| {
        at > 6 && also(sort, bytes, at, Sort::Comment, b"-") || closes(sort, bytes, at)
    }),
    closing("a comment is not closed behind three hyphens", |sort, bytes, at| {
        not(sort, bytes, at, Sort::Comment, bytes[..at].ends_with(b"---"))
    }),
    closing("an instruction is closed by `>`", |sort, bytes, at| also(sort, bytes, at, Sort::Pi, b"")),
    closing("an instruction of three bytes is not closed", |sort, bytes, at| not(sort, bytes, at, Sort::Pi, at < 3)),
    closing("an instruction is not closed behind two `?`", |sort, bytes, at| not(sort, bytes, at, Sort::Pi, bytes[..at].ends_with(b"??"))),
    closing("character data is closed behind one bracket", |sort, bytes, at| also(sort, bytes, at, Sort::Cdata, b"]")),
    closing("character data is not closed behind three brackets", |sort, bytes, at| {
        not(sort, bytes, at, Sort::Cdata, bytes[..at].ends_with(b"]]]"))
    }),
    closing("character data is not closed within its opener", |sort, bytes, at| not(sort, bytes, at, Sort::Cdata, at < 11)),
    closing("a tag is not closed behind `/`", |sort, bytes, at| not(sort, bytes, at, Sort::Tag, bytes[..at].ends_with(b"/"))),
    closing("a tag is closed by `<`", |sort, bytes, at| closes(sort, bytes, at) || sort == Sort::Tag && at > 0 && bytes[at] == b'<'),
    closing("text ends at `>`", |sort, bytes, at| closes(sort, bytes, at) || sort == Sort::Text && bytes[at] == b'>'),
    closing("text does not end at `&`", |sort, bytes, at| not(sort, bytes, at, Sort::Text, bytes[at] == b'&')),
    closing("text has a byte at least", |sort, bytes, at| not(sort, bytes, at, Sort::Text, at == 0)),
    closing("a reference does not end at `<`", |sort, bytes, at| not(sort, bytes, at, Sort::Reference, bytes[at] == b'<')),
    closing("a reference does not end at `&`", |sort, bytes, at| not(sort, bytes, at, Sort::Reference, bytes[at] == b'&')),
    closing("a reference ends at `>`", |sort, bytes, at| closes(sort, bytes, at) || sort == Sort::Reference && bytes[at] == b'>'),
    closing("what is no markup is closed behind the byte that shows it", |sort, bytes, at| {
        if sort == Sort::Other {
            at == 3
        } else {
            closes(sort, bytes, at)
        }
    }),
    closing("nothing is closed at the last byte of a block", |sort, bytes, at| closes(sort, bytes, at) && at % 64 != 63),
    closing("nothing is closed behind 256 bytes", |sort, bytes, at| closes(sort, bytes, at) && at < 256),
    closing("nothing is closed behind 65,536 bytes", |sort, bytes, at| closes(sort, bytes, at) && at < 65_536),
];

const QUOTES: &[Wrong] = &[
    quoting("no quotes in a tag", |_| false),
    quoting("single quotes are none", |b| b == b'"'),
    quoting("double quotes are none", |b| b == b'\''),
    unquoting("the other quote closes too", |bytes, at| (at + 1..bytes.len()).find(|&end| b"'\"".contains(&bytes[end]))),
    unquoting("`>` closes a quote too", |bytes, at| (at + 1..bytes.len()).find(|&end| bytes[end] == bytes[at] || bytes[end] == b'>')),
    unquoting("no value is empty", |bytes, at| (at + 2..bytes.len()).find(|&end| bytes[end] == bytes[at])),
    unquoting("a quote is never closed", |_, _| None),
];

const KEPT: &[Wrong] = &[
    leaving("the opener is passed at once", |_, _| 0),
    leaving("an opener of three bytes", |sort, count| if sort == Sort::Comment { 3usize.saturating_sub(count) } else { 0 }),
    leaving(
        "character data has an opener",
        |sort, count| if sort == Sort::Cdata { 9usize.saturating_sub(count) } else { (SOUND.left)(sort, count) },
    ),
    seeing("hyphens of the opener are seen", |sort, bytes| {
        let count = bytes.iter().rev().take(2).take_while(|&&b| b == b'-').count();
        if sort == Sort::Comment {
            count
        } else {
            seen(sort, bytes)
        }
    }),
    seeing("three hyphens are seen", |sort, bytes| {
        seen(sort, bytes) + (sort == Sort::Comment && bytes.len() > 6 && bytes.ends_with(b"---")) as usize
    }),
    seeing("a third hyphen is seen alone", |sort, bytes| if bytes.len() > 6 && bytes.ends_with(b"---") { 1 } else { seen(sort, bytes) }),
    seeing("no `?` is seen", |sort, bytes| if sort == Sort::Pi { 0 } else { seen(sort, bytes) }),
    seeing("a `?` is seen for good", |sort, bytes| if sort == Sort::Pi { bytes.contains(&b'?') as usize } else { seen(sort, bytes) }),
    seeing("that of `<?` is not seen", |sort, bytes| if bytes == b"<?" { 0 } else { seen(sort, bytes) }),
    seeing("one bracket is seen of two", |sort, bytes| if sort == Sort::Cdata { seen(sort, bytes).min(1) } else { seen(sort, bytes) }),
    seeing("brackets with another byte between are seen", |sort, bytes| {
        let between = sort == Sort::Cdata && bytes.len() > 2 && bytes.ends_with(b"]") && bytes[bytes.len() - 3] == b']';
        if between {
            2
        } else {
            seen(sort, bytes)
        }
    }),
];

const REACHED: &[Wrong] = &[
    reaching("no tag of no byte", |scan| way(scan).filter(|_| scan[STATE] != TAG || scan[COUNT] > 0)),
    reaching("nothing is reached at the greatest length", |scan| way(scan).filter(|_| scan[COUNT] < LONGEST)),
    reaching("nothing is reached behind 4,096 bytes", |scan| way(scan).filter(|_| scan[COUNT] < 4_096)),
    reaching("a comment is not reached with its opener passed alone", |scan| way(scan).filter(|_| *scan != [COMMENT, OPENER, 0, 0])),
    reaching("no hyphen right behind the opener", |scan| way(scan).filter(|_| *scan != [COMMENT, OPENER + 1, 0, 1])),
    reaching("no instruction that begins with `?`", |scan| way(scan).filter(|_| *scan != [PI, 1, 0, 1])),
    reaching("no closed scan at 0", |scan| way(scan).filter(|_| *scan != [CLOSED, 0, 0, 0])),
    reaching("no reference", |scan| way(scan).filter(|_| scan[STATE] != REFERENCE)),
    reaching("no text", |scan| way(scan).filter(|_| scan[STATE] != TEXT)),
    ("a quote at no byte", Account { end: |call| reached_too(call, [SINGLE_QUOTED, 0, 0, 0]), ..SOUND }),
    ("a closed scan at the greatest length", Account { end: |call| reached_too(call, [CLOSED, LONGEST, 0, 0]), ..SOUND }),
    ("a closed scan with a byte seen", Account { end: |call| reached_too(call, [CLOSED, 3, 0, 1]), ..SOUND }),
    ("a scan that was not begun with a byte taken", Account { end: |call| reached_too(call, [PIECE, 1, 0, 0]), ..SOUND }),
    ("a comment with five bytes of the opener to come", Account { end: |call| reached_too(call, [COMMENT, 0, 5, 0]), ..SOUND }),
    ("text of more bytes than there may be", Account { end: |call| reached_too(call, [TEXT, LONGEST + 1, 0, 0]), ..SOUND }),
    ("any state behind the last", Account { end: |call| reached_too(call, [TEXT + 1, 0, 0, 0]), ..SOUND }),
];

/// 17 is not given for this one.
fn reached_too(call: &mut Call, scan: Scan) {
    if call.before == scan {
        call.number = 0;
    }
}

/// Another value in a slot, where this is so.
fn set(call: &mut Call, when: bool, slot: usize, value: usize) {
    if when {
        call.slots[slot] = value;
    }
}

/// Whether a comment's piece ends in one hyphen behind another byte, and so many were seen before it: the crate then takes two to be seen.
fn one_behind(call: &Call, before: usize) -> bool {
    let one = call.piece.len() > 1 && call.piece.ends_with(b"-") && !call.piece.ends_with(b"--");
    call.open() && call.slots[STATE] == COMMENT && call.slots[LEFT] == 0 && call.before[SEEN] == before && one
}

/// What a piece would lead to that is taken though it is too long.
fn taken(call: &mut Call) {
    if call.number == TOO_LONG {
        call.slots[COUNT] += call.piece.len();
    }
}

const FED: &[Wrong] = &[
    ("four slots are too few", Account { few: |slots| slots <= SLOTS, ..SOUND }),
    (
        "three slots are enough",
        Account {
            few: |slots| slots < SLOTS - 1,
            end: |call| {
                if call.slots.len() < SLOTS {
                    call.number = 0
                }
            },
            ..SOUND
        },
    ),
    ending("a slot behind the scan is written", |call| {
        if call.slots.len() > SLOTS {
            call.slots[SLOTS] = 0
        }
    }),
    ending("an empty piece begins the scan again", |call| {
        let empty = call.piece.is_empty() && call.open();
        set(call, empty, SEEN, 0);
    }),
    ending("an empty piece begins the count again", |call| {
        let empty = call.piece.is_empty() && call.open();
        set(call, empty, COUNT, 0);
    }),
    ending("an empty piece ends a quote", |call| {
        let empty = call.piece.is_empty() && call.open() && [SINGLE_QUOTED, DOUBLE_QUOTED].contains(&call.slots[STATE]);
        set(call, empty, STATE, TAG);
    }),
    ending("a `?` is forgotten on an empty piece", |call| {
        let empty = call.piece.is_empty() && call.open() && call.slots[STATE] == PI;
        set(call, empty, SEEN, 0);
    }),
    ending("behind one hyphen two are taken to be seen", |call| {
        let one = one_behind(call, 1);
        set(call, one, SEEN, 2);
    }),
    ending("behind two hyphens two are still taken to be seen", |call| {
        let one = one_behind(call, 2);
        set(call, one, SEEN, 2);
    }),
    ending("the place counts from the latest piece", |call| {
        let (found, place) = (call.found(), call.slots[COUNT].wrapping_sub(call.before[COUNT]));
        set(call, found, COUNT, place);
    }),
    ending("the place is that behind the byte", |call| {
        let (found, place) = (call.found(), call.slots[COUNT] + 1);
        set(call, found, COUNT, place);
    }),
    ending("the place of a comment is that behind the byte", |call| {
        let (found, place) = (call.found() && call.before[STATE] == COMMENT, call.slots[COUNT] + 1);
        set(call, found, COUNT, place);
    }),
    ending("the count is that of the latest piece", |call| {
        let (open, count) = (call.open(), call.piece.len());
        set(call, open, COUNT, count);
    }),
    ending("what was seen stays when the byte is found", |call| {
        let (found, seen) = (call.found(), call.before[SEEN]);
        set(call, found, SEEN, seen);
    }),
    ending("a piece behind the byte moves its place", |call| {
        let (closed, place) = (call.number == 0 && call.before[STATE] == CLOSED, call.slots[COUNT] + call.piece.len());
        set(call, closed, COUNT, place);
    }),
    ending("a piece behind the byte begins a tag", |call| {
        let closed = call.number == 0 && call.before[STATE] == CLOSED && !call.piece.is_empty();
        set(call, closed, STATE, TAG);
    }),
    ending("a piece behind the byte is refused", |call| {
        if call.before[STATE] == CLOSED && call.number == 0 && !call.piece.is_empty() {
            call.number = BAD_STATE;
        }
    }),
    ending("16 when the piece was taken", taken),
    ending("16 leaves nothing seen", |call| {
        let long = call.number == TOO_LONG;
        set(call, long, SEEN, 0);
    }),
    ending("16 of a closed scan too", |call| {
        if call.number == 0 && call.before[STATE] == CLOSED && call.piece.len() > LONGEST - call.before[COUNT] {
            call.number = TOO_LONG;
        }
    }),
    ending("16 before 17", |call| {
        if call.number == BAD_STATE && call.slots.len() >= SLOTS && call.before[COUNT].saturating_add(call.piece.len()) > LONGEST {
            call.number = TOO_LONG;
        }
    }),
    ending("17 begins the scan again", |call| {
        let bad = call.number == BAD_STATE;
        set(call, bad, STATE, CLOSED);
    }),
    ("16 one byte too early", Account { long: |count, length| length >= LONGEST - count && length > 0, ..SOUND }),
    ("16 one byte too late", Account { long: |count, length| length > LONGEST + 1 - count, ..SOUND }),
    ("16 by the piece alone", Account { long: |_, length| length > LONGEST, ..SOUND }),
    ("16 is not given", Account { long: |_, _| false, ..SOUND }),
    ("16 at 16 MiB", Account { long: |count, length| count + length > 16_777_216, ..SOUND }),
];

const fn asking(name: &'static str, question: fn(&[u8], &Pieces) -> bool) -> (&'static str, Rules) {
    (name, Rules { question, ..theirs::SOUND })
}

const fn hyphening(name: &'static str, hyphens: fn(&[u8], &[Span]) -> usize) -> (&'static str, Rules) {
    (name, Rules { hyphens, ..theirs::SOUND })
}

const RULES: &[(&str, Rules)] = &[
    asking("the crate keeps its `?` on an empty piece", |content, pieces| ends(content, &pieces.latest, 0, b"?")),
    asking("the crate keeps no `?`", |_, _| false),
    asking("the crate keeps a `?` of the piece before", |content, pieces| {
        question(content, pieces) || !pieces.empty && ends(content, &pieces.latest, 1, b"?")
    }),
    hyphening("the crate sees one hyphen behind another byte as one", |content, pieces| {
        let (from, to) = pieces[0];
        if to - from > 1 && !ends(content, pieces, 0, b"--") {
            ends(content, pieces, 0, b"-") as usize
        } else {
            hyphens(content, pieces)
        }
    }),
    hyphening("the crate sees so behind two hyphens alone", |content, pieces| {
        let (from, to) = pieces[0];
        if to - from > 1 && !ends(content, pieces, 0, b"--") && ends(content, pieces, 0, b"-") && hyphens(content, &pieces[1..]) == 1 {
            1
        } else {
            hyphens(content, pieces)
        }
    }),
    hyphening("the crate sees so behind one hyphen alone", |content, pieces| {
        let (from, to) = pieces[0];
        if to - from > 1 && !ends(content, pieces, 0, b"--") && ends(content, pieces, 0, b"-") && hyphens(content, &pieces[1..]) == 2 {
            1
        } else {
            hyphens(content, pieces)
        }
    }),
    hyphening(
        "the crate sees no hyphen of a single byte",
        |content, pieces| {
            if pieces[0].1 - pieces[0].0 == 1 {
                0
            } else {
                hyphens(content, pieces)
            }
        },
    ),
    ("the crate tells the place of a comment's `>`", Rules { told: |at| at, ..theirs::SOUND }),
    (
        "the crate has the offset rule",
        Rules { closes: |content, from, at, kept| at >= 6 && theirs::closes(content, from, at, kept), ..theirs::SOUND },
    ),
    (
        "the crate does not join hyphens of two pieces",
        Rules { closes: |content, from, at, _| content[from..at].ends_with(b"--"), ..theirs::SOUND },
    ),
];
