//! References as characters: each rule by its smallest input, what is written and what stays, what is told of a refusal, and a second account of all of it.

mod common;

use common::Numbers;
use sporebasket::errors::Error;
use sporebasket::escape::{escape, resolve_xml_entity, unescape, unescape_with, EscapeError, ParseCharRefError};
use sporebasket::events::attributes::Attribute;
use sporebasket::events::{BytesRef, BytesStart, BytesText, Event};
use sporebasket::ext::{BadReference, ErrorExt, EventExt, StrExt};
use sporebasket::lent::{self, UNESCAPE_SLOTS};
use sporebasket::{Reader, XmlVersion};
use std::borrow::Cow;
use std::iter;

/// What a function for references says and leaves: its number, the answer, and the buffer.
type Said = (usize, [usize; UNESCAPE_SLOTS], Vec<u8>);

/// A buffer of this length with a mark in every byte.
fn marked(length: usize) -> Vec<u8> {
    (0..length).map(|i| 0x80 | i as u8).collect()
}

fn reference(content: &[u8], length: usize, at: usize) -> Said {
    let (mut buffer, mut answer) = (marked(length), [7; UNESCAPE_SLOTS]);
    let number = lent::reference(content, &mut buffer, at, &mut answer);
    (number, answer, buffer)
}

fn unescaped(content: &[u8], length: usize, at: usize) -> Said {
    let (mut buffer, mut answer) = (marked(length), [7; UNESCAPE_SLOTS]);
    let number = lent::unescape(content, &mut buffer, at, &mut answer);
    (number, answer, buffer)
}

/// Whether XML has the character of this number.
fn is_char(code: u32) -> bool {
    matches!(code, 0x9 | 0xA | 0xD | 0x20..=0xD7FF | 0xE000..=0xFFFD | 0x10000..=0x10FFFF)
}

/// The character of a reference, or 25 or 26, by another way than the archive's.
fn account_of_reference(content: &[u8]) -> Result<char, usize> {
    let content = std::str::from_utf8(content).map_err(|_| 25_usize)?;
    let named = [("lt", '<'), ("gt", '>'), ("amp", '&'), ("apos", '\''), ("quot", '"')];
    if let Some((_, c)) = named.iter().find(|(name, _)| *name == content) {
        return Ok(*c);
    }
    let number = content.strip_prefix('#').ok_or(25_usize)?;
    let (digits, radix) = match number.strip_prefix('x') {
        Some(digits) => (digits, 16),
        None => (number, 10),
    };
    if digits.is_empty() || !digits.chars().all(|c| c.is_digit(radix)) {
        return Err(25);
    }
    let digits = digits.trim_start_matches('0');
    let code = match digits.len() {
        0 => 0,
        1..=8 => u32::from_str_radix(digits, radix).unwrap(),
        _ => u32::MAX,
    };
    char::from_u32(code).filter(|_| is_char(code)).ok_or(26)
}

/// A whole content, item by item: what is written, or the number and the place of the first refusal.
fn account(content: &[u8], length: usize, at: usize) -> Result<Vec<u8>, (usize, usize)> {
    let (mut written, mut i) = (Vec::new(), 0);
    while i < content.len() {
        let (item, next) = if content[i] == b'&' {
            let end = content[i..].iter().position(|b| *b == b';').ok_or((25, i))?;
            let c = account_of_reference(&content[i + 1..i + end]).map_err(|number| (number, i))?;
            (c.to_string().into_bytes(), i + end + 1)
        } else {
            (vec![content[i]], i + 1)
        };
        if at + written.len() + item.len() > length {
            return Err((27, i));
        }
        written.extend(item);
        i = next;
    }
    if at > length {
        return Err((27, content.len()));
    }
    Ok(written)
}

/// What there is to be said by the account.
fn said(written: Result<Vec<u8>, (usize, usize)>, length: usize, at: usize) -> Said {
    let mut buffer = marked(length);
    match written {
        Ok(written) => {
            buffer[at..at + written.len()].copy_from_slice(&written);
            (0, [written.len(), 0], buffer)
        }
        Err((number, place)) => (number, [0, place], buffer),
    }
}

const NAMED: [(&str, &str); 5] = [("lt", "<"), ("gt", ">"), ("amp", "&"), ("apos", "'"), ("quot", "\"")];

#[test]
fn one_reference_by_small_contents() {
    for (name, character) in NAMED {
        assert_eq!(reference(name.as_bytes(), 1, 0), (0, [1, 0], character.into()));
        assert_eq!(resolve_xml_entity(name), Some(character));
    }
    for (content, character) in [
        ("#9", "\t"),
        ("#xA", "\n"),
        ("#13", "\r"),
        ("#32", " "),
        ("#x7F", "\u{7f}"),
        ("#x80", "\u{80}"),
        ("#x7ff", "\u{7ff}"),
        ("#x800", "\u{800}"),
        ("#xD7FF", "\u{d7ff}"),
        ("#xE000", "\u{e000}"),
        ("#xFFFD", "\u{fffd}"),
        ("#x10000", "\u{10000}"),
        ("#1114111", "\u{10ffff}"),
        ("#x10FffF", "\u{10ffff}"),
        ("#0000000000000000000000000000000000065", "A"),
        ("#x0000000000000000000000000000000000041", "A"),
    ] {
        let wanted = (0, [character.len(), 0], character.into());
        assert_eq!(reference(content.as_bytes(), character.len(), 0), wanted, "{content}");
    }
    for content in [
        "",
        "l",
        "LT",
        "lt ",
        " lt",
        "lt;",
        "&lt",
        "quote",
        "nbsp",
        "#",
        "#x",
        "#X41",
        "#+1",
        "#-1",
        "# 1",
        "#1 ",
        "#x+41",
        "#x 41",
        "#xG",
        "#a",
        "#1a",
        "##",
        "#1#",
        "#é",
        "#\u{661}",
        "65",
        "x41",
        "#99999999999999999999999z",
    ] {
        assert_eq!(
            reference(content.as_bytes(), 9, 9),
            (25, [0, 0], marked(9)),
            "{content}"
        );
    }
    for content in [
        "#0",
        "#x0",
        "#1",
        "#8",
        "#11",
        "#12",
        "#14",
        "#31",
        "#xD800",
        "#xDFFF",
        "#xFFFE",
        "#xFFFF",
        "#x110000",
        "#4294967295",
        "#4294967296",
        "#4294967361",
        "#x100000041",
        "#18446744073709551681",
        "#x10000000000000041",
        "#00000000000000000000000000",
    ] {
        assert_eq!(
            reference(content.as_bytes(), 9, 10),
            (26, [0, 0], marked(9)),
            "{content}"
        );
    }
    let hundred = format!("#{}", "1".repeat(100));
    assert_eq!(reference(hundred.as_bytes(), 9, 0), (26, [0, 0], marked(9)));
    let zeros = format!("#x{}e9", "0".repeat(5000));
    assert_eq!(reference(zeros.as_bytes(), 2, 0), (0, [2, 0], "é".into()));
}

#[test]
fn every_number() {
    let mut taken = 0;
    for code in 0..=0x110000_u32 {
        let content = if code % 2 == 0 {
            format!("#{code}")
        } else {
            format!("#x{code:x}")
        };
        let (mut buffer, mut answer) = ([0xFF; 4], [7; UNESCAPE_SLOTS]);
        let number = lent::reference(content.as_bytes(), &mut buffer, 0, &mut answer);
        match char::from_u32(code).filter(|_| is_char(code)) {
            Some(c) => {
                assert_eq!((number, answer), (0, [c.len_utf8(), 0]), "{code:x}");
                assert_eq!(&buffer[..answer[0]], c.encode_utf8(&mut [0; 4]).as_bytes());
                assert!(buffer[answer[0]..].iter().all(|b| *b == 0xFF));
                taken += 1;
            }
            None => assert_eq!((number, answer, buffer), (26, [0, 0], [0xFF; 4]), "{code:x}"),
        }
    }
    assert_eq!(taken, 3 + (0xD800 - 0x20) + (0xFFFE - 0xE000) + 0x100000);
}

#[test]
fn room_for_one_reference() {
    for content in ["lt", "#xE9", "#x2192", "#x1F682", "zz", "#0"] {
        let account = account_of_reference(content.as_bytes());
        for (length, at) in (0..8).flat_map(|length| (0..10).map(move |at| (length, at))) {
            let written = match account {
                Ok(c) if at + c.len_utf8() <= length => Ok(c.to_string().into_bytes()),
                Ok(_) => Err((27, 0)),
                Err(number) => Err((number, 0)),
            };
            assert_eq!(
                reference(content.as_bytes(), length, at),
                said(written, length, at),
                "{content} at {at} of {length}"
            );
        }
        for at in [usize::MAX, usize::MAX - 1, usize::MAX / 2] {
            assert_eq!(reference(content.as_bytes(), 4, at).0, account.err().unwrap_or(27));
        }
    }
}

/// A content, the length of the buffer, the place, and what is written or refused.
type Row = (&'static str, usize, usize, Result<&'static str, (usize, usize)>);

#[test]
fn whole_text_by_small_contents() {
    let rows: [Row; 30] = [
        ("", 0, 0, Ok("")),
        ("", 3, 3, Ok("")),
        ("", 3, 4, Err((27, 0))),
        ("ab", 2, 0, Ok("ab")),
        ("ab", 2, 1, Err((27, 1))),
        ("ab", 2, 2, Err((27, 0))),
        ("a;b", 3, 0, Ok("a;b")),
        ("&lt;", 1, 0, Ok("<")),
        ("&lt;", 1, 1, Err((27, 0))),
        ("&amp;lt;", 4, 0, Ok("&lt;")),
        ("a&gt;b&#98;", 4, 0, Ok("a>bb")),
        ("\u{e9}&#xe9;\u{2192}", 7, 0, Ok("\u{e9}\u{e9}\u{2192}")),
        ("&#x1F682;", 3, 0, Err((27, 0))),
        ("&#x1F682;", 4, 0, Ok("\u{1f682}")),
        ("&", 9, 0, Err((25, 0))),
        ("a&", 9, 0, Err((25, 1))),
        ("&lt", 9, 0, Err((25, 0))),
        ("&;", 9, 0, Err((25, 0))),
        ("&&lt;", 9, 0, Err((25, 0))),
        ("&a&lt;", 9, 0, Err((25, 0))),
        ("&<;", 9, 0, Err((25, 0))),
        ("a&b", 0, 0, Err((27, 0))),
        ("a&b", 1, 0, Err((25, 1))),
        ("&#1;", 9, 0, Err((26, 0))),
        ("&#x10FFFF;&#x110000;&zz;", 9, 0, Err((26, 10))),
        ("ab&zz;", 1, 0, Err((27, 1))),
        ("ab&zz;", 2, 0, Err((25, 2))),
        ("&zz;", 0, 0, Err((25, 0))),
        ("&lt;&zz;", 0, 0, Err((27, 0))),
        ("&lt;&zz;", 1, 0, Err((25, 4))),
    ];
    for (content, length, at, wanted) in rows {
        let wanted = wanted.map(|text| text.as_bytes().to_vec());
        assert_eq!(account(content.as_bytes(), length, at), wanted, "{content}");
        assert_eq!(
            unescaped(content.as_bytes(), length, at),
            said(wanted, length, at),
            "{content}"
        );
    }
    for (content, wanted) in [("", (27, 0)), ("a", (27, 0)), ("&zz;", (25, 0)), ("&lt;", (27, 0))] {
        for at in [5, usize::MAX - 3, usize::MAX] {
            let wanted = (wanted.0, [0, wanted.1], marked(4));
            assert_eq!(unescaped(content.as_bytes(), 4, at), wanted, "{content} {at}");
        }
    }
}

/// All sequences of these parts, up to so many of them.
fn sequences(parts: &[&'static str], most: usize) -> impl Iterator<Item = String> {
    let parts = parts.to_vec();
    let mut wave = vec![String::new()];
    iter::from_fn(move || {
        let this = std::mem::take(&mut wave);
        wave = this
            .iter()
            .flat_map(|text| parts.iter().map(move |part| format!("{text}{part}")))
            .collect();
        Some(this)
    })
    .take(most + 1)
    .flatten()
}

#[test]
fn all_small_contents() {
    let mut count = 0;
    for content in sequences(&["&", ";", "#", "x", "1", "é", "lt", "&#65;"], 5) {
        let content = content.as_bytes();
        for (length, at) in [(content.len(), 0), (content.len() + 2, 1), (2, 0), (0, 0), (1, 2)] {
            assert_eq!(
                unescaped(content, length, at),
                said(account(content, length, at), length, at)
            );
        }
        let one = account_of_reference(content);
        let wanted = one.map(|c| c.to_string().into_bytes()).map_err(|number| (number, 0));
        assert_eq!(reference(content, 5, 1), said(wanted, 5, 1));
        count += 1;
    }
    assert_eq!(count, (8_usize.pow(6) - 1) / 7);
}

#[test]
fn random_bytes() {
    const PIECES: [&[u8]; 16] = [
        b"&",
        b";",
        b"#",
        b"x",
        b"0",
        b"9",
        b"f",
        b"G",
        b"amp",
        b"&gt;",
        b"&#x2192;",
        b"&#0;",
        b"\xFF",
        b"\xE2\x82",
        b"abc",
        b"&#1114111;",
    ];
    let mut numbers = Numbers(26);
    for _ in 0..20_000 {
        let pieces = numbers.below(12);
        let content: Vec<u8> = (0..pieces).flat_map(|_| PIECES[numbers.below(16)]).copied().collect();
        let (length, at) = (numbers.below(40), numbers.below(8));
        assert_eq!(
            unescaped(&content, length, at),
            said(account(&content, length, at), length, at),
            "{content:?} at {at} of {length}"
        );
    }
}

#[test]
fn a_buffer_as_long_as_the_content_is_enough() {
    for content in ["", "a", "&lt;", "&#9;", "&#x9;", "&#x10FFFF;&#1114111;", "\u{10ffff}"] {
        let (number, [written, _], _) = unescaped(content.as_bytes(), content.len(), 0);
        assert!(number == 0 && written <= content.len(), "{content}");
    }
}

#[test]
fn too_few_slots_and_more_of_them() {
    for slots in [0, 1] {
        let (mut buffer, mut answer) = (marked(4), vec![7; slots]);
        assert_eq!(lent::reference(b"lt", &mut buffer, 0, &mut answer), 17);
        assert_eq!(lent::unescape(b"&zz;", &mut buffer, 9, &mut answer), 17);
        assert_eq!((buffer, answer), (marked(4), vec![7; slots]));
    }
    let (mut buffer, mut answer) = (marked(2), [7; 4]);
    assert_eq!(lent::reference(b"lt", &mut buffer, 0, &mut answer), 0);
    assert_eq!((answer, buffer[1]), ([1, 0, 7, 7], 0x81));
    assert_eq!(lent::unescape(b"ab&", &mut buffer, 0, &mut answer), 25);
    assert_eq!((answer, buffer[0]), ([0, 2, 7, 7], b'<'));
}

#[test]
fn a_long_text() {
    let content = "Bar &amp; Grill &#x2192; Z&#252;rich; ".repeat(20_000);
    let wanted = "Bar & Grill \u{2192} Zürich; ".repeat(20_000);
    assert_eq!(unescape(&content).unwrap(), wanted);
    let refused = format!("{content}&#0;").unescaped().unwrap_err();
    assert_eq!((refused.number, refused.position), (26, content.len()));
    assert_eq!(unescape(&escape(&*wanted)).unwrap(), wanted);
    assert!(matches!(unescape(&wanted.replace('&', "+")).unwrap(), Cow::Borrowed(_)));
}

/// The numbers that quick-xml takes and XML has not.
fn illegal() -> impl Iterator<Item = u32> {
    (1..0x20).filter(|code| !is_char(*code)).chain([0xFFFE, 0xFFFF])
}

#[test]
fn characters_that_quick_xml_takes_and_this_does_not() {
    assert_eq!(illegal().count(), 30);
    for code in illegal() {
        let wanted = EscapeError::InvalidCharRef(ParseCharRefError::IllegalCharacter(code));
        let text = format!("a&#{code};");
        assert_eq!(unescape(&text), Err(wanted.clone()));
        assert_eq!(unescape_with(&text, resolve_xml_entity), Err(wanted.clone()));
        let attribute = Attribute {
            key: sporebasket::name::QName("a"),
            value: Cow::Borrowed(&text),
        };
        assert_eq!(
            attribute.normalized_value(XmlVersion::Implicit1_0),
            Err(Error::Escape(wanted.clone()))
        );
        let reference = BytesRef::new(format!("#x{code:X}"));
        assert_eq!(reference.resolve_char_ref(), Err(Error::Escape(wanted)));
        assert_eq!(text.unescaped().map_err(|bad| (bad.number, bad.position)), Err((26, 1)));
        // where it stands as it is, it stays
        let itself = char::from_u32(code).unwrap().to_string();
        assert_eq!(unescape(&itself).unwrap(), itself);
    }
}

/// quick-xml's error for a text, by its rules: a reference ends at the next `&` or `;`.
fn error_by_quick_xml(text: &str) -> Option<EscapeError> {
    let mut from = 0;
    loop {
        let at = from + text[from..].find('&')?;
        let end = text[at + 1..].find(['&', ';']).map(|end| at + 1 + end);
        let Some(end) = end.filter(|end| text[*end..].starts_with(';')) else {
            return Some(EscapeError::UnterminatedEntity(at..text.len()));
        };
        let content = &text[at + 1..end];
        match content.strip_prefix('#') {
            Some(number) => {
                let hex = number.strip_prefix('x');
                let (digits, radix) = (hex.unwrap_or(number), if hex.is_some() { 16 } else { 10 });
                let error = match u32::from_str_radix(digits, radix) {
                    _ if digits.starts_with(['+', '-']) => ParseCharRefError::UnexpectedSign,
                    Err(error) => ParseCharRefError::InvalidNumber(error),
                    Ok(code) if code == 0 || illegal().any(|illegal| illegal == code) => {
                        ParseCharRefError::IllegalCharacter(code)
                    }
                    Ok(code) if char::from_u32(code).is_none() => ParseCharRefError::InvalidCodepoint(code),
                    Ok(_) => {
                        from = end + 1;
                        continue;
                    }
                };
                return Some(EscapeError::InvalidCharRef(error));
            }
            None if resolve_xml_entity(content).is_none() => {
                return Some(EscapeError::UnrecognizedEntity(at + 1..end, content.into()));
            }
            None => from = end + 1,
        }
    }
}

#[test]
fn errors_are_quick_xml_s() {
    for text in sequences(&["&", ";", "#", "x", "+", "7", "é", "lt", "&amp;"], 5) {
        let wanted = error_by_quick_xml(&text);
        assert_eq!(unescape(&text).err(), wanted, "{text}");
        assert_eq!(unescape_with(&text, resolve_xml_entity).err(), wanted, "{text}");
        // a refusal of the archive, at the same reference
        let refused = text.unescaped();
        assert_eq!(refused.is_err(), wanted.is_some(), "{text}");
        let at = match wanted {
            Some(EscapeError::UnrecognizedEntity(range, _)) => range.start - 1,
            Some(EscapeError::UnterminatedEntity(range)) => range.start,
            _ => continue,
        };
        assert_eq!(
            refused.map_err(|bad| (bad.number, bad.position)),
            Err((25, at)),
            "{text}"
        );
    }
}

#[test]
fn values_by_two_ways() {
    // the five names by the archive's function, and one by one by a resolver
    for value in sequences(&["&", ";", "#", "9", "\r", "\n", "\t", "lt", "&amp;", " "], 5) {
        let attribute = Attribute {
            key: sporebasket::name::QName("a"),
            value: Cow::Borrowed(&value),
        };
        let one = attribute.normalized_value(XmlVersion::Implicit1_0);
        let two = attribute.normalized_value_with(XmlVersion::Implicit1_0, 1, resolve_xml_entity);
        assert_eq!(one, two, "{value:?}");
        assert_eq!(
            matches!(one, Ok(Cow::Borrowed(_))),
            !value.contains(['&', '\t', '\n', '\r']),
            "{value:?}"
        );
    }
}

#[test]
fn refusals_have_numbers_places_and_texts() {
    let refused = |text: &str| text.unescaped().unwrap_err();
    let bad = refused("ab&bus;");
    assert_eq!((bad.number, bad.position), (25, 2));
    assert_eq!(
        bad.to_string(),
        "position 2: neither a reference by one of the five names nor one by a number"
    );
    let bad = refused("é&#xD800;");
    assert_eq!((bad.number, bad.position), (26, 2));
    assert_eq!(bad.to_string(), "position 2: a reference to no character of XML");
    let error: Box<dyn std::error::Error> = Box::new(bad);
    assert_eq!(error.downcast_ref::<BadReference>(), Some(&bad));
    assert!(matches!("Brig".unescaped(), Ok(Cow::Borrowed("Brig"))));
    assert_eq!(String::from("&lt;").unescaped().unwrap(), "<");
    // the number does not follow from quick-xml's cases
    assert_eq!(Error::from(unescape("&#1;").unwrap_err()).number(), None);
}

#[test]
fn text_of_events() {
    assert_eq!(BytesText::new("a < b").unescape().unwrap(), "a < b");
    let own = BytesText::from_escaped(String::from("a &gt; b"));
    assert_eq!(own.unescape().unwrap(), "a > b");
    assert_eq!(own.into_owned().unescape().unwrap(), "a > b");
    let kept: Cow<'static, str> = {
        let borrowed = BytesText::from_escaped("Brig");
        borrowed.unescape().unwrap()
    };
    assert!(matches!(kept, Cow::Borrowed("Brig")));
    assert!(matches!(
        BytesText::from_escaped("&bus;").unescape(),
        Err(Error::Escape(EscapeError::UnrecognizedEntity(..)))
    ));

    // an `&` without its `;`, where that is allowed, and a comment, in which references are none
    let mut reader = Reader::from_str("a & b<!--&lt;-->");
    reader.config_mut().allow_dangling_amp = true;
    let mut said = Vec::new();
    loop {
        match reader.read_event().unwrap() {
            Event::Text(text) | Event::Comment(text) => said.push(text.unescape().map(Cow::into_owned)),
            Event::Eof => break,
            other => panic!("{other:?}"),
        }
    }
    assert_eq!(said[0], Ok("a ".into()));
    assert!(matches!(
        said[1],
        Err(Error::Escape(EscapeError::UnterminatedEntity(_)))
    ));
    assert_eq!(said.last(), Some(&Ok("<".into())));
}

#[test]
fn places_in_the_document() {
    let document = "<t>\n<r to='Bar &amp; Gr&icirc;ll'/>";
    let mut reader = Reader::from_str(document);
    reader.config_mut().trim_text(true);
    reader.read_event().unwrap();
    let Ok(Event::Empty(tag)) = reader.read_event() else {
        panic!()
    };
    let value = tag.try_get_attribute("to").unwrap().unwrap().value;
    let refused = value.unescaped().unwrap_err();
    let content = tag.place().unwrap().content.start;
    let place = content + common::place(tag.as_bytes(), value.as_bytes()).start + refused.position;
    assert_eq!(&document[place..place + 7], "&icirc;");
}

#[test]
fn tags_that_are_added_to() {
    let Ok(Event::Start(mut tag)) = Reader::from_str("<r n='1'>").read_event() else {
        panic!()
    };
    assert!(tag.place().is_some());
    tag.push_attribute(("to", "'"));
    assert_eq!((&*tag, tag.place()), ("r n='1' to=\"&apos;\"", None));
    let none: [(&str, &str); 0] = [];
    assert_eq!(BytesStart::new("r").with_attributes(none), BytesStart::new("r"));
}
