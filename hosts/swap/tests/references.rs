//! References and escaped text, as ordinary code reads and writes them.

use quick_xml::errors::Error;
use quick_xml::escape::{
    escape, minimal_escape, normalize_attribute_value, partial_escape, resolve_predefined_entity, resolve_xml_entity,
    unescape, unescape_with, EscapeError, ParseCharRefError,
};
use quick_xml::events::attributes::Attribute;
use quick_xml::events::{BytesRef, BytesStart, BytesText, Event};
use quick_xml::reader::Reader;
use quick_xml::XmlVersion;
use std::borrow::Cow;
use std::error::Error as StdError;
use std::num::IntErrorKind;

const BOARD: &str = "<board title='Bars &amp; Grills'>\n  <to n='1'>Bar &amp; Grill &#x2192; Brig</to>\n  \
                     <to n='&#50;'>St-L&#233;onard &lt;request&gt;</to>\n</board>";

/// The text of each element `to`, put together from its pieces.
fn destinations(xml: &str) -> Result<Vec<String>, Error> {
    let mut reader = Reader::from_str(xml);
    let mut destinations = Vec::new();
    let mut open: Option<String> = None;
    loop {
        match reader.read_event()? {
            Event::Start(e) if e.name().as_ref() == "to" => open = Some(String::new()),
            Event::End(e) if e.name().as_ref() == "to" => destinations.extend(open.take()),
            Event::Text(e) => {
                if let Some(text) = &mut open {
                    text.push_str(&e);
                }
            }
            Event::GeneralRef(e) => {
                let Some(text) = &mut open else { continue };
                match e.resolve_char_ref()? {
                    Some(c) => text.push(c),
                    None => text.push_str(resolve_predefined_entity(&e).unwrap_or("?")),
                }
            }
            Event::Eof => return Ok(destinations),
            _ => (),
        }
    }
}

#[test]
fn text_of_elements() {
    let wanted = ["Bar & Grill \u{2192} Brig", "St-Léonard <request>"];
    assert_eq!(destinations(BOARD).unwrap(), wanted);
    assert_eq!(destinations("<to>&unknown;&quot;</to>").unwrap(), ["?\""]);
    let error = destinations("<to>&#xD800;</to>").unwrap_err();
    assert!(matches!(
        error,
        Error::Escape(EscapeError::InvalidCharRef(ParseCharRefError::InvalidCodepoint(0xD800)))
    ));
    assert_eq!(
        error.to_string(),
        "invalid character reference: `55296` is not a valid codepoint"
    );
}

/// The text between the tags of an element, replaced at once.
fn inner(xml: &str) -> Result<String, Box<dyn StdError>> {
    let mut reader = Reader::from_str(xml);
    let Event::Start(start) = reader.read_event()? else {
        return Err("no element".into());
    };
    let text = reader.read_text(start.name())?;
    Ok(unescape(&text)?.into_owned())
}

#[test]
fn text_between_tags() {
    assert_eq!(inner("<to>Bar &amp; Grill</to>").unwrap(), "Bar & Grill");
    let error = inner("<to>Bar &amp; &grill;</to>").unwrap_err();
    assert_eq!(error.to_string(), "at 11..16: unrecognized entity `grill`");
    assert!(error.downcast_ref::<EscapeError>().is_some());
}

#[test]
fn values_of_attributes() {
    let mut reader = Reader::from_str(BOARD);
    let mut values = Vec::new();
    loop {
        match reader.read_event().unwrap() {
            Event::Start(e) => {
                for a in e.attributes() {
                    values.push(
                        a.unwrap()
                            .normalized_value(XmlVersion::Implicit1_0)
                            .unwrap()
                            .into_owned(),
                    );
                }
            }
            Event::Eof => break,
            _ => (),
        }
    }
    assert_eq!(values, ["Bars & Grills", "1", "2"]);
}

fn attribute(value: &str) -> Attribute<'_> {
    Attribute {
        key: quick_xml::name::QName("to"),
        value: Cow::Borrowed(value),
    }
}

#[test]
fn normalized_values() {
    for (value, wanted) in [
        ("", ""),
        ("Brig", "Brig"),
        ("a\tb\nc\rd\r\ne\r\rf\n\ng", "a b c d e  f  g"),
        ("&#9;&#xA;&#13; \t", "\t\n\r  "),
        ("&lt;&gt;&amp;&apos;&quot;", "<>&'\""),
        ("&amp;lt;", "&lt;"),
        ("\r&#10;\n", " \n "),
        ("Z&#xfc;rich\u{a0}\u{2028}\u{85}", "Zürich\u{a0}\u{2028}\u{85}"),
        ("&amp;\r\n&amp;", "& &"),
    ] {
        let normalized = attribute(value).normalized_value(XmlVersion::Implicit1_0).unwrap();
        assert_eq!(normalized, wanted, "{value:?}");
        let changed = value.contains(['&', '\t', '\n', '\r']);
        assert_eq!(matches!(normalized, Cow::Borrowed(_)), !changed, "{value:?}");
        let with = attribute(value)
            .normalized_value_with(XmlVersion::Implicit1_0, 1, resolve_predefined_entity)
            .unwrap();
        assert_eq!(with, wanted, "{value:?}");
        #[allow(deprecated)]
        let unescaped = attribute(value).unescape_value().unwrap();
        assert_eq!(unescaped, wanted, "{value:?}");
    }
}

#[test]
fn values_that_are_not_normalized() {
    let unrecognized = |range, name: &str| EscapeError::UnrecognizedEntity(range, name.into());
    for (value, wanted) in [
        ("a&b;", unrecognized(2..3, "b")),
        ("\r\na & b;", unrecognized(5..7, " b")),
        ("&a\r\nb;", unrecognized(1..5, "a\r\nb")),
        // up to the next `;`, whatever stands between
        ("&a&lt;", unrecognized(1..5, "a&lt")),
        ("\t&;", unrecognized(2..2, "")),
        ("a & b", EscapeError::UnterminatedEntity(2..5)),
        ("\t&", EscapeError::UnterminatedEntity(1..2)),
        (
            "&#x110000;",
            EscapeError::InvalidCharRef(ParseCharRefError::InvalidCodepoint(0x110000)),
        ),
        (
            " &#0;&b;",
            EscapeError::InvalidCharRef(ParseCharRefError::IllegalCharacter(0)),
        ),
    ] {
        let Err(Error::Escape(error)) = attribute(value).normalized_value(XmlVersion::Implicit1_0) else {
            panic!("{value:?}");
        };
        assert_eq!(error, wanted, "{value:?}");
    }
}

#[test]
fn values_with_entities_of_their_own() {
    let resolve = |name: &str| match name {
        "grill" => Some("Bar\n&amp;\tGrill"),
        "to" => Some("&grill; &arrow; &stop;"),
        "arrow" => Some("&#x2192;"),
        "stop" => Some("Brig"),
        "loop" => Some("&loop;"),
        "open" => Some("&open"),
        "bad" => Some("ab&none;"),
        _ => resolve_predefined_entity(name),
    };
    let with = |value: &str, depth| {
        attribute(value)
            .normalized_value_with(XmlVersion::Implicit1_0, depth, resolve)
            .map(Cow::into_owned)
            .map_err(|error| match error {
                Error::Escape(error) => error,
                other => panic!("{other:?}"),
            })
    };
    assert_eq!(with("&to;", 3).unwrap(), "Bar & Grill \u{2192} Brig");
    assert_eq!(with("&lt;&grill;&gt;", 2).unwrap(), "<Bar & Grill>");
    assert_eq!(with("&stop;", 1).unwrap(), "Brig");
    assert_eq!(with("Brig", 0).unwrap(), "Brig");
    for (value, depth) in [("&to;", 2), ("&grill;", 1), ("\t", 0), ("&amp;", 0), ("&loop;", 128)] {
        assert_eq!(
            with(value, depth),
            Err(EscapeError::TooManyNestedEntities),
            "{value} {depth}"
        );
    }
    // places within the entity's own text
    assert_eq!(with("  &open;", 2), Err(EscapeError::UnterminatedEntity(0..5)));
    assert_eq!(
        with("  &bad;", 2),
        Err(EscapeError::UnrecognizedEntity(3..7, "none".into()))
    );
    #[allow(deprecated)]
    let unescaped = attribute("&to;").unescape_value_with(resolve).unwrap();
    assert_eq!(unescaped, "Bar & Grill \u{2192} Brig");
    // `amp` is not asked for
    let mut asked = Vec::new();
    let value = attribute("&amp;&lt;").normalized_value_with(XmlVersion::Implicit1_0, 1, |name| {
        asked.push(name.to_owned());
        Some("?")
    });
    assert_eq!((value.unwrap().as_ref(), asked), ("&?", vec!["lt".to_owned()]));
}

#[test]
fn normalized_by_functions_of_ones_own() {
    // what is special may be anything, here a hyphen, of which a run becomes one
    let run = |text: &mut String, value: &str, at: usize, c: char| {
        text.push(c);
        at + value[at..].bytes().take_while(|b| *b == b'-').count()
    };
    let special = |b: &u8| *b == b'-';
    let normalized = |value| normalize_attribute_value(value, 1, special, run, |_| None::<&str>).unwrap();
    assert_eq!(normalized("a--b-c---"), "a b c ");
    assert_eq!(normalized("--"), " ");
    assert!(matches!(normalized("a &b\t"), Cow::Borrowed("a &b\t")));
    let zero = normalize_attribute_value("-", 0, special, run, |_| None);
    assert_eq!(zero, Err(EscapeError::TooManyNestedEntities));
}

#[test]
fn unescaped() {
    for (text, wanted) in [
        ("", ""),
        ("06:15; 06:45", "06:15; 06:45"),
        ("&lt;&gt;&amp;&apos;&quot;", "<>&'\""),
        ("&amp;lt;", "&lt;"),
        ("a &#62; b;", "a > b;"),
        ("&#65;&#x41;&#x0041;&#0000000000000000000065;", "AAAA"),
        ("&#xe9;&#xE9;&#233;", "ééé"),
        ("&#9;&#10;&#13;&#32;", "\t\n\r "),
        (
            "&#xD7FF;&#xE000;&#xFFFD;&#x10000;&#x10FFFF;",
            "\u{d7ff}\u{e000}\u{fffd}\u{10000}\u{10ffff}",
        ),
        (
            "Zürich &#x2192; \u{1f682}&#x1F683;",
            "Zürich \u{2192} \u{1f682}\u{1f683}",
        ),
    ] {
        let unescaped = unescape(text).unwrap();
        assert_eq!(unescaped, wanted);
        assert_eq!(matches!(unescaped, Cow::Borrowed(_)), !text.contains('&'));
        assert_eq!(unescape_with(text, resolve_predefined_entity).unwrap(), wanted);
    }
}

/// Why a reference by a number is refused.
fn number_error(text: &str) -> ParseCharRefError {
    match (unescape(text), unescape_with(text, |_| None)) {
        (Err(EscapeError::InvalidCharRef(error)), Err(EscapeError::InvalidCharRef(with))) => {
            assert_eq!(error, with, "{text}");
            error
        }
        other => panic!("{text}: {other:?}"),
    }
}

#[test]
fn numbers_that_are_refused() {
    for text in ["&#+1;", "&#-1;", "&#x+41;", "&#x-;", "&#+;"] {
        assert_eq!(number_error(text), ParseCharRefError::UnexpectedSign, "{text}");
    }
    for (text, kind) in [
        ("&#;", IntErrorKind::Empty),
        ("&#x;", IntErrorKind::Empty),
        ("&#X41;", IntErrorKind::InvalidDigit),
        ("&# 1;", IntErrorKind::InvalidDigit),
        ("&#1 ;", IntErrorKind::InvalidDigit),
        ("&#xG;", IntErrorKind::InvalidDigit),
        ("&#1a;", IntErrorKind::InvalidDigit),
        ("&#é;", IntErrorKind::InvalidDigit),
        ("&##;", IntErrorKind::InvalidDigit),
        ("&#4294967296;", IntErrorKind::PosOverflow),
        ("&#4294967361;", IntErrorKind::PosOverflow),
        ("&#x100000041;", IntErrorKind::PosOverflow),
        ("&#99999999999999999999999999999999999999z;", IntErrorKind::PosOverflow),
    ] {
        let ParseCharRefError::InvalidNumber(error) = number_error(text) else {
            panic!("{text}");
        };
        assert_eq!(*error.kind(), kind, "{text}");
    }
    for (text, code) in [
        ("&#xD800;", 0xD800),
        ("&#xDfff;", 0xDFFF),
        ("&#1114112;", 0x110000),
        ("&#4294967295;", u32::MAX),
    ] {
        assert_eq!(number_error(text), ParseCharRefError::InvalidCodepoint(code), "{text}");
    }
    for text in ["&#0;", "&#x0;", "&#000;"] {
        assert_eq!(number_error(text), ParseCharRefError::IllegalCharacter(0), "{text}");
    }
}

#[test]
fn every_character_by_its_number() {
    let permitted =
        |c: &char| !matches!(c, '\0'..='\u{8}' | '\u{b}' | '\u{c}' | '\u{e}'..='\u{1f}' | '\u{fffe}' | '\u{ffff}');
    for c in ('\0'..='\u{2fff}')
        .chain('\u{d700}'..='\u{100ff}')
        .chain(('\0'..=char::MAX).step_by(101))
        .filter(permitted)
    {
        let code = u32::from(c);
        let text = format!("{c}&#{code};&#x{code:x};&#x00{code:X};");
        if c != '&' {
            assert_eq!(unescape(&text).unwrap(), String::from_iter([c; 4]), "{code:x}");
        }
        assert_eq!(BytesRef::new(format!("#{code}")).resolve_char_ref().unwrap(), Some(c));
    }
}

#[test]
fn text_that_is_refused() {
    let unrecognized = |range, name: &str| EscapeError::UnrecognizedEntity(range, name.into());
    for (text, wanted) in [
        ("&bus;", unrecognized(1..4, "bus")),
        ("é&LT;&bus;", unrecognized(3..5, "LT")),
        ("a;b&;", unrecognized(4..4, "")),
        ("& lt;", unrecognized(1..4, " lt")),
        ("&é;", unrecognized(1..3, "é")),
        ("&", EscapeError::UnterminatedEntity(0..1)),
        ("&lt;a & b", EscapeError::UnterminatedEntity(6..9)),
        ("&lt", EscapeError::UnterminatedEntity(0..3)),
        // not beyond the next `&`
        ("&a&lt;", EscapeError::UnterminatedEntity(0..6)),
        ("&&amp;", EscapeError::UnterminatedEntity(0..6)),
        ("&#65&#65;", EscapeError::UnterminatedEntity(0..9)),
        ("&lt;&bus;&", unrecognized(5..8, "bus")),
        (
            "&#0;&",
            EscapeError::InvalidCharRef(ParseCharRefError::IllegalCharacter(0)),
        ),
    ] {
        assert_eq!(unescape(text), Err(wanted.clone()), "{text}");
        assert_eq!(unescape_with(text, resolve_xml_entity), Err(wanted), "{text}");
    }
}

#[test]
fn texts_of_errors() {
    for (text, wanted) in [
        ("&bus;", "at 1..4: unrecognized entity `bus`"),
        (
            "a&b",
            "Error while escaping character at range 1..3: Cannot find ';' after '&'",
        ),
        ("&#+1;", "invalid character reference: unexpected number sign"),
        (
            "&#;",
            "invalid character reference: cannot parse integer from empty string",
        ),
        ("&#a;", "invalid character reference: invalid digit found in string"),
        (
            "&#4294967296;",
            "invalid character reference: number too large to fit in target type",
        ),
        (
            "&#xDC00;",
            "invalid character reference: `56320` is not a valid codepoint",
        ),
        (
            "&#0;",
            "invalid character reference: 0x0 character is not permitted in XML",
        ),
    ] {
        let error = unescape(text).unwrap_err();
        assert_eq!(error.to_string(), wanted);
        let whole = Error::from(error.clone());
        assert_eq!(whole.to_string(), wanted);
        let source = whole.source().and_then(|source| source.downcast_ref::<EscapeError>());
        assert_eq!(source, Some(&error));
        assert_eq!(
            error.source().is_some(),
            matches!(error, EscapeError::InvalidCharRef(_)),
            "{text}"
        );
    }
    assert_eq!(
        EscapeError::TooManyNestedEntities.to_string(),
        "too many nested entities in an attribute value"
    );
}

#[test]
fn names_of_ones_own() {
    let resolve = |name: &str| match name {
        "lt" => Some("FOO"),
        "gt" => Some("BAR"),
        "baz" => Some("&lt;"),
        _ => resolve_xml_entity(name),
    };
    assert_eq!(
        unescape_with("&amp;&lt;test&gt;&baz;", resolve).unwrap(),
        "&FOOtestBAR&lt;"
    );
    // asked for each name, one after the other, and for no number
    let mut asked = Vec::new();
    let text = unescape_with("&a;&#98;&b;&a;", |name| {
        asked.push(name.to_owned());
        Some(if asked.len() < 3 { "x" } else { "" })
    });
    assert_eq!(text.unwrap(), "xbx");
    assert_eq!(asked, ["a", "b", "a"]);
    let names = ["lt", "gt", "amp", "apos", "quot", "LT", "nbsp", "", "lt;", "#60"];
    let wanted = ["<", ">", "&", "'", "\""];
    for (i, name) in names.into_iter().enumerate() {
        assert_eq!(resolve_xml_entity(name), wanted.get(i).copied(), "{name}");
        assert_eq!(resolve_predefined_entity(name), wanted.get(i).copied(), "{name}");
    }
    const AMP: Option<&str> = resolve_predefined_entity("amp");
    assert_eq!(AMP, Some("&"));
}

#[test]
fn escaped() {
    let text = "<a b='c' d=\"e\">\r\n\t& \u{e9}]]></a>";
    assert_eq!(
        escape(text),
        "&lt;a b=&apos;c&apos; d=&quot;e&quot;&gt;&#13;\n\t&amp; \u{e9}]]&gt;&lt;/a&gt;"
    );
    assert_eq!(
        partial_escape(text),
        "&lt;a b='c' d=\"e\"&gt;&#13;\n\t&amp; \u{e9}]]&gt;&lt;/a&gt;"
    );
    assert_eq!(
        minimal_escape(text),
        "&lt;a b='c' d=\"e\">&#13;\n\t&amp; \u{e9}]]>&lt;/a>"
    );
    for escaped in [escape(text), partial_escape(text), minimal_escape(text)] {
        assert_eq!(unescape(&escaped).unwrap(), text);
    }
    assert!(matches!(escape("Brig"), Cow::Borrowed("Brig")));
    assert!(matches!(partial_escape("'a'"), Cow::Borrowed("'a'")));
    assert!(matches!(minimal_escape("a > b"), Cow::Borrowed("a > b")));
    let own: Cow<str> = escape(String::from("a & b"));
    assert_eq!(own, "a &amp; b");
    assert_eq!(escape(Cow::Borrowed("a & b")), own);
    assert_eq!(BytesText::new("a & b"), BytesText::from_escaped(own));
}

#[test]
fn references_that_are_made() {
    for (content, character) in [
        ("#39", Some('\'')),
        ("#x1F682", Some('\u{1f682}')),
        ("amp", None),
        ("", None),
    ] {
        let reference = BytesRef::new(content);
        assert_eq!(reference.is_char_ref(), character.is_some());
        assert_eq!(reference.resolve_char_ref().unwrap(), character);
    }
    for content in ["#", "#x", "#+1", "#xD800", "#99999999999", "# 1"] {
        let reference = BytesRef::new(content);
        assert!(reference.is_char_ref());
        let error = Error::from(reference.resolve_char_ref().unwrap_err());
        assert!(
            matches!(error, Error::Escape(EscapeError::InvalidCharRef(_))),
            "{content}"
        );
    }
}

#[test]
fn tags_with_attributes_that_are_made() {
    let mut tag = BytesStart::new("to");
    tag.push_attribute(("n", "1"));
    tag.push_attribute(("name", "Bar & 'Grill'\r\n\t"));
    tag.push_attribute(("via", Cow::Owned(String::from("<\"\u{e9}\">"))));
    tag.push_attribute(attribute("&amp;"));
    assert_eq!(
        &*tag,
        "to n=\"1\" name=\"Bar &amp; &apos;Grill&apos;&#13;&#10;&#9;\" \
         via=\"&lt;&quot;\u{e9}&quot;&gt;\" to=\"&amp;\""
    );
    assert_eq!(tag.name().as_ref(), "to");
    let values: Vec<_> = tag
        .attributes()
        .map(|a| {
            a.unwrap()
                .normalized_value(XmlVersion::Implicit1_0)
                .unwrap()
                .into_owned()
        })
        .collect();
    assert_eq!(values, ["1", "Bar & 'Grill'\r\n\t", "<\"\u{e9}\">", "&"]);

    let copy = BytesStart::new("to").with_attributes(tag.attributes().map(Result::unwrap));
    assert_eq!(copy, tag);
    let mut more = BytesStart::from_content("to n='1'", 2);
    more.extend_attributes([("m", "2"), ("k", "3")])
        .extend_attributes(vec![("j", Cow::Borrowed("&"))]);
    assert_eq!(more.attributes_raw(), " n='1' m=\"2\" k=\"3\" j=\"&amp;\"");
    assert_eq!(more.try_get_attribute("k").unwrap().unwrap().value, "3");
}

#[test]
fn attributes_that_are_made() {
    for (value, escaped) in [
        ("false", "false"),
        ("Bells & whistles", "Bells &amp; whistles"),
        ("a\tb\nc\rd", "a&#9;b&#10;c&#13;d"),
        ("'<\">", "&apos;&lt;&quot;&gt;"),
    ] {
        let made = Attribute::from(("a", value));
        assert_eq!(made.value, escaped);
        assert_eq!(made, Attribute::from(("a", Cow::Borrowed(value))));
        assert_eq!(matches!(made.value, Cow::Borrowed(_)), value == escaped);
        assert_eq!(made.normalized_value(XmlVersion::Implicit1_0).unwrap(), value);
    }
    let own = Attribute::from(("a", Cow::Owned(String::from("b"))));
    assert!(matches!(own.value, Cow::Owned(_)));
    assert_eq!(Attribute::from(("attr", "false")).as_bool(), Some(false));
}
