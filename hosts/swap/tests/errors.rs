//! Errors: which ones come, what they say and how they are handed on.

use quick_xml::encoding::EncodingError;
use quick_xml::errors::{Error, IllFormedError, SyntaxError};
use quick_xml::escape::{EscapeError, ParseCharRefError};
use quick_xml::events::attributes::AttrError;
use quick_xml::events::{BytesStart, Event};
use quick_xml::reader::Reader;
use std::error::Error as StdError;
use std::io::{self, Read};
use std::str::Utf8Error;
use std::sync::Arc;

/// The first error of a document.
fn first_error(xml: &str) -> Error {
    let mut reader = Reader::from_str(xml);
    loop {
        match reader.read_event() {
            Ok(Event::Eof) => panic!("no error in {xml}"),
            Ok(_) => (),
            Err(error) => return error,
        }
    }
}

fn utf8_error(bytes: &[u8]) -> Utf8Error {
    std::str::from_utf8(bytes).unwrap_err()
}

#[test]
fn syntax_errors() {
    fn said(error: SyntaxError) -> &'static str {
        match error {
            SyntaxError::InvalidBangMarkup => "bang",
            SyntaxError::UnclosedPI => "pi",
            SyntaxError::UnclosedXmlDecl => "decl",
            SyntaxError::UnclosedComment => "comment",
            SyntaxError::UnclosedDoctype => "doctype",
            SyntaxError::UnclosedCData => "cdata",
            SyntaxError::UnclosedTag => "tag",
            SyntaxError::UnclosedSingleQuotedAttributeValue => "single",
            SyntaxError::UnclosedDoubleQuotedAttributeValue => "double",
        }
    }
    let rows = [
        ("<!x>", "bang"),
        ("<?print", "pi"),
        ("<?xml version='1.0'", "decl"),
        ("a<!--b-", "comment"),
        ("<![CDATA[a]>", "cdata"),
        ("<![cdata[a]]>", "cdata"),
        ("<a", "tag"),
        ("<a></a", "tag"),
        ("<a b='>", "single"),
        ("<a b=\"'>", "double"),
    ];
    for (xml, wanted) in rows {
        match first_error(xml) {
            Error::Syntax(error) => assert_eq!(said(error), wanted, "{xml}"),
            other => panic!("{xml}: {other}"),
        }
    }
}

#[test]
fn ill_formed_documents() {
    fn said(error: IllFormedError) -> String {
        match error {
            IllFormedError::MissingDeclVersion(None) => "no version".into(),
            IllFormedError::MissingDeclVersion(Some(attribute)) => format!("{attribute} for version"),
            IllFormedError::UnknownVersion => "unknown version".into(),
            IllFormedError::MissingDoctypeName => "no name".into(),
            IllFormedError::MissingEndTag(name) => format!("{name} not closed"),
            IllFormedError::UnmatchedEndTag(name) => format!("{name} not open"),
            IllFormedError::MismatchedEndTag { expected, found } => format!("{found} for {expected}"),
            IllFormedError::DoubleHyphenInComment => "hyphens".into(),
            IllFormedError::UnclosedReference => "reference".into(),
        }
    }
    let rows = [
        ("</a>", "a not open"),
        ("<a></b>", "b for a"),
        ("<a></b\n>", "b for a"),
        ("<p:a></a>", "a for p:a"),
        ("<a></a b='c'>", "a b='c' for a"),
        ("a &b", "reference"),
    ];
    for (xml, wanted) in rows {
        match first_error(xml) {
            Error::IllFormed(error) => assert_eq!(said(error), wanted, "{xml}"),
            other => panic!("{xml}: {other}"),
        }
    }
}

#[test]
fn texts_of_syntax_errors() {
    let rows = [
        ("<!x>", "unknown or missed symbol in markup"),
        (
            "<?p",
            "processing instruction not closed: `?>` not found before end of input",
        ),
        (
            "<?xml ",
            "XML declaration not closed: `?>` not found before end of input",
        ),
        ("<!-- -", "comment not closed: `-->` not found before end of input"),
        ("<![CDATA[", "CDATA not closed: `]]>` not found before end of input"),
        ("<a", "tag not closed: `>` not found before end of input"),
        ("<a '", "attribute value not closed: `'` not found before end of input"),
        (
            "<a \"",
            "attribute value not closed: `\"` not found before end of input",
        ),
    ];
    for (xml, wanted) in rows {
        assert_eq!(first_error(xml).to_string(), format!("syntax error: {wanted}"), "{xml}");
    }
    assert_eq!(
        SyntaxError::UnclosedDoctype.to_string(),
        "DOCTYPE not closed: `>` not found before end of input"
    );
}

#[test]
fn texts_of_ill_formed_documents() {
    let name = || String::from("a");
    let rows = [
        (
            IllFormedError::MissingDeclVersion(None),
            "an XML declaration does not contain `version` attribute",
        ),
        (
            IllFormedError::MissingDeclVersion(Some(name())),
            "an XML declaration must start with `version` attribute, but in starts with `a`",
        ),
        (
            IllFormedError::UnknownVersion,
            "unknown XML version: either 1.0 or 1.1 is expected",
        ),
        (
            IllFormedError::MissingDoctypeName,
            "`<!DOCTYPE>` declaration does not contain a name of a document type",
        ),
        (
            IllFormedError::MissingEndTag(name()),
            "start tag not closed: `</a>` not found before end of input",
        ),
        (
            IllFormedError::UnmatchedEndTag(name()),
            "close tag `</a>` does not match any open tag",
        ),
        (
            IllFormedError::MismatchedEndTag {
                expected: name(),
                found: "b".into(),
            },
            "expected `</a>`, but `</b>` was found",
        ),
        (
            IllFormedError::DoubleHyphenInComment,
            "forbidden string `--` was found in a comment",
        ),
        (
            IllFormedError::UnclosedReference,
            "entity or character reference not closed: `;` not found before end of input",
        ),
    ];
    for (error, wanted) in rows {
        assert_eq!(error.to_string(), wanted);
        assert_eq!(Error::from(error).to_string(), format!("ill-formed document: {wanted}"));
    }
}

#[test]
fn texts_of_other_errors() {
    let error = Error::Io(Arc::new(io::Error::new(io::ErrorKind::UnexpectedEof, "cut off")));
    assert_eq!(error.to_string(), "I/O error: cut off");
    assert_eq!(error.source().unwrap().to_string(), "cut off");
    assert_eq!(
        Error::from(AttrError::Duplicated(19, 4)).to_string(),
        "error while parsing attribute: position 19: duplicated attribute, previous declaration at position 4"
    );
    assert_eq!(
        Error::from(AttrError::ExpectedQuote(18, b'"')).to_string(),
        "error while parsing attribute: position 18: missing closing quote `\"` in attribute value"
    );
    assert_eq!(
        Error::from(EscapeError::UnrecognizedEntity(1..5, "nbsp".into())).to_string(),
        "at 1..5: unrecognized entity `nbsp`"
    );
    assert_eq!(
        Error::Escape(EscapeError::InvalidCharRef(ParseCharRefError::IllegalCharacter(0))).to_string(),
        "invalid character reference: 0x0 character is not permitted in XML"
    );
}

#[test]
fn debug_forms() {
    let shown = |xml| format!("{:?}", first_error(xml));
    assert_eq!(shown("<a"), "Syntax(UnclosedTag)");
    assert_eq!(
        shown("<a></b>"),
        r#"IllFormed(MismatchedEndTag { expected: "a", found: "b" })"#
    );
    assert_eq!(shown("</a>"), r#"IllFormed(UnmatchedEndTag("a"))"#);
}

#[test]
fn sources() {
    let error = first_error("<a></b>");
    let source = error.source().unwrap();
    assert_eq!(source.to_string(), "expected `</a>`, but `</b>` was found");
    assert!(source.downcast_ref::<IllFormedError>().is_some());
    assert!(source.source().is_none());

    let error: Box<dyn StdError> = first_error("<a").into();
    let source = error.source().and_then(|source| source.downcast_ref::<SyntaxError>());
    assert_eq!(source, Some(&SyntaxError::UnclosedTag));

    let error = Error::from(utf8_error(b"a\xFF"));
    let source = error.source().unwrap();
    assert!(matches!(source.downcast_ref(), Some(EncodingError::Utf8(_))));
}

/// The texts of a document that comes from somewhere.
fn texts(mut source: impl Read) -> quick_xml::Result<Vec<String>> {
    let mut bytes = Vec::new();
    source.read_to_end(&mut bytes)?;
    let mut reader = Reader::from_str(std::str::from_utf8(&bytes)?);
    let mut texts = Vec::new();
    loop {
        match reader.read_event()? {
            Event::Text(e) => texts.push(e.into_inner().into_owned()),
            Event::Eof => return Ok(texts),
            _ => (),
        }
    }
}

struct Broken;

impl Read for Broken {
    fn read(&mut self, _: &mut [u8]) -> io::Result<usize> {
        Err(io::Error::new(io::ErrorKind::ConnectionReset, "gone"))
    }
}

#[test]
fn errors_by_the_question_mark() {
    assert_eq!(texts("<a>x<b/>y</a>".as_bytes()).unwrap(), ["x", "y"]);
    match texts(Broken) {
        Err(Error::Io(error)) => assert_eq!(error.kind(), io::ErrorKind::ConnectionReset),
        other => panic!("{other:?}"),
    }
    match texts(b"<a>\xC3\x28</a>".as_slice()) {
        Err(Error::Encoding(EncodingError::Utf8(error))) => assert_eq!(error.valid_up_to(), 3),
        other => panic!("{other:?}"),
    }
    assert!(matches!(
        texts("<a>x".as_bytes().chain("</b>".as_bytes())),
        Err(Error::IllFormed(IllFormedError::MismatchedEndTag { .. }))
    ));
}

#[test]
fn errors_from_their_parts() {
    assert!(matches!(
        SyntaxError::UnclosedPI.into(),
        Error::Syntax(SyntaxError::UnclosedPI)
    ));
    let utf8 = utf8_error(b"\xFF");
    assert!(matches!(Error::from(EncodingError::Utf8(utf8)), Error::Encoding(_)));
    // an I/O error that holds an encoding error is one
    let wrapped = io::Error::new(io::ErrorKind::InvalidData, EncodingError::Utf8(utf8));
    assert!(matches!(Error::from(wrapped), Error::Encoding(EncodingError::Utf8(e)) if e == utf8));
    let other = io::Error::new(io::ErrorKind::InvalidData, "bad");
    let Error::Io(kept) = Error::from(other) else {
        panic!("no I/O error");
    };
    let again: Arc<io::Error> = Arc::clone(&kept);
    assert_eq!(again.to_string(), "bad");
}

#[test]
fn errors_as_boxes_and_copies() {
    fn count(xml: &str) -> Result<usize, Box<dyn StdError + Send + Sync>> {
        let mut reader = Reader::from_str(xml);
        let mut events = 0;
        while reader.read_event()? != Event::Eof {
            events += 1;
        }
        Ok(events)
    }
    assert_eq!(count("<a/><b/>").unwrap(), 2);
    let error = count("<a/><b").unwrap_err();
    assert!(matches!(
        error.downcast_ref::<quick_xml::Error>(),
        Some(Error::Syntax(SyntaxError::UnclosedTag))
    ));

    let error = first_error("<a></b>");
    let copy = error.clone();
    drop(error);
    let Error::IllFormed(copy) = copy else {
        panic!("no such error");
    };
    assert_eq!(copy, copy.clone());
    assert_ne!(copy, IllFormedError::UnclosedReference);
}

#[test]
fn reading_goes_on_after_ill_formed_parts() {
    let mut reader = Reader::from_str("<a><b></c></a></d>&x<e/>");
    let (mut events, mut errors) = (Vec::new(), Vec::new());
    loop {
        match reader.read_event() {
            Ok(Event::Eof) => break,
            Ok(event) => events.push(event.to_string()),
            Err(error) => errors.push((reader.error_position(), error.to_string())),
        }
    }
    assert_eq!(events, ["a", "b", "a", "e"]);
    let places: Vec<u64> = errors.iter().map(|(place, _)| *place).collect();
    assert_eq!(places, [6, 14, 18]);
    assert!(errors[1].1.ends_with("close tag `</d>` does not match any open tag"));
}

#[test]
fn reading_ends_after_syntax_errors() {
    for xml in ["<a/><!x><b/>", "<a/><b c='<d/>", "<a/><!--<b/>", "<a/><?<b/>"] {
        let mut reader = Reader::from_str(xml);
        assert_eq!(reader.read_event().unwrap(), Event::Empty(BytesStart::new("a")));
        assert!(matches!(reader.read_event(), Err(Error::Syntax(_))), "{xml}");
        assert_eq!(reader.error_position(), 4, "{xml}");
        assert_eq!(reader.read_event().unwrap(), Event::Eof, "{xml}");
        assert_eq!(reader.read_event().unwrap(), Event::Eof, "{xml}");
    }
}
