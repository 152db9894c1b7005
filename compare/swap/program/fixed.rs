//! What needs no document: what the types are, what users make themselves, all errors, and settings.

use super::{error, events, row, set, Page};
use quick_xml::encoding::EncodingError;
use quick_xml::errors::{Error, IllFormedError, SyntaxError};
use quick_xml::escape::{EscapeError, ParseCharRefError};
use quick_xml::events::attributes::AttrError;
use quick_xml::events::{BytesCData, BytesDecl, BytesEnd, BytesPI, BytesRef, BytesStart, BytesText, Event};
use quick_xml::name::{LocalName, NamespaceError, Prefix, QName};
use quick_xml::reader::{Config, Reader, Span};
use std::error::Error as StdError;
use std::fmt::Debug;
use std::hash::Hash;
use std::io;
use std::ops::{Deref, Range};

/// All of it.
pub fn write_fixed(out: &mut String) {
    let mut page = Page(out);
    row!(page, '>', "fixed");
    row!(page, '=', "{:?}", traits());
    made(&mut page);
    names(&mut page);
    errors(&mut page);
    settings(&mut page);
    row!(page, '<', "");
}

fn event<'a, T: Clone + Debug + Eq + Send + Sync + Deref<Target = str> + 'a>() {}
fn named<T: Copy + Debug + Ord + Hash + Send + Sync + AsRef<str>>() {}
fn failure<T: StdError + Clone + Send + Sync + 'static>() {}
fn reading<T: Clone + Debug + Send + Sync>() {}
fn same<T>(one: T, _: T) -> T {
    one
}

/// What the types can do, and that some are others by another name.
fn traits() -> Range<u64> {
    event::<Event>();
    event::<BytesStart>();
    event::<BytesEnd>();
    event::<BytesText>();
    event::<BytesCData>();
    event::<BytesRef>();
    event::<BytesDecl>();
    event::<BytesPI>();
    named::<QName>();
    named::<LocalName>();
    named::<Prefix>();
    failure::<Error>();
    failure::<SyntaxError>();
    failure::<IllFormedError>();
    failure::<EncodingError>();
    failure::<EscapeError>();
    failure::<ParseCharRefError>();
    failure::<AttrError>();
    failure::<NamespaceError>();
    reading::<Reader<&[u8]>>();
    reading::<Config>();
    let _: fn(NamespaceError) -> Error = Error::from;
    let reader: quick_xml::Reader<&[u8]> = same(quick_xml::Reader::from_str(""), Reader::from_reader(b"".as_slice()));
    let answer: quick_xml::Result<()> = same(quick_xml::errors::Result::<()>::Ok(()), Ok::<(), quick_xml::Error>(()));
    let span: Span = reader.buffer_position()..answer.is_ok().into();
    span
}

const TEXTS: [&str; 14] = [
    "",
    "a",
    "a:b",
    ":",
    "a:b:c",
    " ",
    " a ",
    "\t\r\n\u{b}",
    "a b='c'",
    "<&>\"'\r\n\t",
    "\u{e9}:\u{99c5}",
    "\u{a0}x\u{a0}",
    "]]>",
    "xml\tversion",
];

/// Events that users make of texts, borrowed and owned.
fn made(page: &mut Page) {
    for text in TEXTS {
        let owned = || text.to_string();
        for event in [
            Event::Start(BytesStart::new(text)),
            Event::Start(BytesStart::from_content(owned(), text.chars().next().map_or(0, char::len_utf8))),
            Event::Empty(BytesStart::new(owned())),
            Event::End(BytesEnd::new(text)),
            Event::End(BytesEnd::new(owned())),
            Event::Text(BytesText::new(text)),
            Event::Text(BytesText::from_escaped(text)),
            Event::Comment(BytesText::from_escaped(owned())),
            Event::DocType(BytesText::from_escaped(text)),
            Event::CData(BytesCData::new(text)),
            Event::CData(BytesCData::new(owned())),
            Event::GeneralRef(BytesRef::new(text)),
            Event::GeneralRef(BytesRef::new(owned())),
            Event::PI(BytesPI::new(text)),
            Event::PI(BytesPI::new(owned())),
            Event::Decl(BytesDecl::new(text, None, None)),
            Event::Decl(BytesDecl::new("1.0", Some(text), None)),
            Event::Decl(BytesDecl::new("1.1", None, Some(text))),
            Event::Decl(BytesDecl::new("1.0", Some("UTF-8"), Some(text))),
            Event::Decl(BytesDecl::from_start(BytesStart::new(text))),
        ] {
            events::write(&event, page);
        }
        let mut start = BytesStart::from(QName(text));
        start.set_name("longer than that").set_name(text).clear_attributes();
        row!(page, '=', "{start:?} {:?}", BytesEnd::from(QName(text)));
    }
    events::write(&Event::Eof, page);
    row!(page, '=', "{:?}", Event::Eof.into_owned());
}

/// Names with colons at every place, and how they are ordered.
fn names(page: &mut Page) {
    let names = ["", ":", "a", "a:", ":a", "a:b", "a:b:c", "::", "xml:a", "xmlns:a", "xmlns", "xm:l", "\u{e9}:\u{99c5}"].map(QName);
    for name in names {
        events::name(name, page);
        row!(page, '=', "{:?}", names.map(|other| name.cmp(&other)));
        row!(
            page,
            '=',
            "{:?}",
            names.map(|other| (name == other, name.local_name() == other.local_name(), name.prefix() == other.prefix()))
        );
    }
}

/// Every case of every error, by itself and as an `Error`, with what it comes from.
fn errors(page: &mut Page) {
    for cause in syntax_errors() {
        cause_of(&cause, page);
        error(&Error::from(cause), page);
        error(&Error::Syntax(cause), page);
        row!(page, '=', "{:?}", syntax_errors().map(|other| cause == other));
    }
    for cause in ill_formed_errors() {
        cause_of(&cause, page);
        error(&Error::from(cause.clone()), page);
        row!(page, '=', "{:?}", ill_formed_errors().map(|other| cause == other));
    }
    for cause in attribute_errors() {
        cause_of(&cause, page);
        error(&Error::from(cause.clone()), page);
        row!(page, '=', "{:?}", attribute_errors().map(|other| cause == other));
    }
    for cause in escape_errors() {
        cause_of(&cause, page);
        error(&Error::from(cause.clone()), page);
        row!(page, '=', "{:?}", escape_errors().map(|other| cause == other));
    }
    encoding_errors(page);
    io_errors(page);
}

fn cause_of(cause: &dyn StdError, page: &mut Page) {
    row!(page, '=', "{cause:?}, {cause}, {cause:#?}");
    if let Some(source) = cause.source() {
        cause_of(source, page);
    }
}

fn syntax_errors() -> [SyntaxError; 9] {
    [
        SyntaxError::InvalidBangMarkup,
        SyntaxError::UnclosedPI,
        SyntaxError::UnclosedXmlDecl,
        SyntaxError::UnclosedComment,
        SyntaxError::UnclosedDoctype,
        SyntaxError::UnclosedCData,
        SyntaxError::UnclosedTag,
        SyntaxError::UnclosedSingleQuotedAttributeValue,
        SyntaxError::UnclosedDoubleQuotedAttributeValue,
    ]
}

fn ill_formed_errors() -> [IllFormedError; 10] {
    let text = || "a\"b".to_string();
    [
        IllFormedError::MissingDeclVersion(None),
        IllFormedError::MissingDeclVersion(Some(text())),
        IllFormedError::UnknownVersion,
        IllFormedError::MissingDoctypeName,
        IllFormedError::MissingEndTag(text()),
        IllFormedError::UnmatchedEndTag(text()),
        IllFormedError::MismatchedEndTag { expected: text(), found: "c".into() },
        IllFormedError::MismatchedEndTag { expected: "c".into(), found: text() },
        IllFormedError::DoubleHyphenInComment,
        IllFormedError::UnclosedReference,
    ]
}

fn attribute_errors() -> [AttrError; 6] {
    [
        AttrError::ExpectedEq(1),
        AttrError::ExpectedValue(2),
        AttrError::UnquotedValue(3),
        AttrError::ExpectedQuote(4, b'"'),
        AttrError::ExpectedQuote(4, b'\''),
        AttrError::Duplicated(5, 6),
    ]
}

fn escape_errors() -> [EscapeError; 7] {
    let number = "x".parse::<u32>().expect_err("no number");
    [
        EscapeError::UnrecognizedEntity(1..2, "a\"b".into()),
        EscapeError::UnterminatedEntity(3..4),
        EscapeError::InvalidCharRef(ParseCharRefError::UnexpectedSign),
        EscapeError::InvalidCharRef(ParseCharRefError::InvalidNumber(number)),
        EscapeError::InvalidCharRef(ParseCharRefError::InvalidCodepoint(0xD800)),
        EscapeError::InvalidCharRef(ParseCharRefError::IllegalCharacter(0)),
        EscapeError::TooManyNestedEntities,
    ]
}

fn encoding_errors(page: &mut Page) {
    for bytes in [b"a\xFFb".as_slice(), b"a\xE2\x82", b"\xF0\x9F\x9A"] {
        let cause = String::from_utf8(bytes.to_vec()).expect_err("no text").utf8_error();
        let encoding = EncodingError::Utf8(cause);
        cause_of(&encoding, page);
        error(&Error::from(cause), page);
        error(&Error::from(encoding.clone()), page);
        error(&Error::from(io::Error::new(io::ErrorKind::InvalidData, encoding.clone())), page);
        row!(page, '=', "{}", encoding == EncodingError::Utf8(cause));
    }
}

fn io_errors(page: &mut Page) {
    for kind in [io::ErrorKind::InvalidData, io::ErrorKind::UnexpectedEof, io::ErrorKind::NotFound] {
        error(&Error::from(io::Error::new(kind, "said so")), page);
        error(&Error::from(io::Error::from(kind)), page);
    }
}

/// All settings, and what the two functions make of them.
fn settings(page: &mut Page) {
    let default = Config::default();
    row!(page, '=', "{default:?}, {default:#?}");
    row!(page, '=', "{:?}", Reader::from_str("<a>").config());
    for settings in 0..=u8::MAX {
        let mut config = Config::default();
        set(&mut config, settings.into());
        let mut others = [config.clone(), config.clone(), config.clone(), config.clone()];
        others[0].trim_text(true);
        others[1].trim_text(false);
        others[2].enable_all_checks(true);
        others[3].enable_all_checks(false);
        row!(page, '=', "{config:?}, {}", config == default);
        others.iter().for_each(|other| row!(page, '=', "{other:?}, {}", *other == config));
    }
}
