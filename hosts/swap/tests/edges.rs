//! Input at the edges: bytes that are no UTF-8, byte order marks, markup that is barely there, many open elements.

use quick_xml::encoding::EncodingError;
use quick_xml::errors::{Error, SyntaxError};
use quick_xml::events::{BytesCData, BytesEnd, BytesPI, BytesStart, BytesText, Event};
use quick_xml::name::QName;
use quick_xml::reader::Reader;
use std::error::Error as StdError;

#[test]
fn bytes_that_are_no_utf8() {
    let rows: [(&[u8], usize); 5] = [
        (b"ab\xFFcd<e/>", 2),
        (b"<a \xC3>", 3),
        (b"<!--\xE2\x82-->", 4),
        (b"<a/>&x\x80;", 2),
        (b"<a></\xF0\x9F>", 2),
    ];
    for (bytes, good) in rows {
        let mut reader = Reader::from_reader(bytes);
        let error = loop {
            match reader.read_event() {
                Ok(event) => assert_ne!(event, Event::Eof),
                Err(error) => break error,
            }
        };
        match error {
            Error::Encoding(EncodingError::Utf8(error)) => assert_eq!(error.valid_up_to(), good),
            other => panic!("{other:?}"),
        }
        assert_eq!(reader.read_event().unwrap(), Event::Eof);
    }
}

#[test]
fn texts_of_encoding_errors() {
    let mut reader = Reader::from_reader(b"ab\xFF".as_slice());
    let error = reader.read_event().unwrap_err();
    assert_eq!(
        error.to_string(),
        "cannot decode input using UTF-8: invalid utf-8 sequence of 1 bytes from index 2"
    );
    assert_eq!(
        format!("{error:?}"),
        "Encoding(Utf8(Utf8Error { valid_up_to: 2, error_len: Some(1) }))"
    );
    let encoding = error.source().unwrap();
    assert!(encoding.source().unwrap().is::<std::str::Utf8Error>());
}

#[test]
fn a_byte_order_mark_is_no_text() {
    let mut reader = Reader::from_str("\u{feff}<a>\u{feff}</a>");
    assert_eq!(reader.read_event().unwrap(), Event::Start(BytesStart::new("a")));
    assert_eq!(reader.read_event().unwrap(), Event::Text(BytesText::new("\u{feff}")));
    assert_eq!(reader.read_event().unwrap(), Event::End(BytesEnd::new("a")));
    assert_eq!(Reader::from_str("\u{feff}").read_event().unwrap(), Event::Eof);
}

#[test]
fn markup_that_is_barely_there() {
    let read = |xml: &'static str| Reader::from_str(xml).read_event();
    assert_eq!(read("<>").unwrap(), Event::Start(BytesStart::new("")));
    assert_eq!(
        read("</ a>").unwrap_err().to_string(),
        "ill-formed document: close tag `</ a>` does not match any open tag"
    );
    assert_eq!(read("< a>").unwrap(), Event::Start(BytesStart::from_content(" a", 0)));
    assert_eq!(
        read("</>").unwrap_err().to_string(),
        "ill-formed document: close tag `</>` does not match any open tag"
    );
    assert_eq!(read("<??>").unwrap(), Event::PI(BytesPI::new("")));
    assert_eq!(read("<!---->").unwrap(), Event::Comment(BytesText::new("")));
    assert_eq!(read("<![CDATA[]]>").unwrap(), Event::CData(BytesCData::new("")));
    assert_eq!(read("<![CDATA[]]]]>").unwrap(), Event::CData(BytesCData::new("]]")));
    assert!(matches!(read("<?>a?>"), Err(Error::Syntax(SyntaxError::UnclosedPI))));
    assert!(matches!(
        read("<!--->"),
        Err(Error::Syntax(SyntaxError::UnclosedComment))
    ));
    assert!(matches!(read("<"), Err(Error::Syntax(SyntaxError::UnclosedTag))));
    assert!(matches!(read("<!"), Err(Error::Syntax(SyntaxError::InvalidBangMarkup))));
}

#[test]
fn many_open_elements() {
    const DEPTH: usize = 5000;
    let xml = "<a>".repeat(DEPTH) + &"</a>".repeat(DEPTH);
    let mut reader = Reader::from_str(&xml);
    let (mut depth, mut deepest) = (0, 0);
    loop {
        match reader.read_event().unwrap() {
            Event::Start(_) => depth += 1,
            Event::End(_) => depth -= 1,
            Event::Eof => break,
            _ => (),
        }
        deepest = deepest.max(depth);
    }
    assert_eq!((depth, deepest), (0, DEPTH));

    let mut reader = Reader::from_str(&xml);
    reader.read_event().unwrap();
    let span = reader.read_to_end(QName("a")).unwrap();
    assert_eq!(span, 3..(7 * DEPTH - 4) as u64);
}

#[test]
fn elements_left_open() {
    let mut reader = Reader::from_str("<a><b>");
    assert_eq!(reader.read_event().unwrap(), Event::Start(BytesStart::new("a")));
    assert_eq!(reader.read_event().unwrap(), Event::Start(BytesStart::new("b")));
    assert_eq!(reader.read_event().unwrap(), Event::Eof);
}

#[test]
fn hyphens_in_comments() {
    let mut reader = Reader::from_str("<!-- a---><!----->");
    assert_eq!(reader.read_event().unwrap(), Event::Comment(BytesText::new(" a-")));
    assert_eq!(reader.read_event().unwrap(), Event::Comment(BytesText::new("-")));

    let mut reader = Reader::from_str("<!-- a---><!----->");
    reader.config_mut().enable_all_checks(true);
    reader.read_event().unwrap_err();
    assert_eq!(reader.error_position(), 6);
    reader.read_event().unwrap_err();
    assert_eq!(reader.error_position(), 14);
}
