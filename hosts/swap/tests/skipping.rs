//! `read_to_end` and `read_text`, and the methods that fill a buffer.

use quick_xml::errors::{Error, IllFormedError};
use quick_xml::events::{BytesEnd, BytesStart, BytesText, Event};
use quick_xml::name::QName;
use quick_xml::reader::{Reader, Span};
use std::borrow::Cow;

/// The part of a document that a span covers.
fn within(xml: &str, span: Span) -> &str {
    &xml[span.start as usize..span.end as usize]
}

#[test]
fn an_element_is_skipped() {
    let xml = "<list><skip n='1'>a<b>b</b><!-- </skip> --></skip><item>c</item></list>";
    let mut reader = Reader::from_str(xml);
    let mut seen = Vec::new();
    loop {
        match reader.read_event().unwrap() {
            Event::Start(e) if e.name().as_ref() == "skip" => {
                let span = reader.read_to_end(e.name()).unwrap();
                assert_eq!(within(xml, span), "a<b>b</b><!-- </skip> -->");
            }
            Event::Start(e) => seen.push(e.name().as_ref().to_string()),
            Event::Text(e) => seen.push(e.to_string()),
            Event::Eof => break,
            _ => (),
        }
    }
    assert_eq!(seen, ["list", "item", "c"]);
}

#[test]
fn elements_of_the_same_name_within() {
    let mut reader = Reader::from_str(
        r#"
        <outer>
            <inner>
                <inner></inner>
                <inner/>
                <outer></outer>
                <outer/>
            </inner>
        </outer>
    "#,
    );
    reader.config_mut().trim_text(true);
    let start = BytesStart::new("outer");
    let end = start.to_end().into_owned();
    assert_eq!(reader.read_event().unwrap(), Event::Start(start));
    reader.read_to_end(end.name()).unwrap();
    assert_eq!(reader.read_event().unwrap(), Event::Eof);
}

#[test]
fn spans() {
    let xml = "<a></a><a> x </a >";
    let mut reader = Reader::from_str(xml);
    reader.config_mut().trim_text(true);
    reader.read_event().unwrap();
    assert_eq!(reader.read_to_end(QName("a")).unwrap(), 3..3);
    assert_eq!(reader.buffer_position(), 7);
    reader.read_event().unwrap();
    let span: Span = reader.read_to_end(QName("a")).unwrap();
    assert_eq!((span.start, span.end), (10, 13));
    assert_eq!(reader.buffer_position(), 18);
}

#[test]
fn the_span_of_an_expanded_element_is_empty() {
    let mut reader = Reader::from_str("<a/><b/>");
    reader.config_mut().expand_empty_elements = true;
    reader.read_event().unwrap();
    assert_eq!(reader.read_to_end(QName("a")).unwrap(), 4..4);
    assert_eq!(reader.read_event().unwrap(), Event::Start(BytesStart::new("b")));
}

#[test]
fn a_missing_end_tag() {
    let mut reader = Reader::from_str("<a><b></b>");
    reader.read_event().unwrap();
    match reader.read_to_end(QName("a")) {
        Err(Error::IllFormed(IllFormedError::MissingEndTag(name))) => assert_eq!(name, "a"),
        other => panic!("{other:?}"),
    }
    assert_eq!(reader.read_event().unwrap(), Event::Eof);

    // the element is closed already: there is no Start to go with the End
    let mut reader = Reader::from_str("<a></a>");
    while reader.read_event().unwrap() != Event::Eof {}
    assert_eq!(
        reader.read_to_end(QName("a")).unwrap_err().to_string(),
        "ill-formed document: start tag not closed: `</a>` not found before end of input"
    );
}

#[test]
fn an_error_within_is_handed_on() {
    let mut reader = Reader::from_str("<a><b></c></a>");
    reader.config_mut().trim_text(true);
    reader.read_event().unwrap();
    let error = reader.read_to_end(QName("a")).unwrap_err();
    assert!(matches!(
        error,
        Error::IllFormed(IllFormedError::MismatchedEndTag { expected, found }) if expected == "b" && found == "c"
    ));
    assert_eq!(reader.error_position(), 6);
    assert!(reader.config().trim_text_start);
    assert_eq!(reader.read_event().unwrap(), Event::End(BytesEnd::new("a")));
}

#[test]
fn trimming_is_as_before_afterwards() {
    let mut reader = Reader::from_str("<a> <b/> </a> x <c>");
    reader.config_mut().trim_text_start = true;
    let before = reader.config().clone();
    reader.read_event().unwrap();
    reader.read_to_end(QName("a")).unwrap();
    assert_eq!(reader.config(), &before);
    assert_eq!(reader.read_event().unwrap(), Event::Text(BytesText::new("x ")));
    reader.read_to_end(QName("c")).unwrap_err();
    assert_eq!(reader.config(), &before);
}

#[test]
fn inner_markup_is_read_as_it_stands() {
    let mut reader = Reader::from_str("<p>some <b>bold</b> &amp; <![CDATA[raw]]> text</p><q/>");
    let Event::Start(start) = reader.read_event().unwrap() else {
        panic!("no start");
    };
    let text = reader.read_text(start.name()).unwrap();
    assert_eq!(&*text, "some <b>bold</b> &amp; <![CDATA[raw]]> text");
    assert_eq!(reader.read_event().unwrap(), Event::Empty(BytesStart::new("q")));
}

#[test]
fn inner_markup_with_elements_of_the_same_name() {
    let xml = String::from("<div>a<div>b</div><div/>c</div>");
    let inner: Cow<str> = {
        let mut reader = Reader::from_str(&xml);
        reader.read_event().unwrap();
        reader.read_text(QName("div")).unwrap().into_inner()
    };
    assert_eq!(inner, "a<div>b</div><div/>c");
    assert!(matches!(inner, Cow::Borrowed(_)));
}

#[test]
fn html_within_xml() {
    let mut reader = Reader::from_str("\n<html>\n<p>not closed\n<p>&quot;nor this&quot;\n</html>\n");
    reader.config_mut().trim_text(true);
    assert_eq!(reader.read_event().unwrap(), Event::Start(BytesStart::new("html")));
    reader.config_mut().check_end_names = false;
    let text = reader.read_text(QName("html")).unwrap();
    assert_eq!(text.into_inner(), "\n<p>not closed\n<p>&quot;nor this&quot;\n");
    reader.config_mut().check_end_names = true;
    assert_eq!(reader.read_event().unwrap(), Event::Eof);
}

#[test]
fn inner_markup_without_its_end() {
    let mut reader = Reader::from_str("<p>text");
    reader.read_event().unwrap();
    let error = reader.read_text(QName("p")).unwrap_err();
    assert!(matches!(error, Error::IllFormed(IllFormedError::MissingEndTag(name)) if name == "p"));
}

#[test]
fn a_buffer_that_is_cleared() {
    let xml = r#"<tag1 att1 = "test">
                    <tag2><!--Test comment-->Test</tag2>
                    <tag2>Test 2</tag2>
                 </tag1>"#;
    let mut reader = Reader::from_str(xml);
    reader.config_mut().trim_text(true);
    let mut count = 0;
    let mut txt = Vec::new();
    let mut buf = Vec::new();
    loop {
        match reader.read_event_into(&mut buf) {
            Err(e) => panic!("Error at position {}: {:?}", reader.error_position(), e),
            Ok(Event::Eof) => break,
            Ok(Event::Start(e)) => match e.name().as_ref() {
                "tag1" => assert_eq!(e.attributes_raw(), r#" att1 = "test""#),
                "tag2" => count += 1,
                _ => (),
            },
            Ok(Event::Text(e)) => txt.push(e.into_inner().into_owned()),
            _ => (),
        }
        buf.clear();
    }
    assert_eq!(count, 2);
    assert_eq!(txt, ["Test", "Test 2"]);
}

#[test]
fn events_from_a_buffer_are_those_of_the_document() {
    let xml = "<?xml version='1.0'?><a b='c'>x&lt;<d/><!--e--><![CDATA[f]]><?g h?></a>";
    for clears in [true, false] {
        let (mut plain, mut buffered) = (Reader::from_str(xml), Reader::from_str(xml));
        let mut buf = Vec::new();
        loop {
            if clears {
                buf.clear();
            }
            let event = plain.read_event().unwrap();
            assert_eq!(buffered.read_event_into(&mut buf).unwrap(), event);
            assert_eq!(buffered.buffer_position(), plain.buffer_position());
            if event == Event::Eof {
                break;
            }
        }
    }
}

#[test]
fn skipping_with_a_buffer() {
    let mut reader = Reader::from_str("<a><skip>x<skip/><skip>y</skip></skip>z</a>");
    let (mut buf, mut skipped) = (Vec::new(), Vec::new());
    let mut seen = Vec::new();
    loop {
        buf.clear();
        let event = reader.read_event_into(&mut buf).unwrap();
        match event {
            Event::Start(e) if e.name() == QName("skip") => {
                let end = e.to_end().into_owned();
                assert_eq!(reader.read_to_end_into(end.name(), &mut skipped).unwrap(), 9..31);
                // it holds no more than the last event
                assert!(skipped.len() <= "</skip>".len());
            }
            Event::Eof => break,
            event => seen.push(event.into_owned()),
        }
    }
    let wanted = [
        Event::Start(BytesStart::new("a")),
        Event::Text(BytesText::new("z")),
        Event::End(BytesEnd::new("a")),
    ];
    assert_eq!(seen, wanted);
}
