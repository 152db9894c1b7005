//! Events that users make, keep and compare.

use quick_xml::events::{BytesCData, BytesDecl, BytesEnd, BytesPI, BytesRef, BytesStart, BytesText, Event};
use quick_xml::name::QName;
use quick_xml::reader::Reader;

const ALL_KINDS: &str =
    "<?xml version=\"1.0\" encoding=\"UTF-8\"?><a><b c='d'/>x&lt;<!-- a < b --><![CDATA[<&>]]><?print no?></a>";

fn events_of(xml: &str) -> Vec<Event<'_>> {
    let mut reader = Reader::from_str(xml);
    let mut events = Vec::new();
    loop {
        events.push(reader.read_event().unwrap());
        if events.last() == Some(&Event::Eof) {
            return events;
        }
    }
}

#[test]
fn expected_events_of_a_document() {
    let wanted = vec![
        Event::Decl(BytesDecl::new("1.0", Some("UTF-8"), None)),
        Event::Start(BytesStart::new("a")),
        Event::Empty(BytesStart::from_content("b c='d'", 1)),
        Event::Text(BytesText::new("x")),
        Event::GeneralRef(BytesRef::new("lt")),
        Event::Comment(BytesText::from_escaped(" a < b ")),
        Event::CData(BytesCData::new("<&>")),
        Event::PI(BytesPI::new("print no")),
        Event::End(BytesEnd::new("a")),
        Event::Eof,
    ];
    assert_eq!(events_of(ALL_KINDS), wanted);
}

#[test]
fn declarations() {
    let read = |xml| events_of(xml).swap_remove(0);
    let decl = BytesDecl::new("1.1", None, Some("yes"));
    assert_eq!(&*decl, "xml version=\"1.1\" standalone=\"yes\"");
    assert_eq!(read("<?xml version=\"1.1\" standalone=\"yes\"?>"), Event::Decl(decl));
    let from_start = BytesDecl::from_start(BytesStart::from_content("xml version='1.0'", 3));
    assert_eq!(read("<?xml version='1.0'?>"), Event::Decl(from_start));
    // a name that goes on is that of an instruction
    assert_eq!(read("<?xml-model a?>"), Event::PI(BytesPI::new("xml-model a")));
}

#[test]
fn equality_is_by_kind_and_content() {
    let text = || BytesText::new("x");
    assert_ne!(Event::Text(text()), Event::Comment(text()));
    assert_ne!(Event::Start(BytesStart::new("a")), Event::Empty(BytesStart::new("a")));
    assert_ne!(BytesStart::new("a b"), BytesStart::from_content("a b", 1));
    assert_eq!(BytesStart::new("a").into_owned(), BytesStart::new(String::from("a")));
    // the same content at two places of a document
    let events = events_of("<a/><b/><a/>");
    assert_eq!(events[0], events[2]);
    assert_ne!(events[0], events[1]);
}

#[test]
fn kept_beyond_the_document() {
    let mut kept: Vec<Event<'static>> = Vec::new();
    for n in 1..=2 {
        let xml = format!("<t n='{n}'>{n}</t>");
        let mut reader = Reader::from_str(&xml);
        loop {
            match reader.read_event().unwrap() {
                Event::Eof => break,
                event => kept.push(event.into_owned()),
            }
        }
    }
    let contents: Vec<&str> = kept.iter().map(|event| &**event).collect();
    assert_eq!(contents, ["t n='1'", "1", "t", "t n='2'", "2", "t"]);
}

#[test]
fn parts_kept_beyond_the_document() {
    let (start, end, text) = {
        let xml = String::from("<a b='c'>x</a>");
        let mut events = events_of(&xml).into_iter();
        match (events.next(), events.next(), events.next()) {
            (Some(Event::Start(s)), Some(Event::Text(t)), Some(Event::End(e))) => {
                (s.to_owned(), e.into_owned(), t.into_owned())
            }
            other => panic!("{other:?}"),
        }
    };
    assert_eq!(start, BytesStart::from_content("a b='c'", 1));
    assert_eq!(start.to_end(), end);
    assert_eq!(text, BytesText::from_escaped(String::from("x")));
}

#[test]
fn borrowed_from_an_event() {
    fn names<'a>(events: impl Iterator<Item = Event<'a>>) -> Vec<String> {
        events
            .filter_map(|event| match event {
                Event::Start(e) | Event::Empty(e) => Some(e.name().as_ref().to_owned()),
                _ => None,
            })
            .collect()
    }
    let events = events_of(ALL_KINDS);
    assert_eq!(names(events.iter().map(|event| event.borrow())), ["a", "b"]);
    for event in &events {
        assert_eq!(&event.borrow(), event);
        assert_eq!(event.clone().into_owned(), event.borrow());
    }
    assert_eq!(names(events.into_iter()), ["a", "b"]);
}

#[test]
fn an_end_for_a_start() {
    let start = BytesStart::from_content("p:stop n='1'", 6);
    let end = start.to_end();
    assert_eq!(end, BytesEnd::new("p:stop"));
    assert_eq!(end.name(), start.name());
    assert_eq!(end.local_name().as_ref(), "stop");
    assert_eq!(BytesEnd::from(QName("p:stop")), end);
    assert_eq!(BytesStart::from(QName("x")), BytesStart::new("x"));
    assert_eq!(end.borrow().into_owned(), end);
}

#[test]
fn a_start_that_is_changed() {
    let mut start = BytesStart::from_content("stop n='1' m=\"2\"", 4);
    assert_eq!(start.attributes_raw(), " n='1' m=\"2\"");
    start.set_name("halt-here");
    assert_eq!(&*start, "halt-here n='1' m=\"2\"");
    assert_eq!(start.name(), QName("halt-here"));
    assert_eq!(&**start.clear_attributes(), "halt-here");
    assert_eq!(start, BytesStart::new("halt-here"));
}

#[test]
fn text_is_escaped() {
    let text = BytesText::new("a < b && c > 'd' \"e\"");
    assert_eq!(&*text, "a &lt; b &amp;&amp; c &gt; &apos;d&apos; &quot;e&quot;");
    assert_eq!(BytesText::new("1\r\n2\t3").into_inner(), "1&#13;\n2\t3");
    assert_eq!(&*BytesText::from_escaped("&lt;"), "&lt;");
    assert_eq!(BytesText::new("plain"), BytesText::from_escaped("plain"));
    assert_eq!(&*BytesCData::new("a < b"), "a < b");
}

#[test]
fn text_is_trimmed_in_place() {
    let mut text = BytesText::from_escaped("\t\n a b \r");
    assert!(!text.inplace_trim_start());
    assert_eq!(&*text, "a b \r");
    assert!(!text.inplace_trim_end());
    assert_eq!(&*text, "a b");

    let mut owned = BytesText::from_escaped(String::from("  \u{a0}  ")).into_owned();
    assert!(!owned.inplace_trim_end());
    assert!(!owned.inplace_trim_start());
    assert_eq!(&*owned, "\u{a0}");

    let mut borrowed = BytesText::from_escaped("\u{a0} x \u{a0}");
    assert!(!borrowed.inplace_trim_start() && !borrowed.inplace_trim_end());
    assert_eq!(&*borrowed, "\u{a0} x \u{a0}");

    let mut blank = BytesText::new(" \n ");
    assert!(blank.inplace_trim_end());
    assert_eq!(&*blank, "");
}

#[test]
fn instructions() {
    let pi = BytesPI::new("xml-stylesheet\thref='a.css'");
    assert_eq!((pi.target(), pi.content()), ("xml-stylesheet", "\thref='a.css'"));
    assert_eq!(BytesPI::new("alone").content(), "");
    assert_eq!(pi.borrow().into_owned(), pi);
    assert_eq!(pi.into_inner(), "xml-stylesheet\thref='a.css'");
}

#[test]
fn debug_forms() {
    let shown: Vec<String> = events_of(ALL_KINDS).iter().map(|event| format!("{event:?}")).collect();
    let wanted = [
        r#"Decl(BytesDecl { content: BytesStart { buf: Borrowed("xml version=\"1.0\" encoding=\"UTF-8\""), name_len: 3 } })"#,
        r#"Start(BytesStart { buf: Borrowed("a"), name_len: 1 })"#,
        r#"Empty(BytesStart { buf: Borrowed("b c='d'"), name_len: 1 })"#,
        r#"Text(BytesText { content: Borrowed("x") })"#,
        r#"GeneralRef(BytesRef { content: Borrowed("lt") })"#,
        r#"Comment(BytesText { content: Borrowed(" a < b ") })"#,
        r#"CData(BytesCData { content: Borrowed("<&>") })"#,
        r#"PI(BytesPI { content: Borrowed("print no") })"#,
        r#"End(BytesEnd { name: Borrowed("a") })"#,
        "Eof",
    ];
    assert_eq!(shown, wanted);
    let owned = Event::Text(BytesText::from_escaped("x")).into_owned();
    assert_eq!(format!("{owned:?}"), r#"Text(BytesText { content: Owned("x") })"#);
}

#[test]
fn every_kind_is_matched() {
    fn kind(event: &Event) -> &'static str {
        match event {
            Event::Start(_) => "start",
            Event::End(_) => "end",
            Event::Empty(_) => "empty",
            Event::Text(_) => "text",
            Event::CData(_) => "cdata",
            Event::Comment(_) => "comment",
            Event::Decl(_) => "decl",
            Event::PI(_) => "pi",
            Event::DocType(_) => "doctype",
            Event::GeneralRef(_) => "ref",
            Event::Eof => "eof",
        }
    }
    let kinds: Vec<_> = events_of(ALL_KINDS).iter().map(kind).collect();
    let wanted = [
        "decl", "start", "empty", "text", "ref", "comment", "cdata", "pi", "end", "eof",
    ];
    assert_eq!(kinds, wanted);
    assert_eq!(kind(&Event::DocType(BytesText::new("timetable"))), "doctype");
}

#[test]
fn an_event_is_a_str() {
    let lengths: Vec<usize> = events_of("<a b=''>text</a>").iter().map(|event| event.len()).collect();
    assert_eq!(lengths, [6, 4, 1, 0]);
    assert_eq!(&*Event::Eof, "");
    fn content<'a>(event: impl AsRef<Event<'a>>) -> String {
        event.as_ref().to_string()
    }
    assert_eq!(content(Event::CData(BytesCData::new("]]"))), "]]");
}
