//! What events and readers tell beyond quick-xml's, and how its methods answer where it has no like: at the limits, and at a document that is cut off.

use sporebasket::errors::{Error, IllFormedError, Refused};
use sporebasket::events::{BytesCData, BytesDecl, BytesEnd, BytesPI, BytesRef, BytesStart, BytesText, Event};
use sporebasket::ext::{ErrorExt, EventExt, ReaderExt};
use sporebasket::lent::LONGEST;
use sporebasket::name::QName;
use sporebasket::Reader;
use std::ops::Range;

/// A document with an event of every kind that the reader gives.
const DOCUMENT: &str = "<?xml version='1.0'?><t n='1'>a&b;<r/><!--c--><![CDATA[d]]><?p e?></t >";

fn places(event: &Event) -> Option<(Range<usize>, Range<usize>)> {
    event.place().map(|place| (place.piece, place.content))
}

#[test]
fn every_event_tells_its_place_and_keeps_it() {
    let mut reader = Reader::from_str(DOCUMENT);
    let mut seen = Vec::new();
    loop {
        let event = reader.read_event().unwrap();
        if event == Event::Eof {
            break;
        }
        let (piece, content) = places(&event).unwrap();
        assert_eq!(piece, reader.piece());
        assert_eq!(&*event, &DOCUMENT[content.clone()]);
        assert_eq!(places(&event.borrow()), Some((piece.clone(), content.clone())));
        assert_eq!(places(&event.clone().into_owned()), Some((piece.clone(), content)));
        seen.push(&DOCUMENT[piece]);
    }
    assert_eq!(seen.concat(), DOCUMENT);
    assert_eq!(seen.len(), 9);
    assert_eq!(Event::Eof.place(), None);
}

#[test]
fn what_a_user_makes_stands_nowhere() {
    for event in [
        Event::Start(BytesStart::new("a")),
        Event::Empty(QName("a").into()),
        Event::End(BytesEnd::new("a")),
        Event::Text(BytesText::new("a")),
        Event::CData(BytesCData::new("a")),
        Event::Decl(BytesDecl::new("1.0", None, None)),
        Event::PI(BytesPI::new("a")),
        Event::GeneralRef(BytesRef::new("a")),
    ] {
        assert_eq!(event.place(), None, "{event:?}");
    }
}

#[test]
fn what_a_user_changes_stands_nowhere_any_more() {
    let Ok(Event::Start(tag)) = Reader::from_str("<a b='c'>").read_event() else {
        panic!()
    };
    let (mut named, mut cleared) = (tag.clone(), tag.clone());
    named.set_name("e");
    cleared.clear_attributes();
    assert!(tag.place().is_some() && named.place().is_none() && cleared.place().is_none());
    assert_eq!(tag.to_end().place(), None);

    let Ok(Event::Text(text)) = Reader::from_str(" d ").read_event() else {
        panic!()
    };
    let (mut start, mut end) = (text.clone(), text.clone());
    start.inplace_trim_start();
    end.inplace_trim_end();
    assert!(text.place().is_some() && start.place().is_none() && end.place().is_none());
}

#[test]
fn events_are_equal_by_kind_and_text_wherever_they_stand() {
    let mut reader = Reader::from_str("<a b='c'/><a b='c'/><a b='d'/>");
    let [one, two, three] = [(); 3].map(|()| reader.read_event().unwrap());
    assert_eq!(one, two);
    assert_ne!(one.place(), two.place());
    assert_ne!(one, three);
    assert_ne!(BytesStart::from_content("a b", 1), BytesStart::new("a b"));
    assert_ne!(Event::Text(BytesText::new("a")), Event::Comment(BytesText::new("a")));
}

/// A document, the number of its refusal, and what is then left to be read.
const LEFT: &[(&str, u8, &str)] = &[
    ("a<", 1, "<"),
    ("a<b c", 1, "<b c"),
    ("a<b c='>", 2, "<b c='>"),
    ("a<b c=\">", 3, "<b c=\">"),
    ("a<!--b", 4, "<!--b"),
    ("a<!-->", 4, "<!-->"),
    ("a<!--->", 4, "<!--->"),
    ("a<!-b-->c", 4, "c"),
    ("a<!-b-->", 4, ""),
    ("a<![CDATA[b]]", 5, "<![CDATA[b]]"),
    ("a<![b]]>c", 5, "c"),
    ("a<![b]]>", 5, ""),
    ("a<?b", 6, "<?b"),
    ("a<?>b", 6, "b"),
    ("a<?>", 6, ""),
    ("a<?xml b", 7, "<?xml b"),
    ("a<!b>", 8, "<!b>"),
    ("a<!--b--c-->d", 9, "d"),
    ("<a></b>c", 10, "c"),
    ("a</b>c", 11, "c"),
    ("a&b<c/>", 12, "<c/>"),
    ("a<!DOCTYPE b>c", 14, "<!DOCTYPE b>c"),
    ("<a><b>c", 15, "<b>c"),
    ("<a>", 18, ""),
];

#[test]
fn what_is_left_after_a_refusal() {
    for (document, number, rest) in LEFT {
        let mut reader = Reader::with_capacity(document.as_bytes(), 1);
        reader.config_mut().check_comments = true;
        reader.config_mut().check_open_names = true;
        assert!(reader.read_event().is_ok());
        assert_eq!(reader.read_event().unwrap_err().number(), Some(*number), "{document}");
        assert_eq!(*reader.get_ref(), rest.as_bytes(), "{document}");
        // and so it stays, if that ended the run
        if !matches!(number, 9..=12) {
            assert_eq!(reader.read_event(), Ok(Event::Eof), "{document}");
        }
        assert_eq!(reader.into_inner(), rest.as_bytes(), "{document}");
    }
    let mut reader = Reader::from_reader(b"a\xFF<b/>");
    assert!(reader.read_event().is_err());
    assert_eq!(reader.into_inner(), b"<b/>");
}

#[test]
fn what_is_left_is_counted_from_the_position() {
    let document = b"\xEF\xBB\xBF<a> b </a>";
    let mut reader = Reader::from_reader(document);
    reader.config_mut().trim_text(true);
    assert_eq!(reader.get_ref(), document);
    while reader.read_event() != Ok(Event::Eof) {
        assert_eq!(*reader.get_ref(), &document[reader.buffer_position() as usize..]);
    }
    assert!(reader.into_inner().is_empty());
}

#[test]
fn a_document_that_is_cut_off_is_told_by_its_own_refusal() {
    let mut reader = Reader::from_str("<t><r>06:15");
    reader.config_mut().check_open_names = true;
    assert!(reader.read_event().is_ok());
    assert_eq!(
        reader.clone().read_to_end(QName("t")),
        Err(Refused::UnclosedElements("r".into()).into())
    );
    reader.config_mut().check_open_names = false;
    assert_eq!(
        reader.read_to_end(QName("t")),
        Err(IllFormedError::MissingEndTag("t".into()).into())
    );
}

#[test]
fn a_name_too_many_and_a_document_type_end_what_reads_to_the_end() {
    for (document, refused) in [
        (&b"<a><b></b></a>"[..], Refused::NameStackFull),
        (b"<a><!DOCTYPE b></a>", Refused::DocType),
    ] {
        let mut reader = Reader::with_capacity(document, 1);
        reader.config_mut().trim_text_start = true;
        assert!(reader.read_event().is_ok());
        let mut buffer = Vec::new();
        assert_eq!(
            reader.clone().read_text(QName("a")),
            Err(Error::Refused(refused.clone()))
        );
        assert_eq!(reader.read_to_end_into(QName("a"), &mut buffer), Err(refused.into()));
        assert!(reader.config().trim_text_start && buffer.is_empty());
        assert_eq!(*reader.get_ref(), &document[3..]);
        assert_eq!(reader.read_event(), Ok(Event::Eof));
    }
}

#[test]
fn a_document_that_is_too_long_is_refused_by_every_call() {
    let document = vec![b'a'; LONGEST + 1];
    let mut reader = Reader::from_reader(&document);
    let refused = || Err(Error::Refused(Refused::SliceTooLong));
    let mut buffer = Vec::new();
    for _ in 0..2 {
        assert_eq!(reader.read_event_into(&mut buffer).map(drop), refused());
        assert_eq!(reader.read_to_end(QName("a")).map(drop), refused());
        assert_eq!(reader.read_text(QName("a")).map(drop), refused());
    }
    assert!(buffer.is_empty());
    assert_eq!(reader.into_inner().len(), document.len());
}

#[test]
fn the_end_of_an_expanded_element_has_a_name_of_its_own() {
    for (document, name) in [("<r n='1'/>", "r"), ("< />", ""), ("<\u{e9}/>", "\u{e9}")] {
        let mut reader = Reader::from_str(document);
        reader.config_mut().expand_empty_elements = true;
        assert!(matches!(reader.read_event(), Ok(Event::Start(_))));
        let end = reader.read_event().unwrap();
        assert_eq!(format!("{end:?}"), format!("End(BytesEnd {{ name: Owned({name:?}) }})"));
        assert_eq!(places(&end), Some((document.len()..document.len(), 1..1 + name.len())));
    }
}

#[test]
fn settings_are_shown_as_quick_xml_shows_them_and_ours_where_it_is_on() {
    let mut config = Reader::from_str("").config().clone();
    assert!(format!("{config:?}").ends_with(", trim_text_end: false }"));
    config.check_open_names = true;
    assert!(format!("{config:?}").ends_with(", trim_text_end: false, check_open_names: true }"));
}

#[test]
fn what_reads_to_the_end_first_of_all_calls_begins_with_the_byte_order_mark() {
    let mut reader = Reader::from_str("\u{feff}a</b>");
    reader.config_mut().allow_unmatched_ends = true;
    assert_eq!(reader.clone().read_to_end(QName("b")), Ok(0..4));
    assert_eq!(reader.read_text(QName("b")).unwrap().into_inner(), "\u{feff}a");
    assert_eq!(reader.buffer_position(), 8);
}
