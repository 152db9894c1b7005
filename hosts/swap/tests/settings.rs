//! What the settings of a reader do.

use quick_xml::errors::{Error, IllFormedError};
use quick_xml::events::{BytesEnd, BytesRef, BytesStart, BytesText, Event};
use quick_xml::reader::{Config, Reader};

/// All texts of a document, each in brackets.
fn texts(reader: &mut Reader<&[u8]>) -> String {
    let mut found = String::new();
    loop {
        match reader.read_event().unwrap() {
            Event::Text(e) => found += &format!("[{}]", &*e),
            Event::Eof => return found,
            _ => (),
        }
    }
}

const SPACED: &str = "\n<a> x\t<b/>  </a>\r\n";

#[test]
fn white_space_is_kept() {
    let mut reader = Reader::from_str(SPACED);
    assert_eq!(texts(&mut reader), "[\n][ x\t][  ][\r\n]");
}

#[test]
fn trim_text() {
    let mut reader = Reader::from_str(SPACED);
    reader.config_mut().trim_text(true);
    assert_eq!(texts(&mut reader), "[x]");
    assert!(reader.config().trim_text_start && reader.config().trim_text_end);
}

#[test]
fn trim_text_start_alone() {
    let mut reader = Reader::from_str(SPACED);
    reader.config_mut().trim_text_start = true;
    assert_eq!(texts(&mut reader), "[x\t]");
}

#[test]
fn trim_text_end_alone_leaves_empty_texts() {
    let mut reader = Reader::from_str(SPACED);
    reader.config_mut().trim_text_end = true;
    assert_eq!(texts(&mut reader), "[][ x][]");
}

#[test]
fn other_white_space_is_text() {
    let mut reader = Reader::from_str("<a>\u{a0}\u{b}x\u{2003}</a>");
    reader.config_mut().trim_text(true);
    assert_eq!(texts(&mut reader), "[\u{a0}\u{b}x\u{2003}]");
}

#[test]
fn expand_empty_elements() {
    let mut reader = Reader::from_str("<a><b c='d'/></a>");
    reader.config_mut().expand_empty_elements = true;
    let mut events = Vec::new();
    loop {
        match reader.read_event().unwrap() {
            Event::Eof => break,
            event => events.push(event),
        }
    }
    let wanted = [
        Event::Start(BytesStart::new("a")),
        Event::Start(BytesStart::from_content("b c='d'", 1)),
        Event::End(BytesEnd::new("b")),
        Event::End(BytesEnd::new("a")),
    ];
    assert_eq!(events, wanted);
}

#[test]
fn an_expanded_end_tells_no_new_position() {
    let mut reader = Reader::from_str("<a/>x");
    reader.config_mut().expand_empty_elements = true;
    assert!(matches!(reader.read_event(), Ok(Event::Start(_))));
    assert_eq!(reader.buffer_position(), 4);
    assert!(matches!(reader.read_event(), Ok(Event::End(_))));
    assert_eq!(reader.buffer_position(), 4);
    assert_eq!(reader.read_event().unwrap(), Event::Text(BytesText::new("x")));
}

#[test]
fn check_end_names_off() {
    let mut reader = Reader::from_str("<a></b>");
    reader.config_mut().check_end_names = false;
    assert_eq!(reader.read_event().unwrap(), Event::Start(BytesStart::new("a")));
    assert_eq!(reader.read_event().unwrap(), Event::End(BytesEnd::new("b")));
    assert_eq!(reader.read_event().unwrap(), Event::Eof);
}

#[test]
fn check_end_names_off_and_on_again() {
    let mut reader = Reader::from_str("<a><p>one<p>two</a></b></c>");
    assert_eq!(reader.read_event().unwrap(), Event::Start(BytesStart::new("a")));
    reader.config_mut().check_end_names = false;
    for _ in 0..5 {
        reader.read_event().unwrap();
    }
    reader.config_mut().check_end_names = true;
    match reader.read_event() {
        Err(Error::IllFormed(IllFormedError::MismatchedEndTag { expected, found })) => {
            assert_eq!((expected.as_str(), found.as_str()), ("p", "b"))
        }
        other => panic!("{other:?}"),
    }
}

#[test]
fn allow_unmatched_ends() {
    let mut reader = Reader::from_str("</x><a></a></x>");
    reader.config_mut().allow_unmatched_ends = true;
    let mut ends = 0;
    loop {
        match reader.read_event().unwrap() {
            Event::End(e) if e.name().as_ref() == "x" => ends += 1,
            Event::Eof => break,
            _ => (),
        }
    }
    assert_eq!(ends, 2);

    reader = Reader::from_str("</x><a/>");
    match reader.read_event().unwrap_err() {
        Error::IllFormed(IllFormedError::UnmatchedEndTag(name)) => assert_eq!(name, "x"),
        other => panic!("{other}"),
    }
    assert_eq!(reader.read_event().unwrap(), Event::Empty(BytesStart::new("a")));
}

#[test]
fn allow_dangling_amp() {
    let mut reader = Reader::from_str("text with & &amp; & alone");
    reader.config_mut().allow_dangling_amp = true;
    let wanted = [
        Event::Text(BytesText::new("text with ")),
        Event::Text(BytesText::from_escaped("& ")),
        Event::GeneralRef(BytesRef::new("amp")),
        Event::Text(BytesText::new(" ")),
        Event::Text(BytesText::from_escaped("& alone")),
        Event::Eof,
    ];
    for event in wanted {
        assert_eq!(reader.read_event().unwrap(), event);
    }
}

#[test]
fn a_dangling_amp_is_refused() {
    let mut reader = Reader::from_str("Q&A<b/>&");
    assert_eq!(reader.read_event().unwrap(), Event::Text(BytesText::new("Q")));
    let unclosed = |error| matches!(error, Error::IllFormed(IllFormedError::UnclosedReference));
    assert!(unclosed(reader.read_event().unwrap_err()));
    assert_eq!((reader.error_position(), reader.buffer_position()), (1, 3));
    assert_eq!(reader.read_event().unwrap(), Event::Empty(BytesStart::new("b")));
    assert!(unclosed(reader.read_event().unwrap_err()));
    assert_eq!(reader.read_event().unwrap(), Event::Eof);
}

#[test]
fn check_comments() {
    let xml = "<!--a--b--><c/>";
    let mut reader = Reader::from_str(xml);
    assert_eq!(reader.read_event().unwrap(), Event::Comment(BytesText::new("a--b")));

    reader = Reader::from_str(xml);
    reader.config_mut().check_comments = true;
    let error = reader.read_event().unwrap_err();
    assert!(matches!(error, Error::IllFormed(IllFormedError::DoubleHyphenInComment)));
    assert_eq!(reader.error_position(), 5);
    assert_eq!(reader.read_event().unwrap(), Event::Empty(BytesStart::new("c")));
}

#[test]
fn names_in_closing_tags() {
    let mut reader = Reader::from_str("<a></a \n>");
    reader.read_event().unwrap();
    assert_eq!(reader.read_event().unwrap(), Event::End(BytesEnd::new("a")));

    reader = Reader::from_str("<a></a \n>");
    reader.config_mut().trim_markup_names_in_closing_tags = false;
    reader.read_event().unwrap();
    assert_eq!(
        reader.read_event().unwrap_err().to_string(),
        "ill-formed document: expected `</a>`, but `</a \n>` was found"
    );
}

#[test]
fn defaults() {
    let reader = Reader::from_str("<a/>");
    let config = reader.config();
    assert!(config.check_end_names && config.trim_markup_names_in_closing_tags);
    assert!(!config.allow_dangling_amp && !config.allow_unmatched_ends && !config.check_comments);
    assert!(!config.expand_empty_elements && !config.trim_text_start && !config.trim_text_end);
    assert_eq!(config, &Config::default());
    assert_eq!(
        format!("{config:?}"),
        "Config { allow_dangling_amp: false, allow_unmatched_ends: false, check_comments: false, check_end_names: true, \
         expand_empty_elements: false, trim_markup_names_in_closing_tags: true, trim_text_start: false, trim_text_end: false }"
    );
}

#[test]
fn settings_of_one_reader_for_another() {
    let mut first = Reader::from_str("<a/>");
    first.config_mut().enable_all_checks(true);
    first.config_mut().expand_empty_elements = true;
    let mut second = Reader::from_str("<b/>");
    assert_ne!(first.config(), second.config());
    *second.config_mut() = first.config().clone();
    assert_eq!(first.config(), second.config());
    assert!(second.config().check_comments);
    assert!(matches!(second.read_event(), Ok(Event::Start(_))));

    second.config_mut().enable_all_checks(false);
    assert!(!second.config().check_comments && !second.config().check_end_names);
    assert!(first.config().check_end_names);
}
