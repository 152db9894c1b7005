//! A reader as its user meets it: settings changed on the way, clones, threads, errors handed on, and what holds of any document.

mod common;

use common::{Numbers, LETTERS, MARKUP};
use sporebasket::encoding::EncodingError;
use sporebasket::errors::{Error, Refused};
use sporebasket::events::Event;
use sporebasket::ext::{ErrorExt, ReaderExt};
use sporebasket::name::QName;
use sporebasket::Reader;
use std::thread;

#[test]
fn settings_change_between_calls() {
    let mut reader = Reader::from_str("<a/> x <a/> x <b></c>");
    let config = reader.config().clone();
    assert_eq!(common::answer(&mut reader), "empty 0 4 1 2 1");
    reader.config_mut().trim_text(true);
    assert_eq!(common::answer(&mut reader), "text 5 7 5 6 0");
    reader.config_mut().expand_empty_elements = true;
    assert_eq!(common::answer(&mut reader), "start 7 11 8 9 1");
    // the End of an expanded element is still owed
    *reader.config_mut() = config;
    assert_eq!(common::answer(&mut reader), "end 11 11 8 9 1");
    assert_eq!(common::answer(&mut reader), "text 11 14 11 14 0");
    assert_eq!(common::answer(&mut reader), "start 14 17 15 16 1");
    reader.config_mut().check_end_names = false;
    assert_eq!(common::answer(&mut reader), "end 17 21 19 20 1");
    assert_eq!(common::answer(&mut reader), "eof 21 21 21 21 0");
}

#[test]
fn end_of_file_stays() {
    let mut reader = Reader::from_str("<a>");
    assert_eq!(common::run(&mut reader).len(), 2);
    for letters in ["-", "T", "u", "x", "o"] {
        common::set(reader.config_mut(), letters);
        assert_eq!(reader.read_event(), Ok(Event::Eof));
        assert_eq!((reader.buffer_position(), reader.depth()), (3, 1));
    }
}

#[test]
fn the_place_of_a_refusal_is_kept() {
    let mut reader = Reader::from_str("a</b>c");
    assert_eq!(reader.error_position(), 0);
    assert!(reader.read_event().is_ok());
    assert!(reader.read_event().is_err());
    assert!(reader.read_event().is_ok());
    assert_eq!((reader.error_position(), reader.piece()), (1, 5..6));
    assert_eq!((reader.expected(), reader.found()), (None, None));
}

#[test]
fn the_byte_that_is_not_utf8_is_told() {
    let documents: [&[u8]; 13] = [
        b"\xC0\x80",
        b"ab\xFF",
        b"<a>ab\xFF",
        b"\xEF\xBB\xBF\xC3\xA9\x80",
        b"  <a>\xE2\x82</a>",
        b"a&b\xC3&c;",
        b"&\xF0\x9F\x9A;",
        b"t<a b='\xC3\xA9\xED\xA0\x80'/>",
        b"<a></a\xFF>",
        b"<!--a--\xFF-->",
        b"<![CDATA[\xF4\x90\x80\x80]]>",
        b"<?a \xE2\x82\xAC\xE2?>",
        b"<a>\xFF</\xFF>\xFF",
    ];
    for document in documents {
        let mut reader = Reader::from_reader(document);
        let error = loop {
            match reader.read_event() {
                Ok(event) => assert_ne!(event, Event::Eof, "{document:?}"),
                Err(error) => break error,
            }
        };
        let whole = std::str::from_utf8(document).unwrap_err();
        let Error::Encoding(EncodingError::Utf8(told)) = error else {
            panic!("{document:?}: {error}");
        };
        assert_eq!(reader.error_position(), whole.valid_up_to() as u64, "{document:?}");
        assert_eq!(
            reader.piece().start + told.valid_up_to(),
            whole.valid_up_to(),
            "{document:?}"
        );
        assert!(reader.piece().contains(&whole.valid_up_to()), "{document:?}");
        assert_eq!(reader.read_event(), Ok(Event::Eof), "{document:?}");
    }
}

#[test]
fn a_clone_reads_on_by_itself() {
    let mut reader = Reader::from_str("<a><b></b></a>");
    reader.read_event().unwrap();
    let mut clone = reader.clone();
    let rest = common::run(&mut reader);
    assert_eq!((clone.depth(), reader.depth()), (1, 0));
    assert_eq!(common::run(&mut clone), rest);
}

#[test]
fn events_outlive_their_reader() {
    let document = String::from("<a b='c'>");
    let event = {
        let mut reader = Box::new(Reader::from_str(&document));
        let mut moved = *reader.clone();
        assert_eq!(moved.read_event(), reader.read_event());
        moved = *reader;
        let names: Vec<QName> = moved.open_names().collect();
        drop(moved);
        assert_eq!(names, [QName("a")]);
        Reader::from_str(&document).read_event().unwrap()
    };
    assert_eq!(&*event, "a b='c'");
}

#[test]
fn readers_go_to_other_threads() {
    fn check<T: Send + Sync>(_: &T) {}
    let document = "<a>".repeat(1000) + &"</a>".repeat(1000);
    let wanted = common::run(&mut Reader::from_str(&document));
    let mut begun = Reader::from_str(&document);
    let first = common::answer(&mut begun);
    check(&begun);
    thread::scope(|scope| {
        let workers: Vec<_> = (0..4)
            .map(|_| {
                let mut reader = begun.clone();
                scope.spawn(move || common::run(&mut reader))
            })
            .collect();
        for worker in workers {
            assert_eq!(worker.join().unwrap(), wanted[1..]);
        }
    });
    assert!(wanted[0].starts_with(&first));
}

#[test]
fn errors_are_handed_on() {
    fn names(document: &str) -> Result<Vec<String>, Box<dyn std::error::Error + Send + Sync>> {
        let mut reader = Reader::from_str(document);
        let mut names = Vec::new();
        loop {
            match reader.read_event()? {
                Event::Start(tag) => names.push(tag.name().as_ref().to_owned()),
                Event::Eof => return Ok(names),
                _ => (),
            }
        }
    }
    assert_eq!(names("<a><b></b></a>").unwrap(), ["a", "b"]);
    assert_eq!(
        names("<a></b>").unwrap_err().to_string(),
        "ill-formed document: expected `</a>`, but `</b>` was found"
    );
    assert_eq!(
        names("<!DOCTYPE a>").unwrap_err().downcast_ref(),
        Some(&Error::Refused(Refused::DocType))
    );
}

#[test]
fn shown_for_debugging() {
    let mut reader = Reader::from_str("<a>");
    let event = reader.read_event().unwrap();
    assert_eq!(
        format!("{event:?}"),
        "Start(BytesStart { buf: Borrowed(\"a\"), name_len: 1 })"
    );
    assert!(format!("{reader:?}").starts_with("Reader { phase: InsideText, position: 3, depth: 1, config: Config { "));
}

/// Whether the end is told by this answer: end of file, its refusal, or one that ends the run.
fn tells_the_end(answer: &Result<Event, Error>) -> bool {
    match answer {
        Ok(event) => *event == Event::Eof,
        Err(error) => matches!(error.number(), Some(1..=8 | 13..=15 | 18)),
    }
}

/// What holds of every run, whatever the document and the settings.
fn hold_to_the_theorems(document: &[u8], letters: &str, names: usize) {
    let mut reader = Reader::with_capacity(document, names);
    common::set(reader.config_mut(), letters);
    let strays = reader.config().allow_unmatched_ends;
    let whole = reader.config().check_open_names;
    let mut open: Vec<String> = Vec::new();
    let mut end = 0;
    let mut told = false;
    for _ in 0..document.len() + 2 {
        let before = reader.buffer_position();
        let event = reader.read_event();
        match &event {
            Ok(Event::Eof) => assert!(open.is_empty() || told || !whole),
            Err(error) if error.number() == Some(18) => assert!(!open.is_empty() && !told && whole),
            Ok(Event::Start(tag)) => open.push(tag.name().as_ref().to_owned()),
            Ok(Event::End(tag)) => {
                let name = open.pop();
                assert!(name.is_some() || strays);
                assert!(name.is_none_or(|name| name == tag.name().as_ref() || !reader.config().check_end_names));
            }
            Err(error) if error.number() == Some(10) => assert!(open.pop().is_some()),
            Err(error) if error.number() == Some(11) => assert!(open.is_empty()),
            _ => (),
        }
        assert!(reader.open_names().eq(open.iter().map(|name| QName(name))));
        assert_eq!(reader.depth(), open.len());
        let piece = reader.piece();
        assert!(end <= piece.start && piece.start <= piece.end && piece.end as u64 == reader.buffer_position());
        assert!(before <= reader.buffer_position());
        end = piece.end;
        told |= tells_the_end(&event);
        if event == Ok(Event::Eof) {
            return;
        }
    }
    panic!("no end of file");
}

/// Reads with `check_open_names` off and on, call by call: all is the same, but where 18 comes instead of the first end of file.
fn hold_to_the_setting_off(document: &[u8], letters: &str, names: usize) -> usize {
    let mut off = Reader::with_capacity(document, names);
    common::set(off.config_mut(), letters);
    off.config_mut().check_open_names = false;
    let mut on = off.clone();
    on.config_mut().check_open_names = true;
    let (mut told, mut refused) = (false, 0);
    for _ in 0..document.len() + 4 {
        let (wanted, said) = (off.read_event(), on.read_event());
        if wanted == Ok(Event::Eof) && off.depth() > 0 && !told {
            let latest = off.open_names().next_back().unwrap();
            let name = latest.as_ref().to_owned();
            assert_eq!(said, Err(Refused::UnclosedElements(name).into()));
            assert_eq!(
                on.error_position() as usize,
                common::place(document, latest.0.as_bytes()).start
            );
            refused += 1;
        } else {
            assert_eq!(said, wanted);
            assert!(refused > 0 || on.error_position() == off.error_position());
        }
        assert_eq!(common::state(&on), common::state(&off));
        assert_eq!((on.piece(), on.expected()), (off.piece(), off.expected()));
        assert_eq!(on.found(), off.found());
        told |= tells_the_end(&wanted);
    }
    assert!(refused <= 1);
    refused
}

#[test]
fn any_document_with_any_settings() {
    let mut numbers = Numbers(1);
    let mut refused = 0;
    for turn in 0..20_000 {
        let count = numbers.below(20);
        let document: Vec<u8> = (0..count)
            .flat_map(|_| MARKUP[numbers.below(MARKUP.len())].iter().copied())
            .collect();
        let letters: String = LETTERS.chars().filter(|_| numbers.below(3) == 0).collect();
        let names = if turn % 4 == 0 { numbers.below(3) } else { 64 };
        hold_to_the_theorems(&document, &letters, names);
        refused += hold_to_the_setting_off(&document, &letters, names);
    }
    assert!(refused > 1_000 && refused < 19_000, "{refused}");
}
