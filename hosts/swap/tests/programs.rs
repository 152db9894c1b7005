//! Small programs, with types and traits of their own.

use quick_xml::errors::{Error, SyntaxError};
use quick_xml::events::{BytesStart, BytesText, Event};
use quick_xml::name::QName;
use quick_xml::reader::Reader;
use std::collections::BTreeMap;
use std::{fmt, sync::mpsc, thread};

mod timetable {
    //! A reader of timetables by recursive descent.

    use super::*;

    #[derive(Debug)]
    pub enum TimetableError {
        Xml(quick_xml::Error),
        Time(String),
        Unexpected(String),
        Cut,
    }

    impl From<quick_xml::Error> for TimetableError {
        fn from(error: quick_xml::Error) -> Self {
            TimetableError::Xml(error)
        }
    }

    impl fmt::Display for TimetableError {
        fn fmt(&self, f: &mut fmt::Formatter) -> fmt::Result {
            match self {
                TimetableError::Xml(error) => write!(f, "not XML: {error}"),
                TimetableError::Time(text) => write!(f, "no time: {text}"),
                TimetableError::Unexpected(name) => write!(f, "unexpected: {name}"),
                TimetableError::Cut => f.write_str("cut off"),
            }
        }
    }

    impl std::error::Error for TimetableError {
        fn source(&self) -> Option<&(dyn std::error::Error + 'static)> {
            match self {
                TimetableError::Xml(error) => Some(error),
                _ => None,
            }
        }
    }

    #[derive(Debug, Default, PartialEq)]
    pub struct Trip {
        pub stop: String,
        pub minutes: Vec<u16>,
    }

    pub fn read(xml: &str) -> Result<Vec<Trip>, TimetableError> {
        let mut reader = Reader::from_str(xml);
        reader.config_mut().trim_text(true);
        let mut trips = Vec::new();
        loop {
            match reader.read_event()? {
                Event::Start(e) => match e.name().as_ref() {
                    "timetable" => (),
                    "trip" => trips.push(trip(&mut reader)?),
                    name => return Err(TimetableError::Unexpected(name.into())),
                },
                Event::Eof => return Ok(trips),
                _ => (),
            }
        }
    }

    fn trip(reader: &mut Reader<&[u8]>) -> Result<Trip, TimetableError> {
        let mut trip = Trip::default();
        loop {
            match reader.read_event()? {
                Event::Start(e) => match e.name().as_ref() {
                    "stop" => trip.stop = text(reader, &e)?,
                    "t" => trip.minutes.push(minutes(&text(reader, &e)?)?),
                    _ => {
                        reader.read_to_end(e.name())?;
                    }
                },
                Event::End(_) => return Ok(trip),
                Event::Eof => return Err(TimetableError::Cut),
                _ => (),
            }
        }
    }

    fn text(reader: &mut Reader<&[u8]>, start: &BytesStart) -> Result<String, TimetableError> {
        Ok(reader.read_text(start.name())?.trim().to_owned())
    }

    fn minutes(text: &str) -> Result<u16, TimetableError> {
        let parse = || {
            let (hours, minutes) = text.split_once(':')?;
            Some(60 * hours.parse::<u16>().ok()? + minutes.parse::<u16>().ok()?)
        };
        parse().ok_or_else(|| TimetableError::Time(text.to_owned()))
    }
}

#[test]
fn a_timetable() {
    let xml = "<timetable>
        <trip><stop>Quay</stop><note>by <i>boat</i></note><t>23:50</t><t> 24:10 </t></trip>
        <trip><stop>Mill</stop></trip>
    </timetable>";
    let trips = timetable::read(xml).unwrap();
    assert_eq!(trips.len(), 2);
    assert_eq!(
        (trips[0].stop.as_str(), trips[0].minutes.as_slice()),
        ("Quay", &[1430, 1450][..])
    );
    assert_eq!(trips[1].stop, "Mill");
}

#[test]
fn timetables_with_faults() {
    let rows = [
        ("<timetable><trip><t>now</t>", "no time: now"),
        ("<timetable><bus/><bus></bus>", "unexpected: bus"),
        ("<timetable><trip><stop>Quay</stop>", "cut off"),
        (
            "<timetable><trip><t>06:15</trip>",
            "not XML: ill-formed document: expected `</t>`, but `</trip>` was found",
        ),
        (
            "<timetable><trip><t>06:15",
            "not XML: ill-formed document: start tag not closed: `</t>` not found before end of input",
        ),
    ];
    for (xml, wanted) in rows {
        assert_eq!(timetable::read(xml).unwrap_err().to_string(), wanted);
    }
    let error = timetable::read("<timetable><trip").unwrap_err();
    let inner = std::error::Error::source(&error).and_then(|source| source.downcast_ref::<quick_xml::Error>());
    assert!(matches!(inner, Some(Error::Syntax(SyntaxError::UnclosedTag))));
}

/// An element with all that is in it.
#[derive(Debug, PartialEq)]
struct Node {
    name: String,
    text: String,
    children: Vec<Node>,
}

fn node(reader: &mut Reader<&[u8]>, start: &BytesStart) -> quick_xml::Result<Node> {
    let mut node = Node {
        name: start.name().as_ref().to_owned(),
        text: String::new(),
        children: Vec::new(),
    };
    loop {
        match reader.read_event()? {
            Event::Start(e) => node.children.push(self::node(reader, &e)?),
            Event::Text(e) => node.text += &e,
            Event::CData(e) => node.text += &e,
            Event::End(e) => {
                assert_eq!(e.name(), start.name());
                return Ok(node);
            }
            _ => (),
        }
    }
}

#[test]
fn a_tree() {
    let mut reader = Reader::from_str("<a>1<b>2<![CDATA[<3>]]></b><c/>4</a>");
    reader.config_mut().expand_empty_elements = true;
    let Event::Start(start) = reader.read_event().unwrap() else {
        panic!("no start");
    };
    let leaf = |name: &str, text: &str| Node {
        name: name.into(),
        text: text.into(),
        children: Vec::new(),
    };
    let mut wanted = leaf("a", "14");
    wanted.children = vec![leaf("b", "2<3>"), leaf("c", "")];
    assert_eq!(node(&mut reader, &start).unwrap(), wanted);
}

#[test]
fn a_document_written_again() {
    let xml = "<?xml version='1.0'?>\n<a b=\"c\" >x &amp; y<!-- - --><d e='/'/><![CDATA[ ]] ]]><?f g?><h></h></a>\n";
    let mut reader = Reader::from_str(xml);
    let mut out = String::new();
    loop {
        match reader.read_event().unwrap() {
            Event::Start(e) => out += &format!("<{}>", &*e),
            Event::End(e) => out += &format!("</{}>", &*e),
            Event::Empty(e) => out += &format!("<{}/>", &*e),
            Event::Text(e) => out += &e,
            Event::CData(e) => out += &format!("<![CDATA[{}]]>", &*e),
            Event::Comment(e) => out += &format!("<!--{}-->", &*e),
            Event::Decl(e) => out += &format!("<?{}?>", &*e),
            Event::PI(e) => out += &format!("<?{}?>", &*e),
            Event::DocType(e) => out += &format!("<!DOCTYPE {}>", &*e),
            Event::GeneralRef(e) => out += &format!("&{};", &*e),
            Event::Eof => break,
        }
    }
    assert_eq!(out, xml);
}

#[test]
fn methods_of_ones_own() {
    trait Own {
        fn depth(&self) -> &'static str;
        fn piece(&self) -> &'static str;
        fn number(&self) -> &'static str;
        fn place(&self) -> &'static str;
    }
    macro_rules! own {
        ($($type:ty => $word:literal),*) => {
            $(impl Own for $type {
                fn depth(&self) -> &'static str { concat!("depth of ", $word) }
                fn piece(&self) -> &'static str { concat!("piece of ", $word) }
                fn number(&self) -> &'static str { concat!("number of ", $word) }
                fn place(&self) -> &'static str { concat!("place of ", $word) }
            })*
        };
    }
    own!(Reader<&[u8]> => "reader", Event<'_> => "event", BytesText<'_> => "text", Error => "error");

    let mut reader = Reader::from_str("x<");
    let event = reader.read_event().unwrap();
    let error = reader.read_event().unwrap_err();
    assert_eq!((reader.depth(), reader.piece()), ("depth of reader", "piece of reader"));
    assert_eq!(
        (reader.number(), reader.place()),
        ("number of reader", "place of reader")
    );
    assert_eq!((event.depth(), event.piece()), ("depth of event", "piece of event"));
    assert_eq!((event.number(), event.place()), ("number of event", "place of event"));
    assert_eq!((error.number(), error.place()), ("number of error", "place of error"));
    let Event::Text(text) = event else {
        panic!("no text");
    };
    assert_eq!((text.piece(), text.place()), ("piece of text", "place of text"));
}

mod globs {
    //! All names of the crate at once, and some of one's own that win over them.
    #![deny(ambiguous_glob_imports)]

    use quick_xml::events::*;
    use quick_xml::*;

    #[derive(Debug, PartialEq)]
    pub struct Time(pub u16);
    pub struct Column(pub Vec<Time>);
    pub const LONGEST: usize = 5;

    pub fn column(xml: &str) -> Result<Column> {
        let mut reader = Reader::from_str(xml);
        let mut times = Vec::new();
        loop {
            match reader.read_event()? {
                Event::Text(text) if text.len() <= LONGEST => times.extend(text.parse().map(Time)),
                Event::Eof => return Ok(Column(times)),
                _ => (),
            }
        }
    }

    pub fn is_syntax(error: &Error) -> bool {
        matches!(error, Error::Syntax(errors::SyntaxError::UnclosedTag))
    }

    pub fn start(name: name::QName) -> Event {
        Event::Start(BytesStart::from(name))
    }
}

#[test]
fn glob_imports() {
    let globs::Column(times) = globs::column("<t>615</t><t>long text</t><t>2350</t>").unwrap();
    assert_eq!(times, [globs::Time(615), globs::Time(2350)]);
    assert!(matches!(globs::column("<t"), Err(error) if globs::is_syntax(&error)));
    assert_eq!(&*globs::start(QName("t")), "t");
}

#[test]
fn threads() {
    fn moves<T: Send + Sync>() {}
    moves::<Reader<&[u8]>>();
    moves::<Event>();
    moves::<Error>();
    moves::<quick_xml::reader::Config>();

    let xml = String::from("<a>1</a><a>2</a><a>3</a>");
    let counts: Vec<usize> = thread::scope(|scope| {
        let count = |limit: usize| {
            let mut reader = Reader::from_str(&xml);
            let mut texts = 0;
            while texts < limit {
                match reader.read_event().unwrap() {
                    Event::Text(_) => texts += 1,
                    Event::Eof => break,
                    _ => (),
                }
            }
            texts
        };
        let threads: Vec<_> = (1..=4).map(|limit| scope.spawn(move || count(limit))).collect();
        threads.into_iter().map(|thread| thread.join().unwrap()).collect()
    });
    assert_eq!(counts, [1, 2, 3, 3]);
}

#[test]
fn events_sent_to_another_thread() {
    let (sender, receiver) = mpsc::channel::<quick_xml::Result<Event<'static>>>();
    let worker = thread::spawn(move || {
        let mut seen = BTreeMap::new();
        for event in receiver {
            let key = match event {
                Ok(Event::Start(e)) => e.name().as_ref().to_owned(),
                Ok(_) => continue,
                Err(error) => error.to_string(),
            };
            *seen.entry(key).or_insert(0) += 1;
        }
        seen
    });
    let xml = String::from("<a><b></b><b></c></a>");
    let mut reader = Reader::from_str(&xml);
    loop {
        match reader.read_event() {
            Ok(Event::Eof) => break,
            event => sender.send(event.map(Event::into_owned)).unwrap(),
        }
    }
    drop(sender);
    let seen = worker.join().unwrap();
    assert_eq!((seen["a"], seen["b"], seen.len()), (1, 2, 3));
}

#[test]
fn lifetimes_can_be_shorter() {
    fn same_life<'a>(reader: Reader<&'static [u8]>, event: Event<'static>, xml: &'a str) -> Vec<Event<'a>> {
        let mut readers: Vec<Reader<&'a [u8]>> = vec![reader, Reader::from_str(xml)];
        let mut events = vec![event];
        events.extend(readers.iter_mut().map(|reader| reader.read_event().unwrap()));
        events
    }
    let xml = String::from("<b/>");
    let first = Event::Text(BytesText::from_escaped("first"));
    let events = same_life(Reader::from_str("<a/>"), first, &xml);
    assert_eq!(
        events.iter().map(|event| &**event).collect::<Vec<_>>(),
        ["first", "a", "b"]
    );
}

#[test]
fn a_reader_can_be_shown() {
    fn shown(value: &impl fmt::Debug) -> String {
        format!("{value:?}")
    }
    let mut reader = Reader::from_str("<a/>");
    let before = shown(&reader);
    assert!(before.starts_with("Reader"));
    reader.read_event().unwrap();
    assert_ne!(shown(&reader), before);
}

mod model {
    //! Types of a timetable, under names that anyone would give them.

    pub struct Time(pub u16);

    pub struct Column(pub Vec<Time>);

    pub fn column(minutes: &[u16]) -> Column {
        Column(minutes.iter().map(|&minutes| Time(minutes)).collect())
    }
}

mod imported {
    //! Everything of both, by globs.

    use super::model::*;
    use quick_xml::events::*;
    use quick_xml::*;

    pub fn total(xml: &str) -> Result<u16> {
        let mut reader = Reader::from_str(xml);
        let mut minutes = Vec::new();
        loop {
            match reader.read_event()? {
                Event::Text(text) => minutes.push(text.len() as u16),
                Event::Eof => break,
                _ => (),
            }
        }
        let Column(times) = column(&minutes);
        Ok(times.iter().map(|Time(minutes)| minutes).sum())
    }
}

#[test]
fn names_of_ones_own_beside_all_that_is_imported() {
    assert_eq!(imported::total("<a>one<b>two</b>three</a>").unwrap(), 11);
}
