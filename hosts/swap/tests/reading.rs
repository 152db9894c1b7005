//! Loops over the events of a document.

use quick_xml::events::Event;
use quick_xml::reader::Reader;
use quick_xml::Result;
use std::borrow::Cow;

const TIMETABLE: &str = r#"<?xml version="1.0" encoding="UTF-8"?>
<?print two-columns?>
<timetable>
  <!-- weekdays -->
  <trip line="7"><stop>Quay</stop><t>06:15</t><note/></trip>
  <trip line="9"><stop>Mill &amp; Lock</stop><t>23:50</t><![CDATA[<raw>]]></trip>
</timetable>
"#;

#[test]
fn names_are_matched_with_literals() {
    let mut reader = Reader::from_str(TIMETABLE);
    let (mut trips, mut stops) = (0, 0);
    let mut other = Vec::new();
    loop {
        match reader.read_event() {
            Ok(Event::Start(e)) => match e.name().as_ref() {
                "trip" => trips += 1,
                "stop" => stops += 1,
                name => other.push(name.to_string()),
            },
            Ok(Event::Eof) => break,
            Ok(_) => (),
            Err(e) => panic!("Error at position {}: {:?}", reader.error_position(), e),
        }
    }
    assert_eq!((trips, stops), (2, 2));
    assert_eq!(other, ["timetable", "t", "t"]);
}

#[test]
fn text_is_a_str() {
    let mut reader = Reader::from_str("<t> 06:15 </t>");
    reader.read_event().unwrap();
    let Event::Text(text) = reader.read_event().unwrap() else {
        panic!("no text");
    };
    assert_eq!(&*text, " 06:15 ");
    assert_eq!(text.len(), 7);
    assert_eq!(text.trim(), "06:15");
    assert!(text.contains(':'));
    assert_eq!(text.to_string(), " 06:15 ");
    let by_str: &str = text.as_ref();
    let by_bytes: &[u8] = text.as_ref();
    assert_eq!(by_str.as_bytes(), by_bytes);
    let (hours, minutes) = text.trim().split_once(':').unwrap();
    assert_eq!((hours.parse::<u8>(), minutes.parse::<u8>()), (Ok(6), Ok(15)));
    assert_eq!(text.into_inner(), " 06:15 ");
}

/// The first text, borrowed from the document and not from the reader.
fn first_text<'a>(reader: &mut Reader<&'a [u8]>) -> Result<Option<Cow<'a, str>>> {
    loop {
        match reader.read_event()? {
            Event::Text(e) => return Ok(Some(e.into_inner())),
            Event::Eof => return Ok(None),
            _ => (),
        }
    }
}

#[test]
fn text_outlives_the_reader() {
    let xml = String::from("<a><b/>kept</a>");
    let text = {
        let mut reader = Reader::from_str(&xml);
        first_text(&mut reader).unwrap().unwrap()
    };
    assert_eq!(text, "kept");
    assert!(matches!(text, Cow::Borrowed(_)));
    assert_eq!(first_text(&mut Reader::from_str("<a/>")).unwrap(), None);
}

/// The texts within `stop`, in a struct that holds the reader.
struct Stops<'a> {
    reader: Reader<&'a [u8]>,
    within: bool,
}

impl<'a> Iterator for Stops<'a> {
    type Item = Result<String>;

    fn next(&mut self) -> Option<Self::Item> {
        loop {
            match self.reader.read_event() {
                Ok(Event::Start(e)) => self.within = e.name().as_ref() == "stop",
                Ok(Event::End(_)) => self.within = false,
                Ok(Event::Text(e)) if self.within => return Some(Ok(e.into_inner().into_owned())),
                Ok(Event::Eof) => return None,
                Ok(_) => (),
                Err(e) => return Some(Err(e)),
            }
        }
    }
}

#[test]
fn a_reader_in_a_field() {
    let stops = Stops {
        reader: Reader::from_str(TIMETABLE),
        within: false,
    };
    let texts: Vec<String> = stops.collect::<Result<_>>().unwrap();
    assert_eq!(texts, ["Quay", "Mill ", " Lock"]);

    let cut = Stops {
        reader: Reader::from_reader(b"<stop>Quay</stop><st".as_slice()),
        within: false,
    };
    let found: Vec<Result<String>> = cut.collect();
    assert!(matches!(found.as_slice(), [Ok(text), Err(_)] if text == "Quay"));
}

fn consumed<R>(reader: &Reader<R>) -> u64 {
    reader.buffer_position()
}

fn lenient<R>(reader: &mut Reader<R>) -> &mut Reader<R> {
    let config = reader.config_mut();
    config.check_end_names = false;
    config.allow_unmatched_ends = true;
    reader
}

#[test]
fn functions_over_any_reader() {
    let mut reader = Reader::from_str("<a></b></c>");
    assert_eq!(consumed(&reader), 0);
    let mut ends = 0;
    while lenient(&mut reader).read_event().unwrap() != Event::Eof {
        ends += 1;
    }
    assert_eq!((ends, consumed(&reader)), (3, 11));
}

#[test]
fn references_are_events_of_their_own() {
    let mut reader = Reader::from_str("<p>a &lt; b &amp;&amp; c &#65; &name;</p>");
    let mut text = String::new();
    loop {
        match reader.read_event().unwrap() {
            Event::Text(e) => text.push_str(&e),
            Event::GeneralRef(e) => match &*e {
                "lt" => text.push('<'),
                "amp" => text.push('&'),
                other => text.push_str(&format!("[{other}]")),
            },
            Event::Eof => break,
            _ => (),
        }
    }
    assert_eq!(text, "a < b && c [#65] [name]");
}

#[test]
fn contents_of_each_kind() {
    let mut reader = Reader::from_str(TIMETABLE);
    reader.config_mut().trim_text(true);
    let mut found = Vec::new();
    loop {
        match reader.read_event().unwrap() {
            Event::Decl(e) => found.push(format!("decl {}", &*e)),
            Event::PI(e) => found.push(format!("pi {}|{}|{}", e.target(), e.content(), &*e)),
            Event::Comment(e) => found.push(format!("comment {:?}", e.into_inner())),
            Event::CData(e) => found.push(format!("cdata {}", e.into_inner())),
            Event::Empty(e) => found.push(format!("empty {}", e.name().as_ref())),
            Event::Eof => break,
            _ => (),
        }
    }
    let wanted = [
        r#"decl xml version="1.0" encoding="UTF-8""#,
        "pi print| two-columns|print two-columns",
        r#"comment " weekdays ""#,
        "empty note",
        "cdata <raw>",
    ];
    assert_eq!(found, wanted);
}

#[test]
fn attributes_stay_in_the_tag() {
    let mut reader = Reader::from_str(r#"<trip line="7>8"  from='Quay'/><trip/>"#);
    let mut raw = Vec::new();
    while let Event::Empty(e) = reader.read_event().unwrap() {
        assert_eq!(e.name().as_ref(), "trip");
        assert_eq!(e.len(), 4 + e.attributes_raw().len());
        raw.push(e.attributes_raw().to_owned());
    }
    assert_eq!(raw, [r#" line="7>8"  from='Quay'"#, ""]);
}

#[test]
fn the_path_of_open_names() {
    let mut reader = Reader::from_str(TIMETABLE);
    let mut path = Vec::new();
    let mut times = Vec::new();
    loop {
        match reader.read_event().unwrap() {
            Event::Start(e) => path.push(e.name().as_ref().to_owned()),
            Event::End(e) => assert_eq!(path.pop().as_deref(), Some(e.name().as_ref())),
            Event::Text(e) if path.ends_with(&["t".to_owned()]) => times.push(format!("{} {}", path.join("/"), &*e)),
            Event::Eof => break,
            _ => (),
        }
    }
    assert!(path.is_empty());
    assert_eq!(times, ["timetable/trip/t 06:15", "timetable/trip/t 23:50"]);
}

#[test]
fn characters_beyond_ascii() {
    let mut reader = Reader::from_str("<größe einheit='µm'>½ – ¾</größe><!--✓-->");
    let Event::Start(start) = reader.read_event().unwrap() else {
        panic!("no start");
    };
    assert_eq!(start.name().as_ref(), "größe");
    assert_eq!(start.attributes_raw(), " einheit='µm'");
    let Event::Text(text) = reader.read_event().unwrap() else {
        panic!("no text");
    };
    assert_eq!(text.chars().rev().collect::<String>(), "¾ – ½");
    assert!(matches!(reader.read_event(), Ok(Event::End(e)) if e.name() == start.name()));
    assert!(matches!(reader.read_event(), Ok(Event::Comment(e)) if &*e == "✓"));
    assert!(matches!(reader.read_event(), Ok(Event::Eof)));
}

#[test]
fn an_iterator_of_events() -> quick_xml::errors::Result<()> {
    let mut reader = Reader::from_str("<a>x<b/></a>");
    let mut events = std::iter::from_fn(|| match reader.read_event() {
        Ok(Event::Eof) => None,
        event => Some(event),
    })
    .peekable();
    let mut pairs = Vec::new();
    while let Some(event) = events.next().transpose()? {
        let next = events
            .peek()
            .and_then(|next| next.as_ref().ok())
            .map(|next| next.to_string());
        pairs.push((event.to_string(), next.unwrap_or_default()));
    }
    let pairs: Vec<(&str, &str)> = pairs
        .iter()
        .map(|(this, next)| (this.as_str(), next.as_str()))
        .collect();
    assert_eq!(pairs, [("a", "x"), ("x", "b"), ("b", "a"), ("a", "")]);
    Ok(())
}

#[test]
fn end_of_file_stays() {
    let mut reader = Reader::from_str("");
    for _ in 0..3 {
        assert_eq!(reader.read_event().unwrap(), Event::Eof);
    }
    assert_eq!(reader.buffer_position(), 0);
}
