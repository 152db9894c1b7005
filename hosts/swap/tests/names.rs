//! Names of elements.

use quick_xml::events::{BytesStart, Event};
use quick_xml::name::{LocalName, QName};
use quick_xml::reader::Reader;
use std::collections::{BTreeSet, HashMap};

#[test]
fn names_are_counted_in_a_map() {
    let mut reader = Reader::from_str("<a><b/><b/><c><b></b></c></a>");
    let mut events = Vec::new();
    loop {
        match reader.read_event().unwrap() {
            Event::Eof => break,
            event => events.push(event),
        }
    }
    let mut counts: HashMap<QName, usize> = HashMap::new();
    for event in &events {
        if let Event::Start(e) | Event::Empty(e) = event {
            *counts.entry(e.name()).or_default() += 1;
        }
    }
    assert_eq!(counts[&QName("b")], 3);
    assert_eq!(counts.get(&QName("c")), Some(&1));
    assert_eq!(counts.len(), 3);
}

#[test]
fn prefix_and_local_name() {
    let mut reader = Reader::from_str("<svg:rect/><rect/><a:b:c/>");
    let mut found = Vec::new();
    while let Ok(Event::Empty(e)) = reader.read_event() {
        let name = e.name();
        let prefix = name.prefix().map(|prefix| prefix.as_ref().to_owned());
        found.push((prefix, e.local_name().as_ref().to_owned()));
    }
    let own = |prefix: &str, local: &str| (Some(prefix.to_owned()), local.to_owned());
    assert_eq!(found, [own("svg", "rect"), (None, "rect".to_owned()), own("a", "b:c")]);
}

#[test]
fn a_match_by_local_name() {
    let mut reader = Reader::from_str("<x:time>1</x:time><time>2</time><y:times>3</y:times>");
    let mut within = false;
    let mut times = Vec::new();
    loop {
        match reader.read_event().unwrap() {
            Event::Start(e) => within = matches!(e.local_name().as_ref(), "time"),
            Event::End(_) => within = false,
            Event::Text(e) if within => times.push(e.into_owned()),
            Event::Eof => break,
            _ => (),
        }
    }
    assert_eq!(times.iter().map(|text| &**text).collect::<String>(), "12");
}

#[test]
fn a_name_is_taken_apart() {
    let name = QName("xlink:href");
    let (local, prefix) = name.decompose();
    assert_eq!(local.as_ref(), "href");
    assert_eq!(prefix.unwrap().into_inner(), "xlink");
    assert_eq!(local, LocalName::from(QName("href")));
    assert_eq!(local.into_inner(), name.local_name().into_inner());
    assert_eq!(QName("href").decompose(), (local, None));
    assert_eq!((name.0, name.into_inner()), ("xlink:href", "xlink:href"));
    assert!(QName("xml:id").prefix().unwrap().is_xml());
    let xmlns = QName("xmlns:id").prefix().unwrap();
    assert!(xmlns.is_xmlns() && !xmlns.is_xml());
    assert!(!prefix.unwrap().is_xml() && !prefix.unwrap().is_xmlns());
}

#[test]
fn names_are_ordered_and_compared() {
    const STOP: QName = QName("stop");
    let start = BytesStart::from_content("stop n='1'", 4);
    assert_eq!(start.name(), STOP);
    assert_ne!(start.name(), QName("Stop"));
    let names: BTreeSet<QName> = [QName("t"), STOP, QName("a:t"), QName("t")].into();
    assert_eq!(
        names.into_iter().map(|name| name.0).collect::<Vec<_>>(),
        ["a:t", "stop", "t"]
    );
    let copied = STOP;
    assert!(copied == STOP && copied < QName("t"));
}

#[test]
fn debug_forms() {
    let name = QName("a:b");
    assert_eq!(format!("{name:?}"), r#"QName("a:b")"#);
    assert_eq!(
        format!("{:?}", name.decompose()),
        r#"(LocalName("b"), Some(Prefix("a")))"#
    );
}

#[test]
fn odd_names() {
    let mut reader = Reader::from_str("<></><:a/><a: b/>");
    let Event::Start(start) = reader.read_event().unwrap() else {
        panic!("no start");
    };
    assert_eq!((start.name().as_ref(), start.name().prefix()), ("", None));
    assert!(matches!(reader.read_event(), Ok(Event::End(e)) if e.name() == start.name()));
    let Event::Empty(empty) = reader.read_event().unwrap() else {
        panic!("no empty");
    };
    assert_eq!(empty.local_name().as_ref(), "a");
    assert_eq!(empty.name().prefix().unwrap().as_ref(), "");
    let Event::Empty(empty) = reader.read_event().unwrap() else {
        panic!("no empty");
    };
    assert_eq!((empty.name().0, empty.local_name().into_inner()), ("a:", ""));
}
