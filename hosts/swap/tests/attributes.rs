//! Attributes, as ordinary code reads them.

use quick_xml::errors::Error;
use quick_xml::events::attributes::{Attr, AttrError, Attribute, Attributes};
use quick_xml::events::{BytesPI, BytesStart, Event};
use quick_xml::name::QName;
use quick_xml::reader::Reader;
use std::borrow::Cow;
use std::collections::{BTreeMap, HashMap};
use std::error::Error as StdError;
use std::iter::FusedIterator;

const TIMETABLE: &str = r#"<?xml version="1.0"?>
<timetable line='N2' days="Fri Sat">
  <r n="1" stop='Brig'><t>22:58</t></r>
  <r n="17" stop='St-L&#233;onard' request="true"/>
  <r  stop = "Zürich"
      n    = '4217' ><t>23:50</t></r >
  <note/>
</timetable>"#;

/// The numbers of the trains, as text.
fn train_numbers(xml: &str) -> Result<Vec<String>, Error> {
    let mut reader = Reader::from_str(xml);
    let mut numbers = Vec::new();
    loop {
        match reader.read_event()? {
            Event::Start(e) | Event::Empty(e) if e.name().as_ref() == "r" => {
                for attribute in e.attributes() {
                    let attribute = attribute?;
                    if attribute.key.as_ref() == "n" {
                        numbers.push(attribute.value.into_owned());
                    }
                }
            }
            Event::Eof => return Ok(numbers),
            _ => (),
        }
    }
}

#[test]
fn numbers_of_trains() {
    assert_eq!(train_numbers(TIMETABLE).unwrap(), ["1", "17", "4217"]);
}

/// The same, each looked up by its name.
fn looked_up(xml: &str) -> quick_xml::Result<Vec<u32>> {
    let mut reader = Reader::from_str(xml);
    let mut buf = Vec::new();
    let mut numbers = Vec::new();
    loop {
        match reader.read_event_into(&mut buf)? {
            Event::Start(e) | Event::Empty(e) => {
                if let Some(number) = e.try_get_attribute("n")? {
                    numbers.extend(number.value.parse::<u32>().ok());
                }
            }
            Event::Eof => return Ok(numbers),
            _ => (),
        }
        buf.clear();
    }
}

#[test]
fn numbers_of_trains_by_name() {
    assert_eq!(looked_up(TIMETABLE).unwrap(), [1, 17, 4217]);
}

fn tag(content: &str) -> BytesStart<'_> {
    BytesStart::from_content(content, content.find(char::is_whitespace).unwrap_or(content.len()))
}

#[test]
fn into_maps() {
    let e = tag("r n='1' stop=\"Brig\" at = '22:58'");
    let sorted: BTreeMap<&str, Cow<str>> = e
        .attributes()
        .map(|a| a.map(|a| (a.key.into_inner(), a.value)))
        .collect::<Result<_, _>>()
        .unwrap();
    assert_eq!(sorted.keys().copied().collect::<Vec<_>>(), ["at", "n", "stop"]);
    assert_eq!(sorted["at"], "22:58");

    let kept: HashMap<String, String> = e
        .into_owned()
        .attributes()
        .filter_map(Result::ok)
        .map(|a| (a.key.as_ref().to_owned(), a.value.into_owned()))
        .collect();
    assert_eq!((kept.len(), kept["stop"].as_str()), (3, "Brig"));
}

#[test]
fn by_iterators() {
    let e = tag("r n='1' xml:lang='fr' late='0' daily='true'");
    let values: Vec<_> = e.attributes().map(|a| a.unwrap().value).collect();
    assert_eq!(values, ["1", "fr", "0", "true"]);
    let lang = e
        .attributes()
        .flatten()
        .find(|a| a.key.local_name().as_ref() == "lang")
        .unwrap();
    assert_eq!(lang.key.prefix().unwrap().as_ref(), "xml");
    assert_eq!(lang.key, QName("xml:lang"));
    let flags: Vec<_> = e.attributes().map(|a| a.unwrap().as_bool()).collect();
    assert_eq!(flags, [Some(true), None, Some(false), Some(true)]);
    let (names, lengths): (Vec<_>, Vec<_>) = e.attributes().flatten().map(|a| (a.key.0, a.value.len())).unzip();
    assert_eq!(
        (names.join(" "), lengths),
        ("n xml:lang late daily".into(), vec![1, 2, 1, 4])
    );
    assert_eq!(e.attributes().count(), 4);
    assert!(e.attributes().all(|a| a.is_ok()));
    assert_eq!(BytesStart::new("r").attributes().next(), None);
}

#[test]
fn without_the_check_for_names_used_twice() {
    let e = tag("r n='1' at='22:58'");
    let mut seen = Vec::new();
    for a in e.attributes().with_checks(false) {
        seen.push(a.unwrap().key.into_inner());
    }
    assert_eq!(seen, ["n", "at"]);
    let mut attributes = e.attributes();
    attributes.with_checks(true);
    assert_eq!(attributes.last().unwrap().unwrap().value, "22:58");
}

/// A function that hands on what a tag has.
fn value<'a>(e: &'a BytesStart, name: &str) -> Result<Cow<'a, str>, AttrError> {
    Ok(e.try_get_attribute(name)?.map_or(Cow::Borrowed("?"), |a| a.value))
}

#[test]
fn values_that_outlive_what_looks_them_up() {
    let content = String::from("r n='1' stop='Br&amp;ig'");
    let e = tag(&content);
    let values = ["stop", "n", "to"].map(|name| value(&e, name).unwrap());
    assert_eq!(values, ["Br&amp;ig", "1", "?"]);
    assert!(values.iter().all(|value| matches!(value, Cow::Borrowed(_))));
    let own = String::from("n");
    assert_eq!(e.try_get_attribute(&own).unwrap().unwrap().key, QName("n"));
    assert_eq!(e.try_get_attribute(own).unwrap().unwrap().key, QName("n"));
}

#[test]
fn of_a_text() {
    let mut iter = Attributes::new("tag-name attr1 = 'value1' attr2='value2' ", 9);
    let attribute = |key, value: &'static str| Attribute {
        key: QName(key),
        value: value.into(),
    };
    assert_eq!(iter.next(), Some(Ok(attribute("attr1", "value1"))));
    assert_eq!(iter.next(), Some(Ok(attribute("attr2", "value2"))));
    assert_eq!(iter.next(), None);
    for (text, pos, wanted) in [
        ("a b='1'", 1, 1),
        ("a  b='1'", 2, 1),
        ("a  b='1'", 3, 1),
        ("a b='1' c='2'", 7, 1),
        ("a b='1' c='2'", 8, 1),
        ("a b='1'", 7, 0),
        ("a b='1'", 8, 0),
        ("a b='1'", 100, 0),
        (" b='1'", 0, 1),
        ("", 0, 0),
    ] {
        let seen: Vec<_> = Attributes::new(text, pos).collect::<Result<_, _>>().unwrap();
        assert_eq!(seen.len(), wanted, "{text} from {pos}");
    }
    const NONE: Attributes = Attributes::new("r", 1);
    assert_eq!(NONE.count(), 0);
}

#[test]
fn of_a_tag_that_is_made_or_changed() {
    let mut e = BytesStart::from_content("r n='1'", 1);
    assert_eq!(
        e.attributes()
            .flatten()
            .map(|a| a.value.into_owned())
            .collect::<String>(),
        "1"
    );
    e.set_name("row");
    assert_eq!(e.try_get_attribute("n").unwrap().unwrap().value, "1");
    assert_eq!(e.borrow().attributes().count(), 1);
    e.clear_attributes();
    assert_eq!(e.try_get_attribute("n").unwrap(), None);
    assert_eq!(BytesStart::new("r n='1'").attributes().next(), None);
}

#[test]
fn of_an_instruction() {
    let mut reader = Reader::from_str("<?xml-stylesheet type=\"text/css\" href='table.css'?>");
    let Event::PI(e) = reader.read_event().unwrap() else {
        panic!("no instruction");
    };
    assert_eq!(e.target(), "xml-stylesheet");
    let seen: Vec<_> = e.attributes().map(|a| a.unwrap()).collect();
    assert_eq!((seen[0].key, &*seen[1].value), (QName("type"), "table.css"));
    assert_eq!(BytesPI::new("print").attributes().count(), 0);
}

/// What is wrong with the attributes of a tag, by one of its cases.
fn fault(content: &str) -> Option<AttrError> {
    tag(content).attributes().find_map(Result::err)
}

#[test]
fn errors() {
    assert_eq!(fault("tag key another=\"attribute\""), Some(AttrError::ExpectedEq(8)));
    assert_eq!(fault("tag key"), Some(AttrError::ExpectedEq(7)));
    assert_eq!(fault("tag key = "), Some(AttrError::ExpectedValue(10)));
    assert_eq!(fault("tag key = value "), Some(AttrError::UnquotedValue(10)));
    assert_eq!(fault("tag key = \"value  "), Some(AttrError::ExpectedQuote(18, b'"')));
    assert_eq!(fault("tag key = 'value  "), Some(AttrError::ExpectedQuote(18, b'\'')));
    assert_eq!(
        fault("tag key = 'value'  key=\"value2\" attr3='value3' "),
        Some(AttrError::Duplicated(19, 4))
    );
    assert_eq!(fault("tag key = 'value'  Key=\"value2\""), None);
}

#[test]
fn errors_handed_on() {
    fn first(xml: &str) -> Result<String, Box<dyn StdError>> {
        let Event::Empty(e) = Reader::from_str(xml).read_event()? else {
            return Err("no element".into());
        };
        let a = e.attributes().next().ok_or("no attribute")??;
        Ok(a.value.into_owned())
    }
    assert_eq!(first("<r n='1'/>").unwrap(), "1");
    assert_eq!(first("<r/>").unwrap_err().to_string(), "no attribute");
    let error = first("<r n/>").unwrap_err();
    assert_eq!(
        error.to_string(),
        "position 3: attribute key must be directly followed by `=` or space"
    );
    assert_eq!(error.downcast_ref(), Some(&AttrError::ExpectedEq(3)));

    let error = train_numbers("<r n='1' n='2'/>").unwrap_err();
    assert!(matches!(error, Error::InvalidAttr(AttrError::Duplicated(8, 2))));
    assert_eq!(
        error.to_string(),
        "error while parsing attribute: position 8: duplicated attribute, previous declaration at position 2"
    );
    let error = looked_up("<r m=1/>").unwrap_err();
    assert!(matches!(error, Error::InvalidAttr(AttrError::UnquotedValue(4))));
}

#[test]
fn what_comes_before_an_error_stands() {
    let e = tag("r a='1' b='2' c");
    let mut attributes = e.attributes();
    assert_eq!(attributes.next().unwrap().unwrap().value, "1");
    let rest: Vec<_> = attributes.clone().collect();
    assert_eq!(rest.len(), 2);
    assert_eq!(rest[1], Err(AttrError::ExpectedEq(15)));
    assert_eq!(e.try_get_attribute("b").unwrap().unwrap().value, "2");
    assert_eq!(e.try_get_attribute("c"), Err(AttrError::ExpectedEq(15)));
    assert_eq!(attributes.by_ref().filter(Result::is_ok).count(), 1);
    assert_eq!(attributes.next(), None);
}

#[test]
fn what_the_types_can_do() {
    fn fused<'a, I>(attributes: I) -> usize
    where
        I: FusedIterator<Item = Result<Attribute<'a>, AttrError>> + Clone + std::fmt::Debug + Send + Sync,
    {
        attributes.clone().count()
    }
    let e = tag("r a='1' b='2'");
    assert_eq!(fused(e.attributes()), 2);
    let mut seen = e.attributes().map(Result::unwrap);
    let (a, b) = (seen.next().unwrap(), seen.next().unwrap());
    assert!(a == a.clone() && a != b);
    assert_eq!(format!("{a:?}"), "Attribute { key: QName(\"a\"), value: \"1\" }");
    assert!(format!("{:?}", e.attributes()).starts_with("Attributes { buf: \"r a='1' b='2'\", state: "));
}

#[test]
fn attributes_by_their_form() {
    let text = "r a=\"1\"";
    let attr = Attr::DoubleQ(2..3, 5..6).map(|span| &text[span]);
    assert_eq!((attr.key(), attr.value()), (QName("a"), "1"));
    assert_eq!(
        Attribute::from(attr.clone()),
        tag(text).attributes().next().unwrap().unwrap()
    );
    assert_eq!(format!("{attr:?}"), "Attr::DoubleQ(\"a\", \"1\")");
    let (key, value): (&str, Option<&str>) = Attr::Empty("a").into();
    assert_eq!((key, value, Attr::Empty("a").value()), ("a", None, ""));
    assert_eq!(format!("{:?}", Attr::Empty(1)), "Attr::Empty(1)");
    assert!(Attr::SingleQ(1, 2) < Attr::Unquoted(0, 0));
    assert_ne!(attr, Attr::SingleQ("a", "1"));
}
