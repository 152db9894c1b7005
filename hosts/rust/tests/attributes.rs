//! The attributes of a tag: each rule by its smallest input, what is told of them, and a second account of all of it.

use sporebasket::errors::Error;
use sporebasket::events::attributes::{Attr, AttrError, AttrRefused, Attribute, Attributes};
use sporebasket::events::{BytesPI, BytesStart, Event};
use sporebasket::ext::{AttrErrorExt, ErrorExt, EventExt};
use sporebasket::lent::{self, ATTRIBUTE_SLOTS};
use sporebasket::name::QName;
use sporebasket::Reader;
use std::borrow::Cow;
use std::collections::HashSet;
use std::iter;
use std::ops::Range;

const WHITE: [char; 4] = [' ', '\t', '\n', '\r'];

fn name_len(content: &str) -> usize {
    content.find(WHITE).unwrap_or(content.len())
}

fn tag(content: &str) -> BytesStart<'_> {
    BytesStart::from_content(content, name_len(content))
}

/// An attribute or a refusal in words.
fn word(item: Result<Attribute<'_>, AttrError>) -> String {
    match item {
        Ok(attribute) => format!("{}={}", attribute.key.as_ref(), attribute.value),
        Err(error) => format!("refused {} {}", error.number(), error.position()),
    }
}

/// The attributes, with a refusal if one comes, in words.
fn listed<'a>(attributes: impl Iterator<Item = Result<Attribute<'a>, AttrError>>) -> String {
    attributes.map(word).collect::<Vec<_>>().join("; ")
}

/// A content, and what its attributes are.
const ROWS: &[(&str, &str)] = &[
    // none
    ("", ""),
    ("r", ""),
    ("r ", ""),
    ("r \t\r\n", ""),
    (" ", ""),
    // attributes
    (" a=''", "a="),
    ("r n=\"1\"", "n=1"),
    ("r n='1' ", "n=1"),
    ("r n='1'\n\tat=\"06:15\"\r\n", "n=1; at=06:15"),
    ("r n\t=\r\n'1'  at = '06:15'", "n=1; at=06:15"),
    ("r n='\"' m=\"'\"", "n=\"; m='"),
    ("r n=' a=\"1\" '", "n= a=\"1\" "),
    ("r n='>' m='/'", "n=>; m=/"),
    ("r n='&lt;&#60;'", "n=&lt;&#60;"),
    ("r n='a\n b'", "n=a\n b"),
    // the element's own name does not count, nor does a name that is the beginning of another
    ("r r=''", "r="),
    ("r a='1' ab='2' b='3' A='4'", "a=1; ab=2; b=3; A=4"),
    // a name may have all but white space, `=` and quotes
    ("r <='1' /='2' &='3' >='4' a:b='5'", "<=1; /=2; &=3; >=4; a:b=5"),
    ("r \u{b}\u{c}\u{a0}='1'", "\u{b}\u{c}\u{a0}=1"),
    // 19
    ("r a=''b", "a=; refused 19 6"),
    ("r a='1'b='2'", "a=1; refused 19 7"),
    ("r a='1'a='2'", "a=1; refused 19 7"),
    ("r a=\"1\"\"", "a=1; refused 19 7"),
    ("r a='1'=", "a=1; refused 19 7"),
    ("r a='1'\u{a0}b='2'", "a=1; refused 19 7"),
    // 20
    (" =", "refused 20 1"),
    ("r ='1'", "refused 20 2"),
    ("r '1'", "refused 20 2"),
    ("r  \"1\"", "refused 20 3"),
    ("r a='1' =", "a=1; refused 20 8"),
    // 21
    (" a", "refused 21 2"),
    ("r a ", "refused 21 4"),
    ("r a b=''", "refused 21 4"),
    ("r a'1'", "refused 21 3"),
    ("r a\"='1'", "refused 21 3"),
    ("r a='1' b", "a=1; refused 21 9"),
    // 22
    (" a=", "refused 22 3"),
    ("r a= ", "refused 22 5"),
    ("r a=1", "refused 22 4"),
    ("r a=='1'", "refused 22 4"),
    ("r a= <", "refused 22 5"),
    ("r a='", "refused 22 5"),
    ("r a=\"'", "refused 22 6"),
    ("r a='1' b='2", "a=1; refused 22 12"),
    // 23
    ("r a='<", "refused 23 5"),
    ("r a='<'", "refused 23 5"),
    ("r a=\"1<2\"", "refused 23 6"),
    ("r a='\"<\"'", "refused 23 6"),
    // 24
    (" a='' a", "a=; refused 24 6"),
    ("r a='1' a", "a=1; refused 24 8"),
    ("r a='1' a='<'", "a=1; refused 24 8"),
    ("r a='1' b='2' a='3'", "a=1; b=2; refused 24 14"),
    ("r a='1' b='2' b='3' a='4'", "a=1; b=2; refused 24 14"),
];

#[test]
fn each_rule_by_small_contents() {
    for (content, wanted) in ROWS {
        assert_eq!(listed(tag(content).attributes()), *wanted, "{content:?}");
        assert_eq!(
            listed(Attributes::new(content, name_len(content))),
            *wanted,
            "{content:?}"
        );
    }
}

#[test]
fn the_same_of_tags_that_are_read() {
    let mut read = 0;
    for (content, wanted) in ROWS {
        for document in [format!("<{content}>"), format!("\u{feff}<{content}/>")] {
            let mut reader = Reader::from_str(&document);
            let mut buffer = Vec::new();
            for event in [reader.clone().read_event(), reader.read_event_into(&mut buffer)] {
                // a tag that a quote leaves open is refused, and one may end elsewhere than the content does
                let Ok(Event::Start(tag) | Event::Empty(tag)) = event else {
                    continue;
                };
                if *tag == **content {
                    assert_eq!(listed(tag.attributes()), *wanted, "{document}");
                    assert_eq!(listed(tag.into_owned().attributes()), *wanted, "{document}");
                    read += 1;
                }
            }
        }
    }
    assert!(read > 3 * ROWS.len(), "{read} of {}", ROWS.len());
}

#[test]
fn an_expanded_element_has_its_attributes() {
    let mut reader = Reader::from_str("<r n='1'/>");
    reader.config_mut().expand_empty_elements = true;
    let Ok(Event::Start(tag)) = reader.read_event() else {
        panic!()
    };
    assert_eq!(listed(tag.attributes()), "n=1");
}

#[test]
fn errors_by_quick_xml_s_cases_and_ours() {
    let rows = [
        ("r a='1'b", AttrRefused::NoSpace(7).into()),
        ("r =", AttrRefused::EmptyName(2).into()),
        ("r a", AttrError::ExpectedEq(3)),
        ("r a b", AttrError::ExpectedEq(4)),
        ("r a=", AttrError::ExpectedValue(4)),
        ("r a= \t", AttrError::ExpectedValue(6)),
        ("r a= b", AttrError::UnquotedValue(5)),
        ("r a==", AttrError::UnquotedValue(4)),
        ("r a='\"", AttrError::ExpectedQuote(6, b'\'')),
        ("r a=\"'", AttrError::ExpectedQuote(6, b'"')),
        ("r a='<'", AttrRefused::LessThan(5).into()),
        ("r b='' a='1' a", AttrError::Duplicated(13, 7)),
        ("r a='1' b='' a", AttrError::Duplicated(13, 2)),
    ];
    for (content, wanted) in rows {
        let tag = tag(content);
        assert_eq!(tag.attributes().last(), Some(Err(wanted.clone())), "{content}");
        assert_eq!(tag.try_get_attribute("none"), Err(wanted), "{content}");
    }
}

#[test]
fn errors_have_numbers_places_and_texts() {
    let rows: [(AttrError, u8, usize, &str); 10] = [
        (
            AttrRefused::BadState.into(),
            17,
            0,
            "attributes are asked for from where no name of a tag ends",
        ),
        (
            AttrRefused::NoSpace(7).into(),
            19,
            7,
            "position 7: no white space between a value and what follows it",
        ),
        (
            AttrRefused::EmptyName(6).into(),
            20,
            6,
            "position 6: an attribute without a name",
        ),
        (
            AttrError::ExpectedEq(5),
            21,
            5,
            "position 5: attribute key must be directly followed by `=` or space",
        ),
        (
            AttrError::ExpectedValue(4),
            22,
            4,
            "position 4: `=` must be followed by an attribute value",
        ),
        (
            AttrError::UnquotedValue(3),
            22,
            3,
            "position 3: attribute value must be enclosed in `\"` or `'`",
        ),
        (
            AttrError::ExpectedQuote(9, b'\''),
            22,
            9,
            "position 9: missing closing quote `'` in attribute value",
        ),
        (
            AttrRefused::LessThan(8).into(),
            23,
            8,
            "position 8: `<` in an attribute value",
        ),
        (
            AttrError::Duplicated(19, 4),
            24,
            19,
            "position 19: duplicated attribute, previous declaration at position 4",
        ),
        (
            AttrError::ExpectedQuote(9, b'"'),
            22,
            9,
            "position 9: missing closing quote `\"` in attribute value",
        ),
    ];
    for (error, number, position, text) in rows {
        assert_eq!((error.number(), error.position()), (number, position), "{error:?}");
        assert_eq!(error.to_string(), text);
        let whole = Error::from(error.clone());
        assert_eq!(whole.number(), Some(number));
        assert_eq!(whole.to_string(), format!("error while parsing attribute: {text}"));
        let source = std::error::Error::source(&whole).and_then(|source| source.downcast_ref());
        assert_eq!(source, Some(&error));
    }
}

#[test]
fn after_the_last_item_there_is_none_for_ever() {
    for (content, wanted) in ROWS {
        let tag = tag(content);
        let mut attributes = tag.attributes();
        let count = attributes.by_ref().count();
        assert_eq!(
            count,
            wanted.split("; ").filter(|word| !word.is_empty()).count(),
            "{content:?}"
        );
        assert!((0..3).all(|_| attributes.next().is_none()), "{content:?}");
    }
}

#[test]
fn a_copy_goes_on_by_itself() {
    let tag = tag("r a='1' b='2' c='3'");
    let mut attributes = tag.attributes();
    attributes.next();
    let mut copy = attributes.clone();
    assert_eq!(listed(attributes), "b=2; c=3");
    assert_eq!(listed(copy.by_ref().take(1)), "b=2");
    assert_eq!(listed(copy.with_checks(false)), "c=3");
}

#[test]
fn what_shows_of_them() {
    let tag = tag("r a='1' b");
    let mut attributes = tag.attributes();
    let [first, second, third] = [(); 3].map(|()| {
        let shown = format!("{attributes:?}");
        attributes.next();
        shown
    });
    assert!(first.starts_with("Attributes { buf: \"r a='1' b\", state: "), "{first}");
    assert!(first != second && second != third && first != third);
    let attribute = tag.attributes().next().unwrap().unwrap();
    assert_eq!(
        format!("{attribute:?}"),
        "Attribute { key: QName(\"a\"), value: \"1\" }"
    );
}

#[test]
fn names_and_values_beyond_ascii() {
    let content = "r stop='Zürich' 駅='東京' \u{1f682}=\"\u{1f683}\" e\u{301}='1' \u{e9}='2' 駅=";
    let tag = tag(content);
    assert_eq!(
        listed(tag.attributes()),
        "stop=Zürich; 駅=東京; \u{1f682}=\u{1f683}; e\u{301}=1; \u{e9}=2; refused 24 57"
    );
    assert_eq!(&content[57..], "駅=");
    assert_eq!(tag.try_get_attribute("駅").unwrap().unwrap().value, "東京");
    assert_eq!(tag.try_get_attribute("\u{e9}").unwrap().unwrap().value, "2");
    // places count bytes
    let tag = BytesStart::from_content("駅 é='東<", 3);
    assert_eq!(listed(tag.attributes()), "refused 23 11");
}

/// Where a part of a text stands in it.
fn place(whole: &str, part: &str) -> Range<usize> {
    let from = part.as_ptr() as usize - whole.as_ptr() as usize;
    from..from + part.len()
}

#[test]
fn names_and_values_are_the_documents_own() {
    let document = String::from("<t>\n<r n = \"1\" at='06:15'/>");
    let mut reader = Reader::from_str(&document);
    reader.config_mut().trim_text(true);
    reader.read_event().unwrap();
    let Ok(Event::Empty(tag)) = reader.read_event() else {
        panic!()
    };
    drop(reader);
    let content = tag.place().unwrap().content;
    let mut answer = [0; ATTRIBUTE_SLOTS];
    let mut at = content.start + 1;
    for attribute in tag.attributes() {
        let attribute = attribute.unwrap();
        let Cow::Borrowed(value) = attribute.value else {
            panic!("{attribute:?}")
        };
        let bytes = document.as_bytes();
        assert_eq!(
            lent::attribute(bytes, content.start, content.end, 1, at, &mut answer),
            0
        );
        let [found, name_from, name_to, value_from, value_to, next, ..] = answer;
        assert_eq!(found, 1);
        assert_eq!(place(&document, attribute.key.into_inner()), name_from..name_to);
        assert_eq!(place(&document, value), value_from..value_to);
        assert_eq!(answer[6..], [0; 3]);
        at = next;
    }
    assert_eq!(&document[at..], "/>");
}

#[test]
fn an_attribute_by_its_name() {
    let tag = tag("r n='1' at=\"06:15\" n:n='2' at");
    let value = |name: &str| {
        tag.try_get_attribute(name)
            .map(|found| found.map(|attribute| attribute.value))
    };
    assert_eq!(value("n"), Ok(Some("1".into())));
    assert_eq!(value("at"), Ok(Some("06:15".into())));
    assert_eq!(value("n:n"), Ok(Some("2".into())));
    for name in ["", "r", "N", "a", "att", "nn", "at ", " at", "06:15", "'"] {
        assert_eq!(value(name), Err(AttrError::Duplicated(27, 8)), "{name:?}");
    }
    // the name may be anything that is a string
    let found = tag.try_get_attribute(QName("at")).unwrap().unwrap();
    assert_eq!(found.key, QName("at"));
    assert_eq!(tag.try_get_attribute(String::from("n")).unwrap().unwrap().value, "1");
    assert_eq!(BytesStart::new("r").try_get_attribute("r"), Ok(None));
}

#[test]
fn a_tag_with_many() {
    const MANY: usize = 150;
    let content = iter::once("r".to_owned())
        .chain((0..MANY).map(|i| format!(" n{i} = '{}'", i * i)))
        .collect::<String>();
    let whole = tag(&content);
    let seen: Vec<_> = whole.attributes().map(Result::unwrap).collect();
    assert_eq!(seen.len(), MANY);
    for (i, attribute) in seen.iter().enumerate() {
        assert_eq!(
            (attribute.key.as_ref(), &*attribute.value),
            (&*format!("n{i}"), &*format!("{}", i * i))
        );
        assert_eq!(
            whole.try_get_attribute(attribute.key).as_ref(),
            Ok(&Some(attribute.clone()))
        );
    }
    // each of the names once more behind them
    for i in [0, 1, MANY / 2, MANY - 1] {
        let twice = format!("{content} n{i}='x'");
        let wanted = AttrError::Duplicated(content.len() + 1, content.find(&format!(" n{i} ")).unwrap() + 1);
        let tag = tag(&twice);
        assert_eq!(tag.attributes().skip(MANY).collect::<Vec<_>>(), [Err(wanted)]);
    }
}

#[test]
fn positions_that_a_user_tells() {
    let text = "tag-name a = '1' b='2' ";
    // at the name's end, at white space behind it, and just behind white space
    for (pos, wanted) in [
        (8, "a=1; b=2"),
        (9, "a=1; b=2"),
        (16, "b=2"),
        (17, "b=2"),
        (22, ""),
        (23, ""),
        (24, ""),
        (usize::MAX, ""),
    ] {
        assert_eq!(listed(Attributes::new(text, pos)), wanted, "{pos}");
        assert_eq!(
            Attributes::new(text, pos).with_checks(true).count(),
            wanted.split_terminator("; ").count()
        );
    }
    // what is read begins there: a name before it is not used
    assert_eq!(listed(Attributes::new("r a='1' b='2' a='3'", 7)), "b=2; a=3");
    assert_eq!(listed(Attributes::new(" a='1'", 0)), "a=1");
    // places count from the start of the text
    assert_eq!(listed(Attributes::new("r a='1' b", 8)), "refused 21 9");
    // a name or something else goes on there
    for pos in [0, 1, 7, 14, 18, 20] {
        assert_eq!(listed(Attributes::new(text, pos)), "refused 17 0", "{pos}");
    }
    // in the midst of a character
    assert_eq!(listed(Attributes::new("\u{e9} a='1'", 1)), "refused 17 0");
    const EARLY: Attributes<'static> = Attributes::new("r a='1'", 1);
    assert_eq!(listed(EARLY), "a=1");
}

#[test]
fn tags_that_a_user_makes_or_changes() {
    assert_eq!(listed(BytesStart::new("r a='1'").attributes()), "");
    assert_eq!(listed(BytesStart::from_content("r s a='1'", 3).attributes()), "a=1");
    assert_eq!(
        listed(BytesStart::from_content("r a='1'", 0).attributes()),
        "refused 17 0"
    );
    assert_eq!(
        BytesStart::from_content("r a='1'", 0).try_get_attribute("a"),
        Err(AttrRefused::BadState.into())
    );
    let mut changed = tag("r a='1'");
    changed.set_name("two words");
    assert_eq!(listed(changed.attributes()), "a=1");
    assert_eq!(changed.try_get_attribute("a").unwrap().unwrap().value, "1");
    changed.clear_attributes();
    assert_eq!(listed(changed.attributes()), "");
}

#[test]
fn instructions() {
    let mut reader = Reader::from_str("<?xml-stylesheet type='text/css' href=\"a.css\"?><?php echo?><?a?>");
    for wanted in ["type=text/css; href=a.css", "refused 21 8", ""] {
        let Ok(Event::PI(instruction)) = reader.read_event() else {
            panic!()
        };
        assert_eq!(listed(instruction.attributes()), wanted);
    }
    assert_eq!(listed(BytesPI::new("a b='c'").attributes()), "b=c");
}

#[test]
fn values_that_are_yes_or_no() {
    let rows = [
        ("1", Some(true)),
        ("true", Some(true)),
        ("0", Some(false)),
        ("false", Some(false)),
    ];
    let others = ["", "True", " 1", "1 ", "01", "yes", "&#49;"].map(|value| (value, None));
    for (value, wanted) in rows.into_iter().chain(others) {
        let content = format!("r a='{value}'");
        assert_eq!(
            tag(&content).try_get_attribute("a").unwrap().unwrap().as_bool(),
            wanted,
            "{value:?}"
        );
    }
}

#[test]
fn attributes_by_their_form() {
    let rows = [
        (Attr::DoubleQ("a", "b"), "Attr::DoubleQ(\"a\", \"b\")", Some("b")),
        (Attr::SingleQ("a", "b"), "Attr::SingleQ(\"a\", \"b\")", Some("b")),
        (Attr::Unquoted("a", "b"), "Attr::Unquoted(\"a\", \"b\")", Some("b")),
        (Attr::Empty("a"), "Attr::Empty(\"a\")", None),
    ];
    for (i, (attr, shown, value)) in rows.iter().enumerate() {
        assert_eq!(format!("{attr:?}"), *shown);
        assert_eq!((attr.key(), attr.value()), (QName("a"), value.unwrap_or_default()));
        assert_eq!(<(&str, Option<&str>)>::from(attr.clone()), ("a", *value));
        let lengths = attr.clone().map(|part| part.len() + i);
        assert_eq!(
            <(usize, Option<usize>)>::from(lengths.clone()),
            (1 + i, value.map(|_| 1 + i))
        );
        assert_eq!(format!("{lengths:?}").split('(').next(), shown.split('(').next());
        let made = Attribute::from(attr.clone());
        assert_eq!((made.key, made.value), (QName("a"), value.unwrap_or_default().into()));
        assert!(rows.iter().enumerate().all(|(j, other)| (*attr == other.0) == (i == j)));
    }
    let distinct: HashSet<_> = rows.iter().map(|row| row.0.clone()).collect();
    assert_eq!(distinct.len(), 4);
    assert!(rows.windows(2).all(|pair| pair[0].0 < pair[1].0));
}

#[test]
fn numbers_that_are_refused() {
    let document = b"<r a='1' b='2'>";
    let mut answer = [7; ATTRIBUTE_SLOTS];
    let mut call = |from, to, name, at| {
        (
            lent::attribute(document, from, to, name, at, &mut answer),
            answer == [0; 9],
        )
    };
    // nothing but zeros: 17 has the place 0
    let refused = (17, true);
    assert_eq!(call(1, 14, 1, 2).0, 0);
    // the span
    assert_eq!(call(15, 14, 0, 15), refused);
    assert_eq!(call(1, 16, 1, 2), refused);
    assert_eq!(call(usize::MAX, 14, 1, 2), refused);
    assert_eq!(call(1, usize::MAX, 1, 2), refused);
    assert_eq!(call(16, 16, 0, 16), refused);
    assert_eq!(call(15, 15, 0, 15), (0, true));
    // the name
    assert_eq!(call(1, 14, 0, 1), refused);
    assert_eq!(call(1, 14, 2, 3), refused);
    assert_eq!(call(1, 14, 1 << 63, 2), refused);
    assert_eq!(call(1, 14, usize::MAX, 0), refused);
    // the place
    let reached: Vec<usize> = (0..20).filter(|&at| call(1, 14, 1, at) != refused).collect();
    assert_eq!(reached, [2, 8, 14]);
    assert_eq!(call(1, 14, 1, usize::MAX), refused);
    assert_eq!(call(1, 14, 1, usize::MAX - 6), refused);
}

#[test]
fn numbers_that_are_refused_where_a_name_is_looked_up() {
    let document = b"<r a='1' b='2'>";
    let mut answer = [7; ATTRIBUTE_SLOTS];
    let mut call = |from, to, name| {
        (
            lent::find_attribute(document, from, to, name, b"b", &mut answer),
            answer,
        )
    };
    assert_eq!(call(1, 14, 1), (0, [1, 9, 10, 12, 13, 14, 0, 0, 0]));
    for (from, to, name) in [
        (15, 14, 0),
        (1, 16, 1),
        (usize::MAX, 14, 1),
        (1, usize::MAX, 1),
        (16, 16, 0),
        (1, 14, 0),
        (1, 14, 2),
        (1, 14, usize::MAX),
    ] {
        assert_eq!(call(from, to, name), (17, [0; 9]), "{from} {to} {name}");
    }
    assert_eq!(call(15, 15, 0), (0, [0; 9]));
    // the span may begin and end elsewhere than a tag does
    assert_eq!(call(8, 14, 0), (0, [1, 9, 10, 12, 13, 14, 0, 0, 0]));
    assert_eq!(call(1, 13, 1), (22, [0, 0, 0, 0, 0, 0, 13, 39, 0]));
    assert_eq!(call(1, 8, 1), (0, [0; 9]));
}

#[test]
fn slots_that_are_too_few_or_too_many() {
    let document = b"r a='1'";
    for slots in 0..=ATTRIBUTE_SLOTS + 3 {
        let mut one = vec![7; slots];
        let mut two = vec![7; slots];
        let numbers = (
            lent::attribute(document, 0, 7, 1, 1, &mut one),
            lent::find_attribute(document, 0, 7, 1, b"a", &mut two),
        );
        let wanted: Vec<usize> = if slots < ATTRIBUTE_SLOTS {
            assert_eq!(numbers, (17, 17));
            vec![7; slots]
        } else {
            assert_eq!(numbers, (0, 0));
            [1, 2, 3, 5, 6, 7, 0, 0, 0]
                .into_iter()
                .chain(iter::repeat(7))
                .take(slots)
                .collect()
        };
        assert_eq!((&one, &two), (&wanted, &wanted), "{slots}");
    }
}

/// A call by a second account of the rules: its place, and its number and answer, with places in the content.
struct Call {
    at: usize,
    number: usize,
    answer: [usize; ATTRIBUTE_SLOTS],
}

impl Call {
    fn word(&self, content: &str) -> Option<String> {
        match self.answer {
            [1, name_from, name_to, value_from, value_to, ..] => Some(format!(
                "{}={}",
                &content[name_from..name_to],
                &content[value_from..value_to]
            )),
            [.., place, _, _] => (self.number != 0).then(|| format!("refused {} {place}", self.number)),
        }
    }

    /// Whether who looks for this name stops here.
    fn is_found_by(&self, name: &str, content: &str) -> bool {
        self.answer[0] == 0 || &content[self.answer[1]..self.answer[2]] == name
    }

    /// The answer with places in a document, in which the content begins there.
    fn answer_in(&self, from: usize) -> [usize; ATTRIBUTE_SLOTS] {
        let [found, spans @ .., place, quote, first] = self.answer;
        let [name_from, name_to, value_from, value_to, next] = match found {
            1 => spans.map(|place| place + from),
            _ => spans,
        };
        let place = if self.number == 0 { place } else { place + from };
        let first = if self.number == 24 { first + from } else { first };
        [
            found, name_from, name_to, value_from, value_to, next, place, quote, first,
        ]
    }
}

/// All calls of a tag, of which the last has no attribute.
fn calls(content: &str) -> Vec<Call> {
    let mut calls: Vec<Call> = Vec::new();
    let mut at = name_len(content);
    loop {
        let (number, answer) = call(content, at, &calls);
        calls.push(Call { at, number, answer });
        match answer {
            [1, .., next, _, _, _] => at = next,
            _ => return calls,
        }
    }
}

/// The call at a place, behind these.
fn call(content: &str, at: usize, before: &[Call]) -> (usize, [usize; ATTRIBUTE_SLOTS]) {
    let place = |rest: &str| content.len() - rest.len();
    let refused = |number, rest: &str| (number, [0, 0, 0, 0, 0, 0, place(rest), 0, 0]);
    let rest = &content[at..];
    let begun = rest.trim_start_matches(WHITE);
    if begun.is_empty() {
        return (0, [0; ATTRIBUTE_SLOTS]);
    }
    if begun == rest {
        return refused(19, rest);
    }
    let key = begun
        .split(|c| WHITE.contains(&c) || "='\"".contains(c))
        .next()
        .unwrap_or_default();
    if key.is_empty() {
        return refused(20, begun);
    }
    if let Some(first) = before
        .iter()
        .find(|call| &content[call.answer[1]..call.answer[2]] == key)
    {
        return (24, [0, 0, 0, 0, 0, 0, place(begun), 0, first.answer[1]]);
    }
    let sign = begun[key.len()..].trim_start_matches(WHITE);
    let Some(behind) = sign.strip_prefix('=') else {
        return refused(21, sign);
    };
    let quoted = behind.trim_start_matches(WHITE);
    let Some(quote) = quoted.chars().next().filter(|c| matches!(c, '\'' | '"')) else {
        return refused(22, quoted);
    };
    let value = &quoted[1..];
    let Some(length) = value.find([quote, '<']) else {
        return (22, [0, 0, 0, 0, 0, 0, content.len(), quote as usize, 0]);
    };
    let ended = &value[length..];
    if ended.starts_with('<') {
        return refused(23, ended);
    }
    let (name, value, next) = (place(begun), place(value), place(ended) + 1);
    (0, [1, name, name + key.len(), value, value + length, next, 0, 0, 0])
}

/// Every content of up to so many of these parts.
fn contents(parts: &[&str], most: usize, mut each: impl FnMut(&str)) {
    let mut all = vec![String::new()];
    for _ in 0..most {
        all = all
            .iter()
            .flat_map(|content| parts.iter().map(move |part| format!("{content}{part}")))
            .collect();
        all.iter().for_each(|content| each(content));
    }
}

#[test]
fn a_second_account_of_the_attributes() {
    let parts = [" ", "\t", "=", "'", "\"", "<", "a", "\u{e9}", "='", "a='b'", " c=\"'\""];
    let mut seen = HashSet::new();
    contents(&parts, 5, |content| {
        let (tag, calls) = (tag(content), calls(content));
        let words: Vec<_> = calls.iter().map(|call| call.word(content)).collect();
        let mut attributes = tag.attributes();
        for due in &words {
            assert_eq!(attributes.next().map(word), *due, "{content:?}");
        }
        for name in ["a", "c", "\u{e9}"] {
            let due = calls.iter().position(|call| call.is_found_by(name, content));
            let found = tag.try_get_attribute(name).transpose().map(word);
            assert_eq!(Some(&found), due.map(|index| &words[index]), "{content:?}, {name}");
        }
        seen.insert((calls.len(), calls.last().map(|call| call.number)));
    });
    // none and each refusal, by the first call and by the second
    for (count, numbers) in [(1, &[0, 20, 21, 22, 23][..]), (2, &[0, 19, 20, 21, 22, 23, 24])] {
        for number in numbers {
            assert!(seen.contains(&(count, Some(*number))), "{number} by call {count}");
        }
    }
}

#[test]
fn a_second_account_of_all_slots_at_all_places() {
    let parts = [" ", "=", "'", "<", "a", "r b=''", " a='b'"];
    contents(&parts, 4, |content| {
        let (name, calls) = (name_len(content), calls(content));
        // in a document, behind three bytes and before two
        let document = format!("abc{content}de");
        let (from, to) = (3, 3 + content.len());
        let attribute = |name: usize, at: usize| {
            let mut answer = [7; ATTRIBUTE_SLOTS];
            (
                lent::attribute(document.as_bytes(), from, to, name, at, &mut answer),
                answer,
            )
        };
        let find = |name: usize, wanted: &str| {
            let mut answer = [7; ATTRIBUTE_SLOTS];
            let number = lent::find_attribute(document.as_bytes(), from, to, name, wanted.as_bytes(), &mut answer);
            (number, answer)
        };
        let refused = (17, [0; ATTRIBUTE_SLOTS]);
        for at in 0..=document.len() + 1 {
            let due = calls.iter().find(|call| call.at + from == at);
            let due = due.map_or(refused, |call| (call.number, call.answer_in(from)));
            assert_eq!(attribute(name, at), due, "{content:?} at {at}");
        }
        for wanted in ["a", "b", "r"] {
            let due = calls.iter().find(|call| call.is_found_by(wanted, content));
            let due = due.map(|call| (call.number, call.answer_in(from)));
            assert_eq!(Some(find(name, wanted)), due, "{content:?}, {wanted}");
        }
        for other in (0..=content.len() + 1).filter(|&other| other != name) {
            assert_eq!(attribute(other, from + other), refused, "{content:?}, name {other}");
            assert_eq!(find(other, "a"), refused, "{content:?}, name {other}");
        }
    });
}
