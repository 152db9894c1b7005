//! All that an event tells, and what can be made of it.

use super::{attributes, references, row, Page};
use quick_xml::events::{BytesCData, BytesDecl, BytesEnd, BytesPI, BytesRef, BytesStart, BytesText, Event};
use quick_xml::name::{LocalName, Prefix, QName};
use std::borrow::Cow;
use std::collections::hash_map::DefaultHasher;
use std::hash::{Hash, Hasher};

/// Everything of an event.
pub fn write(event: &Event, page: &mut Page) {
    row!(page, '=', "{event:?}");
    row!(page, '=', "{event:#?}, {}, {} bytes", &**event, event.len());
    row!(page, '=', "{:?}, {:?}", event.clone().into_owned(), event.borrow());
    let owned = event.clone().into_owned();
    row!(page, '=', "{:?}, {:?}, {:?}", owned.clone(), owned.borrow(), owned.clone().into_owned());
    row!(page, '=', "alike {} {} {} {}", *seen(event) == owned, event.borrow() == owned, *event == event.clone(), owned == owned.borrow());
    row!(page, '=', "as others {:?}", others(event).map(|other| other == *event));
    match event {
        Event::Start(e) | Event::Empty(e) => tag(e, page),
        Event::End(e) => end(e, page),
        Event::Text(e) | Event::Comment(e) | Event::DocType(e) => text(e, page),
        Event::CData(e) => data(e, page),
        Event::GeneralRef(e) => reference(e, page),
        Event::Decl(e) => declaration(e, page),
        Event::PI(e) => instruction(e, page),
        Event::Eof => {}
    }
}

/// The event in what is one, as a function takes it that is to take any.
fn seen<'e, 'a: 'e>(event: &'e impl AsRef<Event<'a>>) -> &'e Event<'a> {
    event.as_ref()
}

/// Events that a user makes of the same text, one of each kind: none is as good as another.
fn others<'e>(event: &'e Event) -> [Event<'e>; 11] {
    let text: &str = event;
    [
        Event::Start(BytesStart::new(text)),
        Event::End(BytesEnd::new(text)),
        Event::Empty(BytesStart::new(text)),
        Event::Text(BytesText::from_escaped(text)),
        Event::CData(BytesCData::new(text)),
        Event::Comment(BytesText::from_escaped(text)),
        Event::Decl(BytesDecl::from_start(BytesStart::from_content(text, text.len().min(3)))),
        Event::PI(BytesPI::new(text)),
        Event::DocType(BytesText::from_escaped(text)),
        Event::GeneralRef(BytesRef::new(text)),
        Event::Eof,
    ]
}

fn hash(of: impl Hash) -> u64 {
    let mut hasher = DefaultHasher::new();
    of.hash(&mut hasher);
    hasher.finish()
}

fn borrowed(text: Cow<str>) -> bool {
    matches!(text, Cow::Borrowed(_))
}

/// A name, and its two parts.
pub fn name(name: QName, page: &mut Page) {
    let inner: &str = name.into_inner();
    row!(page, '=', "{name:?} {inner:?} {:?} {:?} {:x}", name.0, name.as_ref(), hash(name));
    let others = [QName("a"), QName("m:n"), QName(inner)];
    row!(page, '=', "{:?}", others.map(|other| (name == other, name.cmp(&other), name < other)));
    let (local, prefix): (LocalName, Option<Prefix>) = name.decompose();
    row!(page, '=', "{local:?} {:?} {:?} {:?} {:x}", local.as_ref(), local.into_inner(), LocalName::from(name), hash(local));
    row!(page, '=', "{prefix:?} {:?} {:?}", name.prefix(), name.local_name());
    row!(page, '=', "{} {}", local == LocalName::from(QName(inner)), local < LocalName::from(QName("b")));
    if let Some(prefix) = prefix {
        let of_a = QName("a:b").prefix();
        row!(page, '=', "{:?} {:?} {} {} {:x}", prefix.as_ref(), prefix.into_inner(), prefix.is_xml(), prefix.is_xmlns(), hash(prefix));
        row!(page, '=', "{} {:?}", Some(prefix) == of_a, Some(prefix).cmp(&of_a));
    }
}

fn tag(e: &BytesStart, page: &mut Page) {
    let length = e.name().as_ref().len();
    let content: &str = e;
    row!(page, '=', "{e:?}, {content}, {:?}, {:?}, {length}", e.attributes_raw(), e.local_name());
    name(e.name(), page);
    row!(page, '=', "{:?}, {:?}, {:?}", e.clone().into_owned(), e.to_owned(), e.borrow());
    row!(page, '=', "{:?}, {:?}, {:?}", e.to_end(), e.to_end().into_owned(), e.to_end().name());
    row!(page, '=', "{:?}, {:?}", BytesStart::from(e.name()), BytesEnd::from(e.name()));
    let whole = BytesStart::from_content(content, content.len());
    let none = BytesStart::from_content(content, 0);
    let same = BytesStart::from_content(content.to_string(), length);
    row!(page, '=', "alike {} {} {} {}", *e == whole, *e == none, *e == same, *e == BytesStart::new(content));
    row!(page, '=', "{none:?} {:?} {same:?} {whole:?}", none.name());
    attributes::write(e, page);
    changed(e, page);
}

/// A tag with another name, and without its attributes.
fn changed(e: &BytesStart, page: &mut Page) {
    let mut other = e.clone();
    other.set_name("other:name");
    row!(page, '=', "{other:?}, {:?}, {:?}, {}", other.name(), other.attributes_raw(), other == *e);
    other.clear_attributes().set_name("o");
    row!(page, '=', "{other:?}, {:?}, {:?}", other.local_name(), other.borrow());
    let mut bare = e.borrow();
    bare.clear_attributes();
    row!(page, '=', "{bare:?}, {}, {:?}", bare == *e, bare.to_end());
}

fn end(e: &BytesEnd, page: &mut Page) {
    row!(page, '=', "{e:?}, {}, {:?}", &**e, e.local_name());
    name(e.name(), page);
    row!(page, '=', "{:?}, {:?}", e.clone().into_owned(), e.borrow());
    row!(page, '=', "alike {} {}", *e == BytesEnd::new(e.to_string()), *e == BytesEnd::new("a"));
}

fn text(e: &BytesText, page: &mut Page) {
    let content: &str = e;
    row!(page, '=', "{e:?}, {content}, {:?}", e.clone().into_inner());
    row!(page, '=', "{:?}, {:?}, {}", e.clone().into_owned(), e.borrow(), borrowed(e.borrow().into_inner()));
    let escaped = BytesText::new(content);
    row!(page, '=', "{escaped:?}, alike {} {}", escaped == *e, BytesText::from_escaped(content.to_string()) == *e);
    references::text(content, page);
    references::escaped(content, page);
    trimmed(e.clone(), page);
    trimmed(e.clone().into_owned(), page);
}

/// A text without the white space at its ends, each cut off by itself and then the other.
fn trimmed(e: BytesText, page: &mut Page) {
    let (mut one, mut other) = (e.clone(), e);
    row!(page, '=', "{} {one:?}, {} {other:?}", one.inplace_trim_start(), other.inplace_trim_end());
    row!(page, '=', "{} {one:?}, {} {other:?}", one.inplace_trim_end(), other.inplace_trim_start());
}

fn data(e: &BytesCData, page: &mut Page) {
    let content: &str = e;
    row!(page, '=', "{e:?}, {content}, {:?}", e.clone().into_inner());
    row!(page, '=', "{:?}, {:?}, {}", e.clone().into_owned(), e.borrow(), borrowed(e.clone().into_inner()));
    row!(page, '=', "{:?}, alike {}", BytesCData::new(content.to_string()), BytesCData::new(content) == *e);
}

fn reference(e: &BytesRef, page: &mut Page) {
    let content: &str = e;
    row!(page, '=', "{e:?}, {content}, {:?}", e.clone().into_inner());
    row!(page, '=', "{:?}, {:?}, {}", e.clone().into_owned(), e.borrow(), borrowed(e.clone().into_inner()));
    row!(page, '=', "{:?}, alike {} {}", BytesRef::new(content.to_string()), BytesRef::new(content) == *e, BytesRef::new("amp") == *e);
    references::reference(e, page);
}

fn declaration(e: &BytesDecl, page: &mut Page) {
    let content: &str = e;
    row!(page, '=', "{e:?}, {content}, {:?}, {:?}", e.clone().into_owned(), e.borrow());
    let made = [0, 2, 3].map(|length| BytesDecl::from_start(BytesStart::from_content(content, length)));
    row!(page, '=', "{made:?}, alike {:?}", [&made[0], &made[1], &made[2]].map(|made| made == e));
    row!(page, '=', "alike {}", BytesDecl::new("1.0", None, None) == *e);
}

fn instruction(e: &BytesPI, page: &mut Page) {
    let content: &str = e;
    row!(page, '=', "{e:?}, {content}, {:?}, {:?}, {:?}", e.target(), e.content(), e.clone().into_inner());
    row!(page, '=', "{:?}, {:?}, {}", e.clone().into_owned(), e.borrow(), borrowed(e.clone().into_inner()));
    let made = BytesPI::new(content.to_string());
    row!(page, '=', "{made:?}, {:?}, {:?}, alike {}", made.target(), made.content(), made == *e);
    attributes::write_all(e.attributes(), e.content(), page);
}
