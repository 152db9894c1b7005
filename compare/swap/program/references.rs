//! What references stand for: one by itself, in a text and in a value, with the five names and with others.

use super::{row, Page};
use quick_xml::escape::{minimal_escape, partial_escape, resolve_predefined_entity, unescape, unescape_with};
use quick_xml::events::attributes::Attribute;
use quick_xml::events::BytesRef;
use quick_xml::name::QName;
use quick_xml::{Error, XmlVersion};
use std::borrow::Cow;

/// What a text gives.
pub type Given<'t> = Result<Cow<'t, str>, Error>;

/// The ways to read a text, by their numbers.
pub const WAYS: [fn(&str) -> Given<'_>; 7] = [
    character,
    |raw| Ok(unescape(raw)?),
    |raw| Ok(unescape_with(raw, named)?),
    |raw| attribute(raw).normalized_value(XmlVersion::Implicit1_0),
    |raw| attribute(raw).normalized_value_with(XmlVersion::Implicit1_0, 0, named),
    |raw| attribute(raw).normalized_value_with(XmlVersion::Implicit1_0, 2, named),
    unescape_value_with,
];
const CHARACTER: usize = 0;
const VALUE: usize = 3;
const OF_TEXTS: [usize; 2] = [1, 2];
const OF_VALUES: [usize; 6] = [1, 2, 3, 4, 5, 6];

/// The character of a reference by a number, whose content this is; nothing of one by a name.
fn character(raw: &str) -> Given<'_> {
    Ok(BytesRef::new(raw).resolve_char_ref()?.map_or(Cow::Borrowed(""), |c| Cow::Owned(c.into())))
}

#[allow(deprecated)]
fn unescape_value_with(raw: &str) -> Given<'_> {
    attribute(raw).unescape_value_with(named)
}

fn attribute(value: &str) -> Attribute<'_> {
    Attribute { key: QName("a"), value: value.into() }
}

/// Names with white space and references in what they stand for; one stands for another.
fn named(name: &str) -> Option<&'static str> {
    match name {
        "a" => Some("\t&lt;\r\n&#x41;"),
        "b" => Some("b&a;\r"),
        "c" => Some("&amp;&#10;&zz;"),
        "gt" => Some("greater"),
        "" => None,
        _ => resolve_predefined_entity(name),
    }
}

/// What a line says of a text that was read.
pub fn told(way: usize, raw: &str, given: &Given) -> String {
    let given = match given {
        Ok(text) => format!("{text:?}, borrowed {}", matches!(text, Cow::Borrowed(_))),
        Err(error) => format!("{error:?}, {error}").replace('\n', "\\n"),
    };
    format!("{way} {raw:?}: {given}")
}

fn write(way: usize, raw: &str, page: &mut Page) {
    line(way, raw, &WAYS[way](raw), page);
}

/// What the text gives. The text stands there too where there may be a reference by a number, of which some are listed as a difference.
fn line(way: usize, raw: &str, given: &Given, page: &mut Page) {
    if raw.contains('#') {
        row!(page, '%', "{}", told(way, raw, given));
    } else {
        row!(page, '=', "{}", told(way, "", given));
    }
}

pub fn reference(e: &BytesRef, page: &mut Page) {
    row!(page, '=', "{}", e.is_char_ref());
    write(CHARACTER, e, page);
    text(&format!("&{};", &**e), page);
}

pub fn text(raw: &str, page: &mut Page) {
    OF_TEXTS.iter().for_each(|&way| write(way, raw, page));
}

pub fn value(attribute: &Attribute, page: &mut Page) {
    OF_VALUES.iter().for_each(|&way| write(way, &attribute.value, page));
    let owned = Attribute { key: attribute.key, value: Cow::Owned(attribute.value.to_string()) };
    line(VALUE, &attribute.value, &owned.normalized_value(XmlVersion::Implicit1_0), page);
}

/// A text with references in the place of some characters.
pub fn escaped(raw: &str, page: &mut Page) {
    row!(page, '=', "{:?}, {:?}", partial_escape(raw), minimal_escape(raw));
}
