//! The attributes of a tag.

use super::{references, row, Page};
use quick_xml::events::attributes::{AttrError, Attribute, Attributes};
use quick_xml::events::BytesStart;
use quick_xml::name::QName;
use std::borrow::Cow;

const WHITE: [char; 4] = [' ', '\t', '\n', '\r'];

/// Those of a tag, one after the other and each by its name, up to the first error. What comes from the first on that is listed as a difference is not written.
pub fn write(e: &BytesStart, page: &mut Page) {
    let most = alike(e.attributes_raw());
    let error = list(e.attributes(), most, |attribute| told(&attribute, page));
    row!(page, '=', "{error:?}");
    if let Some(Err(error)) = &error {
        row!(page, '=', "{error}, {error:#?}");
    }
    list(e.attributes(), most, |attribute| {
        row!(page, '=', "{:?}", e.try_get_attribute(attribute.key).map(|found| found.map(|found| found == attribute)));
    });
    // a name used twice is no error there, in quick-xml
    if !matches!(error, None | Some(Err(AttrError::Duplicated(..)))) {
        row!(page, '=', "{:?}, {:?}", e.try_get_attribute("b:c"), e.try_get_attribute(QName("")));
    }
}

/// Those of an instruction.
pub fn write_all(attributes: Attributes, behind: &str, page: &mut Page) {
    let error = list(attributes, alike(behind), |attribute| told(&attribute, page));
    row!(page, '=', "{error:?}");
}

/// Hands on so many attributes: no error, or the first; nothing where there may be more.
fn list<'a>(mut attributes: Attributes<'a>, most: usize, mut each: impl FnMut(Attribute<'a>)) -> Option<Result<(), AttrError>> {
    for _ in 0..most {
        match attributes.next() {
            None => return Some(Ok(())),
            Some(Ok(attribute)) => each(attribute),
            Some(Err(error)) => return Some(Err(error)),
        }
    }
    None
}

fn told(attribute: &Attribute, page: &mut Page) {
    let borrowed = matches!(attribute.value, Cow::Borrowed(_));
    row!(page, '=', "{attribute:?}, {borrowed}, {:?}, {:?}", attribute.key.local_name(), attribute.as_bool());
    references::value(attribute, page);
}

/// How many attributes stand before the first place that is listed as a difference: no white space behind a value, a name that begins with `=` or has a quote, `<` in a value, a
/// name used twice without its `=`. As many as can be where there is none.
fn alike(mut rest: &str) -> usize {
    let mut names = Vec::new();
    loop {
        let begun = rest.trim_start_matches(WHITE);
        let (name, behind) = begun.split_at(begun.find(|c| WHITE.contains(&c) || "='\"".contains(c)).unwrap_or(begun.len()));
        let sign = behind.trim_start_matches(WHITE).strip_prefix('=');
        let value = sign.unwrap_or_default().trim_start_matches(WHITE);
        let quote = value.chars().next().filter(|&c| c == '\'' || c == '"');
        let twice = names.contains(&name);
        match () {
            () if begun.is_empty() => return usize::MAX,
            () if begun == rest || name.is_empty() || behind.starts_with(['\'', '"']) || (twice && sign.is_none()) => return names.len(),
            () if twice => return usize::MAX,
            () => {}
        }
        // an error that is the same
        let Some(quote) = quote else { return usize::MAX };
        match value[1..].find([quote, '<']) {
            None => return usize::MAX,
            Some(at) if value[1 + at..].starts_with('<') => return names.len(),
            Some(at) => rest = &value[2 + at..],
        }
        names.push(name);
    }
}
