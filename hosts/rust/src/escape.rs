//! Replacing references in a text, and writing them for characters that a text may not hold.
//!
//! [`unescape`] is a proved function of the archive, over strings, and a reference by a number, `&#233;` or `&#xE9;`, is read by another one wherever it stands. A character that XML does not permit, as that of
//! `&#1;`, is refused.
//!
//! ```
//! use sporebasket::escape::{escape, unescape};
//!
//! assert_eq!(unescape("Bar &amp; Grill &#x2192; Brig")?, "Bar & Grill \u{2192} Brig");
//! assert_eq!(escape("Bar & Grill"), "Bar &amp; Grill");
//! # Ok::<(), sporebasket::escape::EscapeError>(())
//! ```

use crate::lent;
use std::borrow::Cow;
use std::error;
use std::fmt;
use std::num::ParseIntError;
use std::ops::Range;

/// How a reference to a character by its number cannot be read.
#[derive(Clone, Debug, PartialEq, Eq)]
pub enum ParseCharRefError {
    /// A sign before the number.
    UnexpectedSign,
    /// Not a number, or one of more than 32 bits.
    InvalidNumber(ParseIntError),
    /// The number of no character of Unicode.
    InvalidCodepoint(u32),
    /// The number of a character that XML does not permit: 0, and in hexadecimal 1 to 8, B, C, E to 1F, FFFE and FFFF.
    IllegalCharacter(u32),
}

/// How a reference cannot be resolved.
///
/// ```
/// use sporebasket::escape::EscapeError;
/// use sporebasket::Error;
///
/// let error = Error::from(EscapeError::UnrecognizedEntity(1..4, "bus".into()));
/// assert_eq!(error.to_string(), "at 1..4: unrecognized entity `bus`");
/// ```
#[derive(Clone, Debug, PartialEq, Eq)]
pub enum EscapeError {
    /// An entity that is not known: where its name stands, and the name.
    UnrecognizedEntity(Range<usize>, String),
    /// An `&` without its `;`, or with another `&` before that.
    UnterminatedEntity(Range<usize>),
    /// A reference to a character by its number that cannot be read.
    InvalidCharRef(ParseCharRefError),
    /// Entities in entities, more than may be.
    TooManyNestedEntities,
}

impl fmt::Display for ParseCharRefError {
    fn fmt(&self, f: &mut fmt::Formatter<'_>) -> fmt::Result {
        match self {
            ParseCharRefError::UnexpectedSign => f.write_str("unexpected number sign"),
            ParseCharRefError::InvalidNumber(error) => error.fmt(f),
            ParseCharRefError::InvalidCodepoint(n) => write!(f, "`{n}` is not a valid codepoint"),
            ParseCharRefError::IllegalCharacter(n) => write!(f, "0x{n:x} character is not permitted in XML"),
        }
    }
}

impl fmt::Display for EscapeError {
    fn fmt(&self, f: &mut fmt::Formatter<'_>) -> fmt::Result {
        match self {
            EscapeError::UnrecognizedEntity(range, name) => write!(f, "at {range:?}: unrecognized entity `{name}`"),
            EscapeError::UnterminatedEntity(range) => write!(
                f,
                "Error while escaping character at range {range:?}: Cannot find ';' after '&'"
            ),
            EscapeError::InvalidCharRef(error) => write!(f, "invalid character reference: {error}"),
            EscapeError::TooManyNestedEntities => f.write_str("too many nested entities in an attribute value"),
        }
    }
}

impl error::Error for ParseCharRefError {
    fn source(&self) -> Option<&(dyn error::Error + 'static)> {
        match self {
            ParseCharRefError::InvalidNumber(error) => Some(error),
            _ => None,
        }
    }
}

impl error::Error for EscapeError {
    fn source(&self) -> Option<&(dyn error::Error + 'static)> {
        match self {
            EscapeError::InvalidCharRef(error) => Some(error),
            _ => None,
        }
    }
}

impl ParseCharRefError {
    /// Why what stands behind the `#` is refused, by quick-xml's cases.
    fn of(number: &str) -> Self {
        let (digits, radix) = match number.strip_prefix('x') {
            Some(digits) => (digits, 16),
            None => (number, 10),
        };
        if digits.starts_with(['+', '-']) {
            return ParseCharRefError::UnexpectedSign;
        }
        match u32::from_str_radix(digits, radix) {
            Err(error) => ParseCharRefError::InvalidNumber(error),
            Ok(code) if code > 0 && char::from_u32(code).is_none() => ParseCharRefError::InvalidCodepoint(code),
            Ok(code) => ParseCharRefError::IllegalCharacter(code),
        }
    }
}

impl EscapeError {
    /// Why the reference is refused whose `&` stands there, by quick-xml's cases.
    fn of(raw: &str, at: usize) -> Self {
        match content(raw, at) {
            None => EscapeError::UnterminatedEntity(at..raw.len()),
            Some(content) => match content.strip_prefix('#') {
                Some(number) => EscapeError::InvalidCharRef(ParseCharRefError::of(number)),
                None => EscapeError::unrecognized(content, at),
            },
        }
    }

    fn unrecognized(name: &str, at: usize) -> Self {
        EscapeError::UnrecognizedEntity(at + 1..at + 1 + name.len(), name.to_owned())
    }
}

/// What stands between an `&` and its `;`, if no other `&` comes first.
fn content(raw: &str, at: usize) -> Option<&str> {
    let behind = raw.get(at + 1..)?;
    let end = behind.find(['&', ';'])?;
    (behind.as_bytes()[end] == b';').then(|| &behind[..end])
}

/// The character of a reference by a number. The content begins with `#`.
pub(crate) fn char_ref(content: &str) -> Result<char, EscapeError> {
    lent::character(content).ok_or_else(|| EscapeError::InvalidCharRef(ParseCharRefError::of(&content[1..])))
}

/// The text with references in the place of `<`, `>`, `&`, `'`, `"`, and of `\r`, which a reader would take for `\n`.
///
/// ```
/// use sporebasket::escape::escape;
///
/// assert_eq!(escape("a < 'b'\r\n"), "a &lt; &apos;b&apos;&#13;\n");
/// ```
pub fn escape<'a>(raw: impl Into<Cow<'a, str>>) -> Cow<'a, str> {
    escaped(raw.into(), b"<>&'\"\r")
}

/// The text with references in the place of `<`, `>`, `&` and `\r`: for text between tags, where quotes may stand.
///
/// ```
/// use sporebasket::escape::partial_escape;
///
/// assert_eq!(partial_escape("a > 'b'"), "a &gt; 'b'");
/// ```
pub fn partial_escape<'a>(raw: impl Into<Cow<'a, str>>) -> Cow<'a, str> {
    escaped(raw.into(), b"<>&\r")
}

/// The text with references in the place of `<`, `&` and `\r`, which is as much as XML asks for.
///
/// ```
/// use sporebasket::escape::minimal_escape;
///
/// assert_eq!(minimal_escape("a > b & c"), "a > b &amp; c");
/// ```
pub fn minimal_escape<'a>(raw: impl Into<Cow<'a, str>>) -> Cow<'a, str> {
    escaped(raw.into(), b"<&\r")
}

/// The text as an attribute's value is to have it: as [`escape`] does it, and `\n` and `\t` too, which would become spaces.
pub(crate) fn escape_attribute<'a>(raw: impl Into<Cow<'a, str>>) -> Cow<'a, str> {
    escaped(raw.into(), b"<>&'\"\r\n\t")
}

/// The text with references in the place of these characters.
fn escaped<'a>(raw: Cow<'a, str>, characters: &[u8]) -> Cow<'a, str> {
    let next = |text: &str| text.bytes().position(|byte| characters.contains(&byte));
    if next(&raw).is_none() {
        return raw;
    }
    let (mut escaped, mut rest) = (String::with_capacity(raw.len()), &*raw);
    while let Some(at) = next(rest) {
        escaped.push_str(&rest[..at]);
        escaped.push_str(match rest.as_bytes()[at] {
            b'<' => "&lt;",
            b'>' => "&gt;",
            b'&' => "&amp;",
            b'\'' => "&apos;",
            b'"' => "&quot;",
            b'\t' => "&#9;",
            b'\n' => "&#10;",
            _ => "&#13;",
        });
        rest = &rest[at + 1..];
    }
    escaped.push_str(rest);
    Cow::Owned(escaped)
}

/// The text with every reference replaced by its character: `&lt;`, `&gt;`, `&amp;`, `&apos;`, `&quot;`, and those by a number. A text without `&` is given back as it is.
///
/// The first reference from the left that is none of these is refused. [`StrExt::unescaped`](crate::ext::StrExt::unescaped) is the same with the refusal's number and place.
///
/// ```
/// use sporebasket::escape::{unescape, EscapeError, ParseCharRefError};
/// use std::borrow::Cow;
///
/// assert_eq!(unescape("St-L&#233;onard")?, "St-Léonard");
/// assert!(matches!(unescape("Brig")?, Cow::Borrowed("Brig")));
///
/// assert_eq!(unescape("a&bus;"), Err(EscapeError::UnrecognizedEntity(2..5, "bus".into())));
/// assert_eq!(unescape("a & b"), Err(EscapeError::UnterminatedEntity(2..5)));
/// assert_eq!(unescape("&#1;"), Err(EscapeError::InvalidCharRef(ParseCharRefError::IllegalCharacter(1))));
/// # Ok::<(), EscapeError>(())
/// ```
pub fn unescape(raw: &str) -> Result<Cow<'_, str>, EscapeError> {
    if !raw.contains('&') {
        return Ok(Cow::Borrowed(raw));
    }
    // 25 or 26: the buffer is as long as the text
    lent::unescaped(raw)
        .map(Cow::Owned)
        .map_err(|(_, place)| EscapeError::of(raw, place))
}

/// The text with every reference by a number replaced by its character, and every other by what the resolver gives for its name. What it gives is not looked at again.
///
/// No name is known but to the resolver: it may hand on to [`resolve_predefined_entity`].
///
/// ```
/// use sporebasket::escape::{resolve_predefined_entity, unescape_with};
///
/// let resolve = |name: &str| match name {
///     "bus" => Some("Bus & boat"),
///     _ => resolve_predefined_entity(name),
/// };
/// assert_eq!(unescape_with("&bus; &lt;&#49;&gt;", resolve)?, "Bus & boat <1>");
/// # Ok::<(), sporebasket::escape::EscapeError>(())
/// ```
pub fn unescape_with<'input, 'entity, F>(
    raw: &'input str,
    mut resolve_entity: F,
) -> Result<Cow<'input, str>, EscapeError>
where
    F: FnMut(&str) -> Option<&'entity str>,
{
    if !raw.contains('&') {
        return Ok(Cow::Borrowed(raw));
    }
    let (mut unescaped, mut done) = (String::with_capacity(raw.len()), 0);
    while let Some(before) = raw[done..].find('&') {
        let at = done + before;
        unescaped.push_str(&raw[done..at]);
        let content = content(raw, at).ok_or(EscapeError::UnterminatedEntity(at..raw.len()))?;
        if content.starts_with('#') {
            unescaped.push(char_ref(content)?);
        } else {
            let text = resolve_entity(content).ok_or_else(|| EscapeError::unrecognized(content, at))?;
            unescaped.push_str(text);
        }
        done = at + content.len() + 2;
    }
    unescaped.push_str(&raw[done..]);
    Ok(Cow::Owned(unescaped))
}

/// The value of an attribute as XML wants it told: white space replaced by spaces, and references by what they stand for, in which both are done again.
///
/// - `is_normalization_char` tells which bytes are looked at: `&`, which begins a reference, a tab, which becomes a space, and those with which a line end begins.
/// - `normalize_eol_step` appends what stands for a line end, for which it is given a space, and tells where to go on.
/// - `resolve_entity` gives what stands for a name; in that, all this is done again, `depth` deep. A reference by a number becomes its character, and `&amp;` an `&`.
///
/// A reference goes from `&` to the next `;`.
/// [`Attribute::normalized_value_with`](crate::events::attributes::Attribute::normalized_value_with) has the two functions of XML 1.0.
///
/// ```
/// use sporebasket::escape::{normalize_attribute_value, EscapeError};
///
/// let is_special = |byte: &u8| matches!(byte, b'&' | b'\t' | b'\n');
/// let step = |text: &mut String, _: &str, at: usize, space: char| {
///     text.push(space);
///     at + 1
/// };
/// let normalized = |value, depth| {
///     normalize_attribute_value(value, depth, is_special, step, |name| match name {
///         "stop" => Some("&name;\t&#9;"),
///         "name" => Some("Brig"),
///         _ => None,
///     })
///     .map(String::from)
/// };
/// assert_eq!(normalized("to\n&stop;", 2), Ok("to Brig \t".into()));
/// assert_eq!(normalized("to\n&stop;", 1), Err(EscapeError::TooManyNestedEntities));
/// ```
pub fn normalize_attribute_value<'input, 'entity, C, E, F>(
    value: &'input str,
    depth: usize,
    is_normalization_char: C,
    normalize_eol_step: E,
    mut resolve_entity: F,
) -> Result<Cow<'input, str>, EscapeError>
where
    C: Fn(&u8) -> bool,
    E: Fn(&mut String, &str, usize, char) -> usize,
    F: FnMut(&str) -> Option<&'entity str>,
{
    if !value.as_bytes().iter().any(&is_normalization_char) {
        return Ok(Cow::Borrowed(value));
    }
    let mut normalized = String::with_capacity(value.len());
    normalize(
        &mut normalized,
        value,
        depth,
        &is_normalization_char,
        &normalize_eol_step,
        &mut resolve_entity,
    )?;
    Ok(Cow::Owned(normalized))
}

/// Appends the value, or what an entity in it stands for.
fn normalize<'entity, C, E, F>(
    normalized: &mut String,
    value: &str,
    depth: usize,
    is_special: &C,
    eol_step: &E,
    resolve_entity: &mut F,
) -> Result<(), EscapeError>
where
    C: Fn(&u8) -> bool,
    E: Fn(&mut String, &str, usize, char) -> usize,
    F: FnMut(&str) -> Option<&'entity str>,
{
    let next = |from: usize| value.as_bytes().get(from..)?.iter().position(is_special);
    let mut done = 0;
    while let Some(before) = next(done) {
        if depth == 0 {
            return Err(EscapeError::TooManyNestedEntities);
        }
        let at = done + before;
        normalized.push_str(&value[done..at]);
        done = match value.as_bytes()[at] {
            b'&' => {
                let behind = &value[at + 1..];
                let end = behind
                    .find(';')
                    .ok_or(EscapeError::UnterminatedEntity(at..value.len()))?;
                let content = &behind[..end];
                if content.starts_with('#') {
                    normalized.push(char_ref(content)?);
                } else if content == "amp" {
                    normalized.push('&');
                } else {
                    let text = resolve_entity(content).ok_or_else(|| EscapeError::unrecognized(content, at))?;
                    normalize(normalized, text, depth - 1, is_special, eol_step, resolve_entity)?;
                }
                at + end + 2
            }
            b'\t' => {
                normalized.push(' ');
                at + 1
            }
            // always on, whatever a user's function says
            _ => eol_step(normalized, value, at, ' ').max(at + 1),
        };
    }
    normalized.push_str(value.get(done..).unwrap_or_default());
    Ok(())
}

/// The line ends of XML 1.0: `\r\n`, `\r` and `\n`.
fn xml10_eol_step(normalized: &mut String, value: &str, at: usize, eol: char) -> usize {
    normalized.push(eol);
    at + if value[at..].starts_with("\r\n") { 2 } else { 1 }
}

/// [`normalize_attribute_value`] by the white space of XML 1.0.
pub(crate) fn normalize_xml10_attribute_value<'input, 'entity, F>(
    value: &'input str,
    depth: usize,
    resolve_entity: F,
) -> Result<Cow<'input, str>, EscapeError>
where
    F: FnMut(&str) -> Option<&'entity str>,
{
    let is_special = |byte: &u8| matches!(byte, b'\t' | b'\r' | b'\n' | b'&');
    normalize_attribute_value(value, depth, is_special, xml10_eol_step, resolve_entity)
}

/// The same with the five names: spaces for white space, then the archive's function for all references at once. No reference that it takes has white space in it, and it makes none of what it replaces.
pub(crate) fn normalize_xml10_predefined(value: &str) -> Result<Cow<'_, str>, EscapeError> {
    let is_white = |byte: &u8| matches!(byte, b'\t' | b'\r' | b'\n');
    let spaced = normalize_attribute_value(value, 1, is_white, xml10_eol_step, |_| None)?;
    if !spaced.contains('&') {
        return Ok(spaced);
    }
    match lent::unescaped(&spaced) {
        Ok(unescaped) => Ok(Cow::Owned(unescaped)),
        // what is wrong, as it stands in the value
        Err(_) => normalize_xml10_attribute_value(value, 1, resolve_predefined_entity),
    }
}

/// What one of the five names stands for that XML has without a declaration: [`resolve_xml_entity`].
///
/// ```
/// use sporebasket::escape::resolve_predefined_entity;
///
/// assert_eq!((resolve_predefined_entity("amp"), resolve_predefined_entity("bus")), (Some("&"), None));
/// ```
#[inline]
pub const fn resolve_predefined_entity(entity: &str) -> Option<&'static str> {
    resolve_xml_entity(entity)
}

/// What `lt`, `gt`, `amp`, `apos` and `quot` stand for; nothing for any other name.
///
/// ```
/// use sporebasket::escape::resolve_xml_entity;
///
/// assert_eq!((resolve_xml_entity("quot"), resolve_xml_entity("nbsp")), (Some("\""), None));
/// ```
pub const fn resolve_xml_entity(entity: &str) -> Option<&'static str> {
    Some(match entity.as_bytes() {
        b"lt" => "<",
        b"gt" => ">",
        b"amp" => "&",
        b"apos" => "'",
        b"quot" => "\"",
        _ => return None,
    })
}
