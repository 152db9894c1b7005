//! The attributes of a tag, and how they are not well formed.
//!
//! The archive reads them, by the same proved code for [`Attributes`] and for [`try_get_attribute`](crate::events::BytesStart::try_get_attribute). A value is the text between the quotes, as it
//! stands; [`normalized_value`](Attribute::normalized_value) has its references replaced.
//!
//! ```
//! use sporebasket::events::Event;
//! use sporebasket::Reader;
//!
//! let Event::Empty(tag) = Reader::from_str("<r n=\"1\" at='06:15'/>").read_event()? else { panic!() };
//! for attribute in tag.attributes() {
//!     let attribute = attribute?;
//!     println!("{} is {}", attribute.key.as_ref(), attribute.value);
//! }
//! assert_eq!(tag.try_get_attribute("n")?.map(|attribute| attribute.value), Some("1".into()));
//! # Ok::<(), sporebasket::Error>(())
//! ```

use super::name_len;
use crate::errors::Result as XmlResult;
use crate::escape::{escape_attribute, normalize_xml10_attribute_value, normalize_xml10_predefined};
use crate::lent::{self, ATTRIBUTE_SLOTS};
use crate::name::QName;
use crate::raw::attribute as slot;
use crate::XmlVersion;
use std::borrow::Cow;
use std::error;
use std::fmt;
use std::iter::FusedIterator;

/// An attribute: its name, and its value without the quotes, both as they stand in the tag.
///
/// ```
/// use sporebasket::events::attributes::Attribute;
/// use sporebasket::events::BytesStart;
/// use sporebasket::name::QName;
///
/// let tag = BytesStart::from_content("r n = '1&lt;2'", 1);
/// let wanted = Attribute { key: QName("n"), value: "1&lt;2".into() };
/// assert_eq!(tag.try_get_attribute("n")?, Some(wanted));
/// # Ok::<(), sporebasket::Error>(())
/// ```
#[derive(Clone, Debug, PartialEq, Eq)]
pub struct Attribute<'a> {
    /// The name.
    pub key: QName<'a>,
    /// The value. It borrows from the text of the event.
    pub value: Cow<'a, str>,
}

impl<'a> Attribute<'a> {
    /// The value as XML wants it told: a tab, `\r\n`, `\r` and `\n` are spaces, and references are replaced by their characters. A reference to white space, as `&#10;`, becomes that.
    ///
    /// ```
    /// use sporebasket::events::BytesStart;
    /// use sporebasket::XmlVersion;
    ///
    /// let tag = BytesStart::from_content("r to='Bar &amp; Grill\r\n&#x2192; Brig'", 1);
    /// let to = tag.try_get_attribute("to")?.unwrap();
    /// assert_eq!(to.normalized_value(XmlVersion::Implicit1_0)?, "Bar & Grill \u{2192} Brig");
    /// assert_eq!(to.value, "Bar &amp; Grill\r\n&#x2192; Brig");
    /// # Ok::<(), sporebasket::Error>(())
    /// ```
    pub fn normalized_value(&self, version: XmlVersion) -> XmlResult<Cow<'a, str>> {
        let XmlVersion::Implicit1_0 = version;
        Ok(self.own(normalize_xml10_predefined(&self.value)?))
    }

    /// The same, with what the resolver gives for the name of an entity, but for `amp`. White space and references in that are replaced too, and so on, down to this depth; deeper ones are refused
    /// ([`TooManyNestedEntities`](crate::escape::EscapeError::TooManyNestedEntities)).
    ///
    /// ```
    /// use sporebasket::escape::resolve_predefined_entity;
    /// use sporebasket::events::BytesStart;
    /// use sporebasket::XmlVersion;
    ///
    /// let tag = BytesStart::from_content("r to='&grill; &lt;3'", 1);
    /// let to = tag.try_get_attribute("to")?.unwrap();
    /// let resolve = |name: &str| match name {
    ///     "grill" => Some("Bar\n&amp; Grill"),
    ///     _ => resolve_predefined_entity(name),
    /// };
    /// assert_eq!(to.normalized_value_with(XmlVersion::Implicit1_0, 2, resolve)?, "Bar & Grill <3");
    /// assert!(to.normalized_value_with(XmlVersion::Implicit1_0, 1, resolve).is_err());
    /// # Ok::<(), sporebasket::Error>(())
    /// ```
    pub fn normalized_value_with<'entity>(
        &self,
        version: XmlVersion,
        depth: usize,
        resolve_entity: impl FnMut(&str) -> Option<&'entity str>,
    ) -> XmlResult<Cow<'a, str>> {
        let XmlVersion::Implicit1_0 = version;
        Ok(self.own(normalize_xml10_attribute_value(&self.value, depth, resolve_entity)?))
    }

    /// [`normalized_value`](Self::normalized_value) by XML 1.0.
    #[deprecated = "use `Self::normalized_value()`"]
    pub fn unescape_value(&self) -> XmlResult<Cow<'a, str>> {
        self.normalized_value(XmlVersion::Implicit1_0)
    }

    /// [`normalized_value_with`](Self::normalized_value_with) by XML 1.0, down to the depth of 128.
    #[deprecated = "use `Self::normalized_value_with()`"]
    #[inline]
    pub fn unescape_value_with<'entity>(
        &self,
        resolve_entity: impl FnMut(&str) -> Option<&'entity str>,
    ) -> XmlResult<Cow<'a, str>> {
        self.normalized_value_with(XmlVersion::Implicit1_0, 128, resolve_entity)
    }

    /// Text made of the value: the value itself where nothing was replaced.
    fn own(&self, made: Cow<'_, str>) -> Cow<'a, str> {
        match made {
            Cow::Borrowed(_) => self.value.clone(),
            Cow::Owned(text) => Cow::Owned(text),
        }
    }

    /// Yes for the values `1` and `true`, no for `0` and `false`, none for any other.
    ///
    /// ```
    /// use sporebasket::events::BytesStart;
    ///
    /// let tag = BytesStart::from_content("r daily='true' late='0' n='2'", 1);
    /// let values: Vec<_> = tag.attributes().map(|attribute| attribute.unwrap().as_bool()).collect();
    /// assert_eq!(values, [Some(true), Some(false), None]);
    /// ```
    #[inline]
    pub fn as_bool(&self) -> Option<bool> {
        match &*self.value {
            "1" | "true" => Some(true),
            "0" | "false" => Some(false),
            _ => None,
        }
    }
}

impl<'a> From<(&'a str, &'a str)> for Attribute<'a> {
    /// Of a name, and a value in which references come to stand for what a value may not have as it is.
    ///
    /// ```
    /// use sporebasket::events::attributes::Attribute;
    ///
    /// assert_eq!(Attribute::from(("to", "Bar & Grill")).value, "Bar &amp; Grill");
    /// ```
    fn from((key, value): (&'a str, &'a str)) -> Self {
        Attribute::from((key, Cow::Borrowed(value)))
    }
}

impl<'a> From<(&'a str, Cow<'a, str>)> for Attribute<'a> {
    /// The same of a value that may be its own.
    fn from((key, value): (&'a str, Cow<'a, str>)) -> Self {
        Attribute {
            key: QName(key),
            value: escape_attribute(value),
        }
    }
}

impl<'a> From<Attr<&'a str>> for Attribute<'a> {
    fn from(attr: Attr<&'a str>) -> Self {
        Attribute {
            key: attr.key(),
            value: Cow::Borrowed(attr.value()),
        }
    }
}

/// The attributes of a tag, one after the other, in its order.
///
/// Names differ from each other: one that was there before in the tag is refused. A refusal is the last item, since there is no place to go on from; what came before it stands. Each step
/// walks the tag from its name, and nothing is allocated.
///
/// ```
/// use sporebasket::events::attributes::AttrError;
/// use sporebasket::events::BytesStart;
///
/// let tag = BytesStart::from_content("r n='1' n='2' at='06:15'", 1);
/// let mut attributes = tag.attributes();
/// assert_eq!(attributes.next().unwrap()?.value, "1");
/// assert_eq!(attributes.next(), Some(Err(AttrError::Duplicated(8, 2))));
/// assert_eq!(attributes.next(), None);
/// # Ok::<(), sporebasket::Error>(())
/// ```
#[derive(Clone)]
pub struct Attributes<'a> {
    buf: &'a str,
    /// Where the name ends, as it was told.
    pos: usize,
    state: State,
}

/// Where to go on.
#[derive(Clone, Copy, Debug)]
enum State {
    Name,
    Next(usize),
    Done,
}

impl<'a> Attributes<'a> {
    /// Those of a text with the name of a tag and its attributes, in which the name ends at this position. It may be a later one too, at white space or just behind some: what stands
    /// before it is passed over then. At the end of the text and past it there are none. Any other position is refused ([`BadState`](AttrRefused::BadState)).
    ///
    /// ```
    /// use sporebasket::events::attributes::{AttrError, AttrRefused, Attributes};
    ///
    /// let count = |pos| Attributes::new("r n='1' at='06:15'", pos).filter(Result::is_ok).count();
    /// assert_eq!((count(1), count(2), count(7), count(8), count(18), count(19)), (2, 2, 1, 1, 0, 0));
    ///
    /// let refused = AttrError::Refused(AttrRefused::BadState);
    /// assert_eq!(Attributes::new("r n='1'", 3).next(), Some(Err(refused)));
    /// ```
    pub const fn new(buf: &'a str, pos: usize) -> Self {
        Attributes {
            buf,
            pos,
            state: State::Name,
        }
    }

    /// Changes nothing: a name that was there before is refused whatever is said here. In quick-xml that can be turned off.
    ///
    /// ```
    /// use sporebasket::events::attributes::{AttrError, Attributes};
    ///
    /// let mut attributes = Attributes::new("r n='1' n='2'", 1);
    /// let last = attributes.with_checks(false).last();
    /// assert_eq!(last, Some(Err(AttrError::Duplicated(8, 2))));
    /// ```
    pub fn with_checks(&mut self, _val: bool) -> &mut Attributes<'a> {
        self
    }

    /// The attribute of this name.
    pub(super) fn named(&self, name: &str) -> Result<Option<Attribute<'a>>, AttrError> {
        let (from, length) = self.content();
        let (buf, mut answer) = (self.buf.as_bytes(), [0; ATTRIBUTE_SLOTS]);
        let number = lent::find_attribute(buf, from, buf.len(), length, name.as_bytes(), &mut answer);
        self.told(number, &answer)
    }

    /// Where the content begins, up to the end of the text, and the length of its name. A part that begins with white space, or is empty, has a name of no bytes.
    fn content(&self) -> (usize, usize) {
        let white = |at: usize| matches!(self.buf.as_bytes().get(at), Some(b' ' | b'\t' | b'\n' | b'\r'));
        match self.pos {
            pos if pos == name_len(self.buf) => (0, pos),
            pos if pos >= self.buf.len() => (self.buf.len(), 0),
            pos if white(pos) => (pos, 0),
            pos if white(pos.wrapping_sub(1)) => (pos - 1, 0),
            // no name ends there: 17
            pos => (0, pos),
        }
    }

    /// An answer of the archive.
    fn told(&self, number: usize, answer: &[usize; ATTRIBUTE_SLOTS]) -> Result<Option<Attribute<'a>>, AttrError> {
        if number != 0 {
            return Err(AttrError::numbered(number, answer, self.buf.len()));
        }
        let span = |at: usize| self.buf.get(answer[at]..answer[at + 1]).unwrap_or_default();
        Ok((answer[slot::FOUND] == 1).then(|| Attribute {
            key: QName(span(slot::NAME)),
            value: Cow::Borrowed(span(slot::VALUE)),
        }))
    }
}

impl<'a> Iterator for Attributes<'a> {
    type Item = Result<Attribute<'a>, AttrError>;

    fn next(&mut self) -> Option<Self::Item> {
        let (from, length) = self.content();
        let at = match self.state {
            State::Name => from + length,
            State::Next(at) => at,
            State::Done => return None,
        };
        let (buf, mut answer) = (self.buf.as_bytes(), [0; ATTRIBUTE_SLOTS]);
        let number = lent::attribute(buf, from, buf.len(), length, at, &mut answer);
        let told = self.told(number, &answer);
        // nothing is left behind an attribute at the end, and a call there would say so
        self.state = match told {
            Ok(Some(_)) if answer[slot::NEXT] < buf.len() => State::Next(answer[slot::NEXT]),
            Ok(_) | Err(_) => State::Done,
        };
        told.transpose()
    }
}

impl FusedIterator for Attributes<'_> {}

impl fmt::Debug for Attributes<'_> {
    fn fmt(&self, f: &mut fmt::Formatter<'_>) -> fmt::Result {
        f.debug_struct("Attributes")
            .field("buf", &self.buf)
            .field("state", &self.state)
            .finish()
    }
}

/// How an attribute is not well formed. Positions count from the start of the tag's content.
///
/// ```
/// use sporebasket::events::attributes::AttrError;
/// use sporebasket::Error;
///
/// let error = Error::from(AttrError::Duplicated(19, 4));
/// assert_eq!(
///     error.to_string(),
///     "error while parsing attribute: position 19: duplicated attribute, previous declaration at position 4",
/// );
/// ```
#[derive(Clone, Debug, PartialEq, Eq)]
pub enum AttrError {
    /// 21: no `=` behind a name.
    ExpectedEq(usize),
    /// 22: nothing behind an `=`.
    ExpectedValue(usize),
    /// 22: no quote behind an `=`, but another byte.
    UnquotedValue(usize),
    /// 22: a value without its closing quote, which is told. The position is the end of the content.
    ExpectedQuote(usize, u8),
    /// 24: a name that was there before, at the second position.
    Duplicated(usize, usize),
    /// A refusal that quick-xml has not: 17, 19, 20 and 23.
    Refused(AttrRefused),
}

/// The refusals of attributes that quick-xml has not.
///
/// ```
/// use sporebasket::events::attributes::{AttrError, AttrRefused};
/// use sporebasket::events::BytesStart;
///
/// let tag = BytesStart::from_content("r n='1'at='06:15'", 1);
/// let error = tag.attributes().nth(1).unwrap().unwrap_err();
/// assert_eq!(error, AttrError::Refused(AttrRefused::NoSpace(7)));
/// assert_eq!(error.to_string(), "position 7: no white space between a value and what follows it");
/// ```
#[derive(Clone, Copy, Debug, PartialEq, Eq, Hash)]
#[non_exhaustive]
pub enum AttrRefused {
    /// 17: attributes are asked for from a position that [`Attributes::new`] does not take. No tag that a [`Reader`](crate::Reader) gives has it.
    BadState,
    /// 19: something stands right behind a value, with no white space between.
    NoSpace(usize),
    /// 20: `=` or a quote stands where a name should begin.
    EmptyName(usize),
    /// 23: `<` stands in a value.
    LessThan(usize),
}

impl AttrError {
    /// The refusal of this number, in a content of this length.
    fn numbered(number: usize, answer: &[usize; ATTRIBUTE_SLOTS], length: usize) -> Self {
        let place = answer[slot::PLACE];
        match number {
            19 => AttrRefused::NoSpace(place).into(),
            20 => AttrRefused::EmptyName(place).into(),
            21 => AttrError::ExpectedEq(place),
            22 => match answer[slot::QUOTE] {
                0 if place == length => AttrError::ExpectedValue(place),
                0 => AttrError::UnquotedValue(place),
                quote => AttrError::ExpectedQuote(place, quote as u8),
            },
            23 => AttrRefused::LessThan(place).into(),
            24 => AttrError::Duplicated(place, answer[slot::FIRST]),
            _ => AttrRefused::BadState.into(),
        }
    }
}

impl From<AttrRefused> for AttrError {
    fn from(error: AttrRefused) -> Self {
        AttrError::Refused(error)
    }
}

impl fmt::Display for AttrError {
    fn fmt(&self, f: &mut fmt::Formatter<'_>) -> fmt::Result {
        match *self {
            AttrError::ExpectedEq(at) => write!(
                f,
                "position {at}: attribute key must be directly followed by `=` or space"
            ),
            AttrError::ExpectedValue(at) => write!(f, "position {at}: `=` must be followed by an attribute value"),
            AttrError::UnquotedValue(at) => write!(f, "position {at}: attribute value must be enclosed in `\"` or `'`"),
            AttrError::ExpectedQuote(at, quote) => write!(
                f,
                "position {at}: missing closing quote `{}` in attribute value",
                char::from(quote)
            ),
            AttrError::Duplicated(at, before) => write!(
                f,
                "position {at}: duplicated attribute, previous declaration at position {before}"
            ),
            AttrError::Refused(error) => error.fmt(f),
        }
    }
}

impl fmt::Display for AttrRefused {
    fn fmt(&self, f: &mut fmt::Formatter<'_>) -> fmt::Result {
        match self {
            AttrRefused::BadState => f.write_str("attributes are asked for from where no name of a tag ends"),
            AttrRefused::NoSpace(at) => {
                write!(f, "position {at}: no white space between a value and what follows it")
            }
            AttrRefused::EmptyName(at) => write!(f, "position {at}: an attribute without a name"),
            AttrRefused::LessThan(at) => write!(f, "position {at}: `<` in an attribute value"),
        }
    }
}

impl error::Error for AttrError {}

impl error::Error for AttrRefused {}

/// An attribute by the form of its value. Nothing here gives one: [`Attributes`] gives an [`Attribute`], which can be made of it.
///
/// ```
/// use sporebasket::events::attributes::{Attr, Attribute};
/// use sporebasket::name::QName;
///
/// let attr = Attr::DoubleQ("n", "1");
/// assert_eq!((attr.key(), attr.value()), (QName("n"), "1"));
/// assert_eq!(Attribute::from(attr).value, "1");
/// assert_eq!(<(&str, Option<&str>)>::from(Attr::Empty("n")), ("n", None));
/// ```
#[derive(Clone, PartialEq, Eq, PartialOrd, Ord, Hash)]
pub enum Attr<T> {
    /// A name, and a value in `"`.
    DoubleQ(T, T),
    /// A name, and a value in `'`.
    SingleQ(T, T),
    /// A name, and a value without quotes, which XML does not have.
    Unquoted(T, T),
    /// A name alone, which XML does not have.
    Empty(T),
}

impl<T> Attr<T> {
    /// The same form, with something done to the name and then to the value.
    ///
    /// ```
    /// use sporebasket::events::attributes::Attr;
    ///
    /// let text = "r n='1'";
    /// assert_eq!(Attr::SingleQ(2..3, 5..6).map(|span| &text[span]), Attr::SingleQ("n", "1"));
    /// ```
    pub fn map<U, F>(self, mut f: F) -> Attr<U>
    where
        F: FnMut(T) -> U,
    {
        match self {
            Attr::DoubleQ(key, value) => Attr::DoubleQ(f(key), f(value)),
            Attr::SingleQ(key, value) => Attr::SingleQ(f(key), f(value)),
            Attr::Unquoted(key, value) => Attr::Unquoted(f(key), f(value)),
            Attr::Empty(key) => Attr::Empty(f(key)),
        }
    }
}

impl<'a> Attr<&'a str> {
    /// The name.
    ///
    /// ```
    /// use sporebasket::events::attributes::Attr;
    ///
    /// assert_eq!(Attr::Unquoted("n", "1").key().as_ref(), "n");
    /// ```
    pub const fn key(&self) -> QName<'a> {
        match self {
            Attr::DoubleQ(key, _) | Attr::SingleQ(key, _) | Attr::Unquoted(key, _) | Attr::Empty(key) => QName(key),
        }
    }

    /// The value; of a name alone the empty one.
    ///
    /// ```
    /// use sporebasket::events::attributes::Attr;
    ///
    /// assert_eq!((Attr::SingleQ("n", "1").value(), Attr::Empty("n").value()), ("1", ""));
    /// ```
    pub const fn value(&self) -> &'a str {
        match self {
            Attr::DoubleQ(_, value) | Attr::SingleQ(_, value) | Attr::Unquoted(_, value) => value,
            Attr::Empty(_) => "",
        }
    }
}

impl<T> From<Attr<T>> for (T, Option<T>) {
    fn from(attr: Attr<T>) -> Self {
        match attr {
            Attr::DoubleQ(key, value) | Attr::SingleQ(key, value) | Attr::Unquoted(key, value) => (key, Some(value)),
            Attr::Empty(key) => (key, None),
        }
    }
}

impl<T: fmt::Debug> fmt::Debug for Attr<T> {
    fn fmt(&self, f: &mut fmt::Formatter<'_>) -> fmt::Result {
        let (form, key, value) = match self {
            Attr::DoubleQ(key, value) => ("Attr::DoubleQ", key, Some(value)),
            Attr::SingleQ(key, value) => ("Attr::SingleQ", key, Some(value)),
            Attr::Unquoted(key, value) => ("Attr::Unquoted", key, Some(value)),
            Attr::Empty(key) => ("Attr::Empty", key, None),
        };
        let mut tuple = f.debug_tuple(form);
        tuple.field(key);
        if let Some(value) = value {
            tuple.field(value);
        }
        tuple.finish()
    }
}
