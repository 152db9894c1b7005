//! The events, by the names and with the behaviour that the given files and programs over them ask for. Ours: the crate's own file is not given.

pub mod attributes;

use crate::errors::Error;
use crate::escape::{escape, parse_number, EscapeError};
use crate::name::{LocalName, QName};
use crate::utils::{name_len, trim_xml_end, trim_xml_start, write_cow_string};
use attributes::{AttrError, Attribute, Attributes};
use std::borrow::Cow;
use std::fmt::{self, Debug, Formatter};
use std::mem::take;
use std::ops::Deref;

/// Text that is a part of something else, or has become text of its own.
type Text<'a> = Cow<'a, str>;

fn owned(text: Text) -> Text<'static> {
    Cow::Owned(text.into_owned())
}

/// `Word { field: Borrowed("..") }`.
fn debug(f: &mut Formatter, word: &str, field: &str, text: &Text) -> fmt::Result {
    write!(f, "{word} {{ {field}: ")?;
    write_cow_string(f, text)?;
    f.write_str(" }")
}

/// What is between the brackets of a tag, and how long the name is that it begins with.
#[derive(Clone, PartialEq, Eq)]
pub struct BytesStart<'a> {
    buf: Text<'a>,
    name_len: usize,
}

impl<'a> BytesStart<'a> {
    pub(crate) fn wrap(content: &'a str, name_len: usize) -> Self {
        Self { buf: content.into(), name_len }
    }

    pub fn new(name: impl Into<Cow<'a, str>>) -> Self {
        let buf = name.into();
        Self { name_len: buf.len(), buf }
    }

    pub fn from_content(content: impl Into<Cow<'a, str>>, name_len: usize) -> Self {
        Self { buf: content.into(), name_len }
    }

    pub fn into_owned(self) -> BytesStart<'static> {
        BytesStart { buf: owned(self.buf), name_len: self.name_len }
    }

    pub fn to_owned(&self) -> BytesStart<'static> {
        self.clone().into_owned()
    }

    pub fn borrow(&self) -> BytesStart<'_> {
        BytesStart::wrap(&self.buf, self.name_len)
    }

    pub fn to_end(&self) -> BytesEnd<'_> {
        BytesEnd::from(self.name())
    }

    pub fn name(&self) -> QName<'_> {
        QName(&self.buf[..self.name_len])
    }

    pub fn local_name(&self) -> LocalName<'_> {
        self.name().local_name()
    }

    pub fn set_name(&mut self, name: &str) -> &mut Self {
        self.buf.to_mut().replace_range(..self.name_len, name);
        self.name_len = name.len();
        self
    }

    pub fn clear_attributes(&mut self) -> &mut Self {
        self.buf.to_mut().truncate(self.name_len);
        self
    }

    pub fn with_attributes<'b, I: IntoIterator<Item: Into<Attribute<'b>>>>(mut self, attributes: I) -> Self {
        self.extend_attributes(attributes);
        self
    }

    pub fn extend_attributes<'b, I: IntoIterator<Item: Into<Attribute<'b>>>>(&mut self, attributes: I) -> &mut Self {
        for attribute in attributes {
            self.push_attribute(attribute);
        }
        self
    }

    pub fn push_attribute<'b>(&mut self, attr: impl Into<Attribute<'b>>) {
        let attr = attr.into();
        self.buf.to_mut().push_str(&format!(" {}=\"{}\"", attr.key.as_ref(), attr.value));
    }

    pub fn attributes_raw(&self) -> &str {
        &self.buf[self.name_len..]
    }

    pub fn attributes(&self) -> Attributes<'_> {
        Attributes::wrap(&self.buf, self.name_len, false)
    }

    pub fn try_get_attribute<N: AsRef<str> + Sized>(&self, attr_name: N) -> Result<Option<Attribute<'_>>, AttrError> {
        for attribute in self.attributes().with_checks(false) {
            let attribute = attribute?;
            if attribute.key.as_ref() == attr_name.as_ref() {
                return Ok(Some(attribute));
            }
        }
        Ok(None)
    }
}

impl Debug for BytesStart<'_> {
    fn fmt(&self, f: &mut Formatter) -> fmt::Result {
        f.write_str("BytesStart { buf: ")?;
        write_cow_string(f, &self.buf)?;
        write!(f, ", name_len: {} }}", self.name_len)
    }
}

impl Deref for BytesStart<'_> {
    type Target = str;

    fn deref(&self) -> &str {
        &self.buf
    }
}

impl<'a> From<QName<'a>> for BytesStart<'a> {
    fn from(name: QName<'a>) -> Self {
        Self::new(name.0)
    }
}

/// The content of an XML declaration.
#[derive(Clone, Debug, PartialEq, Eq)]
pub struct BytesDecl<'a> {
    content: BytesStart<'a>,
}

impl<'a> BytesDecl<'a> {
    pub fn new(version: &str, encoding: Option<&str>, standalone: Option<&str>) -> BytesDecl<'static> {
        let part = |name: &str, value: Option<&str>| value.map_or(String::new(), |value| format!(" {name}=\"{value}\""));
        let content = ["xml".into(), part("version", Some(version)), part("encoding", encoding), part("standalone", standalone)].concat();
        BytesDecl { content: BytesStart::from_content(content, 3) }
    }

    pub fn from_start(start: BytesStart<'a>) -> Self {
        Self { content: start }
    }

    pub fn into_owned(self) -> BytesDecl<'static> {
        BytesDecl { content: self.content.into_owned() }
    }

    pub fn borrow(&self) -> BytesDecl<'_> {
        BytesDecl { content: self.content.borrow() }
    }
}

impl Deref for BytesDecl<'_> {
    type Target = str;

    fn deref(&self) -> &str {
        &self.content
    }
}

/// The content of a processing instruction, which begins with its target.
#[derive(Clone, PartialEq, Eq)]
pub struct BytesPI<'a> {
    content: BytesStart<'a>,
}

impl<'a> BytesPI<'a> {
    pub(crate) fn wrap(content: &'a str, target_len: usize) -> Self {
        Self { content: BytesStart::wrap(content, target_len) }
    }

    pub fn new(content: impl Into<Cow<'a, str>>) -> Self {
        let buf = content.into();
        let target = name_len(buf.as_bytes());
        Self { content: BytesStart::from_content(buf, target) }
    }

    pub fn into_owned(self) -> BytesPI<'static> {
        BytesPI { content: self.content.into_owned() }
    }

    pub fn into_inner(self) -> Cow<'a, str> {
        self.content.buf
    }

    pub fn borrow(&self) -> BytesPI<'_> {
        BytesPI { content: self.content.borrow() }
    }

    pub fn target(&self) -> &str {
        self.content.name().into_inner()
    }

    pub fn content(&self) -> &str {
        self.content.attributes_raw()
    }

    pub fn attributes(&self) -> Attributes<'_> {
        self.content.attributes()
    }
}

impl Debug for BytesPI<'_> {
    fn fmt(&self, f: &mut Formatter) -> fmt::Result {
        debug(f, "BytesPI", "content", &self.content.buf)
    }
}

impl Deref for BytesPI<'_> {
    type Target = str;

    fn deref(&self) -> &str {
        &self.content
    }
}

/// The name in a closing tag.
#[derive(Clone, PartialEq, Eq)]
pub struct BytesEnd<'a> {
    name: Text<'a>,
}

impl<'a> BytesEnd<'a> {
    pub(crate) fn wrap(name: Cow<'a, str>) -> Self {
        Self { name }
    }

    pub fn new(name: impl Into<Cow<'a, str>>) -> Self {
        Self::wrap(name.into())
    }

    pub fn into_owned(self) -> BytesEnd<'static> {
        BytesEnd { name: owned(self.name) }
    }

    pub fn borrow(&self) -> BytesEnd<'_> {
        BytesEnd::new(&*self.name)
    }

    pub fn name(&self) -> QName<'_> {
        QName(&self.name)
    }

    pub fn local_name(&self) -> LocalName<'_> {
        self.name().local_name()
    }
}

impl Debug for BytesEnd<'_> {
    fn fmt(&self, f: &mut Formatter) -> fmt::Result {
        debug(f, "BytesEnd", "name", &self.name)
    }
}

impl Deref for BytesEnd<'_> {
    type Target = str;

    fn deref(&self) -> &str {
        &self.name
    }
}

impl<'a> From<QName<'a>> for BytesEnd<'a> {
    fn from(name: QName<'a>) -> Self {
        Self::new(name.0)
    }
}

/// What the events have in common that are a content and nothing else.
macro_rules! of_a_content {
    ($name:ident, $word:literal) => {
        #[derive(Clone, PartialEq, Eq)]
        pub struct $name<'a> {
            content: Text<'a>,
        }

        impl<'a> $name<'a> {
            pub(crate) fn wrap(content: impl Into<Cow<'a, str>>) -> Self {
                Self { content: content.into() }
            }

            pub fn into_owned(self) -> $name<'static> {
                $name { content: owned(self.content) }
            }

            pub fn into_inner(self) -> Cow<'a, str> {
                self.content
            }

            pub fn borrow(&self) -> $name<'_> {
                $name::wrap(&*self.content)
            }
        }

        impl Debug for $name<'_> {
            fn fmt(&self, f: &mut Formatter) -> fmt::Result {
                debug(f, $word, "content", &self.content)
            }
        }

        impl Deref for $name<'_> {
            type Target = str;

            fn deref(&self) -> &str {
                &self.content
            }
        }
    };
}

of_a_content!(BytesText, "BytesText");
of_a_content!(BytesCData, "BytesCData");
of_a_content!(BytesRef, "BytesRef");

impl<'a> BytesText<'a> {
    pub fn new(content: &'a str) -> Self {
        Self::wrap(escape(content))
    }

    pub fn from_escaped(content: impl Into<Cow<'a, str>>) -> Self {
        Self::wrap(content)
    }

    pub fn inplace_trim_start(&mut self) -> bool {
        self.trim(trim_xml_start)
    }

    pub fn inplace_trim_end(&mut self) -> bool {
        self.trim(trim_xml_end)
    }

    /// Keeps what this leaves of the content, borrowed or owned as it was: true if that is nothing.
    fn trim(&mut self, left: impl Fn(&str) -> &str) -> bool {
        self.content = match take(&mut self.content) {
            Cow::Borrowed(text) => Cow::Borrowed(left(text)),
            Cow::Owned(text) => Cow::Owned(left(&text).into()),
        };
        self.content.is_empty()
    }
}

impl<'a> BytesCData<'a> {
    pub fn new(content: impl Into<Cow<'a, str>>) -> Self {
        Self::wrap(content)
    }
}

impl<'a> BytesRef<'a> {
    pub fn new(content: impl Into<Cow<'a, str>>) -> Self {
        Self::wrap(content)
    }

    pub fn is_char_ref(&self) -> bool {
        self.content.starts_with('#')
    }

    pub fn resolve_char_ref(&self) -> Result<Option<char>, Error> {
        let number = self.content.strip_prefix('#').map(parse_number).transpose();
        number.map_err(|error| EscapeError::InvalidCharRef(error).into())
    }
}

#[derive(Clone, Debug, PartialEq, Eq)]
pub enum Event<'a> {
    Start(BytesStart<'a>),
    End(BytesEnd<'a>),
    Empty(BytesStart<'a>),
    Text(BytesText<'a>),
    CData(BytesCData<'a>),
    Comment(BytesText<'a>),
    Decl(BytesDecl<'a>),
    PI(BytesPI<'a>),
    DocType(BytesText<'a>),
    GeneralRef(BytesRef<'a>),
    Eof,
}

/// The same event with another content.
macro_rules! with {
    ($event:expr, $e:ident => $content:expr) => {
        match $event {
            Event::Start($e) => Event::Start($content),
            Event::End($e) => Event::End($content),
            Event::Empty($e) => Event::Empty($content),
            Event::Text($e) => Event::Text($content),
            Event::CData($e) => Event::CData($content),
            Event::Comment($e) => Event::Comment($content),
            Event::Decl($e) => Event::Decl($content),
            Event::PI($e) => Event::PI($content),
            Event::DocType($e) => Event::DocType($content),
            Event::GeneralRef($e) => Event::GeneralRef($content),
            Event::Eof => Event::Eof,
        }
    };
}

impl<'a> Event<'a> {
    pub fn into_owned(self) -> Event<'static> {
        with!(self, e => e.into_owned())
    }

    pub fn borrow(&self) -> Event<'_> {
        with!(self, e => e.borrow())
    }

    /// The same event over a copy of the bytes that it borrows from. What it owns stays.
    pub(crate) fn over<'b>(self, bytes: &[u8], copy: &'b str) -> Event<'b> {
        let moved = |text: Text| -> Text<'b> {
            match text {
                Cow::Borrowed(text) => {
                    let from = text.as_ptr() as usize - bytes.as_ptr() as usize;
                    Cow::Borrowed(&copy[from..from + text.len()])
                }
                Cow::Owned(text) => Cow::Owned(text),
            }
        };
        let tag = |e: BytesStart| BytesStart { buf: moved(e.buf), name_len: e.name_len };
        match self {
            Event::Start(e) => Event::Start(tag(e)),
            Event::End(e) => Event::End(BytesEnd::wrap(moved(e.name))),
            Event::Empty(e) => Event::Empty(tag(e)),
            Event::Text(e) => Event::Text(BytesText::wrap(moved(e.content))),
            Event::CData(e) => Event::CData(BytesCData::wrap(moved(e.content))),
            Event::Comment(e) => Event::Comment(BytesText::wrap(moved(e.content))),
            Event::Decl(e) => Event::Decl(BytesDecl { content: tag(e.content) }),
            Event::PI(e) => Event::PI(BytesPI { content: tag(e.content) }),
            Event::DocType(e) => Event::DocType(BytesText::wrap(moved(e.content))),
            Event::GeneralRef(e) => Event::GeneralRef(BytesRef::wrap(moved(e.content))),
            Event::Eof => Event::Eof,
        }
    }
}

impl Deref for Event<'_> {
    type Target = str;

    fn deref(&self) -> &str {
        match self {
            Event::Start(e) | Event::Empty(e) => e,
            Event::End(e) => e,
            Event::Text(e) | Event::Comment(e) | Event::DocType(e) => e,
            Event::CData(e) => e,
            Event::Decl(e) => e,
            Event::PI(e) => e,
            Event::GeneralRef(e) => e,
            Event::Eof => "",
        }
    }
}

impl<'a> AsRef<Event<'a>> for Event<'a> {
    fn as_ref(&self) -> &Event<'a> {
        self
    }
}
