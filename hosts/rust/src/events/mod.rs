//! The events of a document, and their text.

pub mod attributes;

use crate::errors::Error;
use crate::escape::{char_ref, escape, unescape};
use crate::ext::{EventExt, Place};
use crate::name::{LocalName, QName};
use attributes::{AttrError, Attribute, Attributes};
use std::borrow::Cow;
use std::fmt;
use std::mem;
use std::ops::Deref;

/// What a call of [`Reader::read_event`](crate::Reader::read_event) found, under quick-xml's names.
///
/// The text is that of the document itself, so an event outlives its reader. Two events are equal if they are of one kind and have the same text;
/// where they stand is not asked. An event derefs to its content, the text between its marks; [`Eof`](Event::Eof) to none.
///
/// ```
/// use sporebasket::events::{BytesStart, Event};
/// use sporebasket::Reader;
///
/// let mut reader = Reader::from_str("<t><r n=\"1\"/>06:15</t>");
/// assert_eq!(reader.read_event()?, Event::Start(BytesStart::new("t")));
/// assert_eq!(reader.read_event()?, Event::Empty(BytesStart::from_content("r n=\"1\"", 1)));
/// assert_eq!(&*reader.read_event()?, "06:15");
/// assert!(matches!(reader.read_event()?, Event::End(tag) if tag.name().as_ref() == "t"));
/// assert_eq!(reader.read_event()?, Event::Eof);
/// # Ok::<(), sporebasket::Error>(())
/// ```
// In the order of the kinds' numbers, and all of one form, so that an event is made of an answer without a branch.
#[derive(Clone, Debug, PartialEq, Eq)]
pub enum Event<'a> {
    /// An opening tag, `<a b="c">`.
    Start(BytesStart<'a>),
    /// A closing tag, `</a>`, or the closing of an [expanded](crate::reader::Config::expand_empty_elements) `<a/>`.
    End(BytesEnd<'a>),
    /// An empty element, `<a b="c"/>`.
    Empty(BytesStart<'a>),
    /// Text between markup and references, as it stands.
    Text(BytesText<'a>),
    /// A reference, `&amp;` or `&#39;`, as it stands.
    GeneralRef(BytesRef<'a>),
    /// A comment, `<!--a-->`.
    Comment(BytesText<'a>),
    /// A CDATA section, `<![CDATA[a]]>`.
    CData(BytesCData<'a>),
    /// An XML declaration, `<?xml version="1.0"?>`.
    Decl(BytesDecl<'a>),
    /// Any other processing instruction, `<?a b?>`.
    PI(BytesPI<'a>),
    /// The end of the document, or of a run that a refusal ended. Every later call gives it again.
    Eof,
    /// A document type. The reader refuses it (14) and never gives this; it is there for code that has an arm for it.
    DocType(BytesText<'a>),
}

/// Does the same to the part of an event, whatever its kind; something else at the end of the document.
macro_rules! each {
    ($event:expr, $part:ident => $same:expr, $eof:expr) => {
        match $event {
            Event::Start($part) => $same,
            Event::End($part) => $same,
            Event::Empty($part) => $same,
            Event::Text($part) => $same,
            Event::CData($part) => $same,
            Event::Comment($part) => $same,
            Event::Decl($part) => $same,
            Event::PI($part) => $same,
            Event::DocType($part) => $same,
            Event::GeneralRef($part) => $same,
            Event::Eof => $eof,
        }
    };
}

/// An event of the same kind, with something done to its part.
macro_rules! with {
    ($event:expr, $part:ident => $done:expr) => {
        match $event {
            Event::Start($part) => Event::Start($done),
            Event::End($part) => Event::End($done),
            Event::Empty($part) => Event::Empty($done),
            Event::Text($part) => Event::Text($done),
            Event::CData($part) => Event::CData($done),
            Event::Comment($part) => Event::Comment($done),
            Event::Decl($part) => Event::Decl($done),
            Event::PI($part) => Event::PI($done),
            Event::DocType($part) => Event::DocType($done),
            Event::GeneralRef($part) => Event::GeneralRef($done),
            Event::Eof => Event::Eof,
        }
    };
}

impl<'a> Event<'a> {
    /// The event of this kind; 10 is the last.
    #[inline]
    pub(crate) fn of_kind(kind: usize, content: Content<'a>) -> Self {
        match kind {
            1 => Event::Start(BytesStart(content)),
            2 => Event::End(BytesEnd(content)),
            3 => Event::Empty(BytesStart(content)),
            4 => Event::Text(BytesText(content)),
            5 => Event::GeneralRef(BytesRef(content)),
            6 => Event::Comment(BytesText(content)),
            7 => Event::CData(BytesCData(content)),
            8 => Event::Decl(BytesDecl {
                content: BytesStart(content),
            }),
            9 => Event::PI(BytesPI {
                content: BytesStart(content),
            }),
            _ => Event::Eof,
        }
    }

    /// The event with text of its own, which needs the document no more.
    ///
    /// ```
    /// use sporebasket::events::Event;
    /// use sporebasket::Reader;
    ///
    /// let kept: Event<'static> = {
    ///     let document = String::from("06:15");
    ///     let event = Reader::from_str(&document).read_event()?.into_owned();
    ///     event
    /// };
    /// assert_eq!(&*kept, "06:15");
    /// # Ok::<(), sporebasket::Error>(())
    /// ```
    pub fn into_owned(self) -> Event<'static> {
        with!(self, part => part.into_owned())
    }

    /// The event with its text borrowed from this one.
    ///
    /// ```
    /// use sporebasket::events::{BytesText, Event};
    ///
    /// let event = Event::Text(BytesText::new("06:15").into_owned());
    /// assert_eq!(event.borrow(), event);
    /// ```
    #[inline]
    pub fn borrow(&self) -> Event<'_> {
        with!(self, part => part.borrow())
    }
}

impl Deref for Event<'_> {
    type Target = str;

    fn deref(&self) -> &str {
        each!(self, part => part, "")
    }
}

impl<'a> AsRef<Event<'a>> for Event<'a> {
    fn as_ref(&self) -> &Event<'a> {
        self
    }
}

impl EventExt for Event<'_> {
    fn place(&self) -> Option<Place> {
        each!(self, part => part.place(), None)
    }
}

/// Where an event stands in its document: its piece, and where its content begins. A document is shorter than 2^32 bytes.
#[derive(Clone, Copy)]
pub(crate) struct At {
    from: u32,
    to: u32,
    content: u32,
}

impl At {
    /// Of an event that a user has made or changed.
    const NOWHERE: At = At {
        from: 1,
        to: 0,
        content: 0,
    };

    #[inline]
    pub(crate) fn new(piece: (usize, usize), content: usize) -> Self {
        At {
            from: piece.0 as u32,
            to: piece.1 as u32,
            content: content as u32,
        }
    }
}

/// Text of an event, how many bytes of it are a tag's name, and where it stands. Two are equal if the texts are.
#[derive(Clone)]
pub(crate) struct Content<'a> {
    pub(crate) text: Cow<'a, str>,
    pub(crate) name_len: usize,
    pub(crate) at: At,
}

impl<'a> Content<'a> {
    /// Text that a user hands over.
    fn made(text: impl Into<Cow<'a, str>>) -> Self {
        Content {
            text: text.into(),
            name_len: 0,
            at: At::NOWHERE,
        }
    }

    fn into_owned(self) -> Content<'static> {
        Content {
            text: Cow::Owned(self.text.into_owned()),
            ..self
        }
    }

    fn borrow(&self) -> Content<'_> {
        Content {
            text: Cow::Borrowed(&self.text),
            ..*self
        }
    }

    fn place(&self) -> Option<Place> {
        let At { from, to, content } = self.at;
        (from <= to).then(|| Place {
            piece: from as usize..to as usize,
            content: content as usize..content as usize + self.text.len(),
        })
    }

    /// Cuts the text down to a part of it.
    fn cut(&mut self, part: impl Fn(&str) -> &str) {
        let text = match mem::take(&mut self.text) {
            Cow::Borrowed(text) => Cow::Borrowed(part(text)),
            Cow::Owned(text) => Cow::Owned(part(&text).to_owned()),
        };
        *self = Content::made(text);
    }
}

impl PartialEq for Content<'_> {
    fn eq(&self, other: &Self) -> bool {
        self.text == other.text
    }
}

impl Eq for Content<'_> {}

/// Whether the text is borrowed, and the text.
impl fmt::Debug for Content<'_> {
    fn fmt(&self, f: &mut fmt::Formatter<'_>) -> fmt::Result {
        match &self.text {
            Cow::Borrowed(text) => write!(f, "Borrowed({text:?})"),
            Cow::Owned(text) => write!(f, "Owned({text:?})"),
        }
    }
}

/// What is white in XML.
fn is_white(c: char) -> bool {
    matches!(c, ' ' | '\t' | '\n' | '\r')
}

/// How many bytes stand before the first white space.
fn name_len(content: &str) -> usize {
    content.find(is_white).unwrap_or(content.len())
}

/// The type of a part that is its text alone, shown under this name.
macro_rules! text {
    ($(#[$documented:meta])* $name:ident, $shown:literal) => {
        $(#[$documented])*
        #[derive(Clone, PartialEq, Eq)]
        pub struct $name<'a>(Content<'a>);

        impl<'a> $name<'a> {
            /// The same with text of its own.
            pub fn into_owned(self) -> $name<'static> {
                $name(self.0.into_owned())
            }

            /// The same with its text borrowed from this one.
            #[inline]
            pub fn borrow(&self) -> $name<'_> {
                $name(self.0.borrow())
            }
        }

        impl Deref for $name<'_> {
            type Target = str;

            fn deref(&self) -> &str {
                &self.0.text
            }
        }

        impl fmt::Debug for $name<'_> {
            fn fmt(&self, f: &mut fmt::Formatter<'_>) -> fmt::Result {
                write!(f, "{} {{ {}: {:?} }}", stringify!($name), $shown, self.0)
            }
        }

        impl EventExt for $name<'_> {
            fn place(&self) -> Option<Place> {
                self.0.place()
            }
        }
    };
}

/// What a part that is as a tag has in common with it.
macro_rules! like_a_tag {
    ($name:ident) => {
        impl<'a> $name<'a> {
            /// The same with text of its own.
            pub fn into_owned(self) -> $name<'static> {
                $name {
                    content: self.content.into_owned(),
                }
            }

            /// The same with its text borrowed from this one.
            #[inline]
            pub fn borrow(&self) -> $name<'_> {
                $name {
                    content: self.content.borrow(),
                }
            }
        }

        impl Deref for $name<'_> {
            type Target = str;

            fn deref(&self) -> &str {
                &self.content
            }
        }

        impl EventExt for $name<'_> {
            fn place(&self) -> Option<Place> {
                self.content.place()
            }
        }
    };
}

/// An opening tag or an empty element: the text between `<` and `>` or `/>`.
///
/// ```
/// use sporebasket::events::Event;
/// use sporebasket::Reader;
///
/// let Event::Empty(tag) = Reader::from_str("<r n=\"1\"/>").read_event()? else { panic!() };
/// assert_eq!(&*tag, "r n=\"1\"");
/// assert_eq!(tag.name().as_ref(), "r");
/// # Ok::<(), sporebasket::Error>(())
/// ```
#[derive(Clone)]
pub struct BytesStart<'a>(Content<'a>);

impl<'a> BytesStart<'a> {
    /// A tag that is its name alone.
    ///
    /// ```
    /// use sporebasket::events::BytesStart;
    ///
    /// assert_eq!(BytesStart::new("r").name().as_ref(), "r");
    /// ```
    #[inline]
    pub fn new<C: Into<Cow<'a, str>>>(name: C) -> Self {
        let name = name.into();
        let name_len = name.len();
        BytesStart::from_content(name, name_len)
    }

    /// A tag of this content, of which so many bytes are the name. Where the content has fewer, or a character stands across that place, what asks for the name
    /// panics.
    ///
    /// ```
    /// use sporebasket::events::BytesStart;
    ///
    /// assert_eq!(BytesStart::from_content("r n=\"1\"", 1).attributes_raw(), " n=\"1\"");
    /// ```
    #[inline]
    pub fn from_content<C: Into<Cow<'a, str>>>(content: C, name_len: usize) -> Self {
        BytesStart(Content {
            name_len,
            ..Content::made(content)
        })
    }

    /// The same with text of its own.
    pub fn into_owned(self) -> BytesStart<'static> {
        BytesStart(self.0.into_owned())
    }

    /// A copy with text of its own.
    pub fn to_owned(&self) -> BytesStart<'static> {
        self.borrow().into_owned()
    }

    /// The same with its text borrowed from this one.
    pub fn borrow(&self) -> BytesStart<'_> {
        BytesStart(self.0.borrow())
    }

    /// The closing tag for it.
    ///
    /// ```
    /// use sporebasket::events::{BytesEnd, BytesStart};
    ///
    /// assert_eq!(BytesStart::from_content("r n=\"1\"", 1).to_end(), BytesEnd::new("r"));
    /// ```
    pub fn to_end(&self) -> BytesEnd<'_> {
        self.name().into()
    }

    /// The name: what stands before the first white space.
    ///
    /// ```
    /// use sporebasket::events::Event;
    /// use sporebasket::Reader;
    ///
    /// let Event::Start(tag) = Reader::from_str("<a b='>'>").read_event()? else { panic!() };
    /// assert_eq!(tag.name().as_ref(), "a");
    /// # Ok::<(), sporebasket::Error>(())
    /// ```
    #[inline]
    pub fn name(&self) -> QName<'_> {
        QName(&self.0.text[..self.0.name_len])
    }

    /// The name without its prefix.
    #[inline]
    pub fn local_name(&self) -> LocalName<'_> {
        self.name().into()
    }

    /// Gives it another name.
    ///
    /// ```
    /// use sporebasket::events::BytesStart;
    ///
    /// let mut tag = BytesStart::from_content("r n=\"1\"", 1);
    /// tag.set_name("row");
    /// assert_eq!(&*tag, "row n=\"1\"");
    /// ```
    pub fn set_name(&mut self, name: &str) -> &mut BytesStart<'a> {
        let mut text = mem::take(&mut self.0.text).into_owned();
        text.replace_range(..self.0.name_len, name);
        *self = BytesStart::from_content(text, name.len());
        self
    }

    /// Takes away what follows the name.
    ///
    /// ```
    /// use sporebasket::events::BytesStart;
    ///
    /// let mut tag = BytesStart::from_content("r n=\"1\"", 1);
    /// assert_eq!(&**tag.clear_attributes(), "r");
    /// ```
    pub fn clear_attributes(&mut self) -> &mut BytesStart<'a> {
        let mut text = mem::take(&mut self.0.text).into_owned();
        text.truncate(self.0.name_len);
        *self = BytesStart::from_content(text, self.0.name_len);
        self
    }

    /// The tag with these attributes behind those that it has.
    ///
    /// ```
    /// use sporebasket::events::BytesStart;
    ///
    /// let tag = BytesStart::new("r").with_attributes([("n", "1"), ("to", "Bar & Grill")]);
    /// assert_eq!(&*tag, "r n=\"1\" to=\"Bar &amp; Grill\"");
    /// ```
    pub fn with_attributes<'b, I>(mut self, attributes: I) -> Self
    where
        I: IntoIterator,
        I::Item: Into<Attribute<'b>>,
    {
        self.extend_attributes(attributes);
        self
    }

    /// Appends these attributes.
    pub fn extend_attributes<'b, I>(&mut self, attributes: I) -> &mut BytesStart<'a>
    where
        I: IntoIterator,
        I::Item: Into<Attribute<'b>>,
    {
        for attribute in attributes {
            self.push_attribute(attribute);
        }
        self
    }

    /// Appends an attribute, its value in `"` and as it stands; that of a pair of strings is escaped. It is not asked whether the name is there already.
    ///
    /// ```
    /// use sporebasket::events::BytesStart;
    ///
    /// let mut tag = BytesStart::new("r");
    /// tag.push_attribute(("to", "Bar & Grill"));
    /// assert_eq!(&*tag, "r to=\"Bar &amp; Grill\"");
    /// ```
    pub fn push_attribute<'b, A>(&mut self, attr: A)
    where
        A: Into<Attribute<'b>>,
    {
        let attribute = attr.into();
        let mut text = mem::take(&mut self.0.text).into_owned();
        for part in [" ", attribute.key.as_ref(), "=\"", &attribute.value, "\""] {
            text.push_str(part);
        }
        *self = BytesStart::from_content(text, self.0.name_len);
    }

    /// What follows the name, white space first, as it stands.
    ///
    /// ```
    /// use sporebasket::events::Event;
    /// use sporebasket::Reader;
    ///
    /// let Event::Start(tag) = Reader::from_str("<a b='>'>").read_event()? else { panic!() };
    /// assert_eq!(tag.attributes_raw(), " b='>'");
    /// # Ok::<(), sporebasket::Error>(())
    /// ```
    #[inline]
    pub fn attributes_raw(&self) -> &str {
        &self.0.text[self.0.name_len..]
    }

    /// The attributes, one after the other.
    ///
    /// ```
    /// use sporebasket::events::Event;
    /// use sporebasket::Reader;
    ///
    /// let Event::Start(tag) = Reader::from_str("<r n=\"1\" at='06:15'>").read_event()? else { panic!() };
    /// let mut names = Vec::new();
    /// for attribute in tag.attributes() {
    ///     names.push(attribute?.key.into_inner());
    /// }
    /// assert_eq!(names, ["n", "at"]);
    /// # Ok::<(), sporebasket::Error>(())
    /// ```
    pub fn attributes(&self) -> Attributes<'_> {
        Attributes::new(&self.0.text, self.0.name_len)
    }

    /// The attribute of this name, if there is one: the first, and refused is only what stands before it.
    ///
    /// ```
    /// use sporebasket::events::attributes::AttrError;
    /// use sporebasket::events::BytesStart;
    ///
    /// let tag = BytesStart::from_content("r n=\"1\" at=", 1);
    /// assert_eq!(tag.try_get_attribute("n")?.map(|attribute| attribute.value), Some("1".into()));
    /// assert_eq!(tag.try_get_attribute("to"), Err(AttrError::ExpectedValue(11)));
    /// assert_eq!(BytesStart::new("r").try_get_attribute("to")?, None);
    /// # Ok::<(), sporebasket::Error>(())
    /// ```
    pub fn try_get_attribute<N: AsRef<str> + Sized>(&self, attr_name: N) -> Result<Option<Attribute<'_>>, AttrError> {
        self.attributes().named(attr_name.as_ref())
    }
}

impl<'a> From<QName<'a>> for BytesStart<'a> {
    fn from(name: QName<'a>) -> Self {
        BytesStart::new(name.into_inner())
    }
}

impl PartialEq for BytesStart<'_> {
    fn eq(&self, other: &Self) -> bool {
        self.0 == other.0 && self.0.name_len == other.0.name_len
    }
}

impl Eq for BytesStart<'_> {}

impl Deref for BytesStart<'_> {
    type Target = str;

    fn deref(&self) -> &str {
        &self.0.text
    }
}

impl fmt::Debug for BytesStart<'_> {
    fn fmt(&self, f: &mut fmt::Formatter<'_>) -> fmt::Result {
        write!(f, "BytesStart {{ buf: {:?}, name_len: {} }}", self.0, self.0.name_len)
    }
}

impl EventExt for BytesStart<'_> {
    fn place(&self) -> Option<Place> {
        self.0.place()
    }
}

text! {
    /// A closing tag: its name, with the white space after it where
    /// [`trim_markup_names_in_closing_tags`](crate::reader::Config::trim_markup_names_in_closing_tags) is off.
    ///
    /// ```
    /// use sporebasket::events::Event;
    /// use sporebasket::Reader;
    ///
    /// let mut reader = Reader::from_str("<a></a >");
    /// reader.read_event()?;
    /// let Event::End(tag) = reader.read_event()? else { panic!() };
    /// assert_eq!(tag.name().as_ref(), "a");
    /// # Ok::<(), sporebasket::Error>(())
    /// ```
    BytesEnd, "name"
}

impl<'a> BytesEnd<'a> {
    /// The closing tag of this name.
    #[inline]
    pub fn new<C: Into<Cow<'a, str>>>(name: C) -> Self {
        BytesEnd(Content::made(name))
    }

    /// The name: all of its content.
    #[inline]
    pub fn name(&self) -> QName<'_> {
        QName(self)
    }

    /// The name without its prefix.
    #[inline]
    pub fn local_name(&self) -> LocalName<'_> {
        self.name().into()
    }
}

impl<'a> From<QName<'a>> for BytesEnd<'a> {
    fn from(name: QName<'a>) -> Self {
        BytesEnd::new(name.into_inner())
    }
}

text! {
    /// Text, or what stands between `<!--` and `-->`. References in it are events of their own.
    ///
    /// ```
    /// use sporebasket::events::Event;
    /// use sporebasket::Reader;
    ///
    /// let Event::Comment(comment) = Reader::from_str("<!-- a -->").read_event()? else { panic!() };
    /// assert_eq!(comment.into_inner(), " a ");
    /// # Ok::<(), sporebasket::Error>(())
    /// ```
    BytesText, "content"
}

impl<'a> BytesText<'a> {
    /// Text in which references stand for the characters that it may not have as they are.
    ///
    /// ```
    /// use sporebasket::events::BytesText;
    ///
    /// assert_eq!(&*BytesText::new("fish & chips"), "fish &amp; chips");
    /// ```
    #[inline]
    pub fn new(content: &'a str) -> Self {
        Self::from_escaped(escape(content))
    }

    /// Text as it is to stand in a document.
    #[inline]
    pub fn from_escaped<C: Into<Cow<'a, str>>>(content: C) -> Self {
        BytesText(Content::made(content))
    }

    /// The text itself.
    #[inline]
    pub fn into_inner(self) -> Cow<'a, str> {
        self.0.text
    }

    /// The text with its references replaced by their characters. Text that a [`Reader`](crate::Reader) gives has none: those are events of their own.
    ///
    /// ```
    /// use sporebasket::events::BytesText;
    ///
    /// assert_eq!(BytesText::from_escaped("fish &amp; chips").unescape()?, "fish & chips");
    /// # Ok::<(), sporebasket::Error>(())
    /// ```
    pub fn unescape(&self) -> Result<Cow<'a, str>, Error> {
        Ok(match &self.0.text {
            Cow::Borrowed(text) => unescape(text)?,
            Cow::Owned(text) => Cow::Owned(unescape(text)?.into_owned()),
        })
    }

    /// Takes away the white space at the start; tells whether nothing is left.
    ///
    /// ```
    /// use sporebasket::events::BytesText;
    ///
    /// let mut text = BytesText::new(" \n06:15 ");
    /// assert!(!text.inplace_trim_start());
    /// assert_eq!(&*text, "06:15 ");
    /// ```
    pub fn inplace_trim_start(&mut self) -> bool {
        self.0.cut(|text| text.trim_start_matches(is_white));
        self.is_empty()
    }

    /// Takes away the white space at the end; tells whether nothing is left.
    ///
    /// ```
    /// use sporebasket::events::BytesText;
    ///
    /// assert!(BytesText::new(" \n").inplace_trim_end());
    /// ```
    pub fn inplace_trim_end(&mut self) -> bool {
        self.0.cut(|text| text.trim_end_matches(is_white));
        self.is_empty()
    }
}

text! {
    /// What stands between `<![CDATA[` and `]]>`.
    ///
    /// ```
    /// use sporebasket::events::Event;
    /// use sporebasket::Reader;
    ///
    /// let Event::CData(section) = Reader::from_str("<![CDATA[<a>]]>").read_event()? else { panic!() };
    /// assert_eq!(&*section, "<a>");
    /// # Ok::<(), sporebasket::Error>(())
    /// ```
    BytesCData, "content"
}

text! {
    /// What stands between `&` and `;`.
    ///
    /// ```
    /// use sporebasket::events::Event;
    /// use sporebasket::Reader;
    ///
    /// let Event::GeneralRef(reference) = Reader::from_str("&amp;").read_event()? else { panic!() };
    /// assert_eq!(&*reference, "amp");
    /// # Ok::<(), sporebasket::Error>(())
    /// ```
    BytesRef, "content"
}

/// The two whose text is taken as it is.
macro_rules! plain {
    ($name:ident) => {
        impl<'a> $name<'a> {
            /// One with this content, as it is to stand in a document.
            #[inline]
            pub fn new<C: Into<Cow<'a, str>>>(content: C) -> Self {
                $name(Content::made(content))
            }

            /// The text itself.
            #[inline]
            pub fn into_inner(self) -> Cow<'a, str> {
                self.0.text
            }
        }
    };
}

plain!(BytesCData);
plain!(BytesRef);

impl BytesRef<'_> {
    /// Whether it is a reference by a number, `&#39;`.
    ///
    /// ```
    /// use sporebasket::events::BytesRef;
    ///
    /// assert!(BytesRef::new("#39").is_char_ref());
    /// assert!(!BytesRef::new("amp").is_char_ref());
    /// ```
    #[inline]
    pub fn is_char_ref(&self) -> bool {
        self.starts_with('#')
    }

    /// The character of a reference by a number; none of a reference by a name, for which [`resolve_xml_entity`](crate::escape::resolve_xml_entity) is.
    ///
    /// ```
    /// use sporebasket::events::BytesRef;
    ///
    /// assert_eq!(BytesRef::new("#x2192").resolve_char_ref()?, Some('\u{2192}'));
    /// assert_eq!(BytesRef::new("amp").resolve_char_ref()?, None);
    /// assert!(BytesRef::new("#1").resolve_char_ref().is_err());
    /// # Ok::<(), sporebasket::Error>(())
    /// ```
    pub fn resolve_char_ref(&self) -> Result<Option<char>, Error> {
        if !self.is_char_ref() {
            return Ok(None);
        }
        Ok(Some(char_ref(self)?))
    }
}

/// An XML declaration: what stands between `<?` and `?>`, from `xml` on.
///
/// ```
/// use sporebasket::events::{BytesDecl, Event};
/// use sporebasket::Reader;
///
/// let event = Reader::from_str("<?xml version=\"1.0\"?>").read_event()?;
/// assert_eq!(event, Event::Decl(BytesDecl::new("1.0", None, None)));
/// # Ok::<(), sporebasket::Error>(())
/// ```
#[derive(Clone, Debug, PartialEq, Eq)]
pub struct BytesDecl<'a> {
    content: BytesStart<'a>,
}

like_a_tag!(BytesDecl);

impl<'a> BytesDecl<'a> {
    /// A declaration with these values, as they are to stand between quotes.
    ///
    /// ```
    /// use sporebasket::events::BytesDecl;
    ///
    /// let declaration = BytesDecl::new("1.0", Some("utf-8"), Some("yes"));
    /// assert_eq!(&*declaration, "xml version=\"1.0\" encoding=\"utf-8\" standalone=\"yes\"");
    /// ```
    pub fn new(version: &str, encoding: Option<&str>, standalone: Option<&str>) -> BytesDecl<'static> {
        let mut content = format!("xml version=\"{version}\"");
        for (name, value) in [("encoding", encoding), ("standalone", standalone)] {
            if let Some(value) = value {
                content += &format!(" {name}=\"{value}\"");
            }
        }
        BytesDecl::from_start(BytesStart::from_content(content, 3))
    }

    /// A declaration whose content is that of a tag.
    pub fn from_start(start: BytesStart<'a>) -> Self {
        BytesDecl { content: start }
    }
}

/// A processing instruction: what stands between `<?` and `?>`.
///
/// ```
/// use sporebasket::events::Event;
/// use sporebasket::Reader;
///
/// let Event::PI(instruction) = Reader::from_str("<?print no?>").read_event()? else { panic!() };
/// assert_eq!((instruction.target(), instruction.content()), ("print", " no"));
/// # Ok::<(), sporebasket::Error>(())
/// ```
#[derive(Clone, PartialEq, Eq)]
pub struct BytesPI<'a> {
    content: BytesStart<'a>,
}

like_a_tag!(BytesPI);

impl<'a> BytesPI<'a> {
    /// An instruction with this content. Its target is what stands before the first white space.
    ///
    /// ```
    /// use sporebasket::events::BytesPI;
    ///
    /// assert_eq!(BytesPI::new("print no").target(), "print");
    /// ```
    #[inline]
    pub fn new<C: Into<Cow<'a, str>>>(content: C) -> Self {
        let content = content.into();
        let name_len = name_len(&content);
        BytesPI {
            content: BytesStart::from_content(content, name_len),
        }
    }

    /// The text itself.
    #[inline]
    pub fn into_inner(self) -> Cow<'a, str> {
        self.content.0.text
    }

    /// The target: what stands before the first white space.
    #[inline]
    pub fn target(&self) -> &str {
        self.content.name().into_inner()
    }

    /// What follows the target, white space first, as it stands.
    #[inline]
    pub fn content(&self) -> &str {
        self.content.attributes_raw()
    }

    /// What follows the target, read as the attributes of a tag.
    ///
    /// ```
    /// use sporebasket::events::BytesPI;
    ///
    /// let instruction = BytesPI::new("xml-stylesheet href=\"table.css\"");
    /// assert_eq!(instruction.attributes().next().unwrap()?.value, "table.css");
    /// # Ok::<(), sporebasket::Error>(())
    /// ```
    #[inline]
    pub fn attributes(&self) -> Attributes<'_> {
        self.content.attributes()
    }
}

impl fmt::Debug for BytesPI<'_> {
    fn fmt(&self, f: &mut fmt::Formatter<'_>) -> fmt::Result {
        write!(f, "BytesPI {{ content: {:?} }}", self.content.0)
    }
}
