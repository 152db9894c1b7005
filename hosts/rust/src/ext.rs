//! What this reader tells beyond quick-xml. These are traits, so that a name counts only where its trait is imported: code written for quick-xml, with
//! methods of its own under the same names, keeps its meaning.
//!
//! ```
//! use sporebasket::ext::{ErrorExt, EventExt, ReaderExt};
//! use sporebasket::name::QName;
//! use sporebasket::Reader;
//!
//! let mut reader = Reader::from_str("<t>06:15</r>");
//! assert_eq!(reader.read_event()?.place().map(|place| place.content), Some(1..2));
//! assert!(reader.open_names().eq([QName("t")]));
//! reader.read_event()?;
//! assert_eq!(reader.read_event().unwrap_err().number(), Some(10));
//! assert_eq!(reader.piece(), 8..12);
//! # Ok::<(), sporebasket::Error>(())
//! ```
//!
//! Where a run stops, [`way_down`](ReaderExt::way_down) is the way to it: the names that are open, and where each was opened. [`Layout`] is an account of a run: that no byte of a page is set twice, and none
//! dropped.

use crate::errors::{Error, IllFormedError, Refused, SyntaxError};
use crate::events::attributes::{AttrError, AttrRefused};
use crate::lent;
use crate::name::QName;
use std::borrow::Cow;
use std::error;
use std::fmt;
use std::ops::Range;

pub use crate::layout::{Layout, LayoutError, Parts};
pub use crate::rows::{Row, WayDown};

/// The traits are for the types here alone, so that each may have more to tell.
mod sealed {
    use crate::events::{BytesCData, BytesDecl, BytesEnd, BytesPI, BytesRef, BytesStart, BytesText, Event};

    pub trait Sealed {}

    impl<R, E> Sealed for crate::reader::ReaderBy<R, E> {}
    impl Sealed for crate::Error {}
    impl Sealed for str {}
    impl Sealed for crate::events::attributes::AttrError {}
    impl Sealed for Event<'_> {}
    impl Sealed for BytesStart<'_> {}
    impl Sealed for BytesEnd<'_> {}
    impl Sealed for BytesText<'_> {}
    impl Sealed for BytesCData<'_> {}
    impl Sealed for BytesDecl<'_> {}
    impl Sealed for BytesPI<'_> {}
    impl Sealed for BytesRef<'_> {}
}

/// What a [`Reader`](crate::Reader), by either engine, tells beyond quick-xml's.
pub trait ReaderExt<'a>: sealed::Sealed + Sized {
    /// A reader with a limit: at most so many names may be open, and never more than [`MOST_NAMES`](crate::lent::MOST_NAMES). A name more is refused
    /// ([`NameStackFull`](Refused::NameStackFull)). The room is taken as names open, and ends at 16 bytes for each name that is asked for.
    ///
    /// ```
    /// use sporebasket::errors::{Error, Refused};
    /// use sporebasket::ext::ReaderExt;
    /// use sporebasket::Reader;
    ///
    /// let mut reader = Reader::with_capacity(b"<a><b>", 1);
    /// assert!(reader.read_event().is_ok());
    /// assert_eq!(reader.read_event(), Err(Error::Refused(Refused::NameStackFull)));
    /// ```
    fn with_capacity(document: &'a [u8], names: usize) -> Self;

    /// The piece of the last answer, be it an event or a refusal; 0..0 if there was none.
    ///
    /// ```
    /// use sporebasket::ext::ReaderExt;
    ///
    /// let mut reader = sporebasket::Reader::from_str("<a></b>");
    /// reader.read_event()?;
    /// assert!(reader.read_event().is_err());
    /// assert_eq!(reader.piece(), 3..7);
    /// # Ok::<(), sporebasket::Error>(())
    /// ```
    fn piece(&self) -> Range<usize>;

    /// Where the open name stands that a closing tag was refused for, if the last answer was such a refusal (10).
    ///
    /// ```
    /// use sporebasket::ext::ReaderExt;
    ///
    /// let mut reader = sporebasket::Reader::from_str("<a></b>");
    /// reader.read_event()?;
    /// assert_eq!(reader.expected(), None);
    /// assert!(reader.read_event().is_err());
    /// assert_eq!(reader.expected(), Some(1..2));
    /// # Ok::<(), sporebasket::Error>(())
    /// ```
    fn expected(&self) -> Option<Range<usize>>;

    /// Where the name of a closing tag stands that was refused, if the last answer was such a refusal (10 or 11).
    ///
    /// ```
    /// use sporebasket::ext::ReaderExt;
    ///
    /// let mut reader = sporebasket::Reader::from_str("</a>");
    /// assert!(reader.read_event().is_err());
    /// assert_eq!(reader.found(), Some(2..3));
    /// ```
    fn found(&self) -> Option<Range<usize>>;

    /// How many names are open.
    ///
    /// ```
    /// use sporebasket::ext::ReaderExt;
    ///
    /// let mut reader = sporebasket::Reader::from_str("<a>");
    /// reader.read_event()?;
    /// assert_eq!(reader.depth(), 1);
    /// # Ok::<(), sporebasket::Error>(())
    /// ```
    fn depth(&self) -> usize;

    /// The open names, the outermost first.
    ///
    /// ```
    /// use sporebasket::ext::ReaderExt;
    /// use sporebasket::name::QName;
    ///
    /// let mut reader = sporebasket::Reader::from_str("<a><b c='d'>");
    /// reader.read_event()?;
    /// reader.read_event()?;
    /// assert!(reader.open_names().eq([QName("a"), QName("b")]));
    /// assert_eq!(reader.open_names().last(), Some(QName("b")));
    /// # Ok::<(), sporebasket::Error>(())
    /// ```
    fn open_names(&self) -> impl DoubleEndedIterator<Item = QName<'a>> + ExactSizeIterator + '_;

    /// The way down to where the reader stands: the open names, the outermost first, each with where it stands in the document and how deep it is. These are the rows that the archive lists; that they are the
    /// names which the answers so far left open is proved of runs whose settings stay, whatever these are (docs/PROMISES.md), and tested where they change.
    ///
    /// After a refusal it is the way down to what was refused. A closing tag that was refused for its name (10) has closed the latest name nevertheless: [`expected`](ReaderExt::expected) is where that stands.
    ///
    /// The rows are those of the time of the call, and are kept while the reader goes on.
    ///
    /// ```
    /// use sporebasket::ext::ReaderExt;
    ///
    /// let mut reader = sporebasket::Reader::from_str("<d><t n='1'>06:15 & 06:45</t></d>");
    /// while reader.read_event().is_ok() {}
    /// let way: Vec<_> = reader.way_down().map(|row| (row.name.0, row.span, row.depth)).collect();
    /// assert_eq!(way, [("d", 1..2, 1), ("t", 4..5, 2)]);
    /// ```
    fn way_down(&self) -> WayDown<'a>;

    /// What the reader does next.
    ///
    /// ```
    /// use sporebasket::ext::{Phase, ReaderExt};
    ///
    /// let mut reader = sporebasket::Reader::from_str("<!x>");
    /// assert!(reader.read_event().is_err());
    /// assert_eq!(reader.phase(), Phase::Done);
    /// ```
    fn phase(&self) -> Phase;

    /// The document, whole.
    ///
    /// ```
    /// use sporebasket::ext::ReaderExt;
    ///
    /// assert_eq!(sporebasket::Reader::from_str("<a>").document(), b"<a>");
    /// ```
    fn document(&self) -> &'a [u8];
}

/// What a reader does next.
///
/// ```
/// use sporebasket::ext::{Phase, ReaderExt};
///
/// let mut reader = sporebasket::Reader::from_str("a<b/>");
/// assert_eq!(reader.phase(), Phase::Init);
/// reader.read_event()?;
/// assert_eq!(reader.phase(), Phase::InsideMarkup);
/// # Ok::<(), sporebasket::Error>(())
/// ```
#[derive(Clone, Copy, Debug, PartialEq, Eq, Hash)]
#[non_exhaustive]
pub enum Phase {
    /// It has not begun.
    Init,
    /// It goes on with text.
    InsideText,
    /// It stands at a `<`.
    InsideMarkup,
    /// It stands at an `&`.
    InsideRef,
    /// It owes the End of an expanded empty element.
    InsideEmpty,
    /// It gives only [`Eof`](crate::events::Event::Eof), or before it, once, [`UnclosedElements`](Refused::UnclosedElements).
    Done,
}

impl Phase {
    pub(crate) fn numbered(number: usize) -> Self {
        match number {
            0 => Phase::Init,
            1 => Phase::InsideText,
            2 => Phase::InsideMarkup,
            3 => Phase::InsideRef,
            4 => Phase::InsideEmpty,
            _ => Phase::Done,
        }
    }
}

/// What an [`Event`](crate::events::Event) and its part tell beyond quick-xml's.
pub trait EventExt: sealed::Sealed {
    /// Where the reader found it in the document; none for [`Eof`](crate::events::Event::Eof), and for what a user has made or changed.
    ///
    /// ```
    /// use sporebasket::events::BytesText;
    /// use sporebasket::ext::EventExt;
    /// use sporebasket::Reader;
    ///
    /// let document = "a&b;c";
    /// let mut reader = Reader::from_str(document);
    /// reader.read_event()?;
    /// let place = reader.read_event()?.place().unwrap();
    /// assert_eq!((&document[place.piece], &document[place.content]), ("&b;", "b"));
    /// assert_eq!(BytesText::new("c").place(), None);
    /// # Ok::<(), sporebasket::Error>(())
    /// ```
    fn place(&self) -> Option<Place>;
}

/// Where an event stands in the document.
#[derive(Clone, Debug, PartialEq, Eq, Hash)]
#[non_exhaustive]
pub struct Place {
    /// The whole piece, with its marks.
    pub piece: Range<usize>,
    /// The content. Of the End of an expanded `<a/>` it is the name in that tag.
    ///
    /// ```
    /// use sporebasket::ext::EventExt;
    ///
    /// let mut reader = sporebasket::Reader::from_str("<a/>");
    /// reader.config_mut().expand_empty_elements = true;
    /// reader.read_event()?;
    /// let place = reader.read_event()?.place().unwrap();
    /// assert_eq!((place.piece, place.content), (4..4, 1..2));
    /// # Ok::<(), sporebasket::Error>(())
    /// ```
    pub content: Range<usize>,
}

/// What an [`Error`] tells beyond quick-xml's.
pub trait ErrorExt: sealed::Sealed {
    /// The number of the refusal: 1 to 18, or that of [`AttrErrorExt::number`]; none for an error that neither [`read_event`](crate::Reader::read_event) nor the reading of attributes gives.
    /// That of an [`Escape`](Error::Escape) does not follow from quick-xml's cases: [`StrExt::unescaped`] tells it.
    ///
    /// ```
    /// use sporebasket::errors::{Error, IllFormedError};
    /// use sporebasket::ext::ErrorExt;
    /// use sporebasket::Reader;
    ///
    /// let mut reader = Reader::from_str("<!doctype x>");
    /// assert_eq!(reader.read_event().unwrap_err().number(), Some(14));
    /// assert_eq!(Error::from(IllFormedError::MissingEndTag("t".into())).number(), None);
    /// ```
    fn number(&self) -> Option<u8>;
}

impl ErrorExt for Error {
    fn number(&self) -> Option<u8> {
        Some(match self {
            Error::Syntax(error) => match error {
                SyntaxError::UnclosedTag => 1,
                SyntaxError::UnclosedSingleQuotedAttributeValue => 2,
                SyntaxError::UnclosedDoubleQuotedAttributeValue => 3,
                SyntaxError::UnclosedComment => 4,
                SyntaxError::UnclosedCData => 5,
                SyntaxError::UnclosedPI => 6,
                SyntaxError::UnclosedXmlDecl => 7,
                SyntaxError::InvalidBangMarkup => 8,
                SyntaxError::UnclosedDoctype => return None,
            },
            Error::IllFormed(error) => match error {
                IllFormedError::DoubleHyphenInComment => 9,
                IllFormedError::MismatchedEndTag { .. } => 10,
                IllFormedError::UnmatchedEndTag(_) => 11,
                IllFormedError::UnclosedReference => 12,
                IllFormedError::MissingDeclVersion(_)
                | IllFormedError::UnknownVersion
                | IllFormedError::MissingDoctypeName
                | IllFormedError::MissingEndTag(_) => return None,
            },
            Error::Encoding(_) => 13,
            Error::Refused(error) => match error {
                Refused::DocType => 14,
                Refused::NameStackFull => 15,
                Refused::SliceTooLong => 16,
                Refused::BadState => 17,
                Refused::UnclosedElements(_) => 18,
            },
            Error::InvalidAttr(error) => error.number(),
            Error::Io(_) | Error::Escape(_) | Error::Namespace(_) => return None,
        })
    }
}

/// What an [`AttrError`] tells beyond quick-xml's.
///
/// ```
/// use sporebasket::events::Event;
/// use sporebasket::ext::{AttrErrorExt, EventExt};
/// use sporebasket::Reader;
///
/// let document = "<t><r n='1' at='<'/>";
/// let mut reader = Reader::from_str(document);
/// reader.read_event()?;
/// let Event::Empty(tag) = reader.read_event()? else { panic!() };
/// let error = tag.attributes().find_map(Result::err).unwrap();
/// assert_eq!(error.number(), 23);
/// // where it stands in the document
/// let place = tag.place().unwrap().content.start + error.position();
/// assert_eq!(&document[place..], "<'/>");
/// # Ok::<(), sporebasket::Error>(())
/// ```
pub trait AttrErrorExt: sealed::Sealed {
    /// The number of the refusal: 17, or 19 to 24.
    fn number(&self) -> u8;

    /// Its position, from the start of the tag's content: where the rule breaks, or the content's end. It is 0 for 17.
    fn position(&self) -> usize;
}

impl AttrErrorExt for AttrError {
    fn number(&self) -> u8 {
        match self {
            AttrError::Refused(AttrRefused::BadState) => 17,
            AttrError::Refused(AttrRefused::NoSpace(_)) => 19,
            AttrError::Refused(AttrRefused::EmptyName(_)) => 20,
            AttrError::ExpectedEq(_) => 21,
            AttrError::ExpectedValue(_) | AttrError::UnquotedValue(_) | AttrError::ExpectedQuote(..) => 22,
            AttrError::Refused(AttrRefused::LessThan(_)) => 23,
            AttrError::Duplicated(..) => 24,
        }
    }

    fn position(&self) -> usize {
        match *self {
            AttrError::ExpectedEq(at)
            | AttrError::ExpectedValue(at)
            | AttrError::UnquotedValue(at)
            | AttrError::ExpectedQuote(at, _)
            | AttrError::Duplicated(at, _) => at,
            AttrError::Refused(error) => match error {
                AttrRefused::BadState => 0,
                AttrRefused::NoSpace(at) | AttrRefused::EmptyName(at) | AttrRefused::LessThan(at) => at,
            },
        }
    }
}

/// What a text with references tells beyond quick-xml's.
pub trait StrExt: sealed::Sealed {
    /// [`unescape`](crate::escape::unescape), with the number of a refusal and its place.
    ///
    /// ```
    /// use sporebasket::ext::StrExt;
    ///
    /// assert_eq!("Bar &amp; Grill".unescaped()?, "Bar & Grill");
    /// let refused = "Bar & Grill &#1;".unescaped().unwrap_err();
    /// assert_eq!((refused.number, refused.position), (25, 4));
    /// assert_eq!("Bar &amp; &#1;".unescaped().unwrap_err().to_string(), "position 10: a reference to no character of XML");
    /// # Ok::<(), sporebasket::ext::BadReference>(())
    /// ```
    fn unescaped(&self) -> Result<Cow<'_, str>, BadReference>;
}

impl StrExt for str {
    fn unescaped(&self) -> Result<Cow<'_, str>, BadReference> {
        if !self.contains('&') {
            return Ok(Cow::Borrowed(self));
        }
        lent::unescaped(self)
            .map(Cow::Owned)
            .map_err(|(number, position)| BadReference {
                number: number as u8,
                position,
            })
    }
}

/// The first reference in a text that is refused.
#[derive(Clone, Copy, Debug, PartialEq, Eq, Hash)]
#[non_exhaustive]
pub struct BadReference {
    /// The number of the refusal. 25: neither one of the five names nor `#` and digits, or no `;` behind the `&`. 26: the number of no character of XML.
    pub number: u8,
    /// The position of the `&`.
    pub position: usize,
}

impl fmt::Display for BadReference {
    fn fmt(&self, f: &mut fmt::Formatter<'_>) -> fmt::Result {
        let what = match self.number {
            25 => "neither a reference by one of the five names nor one by a number",
            _ => "a reference to no character of XML",
        };
        write!(f, "position {}: {what}", self.position)
    }
}

impl error::Error for BadReference {}
