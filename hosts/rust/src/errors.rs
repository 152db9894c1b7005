//! What a refusal says: quick-xml's errors with their texts, and the refusals that are ours.

use crate::encoding::EncodingError;
use crate::escape::EscapeError;
use crate::events::attributes::AttrError;
use crate::name::{NamespaceError, QName};
use crate::raw::{LONGEST, MOST_NAMES};
use std::error;
use std::fmt;
use std::io;
use std::str::Utf8Error;
use std::sync::Arc;

/// A result whose error is [`Error`].
pub type Result<T> = std::result::Result<T, Error>;

/// Why there is no event.
///
/// Where it is told stands with the reader: [`Reader::error_position`](crate::Reader::error_position) is the place to show a user, and
/// [`ReaderExt::piece`](crate::ext::ReaderExt::piece) what was refused. A refusal of the reader has a number, 1 to 18, which
/// [`ErrorExt::number`](crate::ext::ErrorExt::number) gives. Reading can go on after it. After one that ends the run, and after 18, the next
/// call gives [`Eof`](crate::events::Event::Eof); only a reader over a document that is too long gives the same refusal for ever.
///
/// ```
/// use sporebasket::errors::{Error, IllFormedError};
/// use sporebasket::Reader;
///
/// let mut reader = Reader::from_str("<a></b>c");
/// reader.read_event()?;
/// match reader.read_event() {
///     Err(Error::IllFormed(IllFormedError::MismatchedEndTag { expected, found })) => {
///         assert_eq!((expected.as_str(), found.as_str()), ("a", "b"));
///     }
///     other => panic!("{other:?}"),
/// }
/// assert_eq!(reader.error_position(), 3);
/// assert_eq!(&*reader.read_event()?, "c");
/// # Ok::<(), Error>(())
/// ```
#[derive(Clone, Debug)]
pub enum Error {
    /// Reading or writing failed outside of this package, which does neither: made by `?` from an [`io::Error`].
    Io(Arc<io::Error>),
    /// The document leaves the grammar: 1 to 8. It ends the run.
    Syntax(SyntaxError),
    /// The document is not well formed: 9 to 12, after which reading goes on behind the piece; or the end of an element was not found.
    IllFormed(IllFormedError),
    /// An attribute is not well formed: 17, 19 to 24. No call of a reader gives it; it is made by `?` from what [`attributes`](crate::events::BytesStart::attributes) gives.
    InvalidAttr(AttrError),
    /// The piece is not UTF-8: 13. Its place is the first byte of the first sequence that is not. It ends the run.
    Encoding(EncodingError),
    /// A reference cannot be replaced: 25 or 26. No call of a reader gives it; it is made by `?` from what [`unescape`](crate::escape::unescape) and the like give.
    Escape(EscapeError),
    /// A name's namespace is wrong.
    Namespace(NamespaceError),
    /// A refusal that quick-xml has not: 14 to 18.
    Refused(Refused),
}

/// The refusals that quick-xml has not.
///
/// ```
/// use sporebasket::errors::{Error, Refused};
/// use sporebasket::Reader;
///
/// let error = Reader::from_str("<!DOCTYPE t>").read_event().unwrap_err();
/// assert!(matches!(error, Error::Refused(Refused::DocType)));
/// ```
#[derive(Clone, Debug, PartialEq, Eq, Hash)]
#[non_exhaustive]
pub enum Refused {
    /// 14: markup that opens `<!D` or `<!d`. This reader takes no document type. It ends the run.
    DocType,
    /// 15: a name more than there is room for. It ends the run.
    NameStackFull,
    /// 16: the document has more bytes than [`LONGEST`]. Every call of a reader over it gives it; a [`Feeder`](crate::feed::Feeder) and a [`Scan`](crate::feed::Scan) refuse the chunk with which it would
    /// have more.
    SliceTooLong,
    /// 17: the numbers lent as a state cannot be read on from, or there are too few slots; [`lent::read_event`](crate::lent::read_event) has the rule. A
    /// [`Reader`](crate::Reader) keeps its own state and never gives it. A [`Feeder`](crate::feed::Feeder) refuses by it a chunk that comes after its end was told.
    BadState,
    /// 18: the document ends while names are open, of which this is the latest, where
    /// [`check_open_names`](crate::reader::Config::check_open_names) is on. Its place is the first byte of that name. They stay open:
    /// [`ReaderExt::open_names`](crate::ext::ReaderExt::open_names) has them all. It comes once, and not after a refusal that ended the run.
    ///
    /// ```
    /// use sporebasket::errors::{Error, Refused};
    /// use sporebasket::ext::ReaderExt;
    /// use sporebasket::name::QName;
    /// use sporebasket::Reader;
    ///
    /// let mut reader = Reader::from_str("<t><r>");
    /// reader.config_mut().check_open_names = true;
    /// reader.read_event()?;
    /// reader.read_event()?;
    /// match reader.read_event() {
    ///     Err(Error::Refused(Refused::UnclosedElements(latest))) => assert_eq!(latest, "r"),
    ///     other => panic!("{other:?}"),
    /// }
    /// assert_eq!(reader.error_position(), 4);
    /// assert!(reader.open_names().eq([QName("t"), QName("r")]));
    /// # Ok::<(), Error>(())
    /// ```
    UnclosedElements(String),
}

/// How a document leaves the grammar.
///
/// ```
/// use sporebasket::errors::{Error, SyntaxError};
/// use sporebasket::Reader;
///
/// let mut reader = Reader::from_str("a<b c='>");
/// reader.read_event()?;
/// match reader.read_event() {
///     Err(Error::Syntax(error)) => assert_eq!(error, SyntaxError::UnclosedSingleQuotedAttributeValue),
///     other => panic!("{other:?}"),
/// }
/// assert_eq!(reader.error_position(), 1);
/// # Ok::<(), Error>(())
/// ```
#[derive(Clone, Copy, Debug, PartialEq, Eq)]
pub enum SyntaxError {
    /// 8: `<!` before something else than a comment, a CDATA section or a document type.
    InvalidBangMarkup,
    /// 6: a processing instruction without its `?>`.
    UnclosedPI,
    /// 7: an XML declaration without its `?>`.
    UnclosedXmlDecl,
    /// 4: a comment without its `-->`, or one that does not open with `<!--`.
    UnclosedComment,
    /// A document type without its `>`. The reader refuses every document type (14) and does not give it.
    UnclosedDoctype,
    /// 5: a CDATA section without its `]]>`, or one that does not open with `<![CDATA[`.
    UnclosedCData,
    /// 1: a tag without its `>`.
    UnclosedTag,
    /// 2: a tag that ends within `'`.
    UnclosedSingleQuotedAttributeValue,
    /// 3: a tag that ends within `"`.
    UnclosedDoubleQuotedAttributeValue,
}

/// How a document is not well formed.
///
/// ```
/// use sporebasket::errors::{Error, IllFormedError};
/// use sporebasket::Reader;
///
/// match Reader::from_str("</a>").read_event() {
///     Err(Error::IllFormed(error)) => assert_eq!(error, IllFormedError::UnmatchedEndTag("a".into())),
///     other => panic!("{other:?}"),
/// }
/// ```
#[derive(Clone, Debug, PartialEq, Eq)]
pub enum IllFormedError {
    /// An XML declaration without a `version`, or with another attribute, which is told, before it. The reader does not look at that.
    MissingDeclVersion(Option<String>),
    /// An XML declaration with a `version` that is neither 1.0 nor 1.1. The reader does not look at that.
    UnknownVersion,
    /// A document type without a name. The reader refuses every document type (14) and does not give it.
    MissingDoctypeName,
    /// [`read_to_end`](crate::Reader::read_to_end) or [`read_text`](crate::Reader::read_text) came to the end of the document before the end of this
    /// element.
    MissingEndTag(String),
    /// 11: a closing tag, of this name, with nothing open.
    UnmatchedEndTag(String),
    /// 10: a closing tag with another name than the latest open one, which is no longer open.
    MismatchedEndTag {
        /// The name that was open.
        expected: String,
        /// The name of the closing tag.
        found: String,
    },
    /// 9: `--` in a comment, where [`check_comments`](crate::reader::Config::check_comments) is on. Its place is the first hyphen of the first pair.
    DoubleHyphenInComment,
    /// 12: an `&` without its `;`.
    UnclosedReference,
}

/// The bytes that a refusal tells: its piece; the expected name and the one found, for the refusals that have them; and the latest open name, if
/// one is open.
pub(crate) struct Told<'a> {
    pub piece: &'a [u8],
    pub expected: &'a [u8],
    pub found: &'a [u8],
    pub latest: &'a [u8],
}

/// Bytes of the document as a string, to be kept.
pub(crate) fn owned(bytes: &[u8]) -> String {
    String::from_utf8_lossy(bytes).into_owned()
}

impl Error {
    /// The refusal of this number.
    pub(crate) fn numbered(number: usize, told: Told<'_>) -> Self {
        match number {
            1 => SyntaxError::UnclosedTag.into(),
            2 => SyntaxError::UnclosedSingleQuotedAttributeValue.into(),
            3 => SyntaxError::UnclosedDoubleQuotedAttributeValue.into(),
            4 => SyntaxError::UnclosedComment.into(),
            5 => SyntaxError::UnclosedCData.into(),
            6 => SyntaxError::UnclosedPI.into(),
            7 => SyntaxError::UnclosedXmlDecl.into(),
            8 => SyntaxError::InvalidBangMarkup.into(),
            9 => IllFormedError::DoubleHyphenInComment.into(),
            10 => IllFormedError::MismatchedEndTag {
                expected: owned(told.expected),
                found: owned(told.found),
            }
            .into(),
            11 => IllFormedError::UnmatchedEndTag(owned(told.found)).into(),
            12 => IllFormedError::UnclosedReference.into(),
            13 => match std::str::from_utf8(told.piece) {
                Err(error) => error.into(),
                // 13 comes for no piece that is UTF-8
                Ok(_) => Refused::BadState.into(),
            },
            14 => Refused::DocType.into(),
            15 => Refused::NameStackFull.into(),
            16 => Refused::SliceTooLong.into(),
            18 => Refused::UnclosedElements(owned(told.latest)).into(),
            _ => Refused::BadState.into(),
        }
    }

    /// The end of an element of this name was not found.
    pub(crate) fn missed_end(name: QName<'_>) -> Self {
        IllFormedError::MissingEndTag(name.as_ref().to_owned()).into()
    }
}

impl From<io::Error> for Error {
    /// An [`EncodingError`] that an I/O error carries comes out of it.
    fn from(error: io::Error) -> Self {
        if error.kind() != io::ErrorKind::InvalidData {
            return Error::Io(Arc::new(error));
        }
        match error.downcast::<EncodingError>() {
            Ok(error) => Error::Encoding(error),
            Err(error) => Error::Io(Arc::new(error)),
        }
    }
}

impl From<Utf8Error> for Error {
    fn from(error: Utf8Error) -> Self {
        EncodingError::from(error).into()
    }
}

/// An error out of each of its parts.
macro_rules! from {
    ($($part:ident in $case:ident;)*) => {
        $(impl From<$part> for Error {
            fn from(error: $part) -> Self {
                Error::$case(error)
            }
        })*
    };
}

from! {
    SyntaxError in Syntax;
    IllFormedError in IllFormed;
    AttrError in InvalidAttr;
    EncodingError in Encoding;
    EscapeError in Escape;
    NamespaceError in Namespace;
    Refused in Refused;
}

/// Two I/O errors are equal if they are one.
impl PartialEq for Error {
    fn eq(&self, other: &Self) -> bool {
        match (self, other) {
            (Error::Io(one), Error::Io(two)) => Arc::ptr_eq(one, two),
            (Error::Syntax(one), Error::Syntax(two)) => one == two,
            (Error::IllFormed(one), Error::IllFormed(two)) => one == two,
            (Error::InvalidAttr(one), Error::InvalidAttr(two)) => one == two,
            (Error::Encoding(one), Error::Encoding(two)) => one == two,
            (Error::Escape(one), Error::Escape(two)) => one == two,
            (Error::Namespace(one), Error::Namespace(two)) => one == two,
            (Error::Refused(one), Error::Refused(two)) => one == two,
            _ => false,
        }
    }
}

impl Eq for Error {}

impl fmt::Display for Error {
    fn fmt(&self, f: &mut fmt::Formatter<'_>) -> fmt::Result {
        match self {
            Error::Io(error) => write!(f, "I/O error: {error}"),
            Error::Syntax(error) => write!(f, "syntax error: {error}"),
            Error::IllFormed(error) => write!(f, "ill-formed document: {error}"),
            Error::InvalidAttr(error) => write!(f, "error while parsing attribute: {error}"),
            Error::Encoding(error) => error.fmt(f),
            Error::Escape(error) => error.fmt(f),
            Error::Namespace(error) => error.fmt(f),
            Error::Refused(error) => error.fmt(f),
        }
    }
}

impl fmt::Display for SyntaxError {
    fn fmt(&self, f: &mut fmt::Formatter<'_>) -> fmt::Result {
        let (what, end) = match self {
            SyntaxError::InvalidBangMarkup => return f.write_str("unknown or missed symbol in markup"),
            SyntaxError::UnclosedPI => ("processing instruction", "?>"),
            SyntaxError::UnclosedXmlDecl => ("XML declaration", "?>"),
            SyntaxError::UnclosedComment => ("comment", "-->"),
            SyntaxError::UnclosedDoctype => ("DOCTYPE", ">"),
            SyntaxError::UnclosedCData => ("CDATA", "]]>"),
            SyntaxError::UnclosedTag => ("tag", ">"),
            SyntaxError::UnclosedSingleQuotedAttributeValue => ("attribute value", "'"),
            SyntaxError::UnclosedDoubleQuotedAttributeValue => ("attribute value", "\""),
        };
        write!(f, "{what} not closed: `{end}` not found before end of input")
    }
}

impl fmt::Display for IllFormedError {
    fn fmt(&self, f: &mut fmt::Formatter<'_>) -> fmt::Result {
        match self {
            IllFormedError::MissingDeclVersion(None) => {
                f.write_str("an XML declaration does not contain `version` attribute")
            }
            IllFormedError::MissingDeclVersion(Some(found)) => write!(
                f,
                "an XML declaration must start with `version` attribute, but in starts with `{found}`"
            ),
            IllFormedError::UnknownVersion => f.write_str("unknown XML version: either 1.0 or 1.1 is expected"),
            IllFormedError::MissingDoctypeName => {
                f.write_str("`<!DOCTYPE>` declaration does not contain a name of a document type")
            }
            IllFormedError::MissingEndTag(name) => {
                write!(f, "start tag not closed: `</{name}>` not found before end of input")
            }
            IllFormedError::UnmatchedEndTag(found) => write!(f, "close tag `</{found}>` does not match any open tag"),
            IllFormedError::MismatchedEndTag { expected, found } => {
                write!(f, "expected `</{expected}>`, but `</{found}>` was found")
            }
            IllFormedError::DoubleHyphenInComment => f.write_str("forbidden string `--` was found in a comment"),
            IllFormedError::UnclosedReference => {
                f.write_str("entity or character reference not closed: `;` not found before end of input")
            }
        }
    }
}

impl fmt::Display for Refused {
    fn fmt(&self, f: &mut fmt::Formatter<'_>) -> fmt::Result {
        match self {
            Refused::DocType => f.write_str("a document type, which this reader does not take"),
            Refused::NameStackFull => write!(f, "more open elements than there is room for (at most {MOST_NAMES})"),
            Refused::SliceTooLong => write!(f, "a document of more than {LONGEST} bytes"),
            Refused::BadState => f.write_str("a state that cannot be read on from"),
            Refused::UnclosedElements(latest) => write!(f, "the document ends while `<{latest}>` is open"),
        }
    }
}

impl error::Error for SyntaxError {}

impl error::Error for IllFormedError {}

impl error::Error for Refused {}

impl error::Error for Error {
    fn source(&self) -> Option<&(dyn error::Error + 'static)> {
        Some(match self {
            Error::Io(error) => error,
            Error::Syntax(error) => error,
            Error::IllFormed(error) => error,
            Error::InvalidAttr(error) => error,
            Error::Encoding(error) => error,
            Error::Escape(error) => error,
            Error::Namespace(error) => error,
            Error::Refused(error) => error,
        })
    }
}

#[cfg(test)]
mod tests {
    use super::{Error, Told};
    use crate::ext::ErrorExt;

    fn numbered(number: usize) -> Error {
        let told = Told {
            piece: b"</b\xFF>",
            expected: b"a",
            found: b"b",
            latest: b"c",
        };
        Error::numbered(number, told)
    }

    #[test]
    fn numbers_there_and_back() {
        for number in 1..=18 {
            assert_eq!(numbered(number).number().map(usize::from), Some(number));
        }
    }

    #[test]
    fn every_text_is_its_own() {
        let texts: std::collections::HashSet<_> = (1..=18).map(|n| numbered(n).to_string()).collect();
        assert_eq!(texts.len(), 18);
    }

    #[test]
    fn names_are_told() {
        let texts = [
            (10, "ill-formed document: expected `</a>`, but `</b>` was found"),
            (11, "ill-formed document: close tag `</b>` does not match any open tag"),
            (18, "the document ends while `<c>` is open"),
        ];
        for (number, text) in texts {
            assert_eq!(numbered(number).to_string(), text);
        }
    }

    #[test]
    fn an_error_is_equal_to_itself_and_to_no_other() {
        let mut errors: Vec<Error> = (1..=18).map(numbered).collect();
        errors.push(std::io::Error::other("a").into());
        errors.push(std::io::Error::other("a").into());
        for (i, one) in errors.iter().enumerate() {
            for (j, two) in errors.iter().enumerate() {
                assert_eq!(one.clone() == *two, i == j);
            }
        }
    }
}
