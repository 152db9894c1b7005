//! Bytes that are not UTF-8.

use std::error;
use std::fmt;
use std::str::Utf8Error;

/// How a piece is not UTF-8 (refusal 13).
///
/// Which byte it is stands with the reader, as for any refusal: all of the document before
/// [`Reader::error_position`](crate::Reader::error_position) is UTF-8, and no character starts there.
///
/// ```
/// use sporebasket::encoding::EncodingError;
/// use sporebasket::ext::ReaderExt;
/// use sporebasket::{Error, Reader};
///
/// let document: &[u8] = b"<a>ab\xFF";
/// let mut reader = Reader::from_reader(document);
/// reader.read_event()?;
/// match reader.read_event() {
///     Err(Error::Encoding(EncodingError::Utf8(error))) => assert_eq!(error.valid_up_to(), 2),
///     other => panic!("{other:?}"),
/// }
/// assert_eq!((reader.piece(), reader.error_position()), (3..6, 5));
/// assert_eq!(std::str::from_utf8(document).unwrap_err().valid_up_to(), 5);
/// # Ok::<(), Error>(())
/// ```
#[derive(Clone, Debug, PartialEq, Eq)]
#[non_exhaustive]
pub enum EncodingError {
    /// What Rust's own check says of the piece. Its `valid_up_to` counts from the first byte of the piece, and so
    /// [`ReaderExt::piece`](crate::ext::ReaderExt::piece)`().start` and it make the place of the refusal.
    Utf8(Utf8Error),
}

impl From<Utf8Error> for EncodingError {
    fn from(error: Utf8Error) -> Self {
        EncodingError::Utf8(error)
    }
}

impl fmt::Display for EncodingError {
    fn fmt(&self, f: &mut fmt::Formatter<'_>) -> fmt::Result {
        let EncodingError::Utf8(error) = self;
        write!(f, "cannot decode input using UTF-8: {error}")
    }
}

impl error::Error for EncodingError {
    fn source(&self) -> Option<&(dyn error::Error + 'static)> {
        let EncodingError::Utf8(error) = self;
        Some(error)
    }
}
