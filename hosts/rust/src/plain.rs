//! The plain engine: a second one, which takes one byte at a time and searches nowhere ahead, so that it can be read in an afternoon and checked by eye. To every call it answers what the main engine answers, and
//! leaves the same behind: that is proved (docs/PROMISES.md). It is slower. It is for the release check, the main one for the shop.
//!
//! [`Reader`] reads by it, as the other [`Reader`](crate::Reader) does in every respect:
//!
//! ```
//! use sporebasket::events::Event;
//! use sporebasket::plain;
//!
//! let mut reader = plain::Reader::from_str("<t>06:15</t>");
//! let mut beside = sporebasket::Reader::from_str("<t>06:15</t>");
//! loop {
//!     let event = reader.read_event()?;
//!     assert_eq!(event, beside.read_event()?);
//!     assert_eq!(reader.buffer_position(), beside.buffer_position());
//!     if event == Event::Eof {
//!         break;
//!     }
//! }
//! # Ok::<(), sporebasket::Error>(())
//! ```
//!
//! [`lent::plain_read_event`] is the archive's function itself. The example `release` runs both engines side by side, and compares all that they answer and leave.

use crate::lent;
use crate::reader::ReaderBy;

/// A reader of the events of a document in memory, by the plain engine. It has the methods of a [`Reader`](crate::Reader), and of [`ReaderExt`](crate::ext::ReaderExt).
///
/// ```
/// use sporebasket::ext::{ErrorExt, ReaderExt};
/// use sporebasket::plain::Reader;
///
/// let mut reader = Reader::with_capacity(b"<a></b>", 1);
/// reader.read_event()?;
/// assert_eq!(reader.read_event().unwrap_err().number(), Some(10));
/// assert_eq!((reader.error_position(), reader.piece()), (3, 3..7));
/// # Ok::<(), sporebasket::Error>(())
/// ```
pub type Reader<R> = ReaderBy<R, Plain>;

mod sealed {
    pub trait Sealed {}

    impl Sealed for super::Main {}
    impl Sealed for super::Plain {}
}

/// One of the archive's two engines, [`Main`] or [`Plain`], for code that is written once for both.
///
/// ```
/// use sporebasket::events::Event;
/// use sporebasket::plain::{Engine, Main, Plain};
/// use sporebasket::reader::ReaderBy;
///
/// fn events<E: Engine>(document: &[u8]) -> usize {
///     let mut reader = ReaderBy::<_, E>::from_reader(document);
///     let mut count = 0;
///     while reader.read_event() != Ok(Event::Eof) {
///         count += 1;
///     }
///     count
/// }
/// assert_eq!(events::<Main>(b"<t>06:15</t>"), 3);
/// assert_eq!(events::<Plain>(b"<t>06:15</t>"), 3);
/// ```
pub trait Engine: Copy + sealed::Sealed {
    /// The archive's function for this engine: [`lent::read_event`], or [`lent::plain_read_event`].
    fn read_event(document: &[u8], stack: &mut [usize], state: &mut [usize], answer: &mut [usize]) -> usize;
}

/// The main engine, that of [`sporebasket::Reader`](crate::Reader).
#[derive(Clone, Copy, Debug)]
pub enum Main {}

impl Engine for Main {
    #[inline]
    fn read_event(document: &[u8], stack: &mut [usize], state: &mut [usize], answer: &mut [usize]) -> usize {
        lent::read_event(document, stack, state, answer)
    }
}

/// The plain engine, that of [`Reader`].
#[derive(Clone, Copy, Debug)]
pub enum Plain {}

impl Engine for Plain {
    #[inline]
    fn read_event(document: &[u8], stack: &mut [usize], state: &mut [usize], answer: &mut [usize]) -> usize {
        lent::plain_read_event(document, stack, state, answer)
    }
}
