//! The reader of a document that is there whole.

use crate::errors::{Error, Result};
use crate::events::{BytesText, Event};
use crate::ext::{Phase, ReaderExt, WayDown};
use crate::name::QName;
use crate::plain::{Engine, Main};
use crate::raw::{answer, ANSWER_SLOTS, MOST_NAMES, STATE_SLOTS};
use crate::run::Run;
use std::fmt;
use std::marker::PhantomData;
use std::mem;
use std::ops::Range;
use std::str;

pub use crate::config::Config;

/// A range of bytes of the document.
pub type Span = Range<u64>;

/// A reader of the events of a document in memory.
///
/// Whatever the bytes are, every call of [`read_event`](ReaderBy::read_event) gives an event or a refusal with a number, nothing panics, and
/// [`Eof`](Event::Eof) comes by call number length + 2, if the document is not longer than [`LONGEST`](crate::lent::LONGEST).
///
/// On the heap a reader takes room for open names, 16 bytes for each: for a few at first. Where all of it is taken it is doubled before the next
/// call, up to room for [`MOST_NAMES`], which is 1 MiB.
///
/// ```
/// use sporebasket::events::Event;
/// use sporebasket::Reader;
///
/// let mut reader = Reader::from_str("<t>06:15</t>");
/// let mut times = Vec::new();
/// loop {
///     match reader.read_event() {
///         Ok(Event::Text(text)) => times.push(text.into_inner()),
///         Ok(Event::Eof) => break,
///         Ok(_) => (),
///         Err(error) => panic!("{error} at {}", reader.error_position()),
///     }
/// }
/// assert_eq!(times, ["06:15"]);
/// ```
///
/// `R` is what is read from. Documents are slices, so that is `&[u8]`:
///
/// ```
/// use sporebasket::Reader;
///
/// fn is_at_end(reader: &Reader<&[u8]>) -> bool {
///     reader.get_ref().is_empty()
/// }
/// assert!(is_at_end(&Reader::from_str("")));
/// ```
pub type Reader<R> = ReaderBy<R, Main>;

/// A reader by one of the archive's two engines: [`Reader`] is that by the main one, [`plain::Reader`](crate::plain::Reader) that by the plain one. They read alike, and these are the methods of both.
#[derive(Clone)]
pub struct ReaderBy<R, E> {
    document: R,
    /// What of the document is yet to be read.
    rest: R,
    run: Run,
    engine: PhantomData<E>,
}

impl<R, E> ReaderBy<R, E> {
    /// The settings.
    ///
    /// ```
    /// assert!(sporebasket::Reader::from_str("").config().check_end_names);
    /// ```
    pub const fn config(&self) -> &Config {
        self.run.config()
    }

    /// The settings, to be changed. They count from the next call on.
    ///
    /// ```
    /// use sporebasket::events::Event;
    /// use sporebasket::Reader;
    ///
    /// let mut reader = Reader::from_str("<a/><a/>");
    /// assert!(matches!(reader.read_event()?, Event::Empty(_)));
    /// reader.config_mut().expand_empty_elements = true;
    /// assert!(matches!(reader.read_event()?, Event::Start(_)));
    /// # Ok::<(), sporebasket::Error>(())
    /// ```
    pub fn config_mut(&mut self) -> &mut Config {
        self.run.config_mut()
    }

    /// How far the reader has come: the bytes before this place are read.
    ///
    /// ```
    /// let mut reader = sporebasket::Reader::from_str("<a></b>");
    /// reader.read_event()?;
    /// assert_eq!(reader.buffer_position(), 3);
    /// # Ok::<(), sporebasket::Error>(())
    /// ```
    pub const fn buffer_position(&self) -> u64 {
        self.run.position() as u64
    }

    /// The place of the last refusal, to be shown to a user; 0 if there was none. It is where the piece begins, but for two hyphens in a comment,
    /// where it is the first of them, for a piece that is not UTF-8, where it is the first byte of the first sequence that is not, and for a document
    /// that ends while names are open, where it is the first byte of the latest of them.
    ///
    /// ```
    /// let mut reader = sporebasket::Reader::from_str("<a></b>");
    /// reader.read_event()?;
    /// assert!(reader.read_event().is_err());
    /// assert_eq!(reader.error_position(), 3);
    /// # Ok::<(), sporebasket::Error>(())
    /// ```
    pub const fn error_position(&self) -> u64 {
        self.run.error_position() as u64
    }

    /// What of the document is yet to be read. Markup that the end of the document cuts off is not read.
    ///
    /// ```
    /// let mut reader = sporebasket::Reader::from_str("<a>06:15");
    /// reader.read_event()?;
    /// assert_eq!(reader.get_ref(), b"06:15");
    /// # Ok::<(), sporebasket::Error>(())
    /// ```
    pub const fn get_ref(&self) -> &R {
        &self.rest
    }

    /// What of the document is yet to be read, in the reader's place.
    ///
    /// ```
    /// let mut reader = sporebasket::Reader::from_str("<a>06:15");
    /// reader.read_event()?;
    /// assert_eq!(reader.into_inner(), b"06:15");
    /// # Ok::<(), sporebasket::Error>(())
    /// ```
    pub fn into_inner(self) -> R {
        self.rest
    }

    /// The last answer, and the state that its call left.
    pub(crate) const fn last(&self) -> (&[usize; ANSWER_SLOTS], &[usize; STATE_SLOTS]) {
        self.run.last()
    }
}

impl<'a, E: Engine> ReaderBy<&'a [u8], E> {
    /// A reader over bytes, with the default settings. As many names may be open as [`MOST_NAMES`]; the room for them is taken as they open.
    ///
    /// ```
    /// use sporebasket::events::Event;
    /// use sporebasket::{Error, Reader};
    ///
    /// let bytes = vec![b'a', 0xFF];
    /// assert_eq!(Reader::from_reader(&bytes[..0]).read_event(), Ok(Event::Eof));
    /// assert!(matches!(Reader::from_reader(&bytes[..]).read_event(), Err(Error::Encoding(_))));
    /// ```
    pub fn from_reader(reader: &'a [u8]) -> Self {
        Self::with_capacity(reader, MOST_NAMES)
    }

    /// A reader over a string.
    ///
    /// ```
    /// use sporebasket::events::Event;
    /// use sporebasket::Reader;
    ///
    /// assert!(matches!(Reader::from_str("<a>").read_event()?, Event::Start(_)));
    /// # Ok::<(), sporebasket::Error>(())
    /// ```
    // The name is quick-xml's; `FromStr` could not borrow the string.
    #[allow(clippy::should_implement_trait)]
    pub fn from_str(s: &'a str) -> Self {
        Self::from_reader(s.as_bytes())
    }

    /// The next event, or why there is none. Reading may go on after a refusal; [`Error`] says how.
    ///
    /// ```
    /// use sporebasket::errors::{Error, IllFormedError};
    /// use sporebasket::events::Event;
    /// use sporebasket::Reader;
    ///
    /// let mut reader = Reader::from_str("a&b");
    /// assert_eq!(&*reader.read_event()?, "a");
    /// assert_eq!(reader.read_event(), Err(Error::IllFormed(IllFormedError::UnclosedReference)));
    /// assert_eq!(reader.read_event()?, Event::Eof);
    /// # Ok::<(), Error>(())
    /// ```
    #[inline]
    pub fn read_event(&mut self) -> Result<Event<'a>> {
        let done = self.run.is_done();
        match self.run.read::<E>(self.document) {
            Ok(piece) => {
                // of a run that is over, what was not read stays so
                if !done {
                    self.rest = self.rest_at(self.run.position());
                }
                Ok(self.run.event(self.document, piece))
            }
            Err(number) => Err(self.refused(number)),
        }
    }

    /// The next event, with its text in a buffer: the piece is put behind what the buffer holds. A slice needs none, so that
    /// [`read_event`](ReaderBy::read_event) is as good; this is for code that has one.
    ///
    /// ```
    /// use sporebasket::events::Event;
    /// use sporebasket::Reader;
    ///
    /// let mut reader = Reader::from_str("<t>06:15");
    /// let mut buffer = Vec::new();
    /// assert!(matches!(reader.read_event_into(&mut buffer)?, Event::Start(_)));
    /// assert_eq!(&*reader.read_event_into(&mut buffer)?, "06:15");
    /// assert_eq!(buffer, b"<t>06:15");
    /// # Ok::<(), sporebasket::Error>(())
    /// ```
    pub fn read_event_into<'b>(&mut self, buf: &'b mut Vec<u8>) -> Result<Event<'b>> {
        let read = self.read_event().map(drop);
        let start = buf.len();
        buf.extend_from_slice(self.piece_bytes());
        read?;
        Ok(self.run.event(self.document, str::from_utf8(&buf[start..])?))
    }

    /// Reads on to the closing tag that belongs to an opening tag of this name which was read last. Gives the span between the two.
    ///
    /// Tags of the same name in between are counted; that all others are closed is up to the settings. A refusal ends it, and so does the end of the
    /// document, by [`MissingEndTag`](crate::errors::IllFormedError::MissingEndTag).
    ///
    /// ```
    /// use sporebasket::events::Event;
    /// use sporebasket::Reader;
    ///
    /// let document = "<r><r>06:15</r> </r><s/>";
    /// let mut reader = Reader::from_str(document);
    /// let Event::Start(tag) = reader.read_event()? else { panic!() };
    /// assert_eq!(reader.read_to_end(tag.name())?, 3..16);
    /// assert!(matches!(reader.read_event()?, Event::Empty(_)));
    /// # Ok::<(), sporebasket::Error>(())
    /// ```
    pub fn read_to_end(&mut self, end: QName<'_>) -> Result<Span> {
        self.untrimmed(|reader| reader.skip(end, |reader| reader.read_event()))
    }

    /// [`read_to_end`](ReaderBy::read_to_end) by [`read_event_into`](ReaderBy::read_event_into). The buffer is cleared before each event.
    ///
    /// ```
    /// use sporebasket::events::Event;
    /// use sporebasket::name::QName;
    /// use sporebasket::Reader;
    ///
    /// let mut reader = Reader::from_str("<r>06:15</r>");
    /// let mut buffer = Vec::new();
    /// reader.read_event_into(&mut buffer)?;
    /// assert_eq!(reader.read_to_end_into(QName("r"), &mut buffer)?, 3..8);
    /// # Ok::<(), sporebasket::Error>(())
    /// ```
    pub fn read_to_end_into(&mut self, end: QName<'_>, buf: &mut Vec<u8>) -> Result<Span> {
        self.untrimmed(|reader| {
            reader.skip(end, |reader| {
                let read = reader.read_event();
                buf.clear();
                buf.extend_from_slice(reader.piece_bytes());
                read
            })
        })
    }

    /// [`read_to_end`](ReaderBy::read_to_end), and what stands between the two tags, as it stands.
    ///
    /// ```
    /// use sporebasket::events::Event;
    /// use sporebasket::Reader;
    ///
    /// let mut reader = Reader::from_str("<r>06:15 <b>&amp; on</b></r>");
    /// let Event::Start(tag) = reader.read_event()? else { panic!() };
    /// assert_eq!(reader.read_text(tag.name())?.into_inner(), "06:15 <b>&amp; on</b>");
    /// # Ok::<(), sporebasket::Error>(())
    /// ```
    pub fn read_text(&mut self, end: QName<'_>) -> Result<BytesText<'a>> {
        let span = self.read_to_end(end)?;
        let bytes = self.document.get(span.start as usize..span.end as usize);
        Ok(BytesText::from_escaped(str::from_utf8(bytes.unwrap_or_default())?))
    }

    /// Reads events up to the End that belongs to a Start of this name.
    fn skip(&mut self, end: QName<'_>, mut read: impl FnMut(&mut Self) -> Result<Event<'a>>) -> Result<Span> {
        let start = self.buffer_position();
        let mut depth = 0_usize;
        loop {
            let place = self.buffer_position();
            match read(self)? {
                Event::Start(tag) if tag.name() == end => depth += 1,
                Event::End(tag) if tag.name() == end => match depth.checked_sub(1) {
                    Some(fewer) => depth = fewer,
                    None => return Ok(start..place),
                },
                Event::Eof => return Err(Error::missed_end(end)),
                _ => (),
            }
        }
    }

    /// Does something while white space before text counts as text, so that the position before an event is where that event begins.
    fn untrimmed(&mut self, done: impl FnOnce(&mut Self) -> Result<Span>) -> Result<Span> {
        let trim = mem::replace(&mut self.config_mut().trim_text_start, false);
        let span = done(self);
        self.config_mut().trim_text_start = trim;
        span
    }

    /// The bytes of the piece of the last answer.
    fn piece_bytes(&self) -> &'a [u8] {
        self.run.bytes(self.document, answer::PIECE)
    }

    /// The document from a place on.
    #[inline]
    fn rest_at(&self, place: usize) -> &'a [u8] {
        self.document.get(place..).unwrap_or_default()
    }

    /// The refusal of this number, with what the last answer tells.
    #[cold]
    fn refused(&mut self, number: usize) -> Error {
        self.rest = self.rest_at(if is_read(number, self.piece_bytes()) {
            self.run.position()
        } else {
            self.run.piece().start
        });
        self.run.refused(self.document, number)
    }
}

/// Whether a refused piece is read: markup whose end was not found is not.
fn is_read(number: usize, piece: &[u8]) -> bool {
    match number {
        UNCLOSED_COMMENT => piece.len() > 6 && piece.ends_with(b"-->"),
        UNCLOSED_CDATA => piece.ends_with(b"]]>"),
        UNCLOSED_PI => piece.ends_with(b"?>"),
        1..=INVALID_BANG_MARKUP => false,
        _ => true,
    }
}

impl<'a, E: Engine> ReaderExt<'a> for ReaderBy<&'a [u8], E> {
    fn with_capacity(document: &'a [u8], names: usize) -> Self {
        ReaderBy {
            document,
            rest: document,
            run: Run::new(document, names),
            engine: PhantomData,
        }
    }

    fn piece(&self) -> Range<usize> {
        self.run.piece()
    }

    fn expected(&self) -> Option<Range<usize>> {
        self.run.expected()
    }

    fn found(&self) -> Option<Range<usize>> {
        self.run.found()
    }

    #[inline]
    fn depth(&self) -> usize {
        self.run.depth()
    }

    fn open_names(&self) -> impl DoubleEndedIterator<Item = QName<'a>> + ExactSizeIterator + '_ {
        self.run.open_names(self.document)
    }

    fn way_down(&self) -> WayDown<'a> {
        self.run.way_down(self.document)
    }

    fn phase(&self) -> Phase {
        self.run.phase()
    }

    fn document(&self) -> &'a [u8] {
        self.document
    }
}

/// The refusals of markup whose end may have been found, and the last of those that may be of markup whose end was not.
const UNCLOSED_COMMENT: usize = 4;
const UNCLOSED_CDATA: usize = 5;
const UNCLOSED_PI: usize = 6;
const INVALID_BANG_MARKUP: usize = 8;

impl<R, E> fmt::Debug for ReaderBy<R, E> {
    fn fmt(&self, f: &mut fmt::Formatter<'_>) -> fmt::Result {
        self.run.show("Reader", f)
    }
}
