//! Input that comes in pieces, as over a slow line: scans that are fed piece by piece, and a reader of a document whose bytes come by and by.
//!
//! A [`Scan`] looks for the end of markup or text, and tells its place, counted from the first byte of the first piece. A [`Feeder`] gives each event of a document as soon as its bytes have come. For any
//! cutting, empty pieces included, both answer as for the bytes in one piece, of at most [`LONGEST`] bytes together. Of a scan that is proved, and of a call on the bytes so far that its piece is whole in (docs/PROMISES.md, "pieces" and "arrivals").
//!
//! ```
//! use sporebasket::events::Event;
//! use sporebasket::feed::Feeder;
//!
//! let mut feeder = Feeder::new();
//! feeder.feed(b"<t>06:1")?;
//! assert!(matches!(feeder.read_event()?, Some(Event::Start(_))));
//! // the text may go on
//! assert_eq!(feeder.read_event()?, None);
//! feeder.feed(b"5</")?;
//! assert_eq!(feeder.read_event()?.as_deref(), Some("06:15"));
//! feeder.feed(b"t>")?;
//! assert!(matches!(feeder.read_event()?, Some(Event::End(_))));
//! // nothing, so far
//! assert_eq!(feeder.read_event()?, None);
//! feeder.finish();
//! assert_eq!(feeder.read_event()?, Some(Event::Eof));
//! # Ok::<(), sporebasket::Error>(())
//! ```
//!
//! [`parser`](crate::parser) has quick-xml's parsers, which are fed in pieces too.

use crate::errors::{Refused, Result};
use crate::events::Event;
use crate::ext::{Phase, WayDown};
use crate::layout::{is_white, MARK};
use crate::lent;
use crate::name::QName;
use crate::plain::Main;
use crate::raw::{scan, LONGEST, MOST_NAMES, SCAN_SLOTS};
use crate::reader::Config;
use crate::run::Run;
use std::fmt;
use std::ops::Range;

/// A search for the end of markup or text that comes in pieces.
///
/// It is a value of four numbers: a copy goes on by itself.
///
/// ```
/// use sporebasket::feed::{Scan, State};
///
/// let mut scan = Scan::comment();
/// assert_eq!(scan.feed(b"<!--")?, None);
/// // the opener's hyphens are none of the closer's
/// assert_eq!(scan.feed(b">a-")?, None);
/// assert_eq!((scan.state(), scan.taken()), (State::Comment, 7));
/// assert_eq!(scan.feed(b"->06:15")?, Some(8));
/// // it stays found
/// assert_eq!(scan.feed(b"</t>")?, Some(8));
/// # Ok::<(), sporebasket::errors::Refused>(())
/// ```
#[derive(Clone, Copy, Debug, PartialEq, Eq, Hash)]
pub struct Scan([usize; SCAN_SLOTS]);

impl Scan {
    /// Whatever comes, as a reader would take it: its first bytes tell which of the others it is, or a reference.
    ///
    /// ```
    /// use sporebasket::feed::{Scan, State};
    ///
    /// let mut scan = Scan::piece();
    /// assert_eq!((scan.feed(b"<")?, scan.state()), (None, State::Opened));
    /// assert_eq!((scan.feed(b"a b='>")?, scan.state()), (None, State::SingleQuoted));
    /// assert_eq!(scan.feed(b"'>")?, Some(8));
    ///
    /// // what opens nothing that a reader takes is found at once
    /// assert_eq!(Scan::piece().feed(b"<!DOCTYPE t>")?, Some(2));
    /// # Ok::<(), sporebasket::errors::Refused>(())
    /// ```
    pub fn piece() -> Self {
        Scan::begun(State::Piece)
    }

    /// A tag, from its `<` on: the first `>` outside of quotes.
    pub fn tag() -> Self {
        Scan::begun(State::Tag)
    }

    /// A processing instruction, from its `<` on: the first `>` right behind a `?`.
    pub fn pi() -> Self {
        Scan::begun(State::Pi)
    }

    /// A comment, from its `<` on: the first `>` right behind two hyphens, neither of which belongs to the opener.
    pub fn comment() -> Self {
        Scan::begun(State::Comment)
    }

    /// A CDATA section, from its `<` on: the first `>` right behind `]]`.
    pub fn cdata() -> Self {
        Scan::begun(State::CData)
    }

    /// Text: the first `<` or `&`, which does not belong to it.
    pub fn text() -> Self {
        Scan::begun(State::Text)
    }

    fn begun(state: State) -> Self {
        let mut slots = [0; SCAN_SLOTS];
        // these states are taken, and there are as many slots as there have to be
        lent::scan(state as usize, &mut slots);
        Scan(slots)
    }

    /// Goes on over the next piece, which may be empty. Gives the place of the byte that was looked for, counted from the first byte of the first piece, or none if it has not come yet. Once it was found
    /// every piece is answered by it, of whatever length.
    ///
    /// A piece with which more than [`LONGEST`] bytes would have come is refused ([`SliceTooLong`](Refused::SliceTooLong)), be the byte within that or not, and the scan stays as it is.
    #[inline]
    pub fn feed(&mut self, piece: &[u8]) -> std::result::Result<Option<usize>, Refused> {
        match lent::feed(piece, &mut self.0) {
            0 => Ok(self.found()),
            16 => Err(Refused::SliceTooLong),
            // a scan keeps its own numbers
            _ => Err(Refused::BadState),
        }
    }

    /// The place that was found, if it was.
    #[inline]
    pub fn found(&self) -> Option<usize> {
        (self.state() == State::Closed).then_some(self.0[scan::COUNT])
    }

    /// How many bytes were passed: all that were fed, or those before the byte that was found.
    pub const fn taken(&self) -> usize {
        self.0[scan::COUNT]
    }

    /// What the next byte stands in.
    #[inline]
    pub const fn state(&self) -> State {
        State::numbered(self.0[scan::STATE])
    }
}

/// Where a [`Scan`] is.
#[derive(Clone, Copy, Debug, PartialEq, Eq, Hash)]
#[non_exhaustive]
pub enum State {
    /// At its end: the byte was found.
    Closed,
    /// Before the first byte, which tells what comes.
    Piece,
    /// Behind a `<`: the next byte tells which markup it opens.
    Opened,
    /// Behind `<!`: the next byte tells.
    Bang,
    /// In a tag, outside of quotes.
    Tag,
    /// In a tag, within `'`.
    SingleQuoted,
    /// In a tag, within `"`.
    DoubleQuoted,
    /// In a processing instruction or an XML declaration.
    Pi,
    /// In a comment.
    Comment,
    /// In a CDATA section.
    CData,
    /// In a reference, behind its `&`. The first of `;`, `&` and `<` is looked for; the last two do not belong to it.
    Reference,
    /// In text.
    Text,
}

impl State {
    pub(crate) const fn numbered(number: usize) -> Self {
        match number {
            0 => State::Closed,
            1 => State::Piece,
            2 => State::Opened,
            3 => State::Bang,
            4 => State::Tag,
            5 => State::SingleQuoted,
            6 => State::DoubleQuoted,
            7 => State::Pi,
            8 => State::Comment,
            9 => State::CData,
            10 => State::Reference,
            _ => State::Text,
        }
    }
}

/// A reader of the events of a document that comes in chunks.
///
/// It is fed the bytes as they come, and gives each event as soon as it would be the same whatever follows. Its answers are those that a [`Reader`](crate::Reader) over the whole document gives, in every respect, for any chunks:
/// events and where they stand, names, refusals, positions, and the end.
///
/// ```
/// use sporebasket::events::Event;
/// use sporebasket::feed::Feeder;
/// use std::io::Read;
///
/// fn times(mut line: impl Read) -> Result<Vec<String>, sporebasket::Error> {
///     let (mut feeder, mut chunk) = (Feeder::new(), [0; 5]);
///     let mut times = Vec::new();
///     loop {
///         match feeder.read_event()? {
///             Some(Event::Text(text)) => times.push(text.to_string()),
///             Some(Event::Eof) => return Ok(times),
///             Some(_) => (),
///             None => match line.read(&mut chunk)? {
///                 0 => feeder.finish(),
///                 count => feeder.feed(&chunk[..count])?,
///             },
///         }
///     }
/// }
/// assert_eq!(times(&b"<t>06:15</t><t>06:45</t>"[..])?, ["06:15", "06:45"]);
/// # Ok::<(), sporebasket::Error>(())
/// ```
///
/// Bytes are kept as they come, up to [`LONGEST`] of them, since open names and events are parts of them. However small the chunks are, each byte is looked at by one scan, and once more by
/// the call that reads it; the byte behind text, and one that cuts off a reference, by another scan besides.
#[derive(Clone)]
pub struct Feeder {
    bytes: Vec<u8>,
    /// No more bytes come.
    finished: bool,
    run: Run,
    /// How far the piece was looked at that the next call is to read, if there was a look.
    look: Option<Look>,
}

impl Feeder {
    /// A reader to which nothing has come, with the default settings.
    pub fn new() -> Self {
        Feeder::with_capacity(MOST_NAMES)
    }

    /// A reader with a limit: at most so many names may be open, as [`ReaderExt::with_capacity`](crate::ext::ReaderExt::with_capacity) has it.
    pub fn with_capacity(names: usize) -> Self {
        Feeder {
            bytes: Vec::new(),
            finished: false,
            run: Run::new(&[], names),
            look: None,
        }
    }

    /// The settings.
    pub const fn config(&self) -> &Config {
        self.run.config()
    }

    /// The settings, to be changed. They count from the next call on.
    ///
    /// ```
    /// use sporebasket::feed::Feeder;
    ///
    /// let mut feeder = Feeder::new();
    /// feeder.feed(b"  06:15")?;
    /// assert_eq!(feeder.read_event()?, None);
    /// feeder.config_mut().trim_text(true);
    /// feeder.finish();
    /// assert_eq!(feeder.read_event()?.as_deref(), Some("06:15"));
    /// # Ok::<(), sporebasket::Error>(())
    /// ```
    pub fn config_mut(&mut self) -> &mut Config {
        self.run.config_mut()
    }

    /// Takes the bytes that come next; there may be none.
    ///
    /// A chunk with which the document would have more than [`LONGEST`] bytes is refused ([`SliceTooLong`](Refused::SliceTooLong)), and so is any after
    /// [`finish`](Feeder::finish) ([`BadState`](Refused::BadState)). Nothing of it is taken then, and [`error_position`](Feeder::error_position) stays as it is. A reader over the whole of a document that is too long refuses it at its first call;
    /// here the events that have come before are given.
    ///
    /// ```
    /// use sporebasket::errors::{Error, Refused};
    /// use sporebasket::feed::Feeder;
    ///
    /// let mut feeder = Feeder::new();
    /// feeder.feed(b"<t>")?;
    /// feeder.finish();
    /// assert_eq!(feeder.feed(b"</t>"), Err(Error::Refused(Refused::BadState)));
    /// assert_eq!(feeder.document(), b"<t>");
    /// # Ok::<(), Error>(())
    /// ```
    pub fn feed(&mut self, chunk: &[u8]) -> Result<()> {
        if self.finished {
            return Err(Refused::BadState.into());
        }
        if chunk.len() > LONGEST - self.bytes.len() {
            return Err(Refused::SliceTooLong.into());
        }
        self.bytes.extend_from_slice(chunk);
        self.run.grow(self.bytes.len());
        Ok(())
    }

    /// No more bytes come: what there is is the whole document.
    pub fn finish(&mut self) {
        self.finished = true;
    }

    /// The next event, or why there is none; nothing, where it needs bytes that have not come. After [`finish`](Feeder::finish) there always is an answer. Reading may go on after a refusal;
    /// [`Error`](crate::Error) says how.
    ///
    /// ```
    /// use sporebasket::errors::{Error, IllFormedError};
    /// use sporebasket::feed::Feeder;
    ///
    /// let mut feeder = Feeder::new();
    /// feeder.feed(b"a&b")?;
    /// assert_eq!(feeder.read_event()?.as_deref(), Some("a"));
    /// assert_eq!(feeder.read_event()?, None);
    /// feeder.feed(b"&c;")?;
    /// assert_eq!(feeder.read_event(), Err(Error::IllFormed(IllFormedError::UnclosedReference)));
    /// assert_eq!(feeder.read_event()?.as_deref(), Some("c"));
    /// # Ok::<(), Error>(())
    /// ```
    pub fn read_event(&mut self) -> Result<Option<Event<'_>>> {
        if !self.is_due() {
            return Ok(None);
        }
        self.look = None;
        match self.run.read::<Main>(&self.bytes) {
            Ok(piece) => Ok(Some(self.run.event(&self.bytes, piece))),
            Err(number) => Err(self.run.refused(&self.bytes, number)),
        }
    }

    /// Whether a call would answer the same whatever follows: its piece is whole, or it reads none.
    fn is_due(&mut self) -> bool {
        if self.finished || matches!(self.run.phase(), Phase::InsideEmpty | Phase::Done) {
            return true;
        }
        let trim = Look::trims(&self.run);
        if self.look.as_ref().is_none_or(|look| look.trim != trim) {
            self.look = Look::begin(&self.bytes, &self.run);
        }
        self.look.as_mut().is_some_and(|look| look.go_on(&self.bytes))
    }

    /// How far the reader has come: the bytes before this place are read.
    pub const fn buffer_position(&self) -> u64 {
        self.run.position() as u64
    }

    /// The place of the last refusal, as [`Reader::error_position`](crate::Reader::error_position) has it.
    pub const fn error_position(&self) -> u64 {
        self.run.error_position() as u64
    }

    /// The piece of the last answer, be it an event or a refusal; 0..0 if there was none.
    pub fn piece(&self) -> Range<usize> {
        self.run.piece()
    }

    /// Where the open name stands that a closing tag was refused for, if the last answer was such a refusal (10).
    pub fn expected(&self) -> Option<Range<usize>> {
        self.run.expected()
    }

    /// Where the name of a closing tag stands that was refused, if the last answer was such a refusal (10 or 11).
    pub fn found(&self) -> Option<Range<usize>> {
        self.run.found()
    }

    /// How many names are open.
    pub const fn depth(&self) -> usize {
        self.run.depth()
    }

    /// The open names, the outermost first.
    pub fn open_names(&self) -> impl DoubleEndedIterator<Item = QName<'_>> + ExactSizeIterator + '_ {
        self.run.open_names(&self.bytes)
    }

    /// The way down to where the reader stands, as [`ReaderExt::way_down`](crate::ext::ReaderExt::way_down) has it. The names are those of the bytes that the feeder keeps, so it
    /// goes on only when the rows are let go.
    ///
    /// ```
    /// use sporebasket::feed::Feeder;
    ///
    /// let mut feeder = Feeder::new();
    /// feeder.feed(b"<d><t n='1'>06:")?;
    /// while feeder.read_event()?.is_some() {}
    /// let latest = feeder.way_down().next_back().unwrap();
    /// assert_eq!((latest.name.as_ref(), latest.span, latest.depth), ("t", 4..5, 2));
    /// # Ok::<(), sporebasket::Error>(())
    /// ```
    pub fn way_down(&self) -> WayDown<'_> {
        self.run.way_down(&self.bytes)
    }

    /// What the reader does next.
    pub fn phase(&self) -> Phase {
        self.run.phase()
    }

    /// What has come of the document.
    pub fn document(&self) -> &[u8] {
        &self.bytes
    }
}

impl Default for Feeder {
    fn default() -> Self {
        Feeder::new()
    }
}

impl fmt::Debug for Feeder {
    fn fmt(&self, f: &mut fmt::Formatter<'_>) -> fmt::Result {
        self.run.show("Feeder", f)
    }
}

/// A look at the piece that the next call is to read, as far as it has come.
#[derive(Clone)]
struct Look {
    /// Whether white space before it is skipped.
    trim: bool,
    /// What comes from here on was not looked at.
    at: usize,
    scan: Scan,
}

impl Look {
    /// A look that has not begun; none while a byte order mark may be coming.
    fn begin(bytes: &[u8], run: &Run) -> Option<Self> {
        let mut at = run.position();
        if run.phase() == Phase::Init {
            if bytes.starts_with(MARK) {
                at = MARK.len();
            } else if MARK.starts_with(bytes) {
                return None;
            }
        }
        Some(Look {
            trim: Look::trims(run),
            at,
            scan: Scan::piece(),
        })
    }

    /// Whether the call skips white space before its piece: where text may begin.
    fn trims(run: &Run) -> bool {
        run.config().trim_text_start && matches!(run.phase(), Phase::Init | Phase::InsideText)
    }

    /// Looks at the bytes that have come since, and tells whether the piece is whole.
    fn go_on(&mut self, bytes: &[u8]) -> bool {
        let mut new = bytes.get(self.at..).unwrap_or_default();
        if self.trim && self.scan.state() == State::Piece {
            let white = new.iter().take_while(|byte| is_white(byte)).count();
            new = &new[white..];
        }
        #[cfg(test)]
        tests::note(bytes.len() - self.at);
        self.at = bytes.len();
        // a document is not too long for a scan
        matches!(self.scan.feed(new), Ok(Some(_)))
    }
}

#[cfg(test)]
mod tests {
    use super::{Event, Feeder};
    use std::cell::Cell;

    thread_local! {
        /// How many bytes this thread's looks were given.
        static GIVEN: Cell<usize> = const { Cell::new(0) };
    }

    pub fn note(count: usize) {
        GIVEN.set(GIVEN.get() + count);
    }

    /// Feeds a document byte by byte, and asks for an answer twice behind each. Gives how many came before end of file, and how many bytes were looked at.
    fn byte_by_byte(document: &[u8], trim: bool) -> (usize, usize) {
        GIVEN.set(0);
        let (mut feeder, mut answers) = (Feeder::new(), 0);
        feeder.config_mut().trim_text(trim);
        for byte in document.chunks(1) {
            feeder.feed(byte).unwrap();
            for _ in 0..2 {
                answers += usize::from(feeder.read_event() != Ok(None));
            }
        }
        feeder.finish();
        while feeder.read_event() != Ok(Some(Event::Eof)) {
            answers += 1;
        }
        (answers, GIVEN.get())
    }

    /// A document of so many bytes, most of them the same.
    fn filled(length: usize, open: &str, byte: &str, close: &str) -> Vec<u8> {
        let count = length - open.len() - close.len();
        [open, &byte.repeat(count), close].concat().into_bytes()
    }

    #[test]
    fn each_byte_is_looked_at_once_however_small_the_chunks() {
        let rows = [
            (1 << 20, "<!--", "-", "-->"),
            (1 << 16, "<!--", "a", ""),
            (1 << 16, "<![CDATA[", "]", "]]>"),
            (1 << 16, "<?a ", "?", "?>"),
            (1 << 16, "<a b='", ">", "'/>"),
            (1 << 16, "&", "a", ";"),
            (1 << 16, "a", ">", ""),
        ];
        for (length, open, byte, close) in rows {
            let document = filled(length, open, byte, close);
            assert_eq!(byte_by_byte(&document, false), (1, length), "{open}");
        }
        // white space that is skipped, behind a byte order mark too
        assert_eq!(byte_by_byte(&filled(1 << 16, "", " ", "<a/>"), true), (1, 1 << 16));
        let marked = filled(1 << 16, "\u{feff}", "\n", "a");
        assert_eq!(byte_by_byte(&marked, true), (1, (1 << 16) - 3));
        // the byte behind text ends it, and begins what follows
        assert_eq!(byte_by_byte("06:15<a/>".repeat(1000).as_bytes(), false), (2000, 10_000));
    }
}
