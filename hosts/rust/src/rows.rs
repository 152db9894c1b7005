//! The way down to where a reader stands: the names that are open.

use crate::name::QName;
use crate::raw::ROW_SLOTS;
use crate::run;
use std::fmt;
use std::iter::FusedIterator;
use std::ops::Range;
use std::vec;

/// An open name, with where it stands.
#[derive(Clone, Debug, PartialEq, Eq, Hash)]
#[non_exhaustive]
pub struct Row<'a> {
    /// The name, as its opening tag has it.
    pub name: QName<'a>,
    /// Where the name stands. It is a place in the document, so that it counts from the first byte, and a byte order mark as three.
    ///
    /// ```
    /// use sporebasket::ext::ReaderExt;
    ///
    /// let document = "\u{feff}<t>";
    /// let mut reader = sporebasket::Reader::from_str(document);
    /// reader.read_event()?;
    /// let row = reader.way_down().next().unwrap();
    /// assert_eq!((row.span.clone(), &document[row.span]), (4..5, "t"));
    /// # Ok::<(), sporebasket::Error>(())
    /// ```
    pub span: Range<usize>,
    /// How deep it is: 1 is the outermost.
    pub depth: usize,
}

/// The open names, the outermost first: what [`ReaderExt::way_down`](crate::ext::ReaderExt::way_down) and [`Feeder::way_down`](crate::feed::Feeder::way_down) give.
///
/// It has rows of its own, those of the time of the call.
#[derive(Clone)]
pub struct WayDown<'a> {
    document: &'a [u8],
    rows: vec::IntoIter<[usize; ROW_SLOTS]>,
}

impl<'a> WayDown<'a> {
    pub(crate) fn new(document: &'a [u8], rows: Vec<[usize; ROW_SLOTS]>) -> Self {
        WayDown {
            document,
            rows: rows.into_iter(),
        }
    }

    fn row(&self, [start, end, depth]: [usize; ROW_SLOTS]) -> Row<'a> {
        let span = start..end;
        Row {
            name: run::name(self.document, span.clone()),
            span,
            depth,
        }
    }
}

impl<'a> Iterator for WayDown<'a> {
    type Item = Row<'a>;

    fn next(&mut self) -> Option<Row<'a>> {
        let slots = self.rows.next()?;
        Some(self.row(slots))
    }

    fn size_hint(&self) -> (usize, Option<usize>) {
        self.rows.size_hint()
    }
}

impl DoubleEndedIterator for WayDown<'_> {
    fn next_back(&mut self) -> Option<Self::Item> {
        let slots = self.rows.next_back()?;
        Some(self.row(slots))
    }
}

impl ExactSizeIterator for WayDown<'_> {}

impl FusedIterator for WayDown<'_> {}

impl fmt::Debug for WayDown<'_> {
    fn fmt(&self, f: &mut fmt::Formatter<'_>) -> fmt::Result {
        f.debug_list().entries(self.clone()).finish()
    }
}
