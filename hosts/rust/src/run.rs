//! A run over a document: what the archive is lent besides its bytes, and the names of its numbers. [`Reader`](crate::Reader) and [`Feeder`](crate::feed::Feeder) have one each, and lend it their bytes.

use crate::config::Config;
use crate::errors::{owned, Error, Told};
use crate::events::{At, Content, Event};
use crate::ext::Phase;
use crate::lent;
use crate::name::QName;
use crate::plain::Engine;
use crate::raw::{answer, state, ANSWER_SLOTS, FILLED_SLOTS, MOST_NAMES, NAME_SLOTS, ROW_SLOTS, STATE_SLOTS};
use crate::rows::WayDown;
use std::borrow::Cow;
use std::fmt;
use std::ops::Range;
use std::str;

#[derive(Clone)]
pub struct Run {
    config: Config,
    /// 0, or the number of the refusal to make a reader. Then the state holds none, and the archive refuses every call.
    made: usize,
    state: [usize; STATE_SLOTS],
    /// The open names, with some room to spare while there may be more of them.
    stack: Vec<usize>,
    /// How many names may be open.
    names: usize,
    /// The depth at which a call is to be prepared: where the stack is full and may grow, or at once, if the settings may have changed.
    pause: usize,
    answer: [usize; ANSWER_SLOTS],
    error_position: usize,
}

impl Run {
    /// A run over this document that has not begun, with the default settings. So many names may be open, but never more than [`MOST_NAMES`].
    pub fn new(document: &[u8], names: usize) -> Self {
        let config = Config::default();
        let mut state = [0; STATE_SLOTS];
        let made = lent::new(document, config.bits(), &mut state);
        Run {
            config,
            made,
            state,
            stack: Vec::new(),
            names: names.min(MOST_NAMES),
            pause: 0,
            answer: [0; ANSWER_SLOTS],
            error_position: 0,
        }
    }

    pub const fn config(&self) -> &Config {
        &self.config
    }

    /// The settings, to be changed. They count from the next call on.
    pub fn config_mut(&mut self) -> &mut Config {
        self.pause = self.state[state::DEPTH];
        &mut self.config
    }

    /// The document has so many bytes from now on, those before among them.
    pub fn grow(&mut self, length: usize) {
        self.state[state::LENGTH] = length;
    }

    /// Reads on by an engine: the piece of an event, or the number of a refusal.
    #[inline]
    pub fn read<'d, E: Engine>(&mut self, document: &'d [u8]) -> Result<&'d str, usize> {
        if self.state[state::DEPTH] == self.pause {
            self.prepare();
        }
        lent::read_piece::<E>(document, &mut self.stack, &mut self.state, &mut self.answer)
    }

    /// The event of the last answer, whose piece this is. The End of an expanded empty element has its name from another piece.
    #[inline]
    pub fn event<'p>(&self, document: &[u8], piece: &'p str) -> Event<'p> {
        let Range { start: from, end: to } = self.span(answer::CONTENT);
        let Range { start, end } = self.piece();
        let text = match piece.get(from.wrapping_sub(start)..to.wrapping_sub(start)) {
            Some(text) => Cow::Borrowed(text),
            None => Cow::Owned(owned(self.bytes(document, answer::CONTENT))),
        };
        let content = Content {
            text,
            name_len: self.answer[answer::NAME],
            at: At::new((start, end), from),
        };
        Event::of_kind(self.answer[answer::KIND], content)
    }

    /// The refusal of this number, or the one to make this run, with what the last answer tells.
    #[cold]
    pub fn refused(&mut self, document: &[u8], number: usize) -> Error {
        self.error_position = self.answer[answer::PLACE];
        let told = Told {
            piece: self.bytes(document, answer::PIECE),
            expected: self.bytes(document, answer::EXPECTED),
            found: self.bytes(document, answer::FOUND),
            latest: self.entries().next_back().map_or(&[], |span| part(document, span)),
        };
        Error::numbered(if self.made == 0 { number } else { self.made }, told)
    }

    /// Puts the settings into the state, and makes a full stack larger, if there may be more names.
    ///
    /// A call opens one name at most. So with room for one more it answers as with room for all, and a name is refused for lack of room (15)
    /// only where as many are open as may be.
    #[cold]
    fn prepare(&mut self) {
        self.state[state::SETTINGS] = self.config.bits();
        let mut room = self.stack.len() / NAME_SLOTS;
        if self.depth() == room {
            room = (2 * room).max(FIRST_NAMES).min(self.names);
            self.stack.reserve_exact(room * NAME_SLOTS - self.stack.len());
            self.stack.resize(room * NAME_SLOTS, 0);
        }
        self.pause = if room < self.names { room } else { usize::MAX };
    }

    /// A span of the last answer.
    #[inline]
    fn span(&self, slot: usize) -> Range<usize> {
        self.answer[slot]..self.answer[slot + 1]
    }

    /// The bytes of a span of the last answer. It lies in the document.
    #[inline]
    pub fn bytes<'d>(&self, document: &'d [u8], slot: usize) -> &'d [u8] {
        part(document, self.span(slot))
    }

    /// The spans of the open names, the outermost first.
    fn entries(&self) -> impl DoubleEndedIterator<Item = Range<usize>> + ExactSizeIterator + '_ {
        let entries = self.stack.chunks_exact(NAME_SLOTS).take(self.depth());
        entries.map(|entry| entry[0]..entry[1])
    }

    /// The open names, the outermost first.
    pub fn open_names<'r, 'd: 'r>(
        &'r self,
        document: &'d [u8],
    ) -> impl DoubleEndedIterator<Item = QName<'d>> + ExactSizeIterator + 'r {
        self.entries().map(move |span| name(document, span))
    }

    /// The open names with where they stand, as the archive lists them.
    pub fn way_down<'d>(&self, document: &'d [u8]) -> WayDown<'d> {
        let mut rows = vec![[0; ROW_SLOTS]; self.depth()];
        let mut filled = [0; FILLED_SLOTS];
        // nothing is refused in a run, and there is room for all: as many rows are filled as names are open. A refusal would fill none
        lent::open_rows(&self.stack, &self.state, rows.as_flattened_mut(), &mut filled);
        rows.truncate(filled[0]);
        WayDown::new(document, rows)
    }

    #[inline]
    pub fn piece(&self) -> Range<usize> {
        self.span(answer::PIECE)
    }

    pub fn expected(&self) -> Option<Range<usize>> {
        (self.answer[answer::NUMBER] == MISMATCHED).then(|| self.span(answer::EXPECTED))
    }

    pub fn found(&self) -> Option<Range<usize>> {
        matches!(self.answer[answer::NUMBER], MISMATCHED | UNMATCHED).then(|| self.span(answer::FOUND))
    }

    #[inline]
    pub const fn position(&self) -> usize {
        self.state[state::POSITION]
    }

    pub const fn error_position(&self) -> usize {
        self.error_position
    }

    #[inline]
    pub const fn depth(&self) -> usize {
        self.state[state::DEPTH]
    }

    pub fn phase(&self) -> Phase {
        Phase::numbered(self.state[state::PHASE])
    }

    /// Whether a call answers end of file, or 18 before it.
    #[inline]
    pub const fn is_done(&self) -> bool {
        self.state[state::PHASE] == DONE
    }

    /// The last answer, and the state that its call left.
    pub const fn last(&self) -> (&[usize; ANSWER_SLOTS], &[usize; STATE_SLOTS]) {
        (&self.answer, &self.state)
    }

    /// Shows for debugging who reads so.
    pub fn show(&self, who: &str, f: &mut fmt::Formatter<'_>) -> fmt::Result {
        f.debug_struct(who)
            .field("phase", &self.phase())
            .field("position", &self.position())
            .field("depth", &self.depth())
            .field("config", &self.config)
            .finish_non_exhaustive()
    }
}

/// The bytes of a span that lies in the document.
#[inline]
fn part(document: &[u8], span: Range<usize>) -> &[u8] {
    document.get(span).unwrap_or_default()
}

/// The open name of this span. A name that was read is UTF-8.
pub fn name(document: &[u8], span: Range<usize>) -> QName<'_> {
    QName(str::from_utf8(part(document, span)).unwrap_or_default())
}

/// How many names a reader has room for at its first call, if it may have as many.
const FIRST_NAMES: usize = 32;

/// The phase of a run that is over.
const DONE: usize = 5;

/// The refusals that tell names.
const MISMATCHED: usize = 10;
const UNMATCHED: usize = 11;

#[cfg(test)]
mod tests {
    use super::{Phase, Run, FIRST_NAMES, MOST_NAMES, NAME_SLOTS};
    use crate::plain::Main;

    /// Reads a document that opens more names than may be, and sees the room before and after each call. Settings that may have changed make no room.
    fn room_doubles_where_it_is_full(asked: usize, changed: bool) {
        let names = asked.min(MOST_NAMES);
        let document = "<a>".repeat(names + 1);
        let mut run = Run::new(document.as_bytes(), asked);
        while run.phase() != Phase::Done {
            let (depth, room) = (run.depth(), run.stack.len() / NAME_SLOTS);
            if changed {
                run.config_mut();
            }
            let answer = run.read::<Main>(document.as_bytes());
            assert_eq!(answer, if depth < names { Ok("<a>") } else { Err(15) });
            let full = depth == room;
            let wanted = if full {
                (2 * room).max(FIRST_NAMES).min(names)
            } else {
                room
            };
            assert_eq!(run.stack.len(), wanted * NAME_SLOTS);
            assert_eq!(run.stack.capacity(), run.stack.len());
        }
        assert_eq!(run.depth(), names);
    }

    #[test]
    fn room_grows_before_a_call_that_could_need_it_and_to_no_more_than_was_asked_for() {
        for asked in [0, 1, 2, 31, 32, 33, 65, 100, MOST_NAMES - 1, MOST_NAMES, MOST_NAMES + 1] {
            room_doubles_where_it_is_full(asked, false);
            room_doubles_where_it_is_full(asked, true);
        }
    }
}
