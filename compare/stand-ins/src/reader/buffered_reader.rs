//! In the place of the buffered reader: its two methods over a slice, which take each event out of a buffer that its bytes were appended to. Ours.

use crate::errors::{Error, Result};
use crate::events::Event;
use crate::name::QName;
use crate::reader::{ParseState, Reader, Span, XmlSource};

impl<'a> Reader<&'a [u8]> {
    pub fn read_event_into<'b>(&mut self, buf: &'b mut Vec<u8>) -> Result<Event<'b>> {
        self.pass()?;
        let (rest, from) = (self.reader, self.state.offset);
        let event = self.read_event();
        let piece = &rest[..(self.state.offset - from) as usize];
        let start = buf.len();
        buf.extend_from_slice(piece);
        let event = event?;
        Ok(event.over(piece, std::str::from_utf8(&buf[start..])?))
    }

    pub fn read_to_end_into(&mut self, end: QName, buf: &mut Vec<u8>) -> Result<Span> {
        Ok(read_to_end!(self, end, buf, read_event_into, {
            buf.clear();
        }))
    }

    /// Passes what comes before an event and is no part of it: a byte order mark, and white space where that is to be skipped.
    fn pass(&mut self) -> Result<()> {
        if matches!(self.state.state, ParseState::Init) {
            self.reader.remove_utf8_bom()?;
            self.state.state = ParseState::InsideText;
        }
        if matches!(self.state.state, ParseState::InsideText) && self.state.config.trim_text_start {
            self.reader.skip_whitespace(&mut self.state.offset)?;
        }
        Ok(())
    }
}
