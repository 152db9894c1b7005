//! The functions of `include/sporebasket.h`, as they stand in the archive.
//!
//! Each takes a slice as a pointer and a count. A pointer is not null, even where the count is 0, and what is written to overlaps with
//! nothing else that is lent; whatever the numbers are, the answer is the one that the header and `docs/PROMISES.md` state.
//! [`lent`](crate::lent) and [`Reader`](crate::Reader) wrap them.

extern "C" {
    /// The settings of a reader to which none are given, a bit each.
    pub fn sporebasket_default_settings() -> usize;

    /// Makes a reader in `state`: 0, or the refusal's number.
    pub fn sporebasket_new(
        document: *const u8,
        length: usize,
        settings: usize,
        state: *mut usize,
        state_slots: usize,
    ) -> usize;

    /// Reads on, and writes the stack, the state and the answer: 0 for an event, or the refusal's number.
    pub fn sporebasket_read_event(
        document: *const u8,
        length: usize,
        stack: *mut usize,
        stack_slots: usize,
        state: *mut usize,
        state_slots: usize,
        answer: *mut usize,
        answer_slots: usize,
    ) -> usize;

    /// Does what [`sporebasket_read_event`] does, by the plain engine.
    pub fn sporebasket_plain_read_event(
        document: *const u8,
        length: usize,
        stack: *mut usize,
        stack_slots: usize,
        state: *mut usize,
        state_slots: usize,
        answer: *mut usize,
        answer_slots: usize,
    ) -> usize;

    /// Writes the open name of this depth into the row: 0, or the refusal's number.
    pub fn sporebasket_open_row(
        stack: *const usize,
        stack_slots: usize,
        state: *const usize,
        state_slots: usize,
        depth: usize,
        row: *mut usize,
        row_slots: usize,
    ) -> usize;

    /// Fills the rows with the open names, and writes into the answer how many were filled: 0, or the refusal's number.
    pub fn sporebasket_open_rows(
        stack: *const usize,
        stack_slots: usize,
        state: *const usize,
        state_slots: usize,
        rows: *mut usize,
        rows_slots: usize,
        answer: *mut usize,
        answer_slots: usize,
    ) -> usize;

    /// Writes where the bytes of a span stand in the document: 0, or the refusal's number.
    pub fn sporebasket_content(
        document: *const u8,
        length: usize,
        from: usize,
        to: usize,
        part: *mut usize,
        part_slots: usize,
    ) -> usize;

    /// Reads one attribute of the tag whose content is that span, and writes the answer: 0 for an attribute or none, or the refusal's number.
    pub fn sporebasket_attribute(
        document: *const u8,
        length: usize,
        from: usize,
        to: usize,
        name: usize,
        at: usize,
        answer: *mut usize,
        slots: usize,
    ) -> usize;

    /// Looks up the attribute of that name in the tag, and writes the answer: 0 for an attribute or none, or the refusal's number.
    pub fn sporebasket_find_attribute(
        document: *const u8,
        length: usize,
        from: usize,
        to: usize,
        name: usize,
        wanted: *const u8,
        wanted_length: usize,
        answer: *mut usize,
        slots: usize,
    ) -> usize;

    /// Writes the character of a reference into the buffer, and the answer: 0, or the refusal's number.
    pub fn sporebasket_reference(
        content: *const u8,
        length: usize,
        buffer: *mut u8,
        buffer_length: usize,
        at: usize,
        answer: *mut usize,
        slots: usize,
    ) -> usize;

    /// Writes a content into the buffer with its references replaced, and the answer: 0, or the refusal's number.
    pub fn sporebasket_unescape(
        content: *const u8,
        length: usize,
        buffer: *mut u8,
        buffer_length: usize,
        at: usize,
        answer: *mut usize,
        slots: usize,
    ) -> usize;

    /// Fills the column with the times of the whole document, and writes the stack and the answer: 0, or the refusal's number.
    pub fn sporebasket_column(
        document: *const u8,
        length: usize,
        stack: *mut usize,
        stack_slots: usize,
        column: *mut usize,
        column_slots: usize,
        answer: *mut usize,
        answer_slots: usize,
    ) -> usize;

    /// Makes a scan in `scan` that begins in this state: 0, or the refusal's number.
    pub fn sporebasket_scan(state: usize, scan: *mut usize, scan_slots: usize) -> usize;

    /// Goes on with the scan over the next piece, and writes the scan: 0, or the refusal's number.
    pub fn sporebasket_feed(piece: *const u8, length: usize, scan: *mut usize, scan_slots: usize) -> usize;
}

/// The most bytes that a document may have.
pub const LONGEST: usize = 268_435_456;

/// The most names that may be open at once.
pub const MOST_NAMES: usize = 65_535;

/// The slots of the stack that a name takes: its start and its end.
pub const NAME_SLOTS: usize = 2;

/// The slots of a reader's state: phase, position, depth, length, settings and the mark.
pub const STATE_SLOTS: usize = 6;

/// The slots of an answer: kind, number, place, piece, content, name, expected and found, a span in two slots.
pub const ANSWER_SLOTS: usize = 12;

/// The slots of a row: an open name's start, its end and its depth.
pub const ROW_SLOTS: usize = 3;

/// The slots of the answer for rows: how many were filled.
pub const FILLED_SLOTS: usize = 1;

/// The slots of a part of the document: its start and its end.
pub const PART_SLOTS: usize = 2;

/// The slots of an attribute's answer: found, name, value, next, place, quote and first, a span in two slots.
pub const ATTRIBUTE_SLOTS: usize = 9;

/// The slots of an answer for references: how many bytes were written, and the place of a refusal.
pub const UNESCAPE_SLOTS: usize = 2;

/// The slots of a column's answer: count, lower, number, place, piece, expected and found, a span in two slots.
pub const COLUMN_SLOTS: usize = 10;

/// The slots of a scan: state, count, left and seen.
pub const SCAN_SLOTS: usize = 4;

/// The slots of a state, by their places.
pub mod state {
    pub const PHASE: usize = 0;
    pub const POSITION: usize = 1;
    pub const DEPTH: usize = 2;
    pub const LENGTH: usize = 3;
    pub const SETTINGS: usize = 4;
}

/// The slots of an answer, by their places; of a span, that of its start.
pub mod answer {
    pub const KIND: usize = 0;
    pub const NUMBER: usize = 1;
    pub const PLACE: usize = 2;
    pub const PIECE: usize = 3;
    pub const CONTENT: usize = 5;
    pub const NAME: usize = 7;
    pub const EXPECTED: usize = 8;
    pub const FOUND: usize = 10;
}

/// The slots of an attribute's answer, by their places; of a span, that of its start.
pub mod attribute {
    pub const FOUND: usize = 0;
    pub const NAME: usize = 1;
    pub const VALUE: usize = 3;
    pub const NEXT: usize = 5;
    pub const PLACE: usize = 6;
    pub const QUOTE: usize = 7;
    pub const FIRST: usize = 8;
}

/// The slots of a column's answer, by their places; of a span, that of its start.
pub mod column {
    pub const COUNT: usize = 0;
    pub const LOWER: usize = 1;
    pub const NUMBER: usize = 2;
    pub const PLACE: usize = 3;
    pub const PIECE: usize = 4;
    pub const EXPECTED: usize = 6;
    pub const FOUND: usize = 8;
}

/// The slots of a scan, by their places.
pub mod scan {
    pub const STATE: usize = 0;
    pub const COUNT: usize = 1;
    pub const SEEN: usize = 3;
}
