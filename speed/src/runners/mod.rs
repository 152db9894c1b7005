//! What is measured: each reads a whole document, one answer after the other.

pub mod archive;
#[cfg(feature = "expat")]
pub mod expat;
#[cfg(feature = "libxml2")]
pub mod libxml2;
pub mod shared;
pub mod slices;

/// The settings that a run departs from the default ones by.
#[derive(Clone, Copy, Default, PartialEq, Eq)]
pub struct Settings {
    pub trim_text: bool,
    pub allow_dangling_amp: bool,
    pub check_comments: bool,
}

/// What a run has told, up to the end of the document: enough that none of it can be left out.
#[derive(Clone, Copy, Debug, Default, PartialEq, Eq)]
pub struct Tally {
    /// How many answers there were, refusals too.
    pub answers: usize,
    /// The sum of the events' kinds.
    pub kinds: usize,
    /// The sum of the lengths of their content.
    pub bytes: usize,
}

/// The kinds of an event, by the numbers of `include/sporebasket.h`.
pub mod kind {
    pub const START: usize = 1;
    pub const END: usize = 2;
    pub const EMPTY: usize = 3;
    pub const TEXT: usize = 4;
    pub const REF: usize = 5;
    pub const COMMENT: usize = 6;
    pub const CDATA: usize = 7;
    pub const DECL: usize = 8;
    pub const PI: usize = 9;
    pub const EOF: usize = 10;
    /// The crate's alone.
    pub const DOCTYPE: usize = 11;
}

impl Tally {
    #[inline]
    fn event(&mut self, kind: usize, bytes: usize) {
        self.answers += 1;
        self.kinds += kind;
        self.bytes += bytes;
    }

    /// A refusal, of which a run over the document can have only so many.
    #[cold]
    fn refusal(&mut self, document: &[u8]) {
        self.answers += 1;
        assert!(self.answers <= document.len() + 2, "a run that does not end");
    }
}

/// A column of the table.
pub trait Runner {
    fn name(&self) -> &str;

    /// Whether it takes the settings and answers as the crate does. The C libraries have events of their own.
    fn is_alike(&self) -> bool {
        true
    }

    fn run(&mut self, document: &[u8], settings: Settings) -> Tally;
}
