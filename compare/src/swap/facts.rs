//! What a document says of the listed differences: where they are due, and what ours then has to tell.

use crate::check::first_ill;
use crate::ours::{COMMENTS, DEFAULT, DOUBLE_HYPHEN, EOF};
use crate::theirs::Theirs;
use std::cell::OnceCell;

pub struct Facts<'a> {
    document: &'a [u8],
    /// What a byte order mark adds to positions of the crate.
    pub mark: u64,
    /// The comments with two hyphens in a row: where each ends, and where the first two stand.
    pairs: OnceCell<Vec<(u64, u64)>>,
}

impl<'a> Facts<'a> {
    pub fn new(document: &'a [u8]) -> Self {
        let mark = if document.starts_with(b"\xEF\xBB\xBF") { 3 } else { 0 };
        Self { document, mark, pairs: OnceCell::new() }
    }

    /// Where the first two hyphens in a row stand in the comment that ends here.
    pub fn pair(&self, end: u64) -> Option<u64> {
        let pairs = self.pairs.get_or_init(|| pairs(self.document));
        pairs.iter().find(|(to, _)| *to == end).map(|(_, at)| *at)
    }

    /// Where the document stops being UTF-8.
    pub fn ill(&self) -> u64 {
        first_ill(self.document) as u64
    }

    /// Whether a document type opens here.
    pub fn is_doctype(&self, at: u64) -> bool {
        let rest = self.document.get(at as usize..).unwrap_or_default();
        rest.starts_with(b"<!D") || rest.starts_with(b"<!d")
    }

    /// The piece of a dangling `&` that ends here.
    pub fn dangling(&self, end: u64) -> Option<&'a str> {
        let before = self.document.get(..end as usize)?;
        let from = before.iter().rposition(|&b| b == b'&')?;
        std::str::from_utf8(&before[from..]).ok()
    }
}

/// Reads the document by the crate, which finds where its comments end. They begin where the call before stopped.
fn pairs(document: &[u8]) -> Vec<(u64, u64)> {
    let mut theirs = Theirs::new(document, DEFAULT | COMMENTS);
    let mut found = Vec::new();
    loop {
        let from = theirs.position() + theirs.mark;
        let seen = theirs.read();
        let to = theirs.position() + theirs.mark;
        if seen.number == DOUBLE_HYPHEN {
            let content = from + 4;
            let pair = document[content..to].windows(2).position(|bytes| bytes == b"--").unwrap_or_default();
            found.push((to as u64, (content + pair) as u64));
        }
        if seen.kind == EOF {
            return found;
        }
    }
}
