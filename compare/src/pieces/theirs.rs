//! The crate's side: its parsers and `BangType`, fed in pieces; and the rules by which they go where they do not go by ours.

use super::*;
use quick_xml::parser::{CommentParser, ElementParser, Parser, PiParser};
use quick_xml::reader::Reader;

/// What is said behind a piece: where the byte stands that is looked for, or, while it is not found, what is kept of the pieces.
#[derive(Clone, Copy, Debug, PartialEq, Eq)]
pub enum Said {
    Found(usize),
    Open(usize),
}

/// A scanner of the crate.
#[derive(Clone, Copy, Debug)]
pub enum Scanner {
    Element(ElementParser),
    Pi(PiParser),
    /// Fed a comment with its opener, and without.
    Whole(CommentParser),
    Behind(CommentParser),
    /// `BangType`, by the byte that chooses it.
    Bang(u8),
}

/// The scanners that stand beside a scan of ours, as they begin.
pub fn beside(made: usize) -> [Option<Scanner>; 3] {
    let comment = CommentParser::default();
    match made {
        TAG => [Some(Scanner::Element(ElementParser::default())), None, None],
        PI => [Some(Scanner::Pi(PiParser::default())), None, None],
        COMMENT => [Some(Scanner::Whole(comment)), Some(Scanner::Behind(comment)), Some(Scanner::Bang(b'-'))],
        CDATA => [Some(Scanner::Bang(b'[')), None, None],
        _ => [None; 3],
    }
}

impl Scanner {
    /// Feeds the next piece of a content. Places count in the content.
    pub fn feed(&mut self, content: &[u8], (from, to): Span) -> Said {
        let piece = &content[from..to];
        let found = |at: Option<usize>, from: usize, kept: usize| at.map_or(Said::Open(kept), |at| Said::Found(from + at));
        match self {
            Scanner::Element(parser) => {
                let at = parser.feed(piece);
                found(at, from, *parser as usize)
            }
            Scanner::Pi(parser) => {
                let at = parser.feed(piece);
                found(at, from, parser.0 as usize)
            }
            Scanner::Whole(parser) => {
                let at = parser.feed(piece);
                found(at, from, *parser as usize)
            }
            Scanner::Behind(parser) => {
                let from = from.max(OPENER).min(to);
                let at = parser.feed(&content[from..to]);
                found(at, from, *parser as usize)
            }
            Scanner::Bang(third) => found(Reader::<&[u8]>::bang_end(*third, &content[..from], piece), from, 0),
        }
    }

    /// What it has to say where it goes by our rules.
    pub fn ours(&self, scan: &[usize]) -> Said {
        match (scan[STATE], self) {
            (CLOSED, _) => Said::Found(scan[COUNT]),
            (state, Scanner::Element(_)) => Said::Open(state - TAG),
            (_, Scanner::Bang(_)) => Said::Open(0),
            _ => Said::Open(scan[SEEN]),
        }
    }
}

/// The pieces that were fed: the latest three with bytes, the last first, and whether one without came behind them.
#[derive(Clone, Copy, Default)]
pub struct Pieces {
    pub latest: [Span; 3],
    pub empty: bool,
}

impl Pieces {
    pub fn then(&self, span: Span) -> Self {
        let [last, before, _] = self.latest;
        match span.0 == span.1 {
            true => Self { empty: true, ..*self },
            false => Self { latest: [span, last, before], empty: false },
        }
    }

    /// The same without a comment's opener.
    fn behind_opener(&self) -> Self {
        Self { latest: self.latest.map(|(from, to)| (from.max(OPENER).min(to), to)), ..*self }
    }

    /// As the scanner is fed them.
    pub fn of(&self, scanner: &Scanner) -> Self {
        match scanner {
            Scanner::Behind(_) => self.behind_opener(),
            _ => *self,
        }
    }
}

/// The rules of the crate where they are not ours, by their parts.
pub struct Rules {
    /// Whether a `?` is kept behind these pieces.
    pub question: fn(&[u8], &Pieces) -> bool,
    /// How many hyphens are kept behind these pieces with bytes.
    pub hyphens: fn(&[u8], &[Span]) -> usize,
    /// Whether the `>` at a place closes a comment, in a piece from another place on, behind so many hyphens.
    pub closes: fn(&[u8], usize, usize, usize) -> bool,
    /// The place told of a comment's `>`.
    pub told: fn(usize) -> usize,
}

pub const SOUND: Rules = Rules { question, hyphens, closes, told: |at| at + 1 };

/// The latest piece ends in one.
pub fn question(content: &[u8], pieces: &Pieces) -> bool {
    !pieces.empty && ends(content, &pieces.latest, 0, b"?")
}

/// Two if the latest piece ends in two, or in one and the one before it too; one if the latest alone ends in one.
pub fn hyphens(content: &[u8], pieces: &[Span]) -> usize {
    let one = |which| ends(content, pieces, which, b"-");
    one(0) as usize + (one(0) && one(1) || ends(content, pieces, 0, b"--")) as usize
}

pub fn closes(content: &[u8], from: usize, at: usize, hyphens: usize) -> bool {
    let piece = &content[from..at];
    piece.ends_with(b"--") || piece == b"-" && hyphens > 0 || piece.is_empty() && hyphens == 2
}

/// Whether one of the pieces ends so.
pub fn ends(content: &[u8], pieces: &[Span], which: usize, with: &[u8]) -> bool {
    pieces.get(which).is_some_and(|&(from, to)| content[from..to].ends_with(with))
}

impl Rules {
    /// What the crate says of a piece behind others, none where it says the same as ours.
    pub fn said(&self, scanner: &Scanner, content: &[u8], before: &Pieces, (from, to): Span) -> Option<Said> {
        let after = before.then((from, to)).of(scanner);
        let before = before.of(scanner);
        let close = |closes: &dyn Fn(usize) -> bool, from: usize| (from..to).find(|&at| content[at] == b'>' && closes(at));
        match scanner {
            Scanner::Element(_) | Scanner::Bang(_) => None,
            Scanner::Pi(_) => {
                let kept = (self.question)(content, &before);
                let closes = |at: usize| if at == from { kept } else { content[at - 1] == b'?' };
                Some(close(&closes, from).map_or(Said::Open((self.question)(content, &after) as usize), Said::Found))
            }
            Scanner::Whole(_) | Scanner::Behind(_) => {
                let from = if matches!(scanner, Scanner::Behind(_)) { from.max(OPENER).min(to) } else { from };
                let kept = (self.hyphens)(content, &before.latest);
                let at = close(&|at| (self.closes)(content, from, at, kept), from);
                let open = || Said::Open((self.hyphens)(content, &after.latest));
                Some(at.map_or_else(open, |at| Said::Found((self.told)(at))))
            }
        }
    }
}
