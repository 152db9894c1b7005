//! What the parsers of markup tell that are fed in pieces, here the document whole and in two, from each of their states on. What quick-xml's keep of a piece in a way that is listed as a difference
//! is not written, nor what comes behind it.

use super::{row, Page};
use quick_xml::parser::{CommentParser, ElementParser, Parser, PiParser};
use std::fmt::Debug;

pub fn write(document: &[u8], page: &mut Page) {
    row!(page, '>', "parsers");
    for parser in [ElementParser::default(), ElementParser::SingleQ, ElementParser::DoubleQ] {
        fed(parser, document, page, |_, _| true);
    }
    for parser in [PiParser::default(), PiParser(true)] {
        fed(parser, document, page, |parser, piece| !parser.0 || !piece.is_empty());
    }
    for parser in [CommentParser::default(), CommentParser::Seen1, CommentParser::Seen2] {
        let one = |piece: &[u8]| piece.len() > 1 && piece.ends_with(b"-") && !piece.ends_with(b"--");
        fed(parser, document, page, move |parser, piece| parser == CommentParser::Seen0 || !one(piece));
    }
    row!(page, '<', "");
}

/// Feeds the document whole, and cut in the middle and before its last byte, as long as what is kept of the pieces is no listed difference.
fn fed<P: Parser + Copy + Debug>(parser: P, document: &[u8], page: &mut Page, keeps: impl Fn(P, &[u8]) -> bool) {
    let length = document.len();
    for cut in [length, length / 2, length.saturating_sub(1)] {
        let (mut fed, (first, second)) = (parser, document.split_at(cut));
        let mut over = false;
        for piece in [first, second].into_iter().filter(|piece| piece.len() == length || !piece.is_empty()) {
            let kept = keeps(fed, piece);
            let found = fed.feed(piece);
            row!(page, '=', "{found:?}");
            over = found.is_some() || !kept;
            if over {
                break;
            }
            row!(page, '=', "{fed:?}");
        }
        if !over {
            let error = fed.eof_error(document);
            row!(page, '=', "{error:?}, {error}");
        }
    }
}
