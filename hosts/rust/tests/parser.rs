//! The parsers under quick-xml's names, where quick-xml's own answer otherwise for bytes that are cut, and with more bytes than one scan takes. `hosts/swap` has what is the same.

use sporebasket::errors::SyntaxError;
use sporebasket::lent::LONGEST;
use sporebasket::parser::{CommentParser, ElementParser, Parser, PiParser};
use std::fmt::Debug;

/// The place that a parser finds in these bytes, or what it is then.
fn fed<P: Parser>(mut parser: P, bytes: &[u8]) -> Result<usize, P> {
    parser.feed(bytes).ok_or(parser)
}

#[test]
fn no_bytes_change_nothing() {
    assert_eq!(fed(PiParser(true), b""), Err(PiParser(true)));
    let mut parser = PiParser::default();
    for piece in [&b"<?a?"[..], b"", b""] {
        assert_eq!(parser.feed(piece), None);
    }
    assert_eq!(parser.feed(b">"), Some(0));
}

#[test]
fn a_hyphen_behind_another_byte_is_one() {
    use CommentParser::{Seen1, Seen2};
    assert_eq!(fed(Seen1, b"x-"), Err(Seen1));
    assert_eq!(fed(Seen2, b"x-"), Err(Seen1));
    for first in [&b"<!--a-"[..], b"<!--a--"] {
        let mut parser = CommentParser::default();
        for piece in [first, b"x-", b">"] {
            assert_eq!(parser.feed(piece), None);
        }
        assert_eq!(parser, CommentParser::Seen0);
        assert_eq!(parser.eof_error(b"<!--a-x->"), SyntaxError::UnclosedComment);
    }
}

/// All strings of these bytes, up to a length.
fn strings(bytes: &[u8], longest: usize) -> Vec<Vec<u8>> {
    let mut all = vec![Vec::new()];
    let mut from = 0;
    for _ in 0..longest {
        let to = all.len();
        for i in from..to {
            for byte in bytes {
                let mut longer = all[i].clone();
                longer.push(*byte);
                all.push(longer);
            }
        }
        from = to;
    }
    all
}

/// For each of these strings, from each state: in whatever two or three pieces it is fed, the parser finds the same, or is the same then.
fn no_cut_counts<P: Parser + Copy + PartialEq + Debug>(states: &[P], bytes: &[u8]) {
    let mut found = 0;
    for string in strings(bytes, 6) {
        for state in states {
            let whole = fed(*state, &string);
            for first in 0..=string.len() {
                for second in first..=string.len() {
                    let mut parser = *state;
                    let mut at = 0;
                    let cut = [first, second, string.len()].into_iter().find_map(|end| {
                        let place = parser.feed(&string[at..end]).map(|place| at + place);
                        at = end;
                        place
                    });
                    assert_eq!(
                        cut.ok_or(parser),
                        whole,
                        "{string:?} from {state:?} cut at {first} and {second}"
                    );
                }
            }
            found += usize::from(whole.is_ok());
        }
    }
    assert!(found > 100);
}

#[test]
fn no_cut_counts_in_a_tag() {
    use ElementParser::{DoubleQ, Outside, SingleQ};
    no_cut_counts(&[Outside, SingleQ, DoubleQ], b">'\"x");
}

#[test]
fn no_cut_counts_in_a_processing_instruction() {
    no_cut_counts(&[PiParser(false), PiParser(true)], b">?x");
}

#[test]
fn no_cut_counts_in_a_comment() {
    use CommentParser::{Seen0, Seen1, Seen2};
    no_cut_counts(&[Seen0, Seen1, Seen2], b">-x");
}

#[test]
fn more_bytes_than_a_document_has_are_taken() {
    let mut bytes = vec![b'a'; LONGEST + 9];
    // the first part that is fed ends six bytes before the limit: within the closer, and before it
    for end in [LONGEST - 5, LONGEST - 4, LONGEST - 3] {
        let closer = end - 3..end;
        bytes[closer.clone()].copy_from_slice(b"-->");
        assert_eq!(fed(CommentParser::Seen0, &bytes), Ok(end));
        bytes[closer].fill(b'a');
    }
    let end = LONGEST - 6;
    bytes[end - 1..=end].copy_from_slice(b"?>");
    assert_eq!(fed(PiParser(false), &bytes), Ok(end));
    bytes[end - 1..=end].copy_from_slice(b"'>");
    assert_eq!(fed(ElementParser::SingleQ, &bytes), Ok(end));
    assert_eq!(fed(ElementParser::Outside, &bytes), Err(ElementParser::SingleQ));
    bytes[LONGEST + 8] = b'-';
    assert_eq!(fed(CommentParser::Seen0, &bytes), Err(CommentParser::Seen1));
}
