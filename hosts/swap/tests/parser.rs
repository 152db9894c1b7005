//! Markup that comes in pieces: the parsers by themselves, as who reads from a line uses them.

use quick_xml::errors::SyntaxError;
use quick_xml::parser::{CommentParser, ElementParser, Parser, PiParser};
use std::fmt::Debug;

/// The place that a parser finds in these bytes, or what it is then.
fn fed<P: Parser>(mut parser: P, bytes: &[u8]) -> Result<usize, P> {
    parser.feed(bytes).ok_or(parser)
}

/// What each of these states finds in the bytes of a row, or becomes.
fn hold<P: Parser + Copy + Debug + PartialEq, const N: usize>(states: [P; N], rows: &[(&str, [Result<usize, P>; N])]) {
    for (bytes, wanted) in rows {
        for (state, wanted) in states.iter().zip(wanted) {
            assert_eq!(&fed(*state, bytes.as_bytes()), wanted, "{bytes:?} from {state:?}");
        }
    }
}

#[test]
fn the_end_of_a_tag() {
    use ElementParser::{DoubleQ, Outside, SingleQ};
    hold(
        [Outside, SingleQ, DoubleQ],
        &[
            ("", [Err(Outside), Err(SingleQ), Err(DoubleQ)]),
            ("'", [Err(SingleQ), Err(Outside), Err(DoubleQ)]),
            ("\"", [Err(DoubleQ), Err(SingleQ), Err(Outside)]),
            (">", [Ok(0), Err(SingleQ), Err(DoubleQ)]),
            ("''>", [Ok(2), Err(SingleQ), Err(DoubleQ)]),
            ("'>", [Err(SingleQ), Ok(1), Err(DoubleQ)]),
            ("\"'\">", [Ok(3), Err(DoubleQ), Err(SingleQ)]),
            ("<a b = 'c>' d=\"e'>\">f>", [Ok(19), Ok(9), Err(SingleQ)]),
        ],
    );
}

#[test]
fn the_end_of_a_processing_instruction() {
    let [no, seen] = [PiParser(false), PiParser(true)];
    hold(
        [no, seen],
        &[
            ("?", [Err(seen), Err(seen)]),
            (">", [Err(no), Ok(0)]),
            ("?>", [Ok(1), Ok(1)]),
            (">?>", [Ok(2), Ok(0)]),
            ("x", [Err(no), Err(no)]),
            ("x>", [Err(no), Err(no)]),
            ("<?>", [Ok(2), Ok(2)]),
            ("<?a '?' > ??>", [Ok(12), Ok(12)]),
        ],
    );
    assert_eq!(fed(no, b""), Err(no));
}

#[test]
fn the_end_of_a_comment() {
    use CommentParser::{Seen0, Seen1, Seen2};
    hold(
        [Seen0, Seen1, Seen2],
        &[
            ("", [Err(Seen0), Err(Seen1), Err(Seen2)]),
            ("-", [Err(Seen1), Err(Seen2), Err(Seen2)]),
            (">", [Err(Seen0), Err(Seen0), Ok(1)]),
            ("--", [Err(Seen2), Err(Seen2), Err(Seen2)]),
            ("->", [Err(Seen0), Ok(2), Ok(2)]),
            ("-->", [Ok(3), Ok(3), Ok(3)]),
            (">-->", [Ok(4), Ok(4), Ok(1)]),
            ("->-->", [Ok(5), Ok(2), Ok(2)]),
            ("x", [Err(Seen0), Err(Seen0), Err(Seen0)]),
            ("x--", [Err(Seen2), Err(Seen2), Err(Seen2)]),
            ("<!-->", [Ok(5), Ok(5), Ok(5)]),
            ("<!--a-b--->c-->", [Ok(11), Ok(11), Ok(11)]),
        ],
    );
    assert_eq!(fed(Seen0, b"x-"), Err(Seen1));
}

/// Feeds pieces until one has the end: the number of that piece, and the place in it.
fn in_pieces(mut parser: impl Parser, pieces: &[&str]) -> Option<(usize, usize)> {
    let mut numbered = pieces.iter().enumerate();
    numbered.find_map(|(number, piece)| parser.feed(piece.as_bytes()).map(|place| (number, place)))
}

#[test]
fn markup_in_pieces() {
    assert_eq!(
        in_pieces(ElementParser::default(), &["<a b='", ">", "'", " >"]),
        Some((3, 1))
    );
    assert_eq!(in_pieces(PiParser::default(), &["<?a ", "? ", "?", ">"]), Some((3, 0)));
    assert_eq!(
        in_pieces(CommentParser::default(), &["<!--", "a", "-", "-", ">"]),
        Some((4, 1))
    );
    assert_eq!(in_pieces(CommentParser::default(), &["<!--", "a--", "b", "->"]), None);
}

#[test]
fn what_is_wrong_at_the_end_of_the_input() {
    let tag = |parser: ElementParser| parser.eof_error(b"<a");
    assert_eq!(tag(ElementParser::Outside), SyntaxError::UnclosedTag);
    assert_eq!(
        tag(ElementParser::SingleQ),
        SyntaxError::UnclosedSingleQuotedAttributeValue
    );
    assert_eq!(
        tag(ElementParser::DoubleQ),
        SyntaxError::UnclosedDoubleQuotedAttributeValue
    );
    assert_eq!(CommentParser::Seen2.eof_error(b"<!----"), SyntaxError::UnclosedComment);
    for declaration in [
        "<?xml",
        "<?xml ",
        "<?xml\t",
        "<?xml\r",
        "<?xml\n",
        "<?xml?",
        "<?xml version",
    ] {
        let error = PiParser(false).eof_error(declaration.as_bytes());
        assert_eq!(error, SyntaxError::UnclosedXmlDecl, "{declaration:?}");
    }
    for instruction in ["", "<?", "<?xm", "<?xmlx", "<?xml-a", "<?XML ", "?xml "] {
        let error = PiParser(true).eof_error(instruction.as_bytes());
        assert_eq!(error, SyntaxError::UnclosedPI, "{instruction:?}");
    }
}

#[test]
fn parsers_are_values() {
    let parser = ElementParser::default();
    let mut copy = parser;
    assert_eq!(copy.feed(b"'"), None);
    assert_ne!(copy, parser);
    assert_eq!(
        format!("{copy:?} {:?} {:?}", PiParser::default(), CommentParser::default()),
        "SingleQ PiParser(false) Seen0"
    );
}
