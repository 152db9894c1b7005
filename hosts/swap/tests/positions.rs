//! Where a reader stands, and what it has yet to read.

use quick_xml::errors::Error;
use quick_xml::events::{BytesEnd, BytesStart, BytesText, Event};
use quick_xml::name::QName;
use quick_xml::reader::Reader;

#[test]
fn pieces_by_positions() {
    let xml = "<?xml version='1.0'?>\n<a b='>'>x &amp; y<!-- c --><d/></a >\n";
    let mut reader = Reader::from_str(xml);
    let mut pieces = Vec::new();
    loop {
        let from = reader.buffer_position() as usize;
        if reader.read_event().unwrap() == Event::Eof {
            break;
        }
        pieces.push(&xml[from..reader.buffer_position() as usize]);
    }
    let wanted = [
        "<?xml version='1.0'?>",
        "\n",
        "<a b='>'>",
        "x ",
        "&amp;",
        " y",
        "<!-- c -->",
        "<d/>",
        "</a >",
        "\n",
    ];
    assert_eq!(pieces, wanted);
    assert_eq!(pieces.concat(), xml);
    assert_eq!(reader.buffer_position(), xml.len() as u64);
}

#[test]
fn positions_while_trimming() {
    let mut reader = Reader::from_str("  <a>  x  </a>  ");
    reader.config_mut().trim_text(true);
    let mut positions = Vec::new();
    loop {
        let event = reader.read_event().unwrap();
        positions.push(reader.buffer_position());
        if event == Event::Eof {
            break;
        }
    }
    assert_eq!(positions, [5, 10, 14, 16]);
}

/// Line and column, both from 1, of a place in a document.
fn line_and_column(xml: &str, place: u64) -> (usize, usize) {
    let before = &xml[..place as usize];
    let line_start = before.rfind('\n').map_or(0, |at| at + 1);
    (
        before.matches('\n').count() + 1,
        before[line_start..].chars().count() + 1,
    )
}

#[test]
fn an_error_with_its_line_and_column() {
    fn check(xml: &str) -> Result<(), String> {
        let mut reader = Reader::from_str(xml);
        loop {
            match reader.read_event() {
                Ok(Event::Eof) => return Ok(()),
                Ok(_) => (),
                Err(error) => {
                    let (line, column) = line_and_column(xml, reader.error_position());
                    return Err(format!("{line}:{column}: {error}"));
                }
            }
        }
    }
    assert_eq!(check("<a>\n</a>"), Ok(()));
    assert_eq!(
        check("<a>\n  <b>½</c>\n</a>").unwrap_err(),
        "2:7: ill-formed document: expected `</b>`, but `</c>` was found"
    );
    assert_eq!(
        check("<a>\n\n <b c='1'\n").unwrap_err(),
        "3:2: syntax error: tag not closed: `>` not found before end of input"
    );
}

#[test]
fn error_positions() {
    let mut reader = Reader::from_str("<a></b><c><d");
    assert_eq!(reader.error_position(), 0);
    reader.read_event().unwrap();
    assert_eq!(reader.error_position(), 0);
    reader.read_event().unwrap_err();
    assert_eq!((reader.error_position(), reader.buffer_position()), (3, 7));
    // it stays until the next error
    reader.read_event().unwrap();
    assert_eq!((reader.error_position(), reader.buffer_position()), (3, 10));
    reader.read_event().unwrap_err();
    assert_eq!((reader.error_position(), reader.buffer_position()), (10, 12));
    assert_eq!(reader.read_event().unwrap(), Event::Eof);
    assert_eq!((reader.error_position(), reader.buffer_position()), (10, 12));
}

#[test]
fn what_is_yet_to_be_read() {
    let mut reader = Reader::from_str("<a>x</a><b/>");
    assert_eq!(*reader.get_ref(), b"<a>x</a><b/>");
    reader.read_event().unwrap();
    assert_eq!(*reader.get_ref(), b"x</a><b/>");
    reader.read_to_end(QName("a")).unwrap();
    assert_eq!(reader.get_ref().len(), 4);
    assert_eq!(reader.into_inner(), b"<b/>");
}

#[test]
fn another_reader_for_the_rest() {
    let xml = "<head><title>a</title></head><body>b</body>";
    let mut first = Reader::from_str(xml);
    first.read_event().unwrap();
    first.read_to_end(QName("head")).unwrap();
    let offset = first.buffer_position();
    let mut second = Reader::from_reader(first.into_inner());
    assert_eq!(second.read_event().unwrap(), Event::Start(BytesStart::new("body")));
    assert_eq!(second.buffer_position(), 6);
    assert_eq!(&xml[(offset + second.buffer_position()) as usize..], "b</body>");
}

#[test]
fn the_rest_after_a_cut() {
    let mut reader = Reader::from_str("<a/><b c='d'");
    reader.read_event().unwrap();
    assert!(matches!(reader.read_event(), Err(Error::Syntax(_))));
    assert_eq!(reader.buffer_position(), 12);
    assert_eq!(String::from_utf8_lossy(reader.get_ref()), "<b c='d'");
    assert_eq!(reader.read_event().unwrap(), Event::Eof);
    assert_eq!(reader.into_inner(), b"<b c='d'");
}

#[test]
fn a_look_ahead() {
    let mut reader = Reader::from_str("<a><b>x</b></a>");
    reader.read_event().unwrap();
    let mut ahead = reader.clone();
    assert_eq!(ahead.read_event().unwrap(), Event::Start(BytesStart::new("b")));
    ahead.read_to_end(QName("b")).unwrap();
    ahead.config_mut().trim_text(true);
    assert_eq!(ahead.read_event().unwrap(), Event::End(BytesEnd::new("a")));

    assert_eq!((reader.buffer_position(), ahead.buffer_position()), (3, 15));
    assert!(!reader.config().trim_text_end);
    assert_eq!(reader.read_event().unwrap(), Event::Start(BytesStart::new("b")));
    assert_eq!(reader.read_event().unwrap(), Event::Text(BytesText::new("x")));
}

#[test]
fn outer_markup_by_positions() {
    let xml = "<l><i n='1'/><i n='2'>x<i/></i></l>";
    let mut reader = Reader::from_str(xml);
    let mut items = Vec::new();
    loop {
        let from = reader.buffer_position() as usize;
        match reader.read_event().unwrap() {
            Event::Start(e) if e.name().as_ref() == "i" => {
                reader.read_to_end(e.name()).unwrap();
            }
            Event::Empty(_) => (),
            Event::Eof => break,
            _ => continue,
        }
        items.push(&xml[from..reader.buffer_position() as usize]);
    }
    assert_eq!(items, ["<i n='1'/>", "<i n='2'>x<i/></i>"]);
}
