//! Answers in the form that the repository's cases have them: `start 0 3 1 2 1 | text 3 1 1..2` is an event, and the phase, the position, the
//! depth and the open names after it.
#![allow(dead_code)]

#[path = "../../examples/words/mod.rs"]
mod words;

use sporebasket::events::Event;
use sporebasket::ext::{ErrorExt, EventExt, Phase, ReaderExt};
use sporebasket::lent;
use sporebasket::plain::Engine;
use sporebasket::reader::{Config, ReaderBy};
use std::ops::Range;
pub use words::word;
use words::WORDS;

pub const PHASES: [&str; 6] = ["init", "text", "markup", "ref", "empty", "done"];

/// How many bytes of its content are an event's name.
fn name_len(event: &Event) -> usize {
    match event {
        Event::Start(tag) | Event::Empty(tag) => tag.name().as_ref().len(),
        Event::End(tag) => tag.name().as_ref().len(),
        Event::Decl(declaration) => declaration.find([' ', '\t', '\n', '\r']).unwrap_or(declaration.len()),
        Event::PI(instruction) => instruction.target().len(),
        _ => 0,
    }
}

fn spanned(range: Range<usize>) -> String {
    format!("{}..{}", range.start, range.end)
}

/// The next answer.
pub fn answer<E: Engine>(reader: &mut ReaderBy<&[u8], E>) -> String {
    match reader.read_event() {
        Ok(event) => {
            let piece = reader.piece();
            let content = match event.place() {
                Some(place) => {
                    assert_eq!(place.piece, piece);
                    assert_eq!(event.as_bytes(), &reader.document()[place.content.clone()]);
                    place.content
                }
                None => piece.start..piece.start,
            };
            let (said, name) = (word(&event), name_len(&event));
            format!(
                "{said} {} {} {} {} {name}",
                piece.start, piece.end, content.start, content.end
            )
        }
        Err(error) => {
            let mut said = format!("refused {} {}", error.number().unwrap(), reader.error_position());
            said += &format!(" piece {}", spanned(reader.piece()));
            if let Some(expected) = reader.expected() {
                said += &format!(" expected {}", spanned(expected));
            }
            if let Some(found) = reader.found() {
                said += &format!(" found {}", spanned(found));
            }
            said
        }
    }
}

/// An answer's numbers in words.
pub fn told(answer: &[usize]) -> String {
    if answer[0] != 0 {
        let word = WORDS[answer[0]];
        return format!(
            "{word} {} {} {} {} {}",
            answer[3], answer[4], answer[5], answer[6], answer[7]
        );
    }
    let mut said = format!("refused {} {} piece {}..{}", answer[1], answer[2], answer[3], answer[4]);
    if answer[1] == 10 {
        said += &format!(" expected {}..{}", answer[8], answer[9]);
    }
    if answer[1] == 10 || answer[1] == 11 {
        said += &format!(" found {}..{}", answer[10], answer[11]);
    }
    said
}

/// Where a part of the document stands in it.
pub fn place(document: &[u8], part: &[u8]) -> Range<usize> {
    let from = part.as_ptr() as usize - document.as_ptr() as usize;
    from..from + part.len()
}

/// The state: the phase, the position, the depth and the open names.
pub fn state<E: Engine>(reader: &ReaderBy<&[u8], E>) -> String {
    let phase = match reader.phase() {
        Phase::Init => "init",
        Phase::InsideText => "text",
        Phase::InsideMarkup => "markup",
        Phase::InsideRef => "ref",
        Phase::InsideEmpty => "empty",
        Phase::Done => "done",
        other => panic!("{other:?}"),
    };
    let mut said = format!("{phase} {} {}", reader.buffer_position(), reader.depth());
    for name in reader.open_names() {
        said += &format!(" {}", spanned(place(reader.document(), name.0.as_bytes())));
    }
    said
}

/// The answers up to end of file, each with the state after it.
pub fn run<E: Engine>(reader: &mut ReaderBy<&[u8], E>) -> Vec<String> {
    let mut said = Vec::new();
    for _ in 0..reader.document().len() + 2 {
        let answer = answer(reader);
        let line = format!("{answer} | {}", state(reader));
        said.push(line);
        if answer.starts_with("eof ") {
            return said;
        }
    }
    panic!("no end of file by call number length + 2: {said:?}");
}

/// The letters of the settings, by their bits.
pub const LETTERS: &str = "aucnxmseo";

/// Turns a flag over for each letter, or sets two as the letter says.
pub fn set(config: &mut Config, letters: &str) {
    for letter in letters.chars() {
        match letter {
            '-' => (),
            'a' => config.allow_dangling_amp ^= true,
            'u' => config.allow_unmatched_ends ^= true,
            'c' => config.check_comments ^= true,
            'n' => config.check_end_names ^= true,
            'x' => config.expand_empty_elements ^= true,
            'm' => config.trim_markup_names_in_closing_tags ^= true,
            's' => config.trim_text_start ^= true,
            'e' => config.trim_text_end ^= true,
            'o' => config.check_open_names ^= true,
            'T' | 't' => config.trim_text(letter == 'T'),
            'K' | 'k' => config.enable_all_checks(letter == 'K'),
            other => panic!("no setting {other}"),
        }
    }
}

/// The letters that turn the defaults to these settings.
pub fn letters(settings: usize) -> String {
    let turned = settings ^ lent::default_settings();
    let on = |i: &usize| turned >> i & 1 == 1;
    match turned {
        0 => "-".into(),
        _ => (0..LETTERS.len()).filter(on).map(|i| &LETTERS[i..=i]).collect(),
    }
}

/// The settings as a number.
pub fn settings(config: &Config) -> usize {
    let flags = [
        config.allow_dangling_amp,
        config.allow_unmatched_ends,
        config.check_comments,
        config.check_end_names,
        config.expand_empty_elements,
        config.trim_markup_names_in_closing_tags,
        config.trim_text_start,
        config.trim_text_end,
        config.check_open_names,
    ];
    flags.iter().enumerate().map(|(i, on)| usize::from(*on) << i).sum()
}

/// Numbers that look random, the same in every run.
pub struct Numbers(pub u64);

impl Numbers {
    pub fn below(&mut self, bound: usize) -> usize {
        self.0 = self
            .0
            .wrapping_mul(6364136223846793005)
            .wrapping_add(1442695040888963407);
        (self.0 >> 33) as usize % bound
    }
}

/// Markup and parts of it, to make documents of.
pub const MARKUP: &[&[u8]] = &[
    b"<a>",
    b"</a>",
    b"<b c='>'>",
    b"</b >",
    b"<d/>",
    b"text",
    b" ",
    b"\n",
    b"&amp;",
    b"&",
    b";",
    b"<",
    b">",
    b"/",
    b"'",
    b"\"",
    b"<!--x-->",
    b"<!--x--y-->",
    b"<![CDATA[x]]>",
    b"<?xml v?>",
    b"<?p?>",
    b"\xC3\xA9",
    b"\xEF\xBB\xBF",
    b"\xFF",
    b"<!",
    b"-->",
    b"?>",
    b"=",
    b"!",
    b"</",
];

/// The bytes that markup is made of.
pub const BYTES: &[u8] = b"<<<<<<>>>>>>///!?--[]&&;;'\"=    \t\r\naaabxmlCDAT\xC3\xA9";

/// Short documents, with each kind of piece and each refusal of a reader.
pub const DOCUMENTS: &[&[u8]] = &[
    // the byte order mark: alone, before all there is, cut, twice, and not at the start
    b"\xEF\xBB\xBF",
    b"\xEF\xBB\xBF \n",
    b"\xEF\xBB\xBF<a/>",
    b"\xEF\xBB\xBF\t<a> </a>",
    b"\xEF\xBB\xBF&a;",
    b"\xEF\xBB\xBF</a>",
    b"\xEF\xBB\xBF<!x>",
    b"\xEF\xBB\xBF \xC0\x80",
    b"\xEF\xBB",
    b"\xEF\xBB\xBE<a/>",
    b"\xEF\xBB\xBF\xEF\xBB\xBF",
    b" \xEF\xBB\xBF<a/>",
    // white space, and what is none
    b"",
    b" ",
    b" \t\r\n",
    b" \t<a>\r\n b \t</a> \n ",
    b" a ",
    b" \x0B \x0C a",
    b"\xC2\xA0 <a/> \xC2\x85",
    b" &a; &b; ",
    b" <!-- a --> <![CDATA[ ]]> <?a ?> ",
    b"<?xml version='1.0'?>\n<a b = ' ' >\n</a >\n",
    b"<a/> \n",
    b"<a> \n",
    b"a \n",
    b"&a; ",
    // refusals that go on
    b"<!--a--b--> <c/>",
    b"<!----->",
    b"<a> </b> <c/>",
    b"<a><b></c></d></e> ",
    b" </a> b",
    b"a &b <c/>",
    b"& &b ;c&",
    b"<a> &b",
    // empty elements
    b" <a/> <b c='d'/> ",
    b"<a><b/> </a>",
    b"</a><b/>",
    b"< /></>",
    // refusals that end the run, some with bytes behind them
    b"<",
    b"a<",
    b" <",
    b"<a> <b",
    b"<a b='>",
    b" <a b=\"> ",
    b"<!",
    b"a <!-- b",
    b"<!-->",
    b"<!--->",
    b" <!-b--> c",
    b"<![CDATA[ ]] >",
    b"<![]]> ",
    b"<?",
    b"<?>",
    b" <?> a",
    b"<?xml ",
    b"<!x>",
    b"a <!x> b",
    b"\xC0\x80",
    b" \xC0\x80 <a/>",
    b"a<b \xFF>c",
    b"a &\xE2\x82; b",
    b"<!DOCTYPE a>",
    b"\n<!doctype a> <b/>",
    b"<a> <!D",
    // names that stay open, and more of them than there is room for
    b"<a> ",
    b"<a><b></b> ",
    b"<a> <b> <c> </c></b></a>",
    b"</a><b>",
];
