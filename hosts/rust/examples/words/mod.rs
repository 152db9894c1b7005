//! The words by which the examples beside it, and the tests, name events. Not all want all of them.
#![allow(dead_code)]

use sporebasket::events::Event;

/// The words of the kinds, by their numbers; 0 is a refusal.
pub const WORDS: [&str; 11] = [
    "refused", "start", "end", "empty", "text", "ref", "comment", "cdata", "decl", "pi", "eof",
];

pub fn word(event: &Event) -> &'static str {
    match event {
        Event::Start(_) => "start",
        Event::End(_) => "end",
        Event::Empty(_) => "empty",
        Event::Text(_) => "text",
        Event::GeneralRef(_) => "ref",
        Event::Comment(_) => "comment",
        Event::CData(_) => "cdata",
        Event::Decl(_) => "decl",
        Event::PI(_) => "pi",
        Event::DocType(_) => "doctype",
        Event::Eof => "eof",
    }
}
