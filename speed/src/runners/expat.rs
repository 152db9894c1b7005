//! expat: a parser for each document, which is handed over whole, with a function for each kind of event.
#![allow(unsafe_code)]

use super::{kind, Runner, Settings, Tally};
use std::ffi::{c_char, c_int, c_void};
use std::ptr;

type Parser = *mut c_void;
type Data = *mut c_void;

#[link(name = "expat")]
extern "C" {
    fn XML_ParserCreate(encoding: *const c_char) -> Parser;
    fn XML_SetUserData(parser: Parser, data: Data);
    fn XML_SetElementHandler(
        parser: Parser,
        start: extern "C" fn(Data, *const c_char, *const *const c_char),
        end: extern "C" fn(Data, *const c_char),
    );
    fn XML_SetCharacterDataHandler(parser: Parser, text: extern "C" fn(Data, *const c_char, c_int));
    fn XML_SetCommentHandler(parser: Parser, comment: extern "C" fn(Data, *const c_char));
    fn XML_SetProcessingInstructionHandler(parser: Parser, pi: extern "C" fn(Data, *const c_char, *const c_char));
    fn XML_SetCdataSectionHandler(parser: Parser, start: extern "C" fn(Data), end: extern "C" fn(Data));
    fn XML_Parse(parser: Parser, bytes: *const c_char, length: c_int, is_final: c_int) -> c_int;
    fn XML_ParserFree(parser: Parser);
}

/// What `XML_Parse` answers if nothing was wrong.
const OK: c_int = 1;

pub struct Expat;

impl Runner for Expat {
    fn name(&self) -> &str {
        "expat"
    }

    fn is_alike(&self) -> bool {
        false
    }

    fn run(&mut self, document: &[u8], _: Settings) -> Tally {
        let mut tally = Tally::default();
        let length = c_int::try_from(document.len()).expect("a length that expat takes");
        // SAFETY: the parser is used until it is freed; the tally and the document outlive it, and the handlers alone touch the tally meanwhile.
        let status = unsafe {
            let parser = XML_ParserCreate(ptr::null());
            XML_SetUserData(parser, (&raw mut tally).cast());
            XML_SetElementHandler(parser, start, end);
            XML_SetCharacterDataHandler(parser, text);
            XML_SetCommentHandler(parser, comment);
            XML_SetProcessingInstructionHandler(parser, pi);
            XML_SetCdataSectionHandler(parser, cdata, cdata_end);
            let status = XML_Parse(parser, document.as_ptr().cast(), length, 1);
            XML_ParserFree(parser);
            status
        };
        assert_eq!(status, OK, "expat refuses the document");
        tally
    }
}

fn told(data: Data, kind: usize, bytes: usize) {
    // SAFETY: the data is the tally of the run.
    unsafe { (*data.cast::<Tally>()).event(kind, bytes) }
}

extern "C" fn start(data: Data, _name: *const c_char, _attributes: *const *const c_char) {
    told(data, kind::START, 0);
}

extern "C" fn end(data: Data, _name: *const c_char) {
    told(data, kind::END, 0);
}

extern "C" fn text(data: Data, _bytes: *const c_char, length: c_int) {
    told(data, kind::TEXT, length as usize);
}

extern "C" fn comment(data: Data, _bytes: *const c_char) {
    told(data, kind::COMMENT, 0);
}

extern "C" fn pi(data: Data, _target: *const c_char, _bytes: *const c_char) {
    told(data, kind::PI, 0);
}

extern "C" fn cdata(data: Data) {
    told(data, kind::CDATA, 0);
}

extern "C" fn cdata_end(_data: Data) {}
