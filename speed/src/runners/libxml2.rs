//! libxml2's `xmlTextReader`: a reader for each document, which is asked for one node after the other.
#![allow(unsafe_code)]

use super::{Runner, Settings, Tally};
use std::ffi::{c_char, c_int, c_void};
use std::ptr;

type TextReader = *mut c_void;

#[link(name = "xml2")]
extern "C" {
    fn xmlReaderForMemory(bytes: *const c_char, length: c_int, url: *const c_char, encoding: *const c_char, options: c_int) -> TextReader;
    fn xmlTextReaderRead(reader: TextReader) -> c_int;
    fn xmlTextReaderNodeType(reader: TextReader) -> c_int;
    fn xmlFreeTextReader(reader: TextReader);
}

/// Nothing is printed, nothing fetched, and the nesting may be deeper than 256.
const OPTIONS: c_int = 1 << 5 | 1 << 6 | 1 << 11 | 1 << 19;
/// What `xmlTextReaderRead` answers for a node, and at the end.
const NODE: c_int = 1;
const END: c_int = 0;

pub struct LibXml2;

impl Runner for LibXml2 {
    fn name(&self) -> &str {
        "libxml2"
    }

    fn is_alike(&self) -> bool {
        false
    }

    fn run(&mut self, document: &[u8], _: Settings) -> Tally {
        let mut tally = Tally::default();
        let length = c_int::try_from(document.len()).expect("a length that libxml2 takes");
        // SAFETY: the document outlives the reader, which is used until it is freed.
        let status = unsafe {
            let reader = xmlReaderForMemory(document.as_ptr().cast(), length, ptr::null(), ptr::null(), OPTIONS);
            assert!(!reader.is_null(), "libxml2 makes no reader");
            let status = loop {
                match xmlTextReaderRead(reader) {
                    NODE => tally.event(xmlTextReaderNodeType(reader) as usize, 0),
                    status => break status,
                }
            };
            xmlFreeTextReader(reader);
            status
        };
        assert_eq!(status, END, "libxml2 refuses the document");
        tally
    }
}
