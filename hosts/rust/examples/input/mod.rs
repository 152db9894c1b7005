//! How the examples beside it get their document.

use std::ffi::OsString;
use std::fs::File;
use std::io::{self, BufReader, Read};

/// The file of that name, or standard input where none is named.
pub fn open(path: Option<OsString>) -> io::Result<Box<dyn Read>> {
    Ok(match path {
        Some(path) => Box::new(BufReader::new(File::open(path)?)),
        None => Box::new(io::stdin().lock()),
    })
}

/// The whole of it. Not all examples want that.
#[allow(dead_code)]
pub fn document(path: Option<OsString>) -> io::Result<Vec<u8>> {
    let mut bytes = Vec::new();
    open(path)?.read_to_end(&mut bytes)?;
    Ok(bytes)
}
