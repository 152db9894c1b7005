//! The modules of the crate, for a build without features. Ours: the crate's own file is not given.
#![allow(warnings)]

use std::borrow::Cow;

pub mod encoding;
pub mod errors;
pub mod escape;
pub mod events;
pub mod name;
pub mod parser;
pub mod reader;
pub mod utils;

pub use errors::{Error, Result};
pub use reader::{NsReader, Reader};

/// The version that attribute values are normalized by: of its cases the one that the given files name.
#[derive(Clone, Copy, Debug, PartialEq, Eq)]
pub enum XmlVersion {
    Implicit1_0,
}

impl XmlVersion {
    pub fn normalize_attribute_value<'i, 'e>(
        &self,
        value: &'i str,
        depth: usize,
        resolve: impl FnMut(&str) -> Option<&'e str>,
    ) -> std::result::Result<Cow<'i, str>, escape::EscapeError> {
        escape::normalize_xml10_attribute_value(value, depth, resolve)
    }
}
