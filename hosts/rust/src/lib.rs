//! Sporebasket: a verified reader of the events of an XML document, in memory or coming in chunks.
//!
//! It is a port of quick-xml's pull reader over a byte slice. The code that reads is proved: for any bytes and settings the answer of a
//! call, the state that is left and the open names are those of a definition, the end comes, and no opening is lost. This package
//! links it as an archive and gives its numbers the names that a user of quick-xml knows.
//!
//! ```
//! use sporebasket::events::Event;
//! use sporebasket::Reader;
//!
//! let mut reader = Reader::from_str("<t><r n=\"1\"/>06:15</t>");
//! reader.config_mut().trim_text(true);
//! loop {
//!     match reader.read_event() {
//!         Ok(Event::Start(tag)) => assert_eq!(tag.name().as_ref(), "t"),
//!         Ok(Event::Empty(tag)) => assert_eq!(tag.try_get_attribute("n")?.unwrap().value, "1"),
//!         Ok(Event::Text(text)) => assert_eq!(text.into_inner(), "06:15"),
//!         Ok(Event::Eof) => break,
//!         Ok(_) => (),
//!         Err(error) => panic!("{error} at byte {}", reader.error_position()),
//!     }
//! }
//! # Ok::<(), sporebasket::Error>(())
//! ```
//!
//! Code written for quick-xml 0.42's reader over a slice reads by this one where `Cargo.toml` has
//! `quick-xml = { package = "sporebasket", path = ".." }`; what is different, and what is not here, stands in the README. What this reader tells beyond
//! quick-xml's is in [`ext`].
//!
//! What is refused has a number, 1 to 18, and a place: see [`Error`]. A document has at most [`LONGEST`](lent::LONGEST) bytes, at most
//! [`MOST_NAMES`](lent::MOST_NAMES) names are open at once, and a document type is refused.
//! [`attributes`](events::attributes) reads those of a tag, and refuses by the numbers 19 to 24. References are handed over as they stand; [`mod@escape`] replaces them, and refuses by
//! 25 and 26.
//! With [`check_open_names`](reader::Config::check_open_names) a document that ends while names are open is refused: where
//! [`Eof`](events::Event::Eof) comes and no error before it, every element was closed. Where a run stops,
//! [`way_down`](ext::ReaderExt::way_down) tells which names are open, and where each was opened. [`Layout`](ext::Layout) counts that each byte of the document is in exactly one part.
//!
//! [`mod@feed`] reads a document that comes in chunks, as over a slow line, and gives each event as soon as its bytes are there; [`parser`] has quick-xml's parsers of markup in pieces.
//!
//! [`plain`] reads by a second engine, which takes one byte at a time: it answers the same to every call, is slower, and is for the release check.
//!
//! [`mod@column`] reads the times of a timetable's column, which may run past midnight:
//!
//! ```
//! let times = sporebasket::column::column(b"<r><t>23:50</t><t>24:10</t></r>")?;
//! assert_eq!(times.len(), 2);
//! assert!(times[0] < times[1]);
//! # Ok::<(), sporebasket::column::ColumnError>(())
//! ```
//!
//! Nothing is shared between readers, so each may be used on a thread of its own. A reader allocates
//! room for open names, when it has none left for one more; a refusal owns the names that it tells. Hosts that lend all memory themselves use [`lent`].
#![warn(missing_docs)]
#![deny(unsafe_code)]

#[cfg(not(target_pointer_width = "64"))]
compile_error!("the archive of sporebasket is for processors with addresses of 64 bits");

pub mod column;
mod config;
pub mod encoding;
pub mod errors;
pub mod escape;
pub mod events;
pub mod ext;
pub mod feed;
mod layout;
pub mod lent;
pub mod name;
pub mod parser;
pub mod plain;
mod raw;
pub mod reader;
mod rows;
mod run;
mod time;

#[doc(inline)]
pub use errors::{Error, Result};
#[doc(inline)]
pub use reader::Reader;

/// The version of XML by whose rules the value of an attribute is told. The cases of 0.42 for a version that a declaration tells are not here: their names are not known from the files given.
#[derive(Clone, Copy, Debug, PartialEq, Eq)]
#[non_exhaustive]
pub enum XmlVersion {
    /// XML 1.0, as of a document that does not tell its version.
    Implicit1_0,
}
