//! The crate, and the Rust package `hosts/rust`, as a user has them: the same code over both, with a reader for each document.

use super::{kind, Runner, Settings, Tally};

macro_rules! runner {
    ($runner:ident, $name:literal, $package:ident) => {
        pub struct $runner;

        impl Runner for $runner {
            fn name(&self) -> &str {
                $name
            }

            fn run(&mut self, document: &[u8], settings: Settings) -> Tally {
                use $package::events::Event;
                let mut reader = $package::reader::Reader::from_reader(document);
                let config = reader.config_mut();
                config.trim_text(settings.trim_text);
                config.allow_dangling_amp = settings.allow_dangling_amp;
                config.check_comments = settings.check_comments;
                let mut tally = Tally::default();
                loop {
                    match reader.read_event() {
                        Ok(Event::Start(e)) => tally.event(kind::START, e.len()),
                        Ok(Event::End(e)) => tally.event(kind::END, e.len()),
                        Ok(Event::Empty(e)) => tally.event(kind::EMPTY, e.len()),
                        Ok(Event::Text(e)) => tally.event(kind::TEXT, e.len()),
                        Ok(Event::GeneralRef(e)) => tally.event(kind::REF, e.len()),
                        Ok(Event::Comment(e)) => tally.event(kind::COMMENT, e.len()),
                        Ok(Event::CData(e)) => tally.event(kind::CDATA, e.len()),
                        Ok(Event::Decl(e)) => tally.event(kind::DECL, e.len()),
                        Ok(Event::PI(e)) => tally.event(kind::PI, e.len()),
                        Ok(Event::DocType(e)) => tally.event(kind::DOCTYPE, e.len()),
                        Ok(Event::Eof) => return tally,
                        Err(_) => tally.refusal(document),
                    }
                }
            }
        }
    };
}

runner!(QuickXml, "quick-xml", quick_xml);
runner!(Package, "hosts/rust", sporebasket);
