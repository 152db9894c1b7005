//! The settings of a reader.

use crate::lent;
use std::fmt;

/// The settings of a reader: quick-xml's under their names, and [`check_open_names`](Config::check_open_names).
///
/// They may be changed between two calls, by [`Reader::config_mut`](crate::Reader::config_mut).
///
/// ```
/// use sporebasket::reader::Config;
///
/// let settings = Config::default();
/// assert!(settings.check_end_names && settings.trim_markup_names_in_closing_tags);
/// assert!(!settings.check_comments && !settings.expand_empty_elements && !settings.check_open_names);
/// ```
#[derive(Clone, PartialEq, Eq)]
#[non_exhaustive]
pub struct Config {
    /// An `&` without its `;` is text. Off, it is [`UnclosedReference`](crate::errors::IllFormedError::UnclosedReference). Off by default.
    ///
    /// ```
    /// use sporebasket::events::Event;
    /// use sporebasket::Reader;
    ///
    /// let mut reader = Reader::from_str("fish & chips");
    /// reader.config_mut().allow_dangling_amp = true;
    /// assert_eq!(&*reader.read_event()?, "fish ");
    /// assert_eq!(&*reader.read_event()?, "& chips");
    /// # Ok::<(), sporebasket::Error>(())
    /// ```
    pub allow_dangling_amp: bool,

    /// A closing tag with nothing open is an [`End`](crate::events::Event::End). Off, it is
    /// [`UnmatchedEndTag`](crate::errors::IllFormedError::UnmatchedEndTag). Off by default.
    ///
    /// ```
    /// use sporebasket::events::Event;
    /// use sporebasket::Reader;
    ///
    /// let mut reader = Reader::from_str("</a>");
    /// reader.config_mut().allow_unmatched_ends = true;
    /// assert!(matches!(reader.read_event()?, Event::End(_)));
    /// # Ok::<(), sporebasket::Error>(())
    /// ```
    pub allow_unmatched_ends: bool,

    /// A comment with `--` in it, or with a hyphen right before its `-->`, is
    /// [`DoubleHyphenInComment`](crate::errors::IllFormedError::DoubleHyphenInComment), at the first hyphen of the first pair. Off by default.
    ///
    /// ```
    /// use sporebasket::errors::{Error, IllFormedError};
    /// use sporebasket::Reader;
    ///
    /// let mut reader = Reader::from_str("<!--a-b--c-->");
    /// reader.config_mut().check_comments = true;
    /// let error = reader.read_event().unwrap_err();
    /// assert_eq!(error, Error::IllFormed(IllFormedError::DoubleHyphenInComment));
    /// assert_eq!(reader.error_position(), 7);
    /// ```
    pub check_comments: bool,

    /// A closing tag with another name than the latest open one is
    /// [`MismatchedEndTag`](crate::errors::IllFormedError::MismatchedEndTag). On by default.
    ///
    /// ```
    /// use sporebasket::events::Event;
    /// use sporebasket::Reader;
    ///
    /// let mut reader = Reader::from_str("<a></b>");
    /// reader.config_mut().check_end_names = false;
    /// assert!(matches!(reader.read_event()?, Event::Start(_)));
    /// assert!(matches!(reader.read_event()?, Event::End(_)));
    /// # Ok::<(), sporebasket::Error>(())
    /// ```
    pub check_end_names: bool,

    /// `<a/>` is a [`Start`](crate::events::Event::Start) and then an [`End`](crate::events::Event::End), not an
    /// [`Empty`](crate::events::Event::Empty). Off by default.
    ///
    /// ```
    /// use sporebasket::events::Event;
    /// use sporebasket::Reader;
    ///
    /// let mut reader = Reader::from_str("<a/>");
    /// reader.config_mut().expand_empty_elements = true;
    /// assert!(matches!(reader.read_event()?, Event::Start(_)));
    /// assert!(matches!(reader.read_event()?, Event::End(_)));
    /// # Ok::<(), sporebasket::Error>(())
    /// ```
    pub expand_empty_elements: bool,

    /// White space after the name in `</a >` does not count. On by default.
    ///
    /// ```
    /// use sporebasket::Reader;
    ///
    /// let mut reader = Reader::from_str("<a></a >");
    /// reader.config_mut().trim_markup_names_in_closing_tags = false;
    /// reader.read_event()?;
    /// assert!(reader.read_event().is_err());
    /// # Ok::<(), sporebasket::Error>(())
    /// ```
    pub trim_markup_names_in_closing_tags: bool,

    /// White space before text is skipped. Off by default.
    ///
    /// ```
    /// use sporebasket::Reader;
    ///
    /// let mut reader = Reader::from_str(" a <b/>");
    /// reader.config_mut().trim_text_start = true;
    /// assert_eq!(&*reader.read_event()?, "a ");
    /// # Ok::<(), sporebasket::Error>(())
    /// ```
    pub trim_text_start: bool,

    /// White space after text is cut off its content. Text left empty is still [`Text`](crate::events::Event::Text), but for the last of the
    /// document, which is [`Eof`](crate::events::Event::Eof). Off by default.
    ///
    /// ```
    /// use sporebasket::Reader;
    ///
    /// let mut reader = Reader::from_str(" a <b/>");
    /// reader.config_mut().trim_text_end = true;
    /// assert_eq!(&*reader.read_event()?, " a");
    /// # Ok::<(), sporebasket::Error>(())
    /// ```
    pub trim_text_end: bool,

    /// A document that ends while names are open is [`UnclosedElements`](crate::errors::Refused::UnclosedElements), once, instead of the first
    /// [`Eof`](crate::events::Event::Eof); but not after a refusal that ended the run. quick-xml has no such setting. Off by default.
    ///
    /// ```
    /// use sporebasket::errors::{Error, Refused};
    /// use sporebasket::events::Event;
    /// use sporebasket::Reader;
    ///
    /// let mut reader = Reader::from_str("<t><r>06:15");
    /// reader.config_mut().check_open_names = true;
    /// for _ in 0..3 {
    ///     assert_ne!(reader.read_event()?, Event::Eof);
    /// }
    /// let error = reader.read_event().unwrap_err();
    /// assert_eq!(error, Error::Refused(Refused::UnclosedElements("r".into())));
    /// assert_eq!(reader.error_position(), 4);
    /// assert_eq!(reader.read_event()?, Event::Eof);
    /// # Ok::<(), Error>(())
    /// ```
    pub check_open_names: bool,
}

impl Config {
    /// Trims text at both ends, or at neither.
    ///
    /// ```
    /// use sporebasket::Reader;
    ///
    /// let mut reader = Reader::from_str(" a <b/>");
    /// reader.config_mut().trim_text(true);
    /// assert_eq!(&*reader.read_event()?, "a");
    /// # Ok::<(), sporebasket::Error>(())
    /// ```
    pub fn trim_text(&mut self, trim: bool) {
        self.trim_text_start = trim;
        self.trim_text_end = trim;
    }

    /// Checks comments and the names of closing tags, or neither: quick-xml's checks. [`check_open_names`](Config::check_open_names) stays as it is.
    ///
    /// ```
    /// let mut settings = sporebasket::reader::Config::default();
    /// settings.enable_all_checks(true);
    /// assert!(settings.check_comments && settings.check_end_names && !settings.check_open_names);
    /// ```
    pub fn enable_all_checks(&mut self, enable: bool) {
        self.check_comments = enable;
        self.check_end_names = enable;
    }

    /// The settings as one number, a bit each.
    pub(crate) fn bits(&self) -> usize {
        usize::from(self.allow_dangling_amp)
            | usize::from(self.allow_unmatched_ends) << 1
            | usize::from(self.check_comments) << 2
            | usize::from(self.check_end_names) << 3
            | usize::from(self.expand_empty_elements) << 4
            | usize::from(self.trim_markup_names_in_closing_tags) << 5
            | usize::from(self.trim_text_start) << 6
            | usize::from(self.trim_text_end) << 7
            | usize::from(self.check_open_names) << 8
    }

    /// The settings whose bits are set.
    pub(crate) fn from_bits(bits: usize) -> Self {
        let on = |place: u32| bits >> place & 1 == 1;
        Config {
            allow_dangling_amp: on(0),
            allow_unmatched_ends: on(1),
            check_comments: on(2),
            check_end_names: on(3),
            expand_empty_elements: on(4),
            trim_markup_names_in_closing_tags: on(5),
            trim_text_start: on(6),
            trim_text_end: on(7),
            check_open_names: on(8),
        }
    }
}

/// quick-xml's settings, and [`check_open_names`](Config::check_open_names) where it is on.
impl fmt::Debug for Config {
    fn fmt(&self, f: &mut fmt::Formatter<'_>) -> fmt::Result {
        let mut shown = f.debug_struct("Config");
        shown
            .field("allow_dangling_amp", &self.allow_dangling_amp)
            .field("allow_unmatched_ends", &self.allow_unmatched_ends)
            .field("check_comments", &self.check_comments)
            .field("check_end_names", &self.check_end_names)
            .field("expand_empty_elements", &self.expand_empty_elements)
            .field(
                "trim_markup_names_in_closing_tags",
                &self.trim_markup_names_in_closing_tags,
            )
            .field("trim_text_start", &self.trim_text_start)
            .field("trim_text_end", &self.trim_text_end);
        if self.check_open_names {
            shown.field("check_open_names", &true);
        }
        shown.finish()
    }
}

impl Default for Config {
    fn default() -> Self {
        Config::from_bits(lent::default_settings())
    }
}

#[cfg(test)]
mod tests {
    use super::Config;

    #[test]
    fn bits_there_and_back() {
        for bits in 0..512 {
            assert_eq!(Config::from_bits(bits).bits(), bits);
        }
    }

    #[test]
    fn what_sets_two_flags_leaves_the_others_alone() {
        for bits in 0..512 {
            for on in [false, true] {
                let turned = |two: usize| if on { bits | two } else { bits & !two };
                let mut config = Config::from_bits(bits);
                config.trim_text(on);
                assert_eq!(config.bits(), turned(64 + 128));
                config = Config::from_bits(bits);
                config.enable_all_checks(on);
                assert_eq!(config.bits(), turned(4 + 8));
            }
        }
    }
}
