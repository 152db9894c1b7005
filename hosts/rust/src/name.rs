//! Names, and their two sides of a colon. No namespace is looked up.

use std::error;
use std::fmt;

/// A name as it stands in a tag, `a` or `p:a`.
///
/// ```
/// use sporebasket::events::Event;
/// use sporebasket::name::QName;
/// use sporebasket::Reader;
///
/// let Event::Empty(tag) = Reader::from_str("<gtfs:stop n='1'/>").read_event()? else { panic!() };
/// assert_eq!(tag.name(), QName("gtfs:stop"));
/// assert_eq!(tag.name().local_name().as_ref(), "stop");
/// assert_eq!(tag.name().prefix().map(|prefix| prefix.into_inner()), Some("gtfs"));
/// # Ok::<(), sporebasket::Error>(())
/// ```
#[derive(Clone, Copy, PartialEq, Eq, PartialOrd, Ord, Hash)]
pub struct QName<'a>(pub &'a str);

/// What follows the first colon of a name, or all of it where there is none.
///
/// ```
/// use sporebasket::name::{LocalName, QName};
///
/// assert_eq!(LocalName::from(QName("p:a")), QName("a").local_name());
/// ```
#[derive(Clone, Copy, PartialEq, Eq, PartialOrd, Ord, Hash)]
pub struct LocalName<'a>(&'a str);

/// What stands before the first colon of a name.
///
/// ```
/// use sporebasket::name::QName;
///
/// assert!(QName("xml:lang").prefix().is_some_and(|prefix| prefix.is_xml()));
/// assert_eq!(QName("lang").prefix(), None);
/// ```
#[derive(Clone, Copy, PartialEq, Eq, PartialOrd, Ord, Hash)]
pub struct Prefix<'a>(&'a str);

/// What is wrong with a namespace. There are none here, so there is no such error; it is the type that a variant of [`Error`](crate::Error) has.
#[derive(Clone, Debug, PartialEq, Eq)]
pub enum NamespaceError {}

impl<'a> QName<'a> {
    /// The two sides of the first colon, the local name first.
    ///
    /// ```
    /// use sporebasket::name::QName;
    ///
    /// let (local, prefix) = QName("p:a:b").decompose();
    /// assert_eq!((local.as_ref(), prefix.unwrap().as_ref()), ("a:b", "p"));
    /// ```
    pub fn decompose(&self) -> (LocalName<'a>, Option<Prefix<'a>>) {
        match self.0.split_once(':') {
            Some((prefix, local)) => (LocalName(local), Some(Prefix(prefix))),
            None => (LocalName(self.0), None),
        }
    }

    /// The name without its prefix.
    pub fn local_name(&self) -> LocalName<'a> {
        self.decompose().0
    }

    /// The prefix, if there is a colon.
    pub fn prefix(&self) -> Option<Prefix<'a>> {
        self.decompose().1
    }
}

impl<'a> From<QName<'a>> for LocalName<'a> {
    fn from(name: QName<'a>) -> Self {
        name.local_name()
    }
}

impl Prefix<'_> {
    /// Whether it is `xml`.
    pub const fn is_xml(&self) -> bool {
        matches!(self.0.as_bytes(), b"xml")
    }

    /// Whether it is `xmlns`.
    pub const fn is_xmlns(&self) -> bool {
        matches!(self.0.as_bytes(), b"xmlns")
    }
}

/// What the three have in common.
macro_rules! named {
    ($name:ident) => {
        impl<'a> $name<'a> {
            /// The string itself.
            pub const fn into_inner(self) -> &'a str {
                self.0
            }
        }

        impl AsRef<str> for $name<'_> {
            fn as_ref(&self) -> &str {
                self.0
            }
        }

        impl fmt::Debug for $name<'_> {
            fn fmt(&self, f: &mut fmt::Formatter<'_>) -> fmt::Result {
                write!(f, "{}({:?})", stringify!($name), self.0)
            }
        }
    };
}

named!(QName);
named!(LocalName);
named!(Prefix);

impl fmt::Display for NamespaceError {
    fn fmt(&self, _: &mut fmt::Formatter<'_>) -> fmt::Result {
        match *self {}
    }
}

impl error::Error for NamespaceError {}
