//! Names, as far as the given files and programs over them need them. Ours; no namespace is ever bound.

use std::fmt;

macro_rules! name {
    ($name:ident, $visible:vis) => {
        #[derive(Clone, Copy, Debug, PartialEq, Eq, PartialOrd, Ord, Hash)]
        pub struct $name<'a>($visible &'a str);

        impl<'a> $name<'a> {
            pub fn into_inner(self) -> &'a str {
                self.0
            }
        }

        impl AsRef<str> for $name<'_> {
            fn as_ref(&self) -> &str {
                self.0
            }
        }
    };
}

name!(QName, pub);
name!(LocalName, pub(crate));
name!(Prefix, pub(crate));
name!(Namespace, pub);

impl<'a> QName<'a> {
    pub fn local_name(&self) -> LocalName<'a> {
        self.decompose().0
    }

    pub fn prefix(&self) -> Option<Prefix<'a>> {
        self.decompose().1
    }

    /// What stands behind the first colon and what stands before it.
    pub fn decompose(&self) -> (LocalName<'a>, Option<Prefix<'a>>) {
        match self.0.split_once(':') {
            Some((prefix, local)) => (LocalName(local), Some(Prefix(prefix))),
            None => (LocalName(self.0), None),
        }
    }
}

impl<'a> From<QName<'a>> for LocalName<'a> {
    fn from(name: QName<'a>) -> Self {
        name.local_name()
    }
}

impl Prefix<'_> {
    pub fn is_xml(&self) -> bool {
        self.0 == "xml"
    }

    pub fn is_xmlns(&self) -> bool {
        self.0 == "xmlns"
    }
}

#[derive(Clone, Debug, PartialEq, Eq)]
pub enum ResolveResult<'a> {
    Unbound,
    Bound(Namespace<'a>),
}

#[derive(Clone, Debug)]
pub enum NamespaceError {}

impl fmt::Display for NamespaceError {
    fn fmt(&self, _: &mut fmt::Formatter) -> fmt::Result {
        match *self {}
    }
}

impl std::error::Error for NamespaceError {}

#[derive(Debug, Default)]
pub struct NamespaceResolver;

impl NamespaceResolver {
    pub fn resolve_attribute<'n>(&self, name: QName<'n>) -> (ResolveResult<'_>, LocalName<'n>) {
        (ResolveResult::Unbound, name.local_name())
    }
}
