//! Nothing but tests: snippets of ordinary quick-xml code, which hold for quick-xml 0.42 and for Sporebasket in its place.
