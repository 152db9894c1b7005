//! The reader of namespaces is not compared; its name is exported. Ours.

pub struct NsReader;
