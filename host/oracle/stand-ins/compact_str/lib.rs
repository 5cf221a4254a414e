//! Stand-in for the crate `compact_str`: a string type that is only ever read here.

pub type CompactString = String;
