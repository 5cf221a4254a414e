//! GEM's own Rust, as the oracle of the comparisons.
//!
//! `build.rs` copies GEM's files to where cargo builds, unchanged but for an accessor tail (`tails/NAME.rs`) put after the last
//! line of a file whose private functions are asked for. `one_bit` is two functions of pe.rs that stand inside another.
//! `repcut`, which GEM's lib.rs names too, is not among the sources.

#![allow(warnings)]

include!(concat!(env!("OUT_DIR"), "/modules.rs"));
