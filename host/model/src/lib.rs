//! A plain Rust model of document 01, and of document 02's requests as far as they have landed (1, 2, 4, 5, 7, 10 and 11/13),
//! written from their text and not from GEM's code. All of it is over an edition's lanes. Of 8/13 and 9/13 there is what is said of
//! bare words (`handed`, `report`), before they land.
//!
//! It is the second opinion of the comparisons: held to GEM's Rust on every case where GEM's
//! sources are at hand, and the reference where they are not.

pub mod aiger;
pub mod blocks;
pub mod build;
pub mod edition;
pub mod handed;
pub mod joins;
pub mod listing;
#[cfg(test)]
mod made;
pub mod plan;
pub mod record;
pub mod repair;
pub mod report;
pub mod rounds;
pub mod run;
pub mod script;
pub mod value;

/// A refusal's number and place.
#[derive(Debug, Clone, Copy, PartialEq, Eq)]
pub struct Refused {
    pub number: u32,
    pub part: u64,
    pub item: u64,
}

impl Refused {
    pub fn at(number: u32, part: usize, item: usize) -> Self {
        Refused { number, part: part as u64, item: item as u64 }
    }

    /// A refusal that names no place.
    pub fn plain(number: u32) -> Self {
        Refused { number, part: 0, item: 0 }
    }
}
