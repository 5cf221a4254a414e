//! What the library is compared with: GEM's own Rust (feature `gem`), or the model where GEM's sources are missing.

#[cfg(feature = "gem")]
#[path = "gem.rs"]
mod chosen;
#[cfg(not(feature = "gem"))]
#[path = "model.rs"]
mod chosen;

pub use chosen::*;
