//! Stand-in for the crate `clilog`: log lines. They are checked as format strings and never printed.

#[macro_export]
macro_rules! quiet {
    ($code:ident, $($text:tt)*) => { if false { let _ = format!($($text)*); } };
    ($($text:tt)*) => { if false { let _ = format!($($text)*); } };
}

pub use quiet as trace;
pub use quiet as debug;
pub use quiet as info;
pub use quiet as warn;
pub use quiet as error;
