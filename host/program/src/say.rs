//! What is printed. A standard output that nobody reads any more ends the program quietly; one that cannot be written, with
//! a sentence. Both with exit status 1, and nothing is left half written: files are written before it is said.

use std::fmt::Arguments;
use std::io::{self, ErrorKind, Write};

/// Prints a line on standard output.
macro_rules! say {
    ($($words:tt)*) => { $crate::say::line(format_args!($($words)*)) };
}

/// Prints a line on standard error.
macro_rules! tell {
    ($($words:tt)*) => { $crate::say::line_of_error(format_args!($($words)*)) };
}

pub(crate) use {say, tell};

pub fn line(words: Arguments<'_>) {
    text(format!("{}\n", words).as_bytes());
}

/// Prints bytes on standard output as they are.
pub fn text(bytes: &[u8]) {
    let mut output = io::stdout();
    if let Err(error) = output.write_all(bytes).and_then(|()| output.flush()) {
        if error.kind() != ErrorKind::BrokenPipe {
            tell!("juolgesot: standard output cannot be written: {}", error);
        }
        crate::files::give_up();
        std::process::exit(1);
    }
}

/// There is nowhere left to say that this failed.
pub fn line_of_error(words: Arguments<'_>) {
    let _ = io::stderr().write_all(format!("{}\n", words).as_bytes());
}

/// So many of them: `1 gate`, `2 gates`, `2 latches`.
pub fn many(count: impl Into<u64>, one: &str) -> String {
    match count.into() {
        1 => format!("1 {}", one),
        count if one.ends_with("ch") => format!("{} {}es", count, one),
        count => format!("{} {}s", count, one),
    }
}
