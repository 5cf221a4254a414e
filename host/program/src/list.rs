//! `juolgesot list`.

use crate::{Failure, Outcome};
use std::io::Read;

pub const HELP: &str = "
usage: juolgesot list [FILE] [--edition full|small]

Prints the lanes and rounds of requested positions. FILE (default: standard input) is records: a kind byte, 1 unstaged
or 2 staged, and a four-byte little-endian position each; then a byte 0. A line is: lane, round, n or s, word, mask.
--edition: the lanes of the full edition, 256 (default), or of the small one, 128. Exit status 0 where the records are in form and have a packing.
";

pub fn call(words: &[String]) -> Outcome {
    let words = crate::Words::read(words, &["--edition"])?;
    let edition = words.edition()?.unwrap_or_default();
    let records = match &words.plain[..] {
        [path] => crate::files::read(path)?,
        [] => {
            let mut bytes = Vec::new();
            std::io::stdin()
                .read_to_end(&mut bytes)
                .map_err(|error| Failure::Failed(format!("standard input cannot be read: {}", error)))?;
            bytes
        }
        _ => return Err(Failure::Usage("one file at most".to_string())),
    };
    let text = crate::progress::while_working("listing", || juolgesot::list(&records, edition))?;
    crate::say::text(&text);
    if text.starts_with(b"refused") {
        let said = String::from_utf8_lossy(&text);
        return Err(Failure::Failed(format!("the records were {}", said.trim_end())));
    }
    Ok(())
}
