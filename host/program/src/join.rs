//! `juolgesot join`.

use crate::files;
use crate::say::{many, say};
use crate::{Failure, Outcome};

pub const HELP: &str = "
usage: juolgesot join A B OUT

Joins the read sets in the files A and B and writes their join to OUT: the words of either, ascending, each with the bits
that either asks for. A read set is little-endian u32 words, a word and its mask in turn; bit 31 of a word is its staged
flag. An empty file is the empty set. A set that is refused is told with the refusal's number and pair.
";

pub fn call(words: &[String]) -> Outcome {
    let words = crate::Words::read(words, &[])?;
    let (a, b, out) = match &words.plain[..] {
        [a, b, out] => (a, b, out),
        _ => return Err(Failure::Usage("two read sets and an output file are needed".to_string())),
    };
    let (of_a, of_b) = (files::words(a)?, files::words(b)?);
    let joined =
        juolgesot::join_words(&of_a, &of_b).map_err(|refusal| Failure::Failed(refusal.to_string()))?;
    files::write(out, &plan::bytes(&joined))?;
    say!("{}: {}, of {} and {}", out, many(joined.len() as u64 / 2, "pair"), of_a.len() / 2, of_b.len() / 2);
    Ok(())
}
