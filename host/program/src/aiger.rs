//! `juolgesot aiger`.

use crate::files;
use crate::progress::while_working;
use crate::say::{many, say};
use crate::{Failure, Outcome};

pub const HELP: &str = "
usage: juolgesot aiger read FILE OUT
       juolgesot aiger write GATES OUT

read: the AND gates of the binary AIGER file FILE as a gate list, in OUT; prints the numbers of the header. Latch and output
lines, and what follows the gates, are passed over. write: the gate list GATES as a binary AIGER file without latches and
outputs, in OUT; its pins must have no gap, and no second fan-in may be larger than the first.
A gate list is little-endian u32 words, three a gate: its pin, then its fan-ins as twice a pin, plus 1 where inverted.
";

pub fn call(words: &[String]) -> Outcome {
    let words = crate::Words::read(words, &[])?;
    match &words.plain.iter().map(String::as_str).collect::<Vec<_>>()[..] {
        ["read", file, out] => read(file, out),
        ["write", gates, out] => write(gates, out),
        _ => Err(Failure::Usage("read or write, a file and an output file are needed".to_string())),
    }
}

fn read(file: &str, out: &str) -> Outcome {
    let bytes = files::read(file)?;
    let read = while_working("reading", || juolgesot::read_aiger(&bytes))?;
    let header = read.header;
    files::write(out, &plan::bytes(&read.list))?;
    say!(
        "{}: {}, {}, {}, {}",
        file,
        many(header.gates, "gate"),
        many(header.inputs, "input"),
        many(header.latches, "latch"),
        many(header.outputs, "output")
    );
    Ok(())
}

fn write(gates: &str, out: &str) -> Outcome {
    let list = files::words(gates)?;
    let file = while_working("writing", || juolgesot::write_aiger(&list))?;
    files::write(out, &file)?;
    say!("{}: {}, {}", out, many(list.len() as u64 / 3, "gate"), many(file.len() as u64, "byte"));
    Ok(())
}
