//! `juolgesot build`.

use crate::files;
use crate::progress::while_working;
use crate::say::{many, say};
use crate::{why, Failure, Outcome};

pub const HELP: &str = "
usage: juolgesot build PLAN OUT [--edition full|small]

Builds the script of the plan record in the file PLAN and writes it to OUT. A line is printed for each part whose reads were
not placed as one piece, with the piece size that won. A plan that is refused is told with the refusal's number and place.
A plan names its edition in its record, and its script is of that one; with --edition a plan of the other is not built.
The files' forms are in host/README.md.
";

pub fn call(words: &[String]) -> Outcome {
    let words = crate::Words::read(words, &["--edition"])?;
    let (plan, out) = match &words.plain[..] {
        [plan, out] => (plan, out),
        _ => return Err(Failure::Usage("a plan and an output file are needed".to_string())),
    };
    let record = files::read(plan)?;
    files::is_of(plan, &record, words.edition()?)?;
    let script = while_working("building", || juolgesot::build(&record))
        .map_err(|refusal| why::plan(&record, refusal))?;
    files::write(out, &plan::script_file::bytes(&script))?;
    say!(
        "{}: {} edition, {}, {}, {}, {}, {}",
        out,
        script.edition,
        many(script.blocks as u64, "block"),
        many(script.starts.len() as u64, "start"),
        many(script.words.len() as u64, "word"),
        many(script.state_words, "state word"),
        many(script.sram_words, "SRAM word")
    );
    for told in script.fell_back() {
        say!("{}", told);
    }
    Ok(())
}
