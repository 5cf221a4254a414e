//! What refuses a plan or a run, more closely than the refusal's place says: host/model looks again.

use crate::Failure;
use juolgesot::{Edition, Refusal};
use model::{record, run};

/// A refusal of a plan record; 5 and 29 with the word and its list. (Where the counts of a record ask for more room than a plan in
/// range can, it is lent no more, and refused by 32.)
pub fn plan(bytes: &[u8], refusal: Refusal) -> Failure {
    Failure::Failed(plan_sentence(bytes, refusal))
}

pub fn plan_sentence(bytes: &[u8], refusal: Refusal) -> String {
    let words = record::words(bytes);
    match record::read(bytes.len(), &words) {
        Err(fault) if refusal.number() == fault.number => format!("refused {}: {}", fault.number, fault.what),
        Err(fault) if refusal.number() == 32 => {
            format!("refused 32: its counts ask for too much room: {}", fault.what)
        }
        _ => refusal.to_string(),
    }
}

/// A refusal of a run; 15 with what is wrong in the block. `states` are the words of the old and the new state.
pub fn run(
    edition: Edition,
    words: &[u32],
    starts: &[u64],
    states: (usize, usize),
    refusal: Refusal,
) -> Failure {
    Failure::Failed(match run::fault(::compare::modelled(edition), words, starts, states) {
        Some((block, what)) if refusal.number() == 15 => format!("refused 15: block {}: {}", block, what),
        _ => refusal.to_string(),
    })
}
