//! Holds the library to stored answers: replay_answers FILE. Needs no GEM sources.

use compare::answers::{self, Case, Stored};
use juolgesot::{read_rounds, Edition, Rounds};

fn main() {
    let path = std::env::args().nth(1).expect("usage: replay_answers FILE");
    let bytes = std::fs::read(&path).expect("the file can be read");
    let cases = answers::read(&bytes).expect("the file has the form of stored answers");
    for (index, case) in cases.iter().enumerate() {
        if let Err(what) = check(case) {
            println!("DIFFERENCE in case {} ({} pairs): {}", index, case.pairs.len(), what);
            std::process::exit(1);
        }
    }
    println!("replay_answers: {} cases, no difference", cases.len());
}

fn check(case: &Case) -> Result<(), String> {
    match (&case.answer, read_rounds(&case.pairs, Edition::Full)) {
        (Stored::Refused(number), Err(refusal)) if refusal.number() == *number => Ok(()),
        (Stored::Refused(number), found) => Err(format!("expected refusal {}, found {:?}", number, found)),
        (Stored::Packed { .. }, Err(refusal)) => Err(refusal.to_string()),
        (Stored::Packed { rounds, places }, Ok(found)) => check_packing(case, *rounds, places, &found),
    }
}

/// Every pair stands at its stored place, and nothing else is read.
fn check_packing(case: &Case, rounds: u32, places: &[u32], found: &Rounds) -> Result<(), String> {
    if found.rounds as u32 != rounds {
        return Err(format!("{} rounds, expected {}", found.rounds, rounds));
    }
    for (pair, place) in case.pairs.iter().zip(places) {
        let (lane, round) = (place / 32, place % 32);
        let read = found.read(lane as usize, round as usize);
        if read != Some(*pair) {
            return Err(format!("lane {} round {} reads {:?}, expected {:?}", lane, round, read, pair));
        }
    }
    let read_words = found.words.iter().filter(|word| **word != 0).count();
    let asked_words =
        case.pairs.iter().flat_map(|(word, mask)| [word, mask]).filter(|word| **word != 0).count();
    if read_words != asked_words {
        return Err(format!("{} words of the section are not zero, expected {}", read_words, asked_words));
    }
    Ok(())
}
