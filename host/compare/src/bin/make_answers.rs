//! Writes stored answers of the reference: `make_answers FILE` those of read sets, `make_answers plans FILE` those of
//! plans. The sets and plans are fixed by the seed. The formats are in compare/src/answers.rs and plan_answers.rs.

use compare::answers::{self, Case, Stored};
use compare::{plan_answers, sets};
use model::edition::Edition;
use model::rounds::pairs_of;
use random::Random;

const SEED: u64 = 20_240_612;

fn main() {
    compare::silence_expected_panics();
    let words: Vec<String> = std::env::args().skip(1).collect();
    match &words[..] {
        [path] => of_sets(path),
        [what, path] if what == "plans" => of_plans(path),
        _ => panic!("usage: make_answers [plans] FILE"),
    }
}

fn of_plans(path: &str) {
    let cases = plan_answers::cases(SEED);
    let bytes = plan_answers::write(&cases);
    std::fs::write(path, &bytes).expect("the file can be written");
    for case in &cases {
        match &case.answer {
            Ok(script) => println!("  {}: {} words", case.name, script.words.len()),
            Err(refused) => println!("  {}: {:?}", case.name, refused),
        }
    }
    println!(
        "make_answers: {} plans of {}, and of the model, {} bytes",
        cases.len(),
        reference::NAME,
        bytes.len()
    );
}

fn of_sets(path: &str) {
    let cases: Vec<Case> = chosen_sets().iter().map(|set| Case::ask(pairs_of(set))).collect();
    let bytes = answers::write(&cases);
    std::fs::write(path, &bytes).expect("the file can be written");
    let refused = cases.iter().filter(|case| matches!(case.answer, Stored::Refused(_))).count();
    println!(
        "make_answers: {} cases of {} ({} refused), {} bytes",
        cases.len(),
        reference::NAME,
        refused,
        bytes.len()
    );
}

fn chosen_sets() -> Vec<Vec<u32>> {
    let mut random = Random::new(SEED);
    let mut chosen = sets::marked(Edition::FULL);
    for pairs in 1..=60 {
        chosen.push(sets::any(&mut random, pairs));
        chosen.push(sets::wide(&mut random, pairs));
    }
    for _ in 0..200 {
        let pairs = random.between(1, 12);
        chosen.push(sets::any(&mut random, pairs));
    }
    // Sets of more pairs than lanes, of every shape, the longest ones left out for the file's length.
    for _ in 0..8 {
        chosen.push(shorter(&mut random, 900, |random| sets::few_then_many(random, Edition::FULL)));
        chosen.push(shorter(&mut random, 900, |random| sets::runs(random, Edition::FULL)));
    }
    for total in [8191, 8192, 8193] {
        for _ in 0..3 {
            chosen.push(shorter(&mut random, 700, |random| sets::of_total(random, total)));
        }
    }
    for pairs in [255, 256, 257, 300] {
        chosen.push(sets::wide(&mut random, pairs));
        let bits: Vec<u32> = (0..pairs).map(|_| random.between(1, 20) as u32).collect();
        chosen.push(sets::with_bits(&mut random, &bits));
    }
    chosen.push(sets::with_bits(&mut random, &[1; 8192]));
    chosen
}

/// The first set made that has at most so many pairs.
fn shorter(random: &mut Random, pairs: usize, mut make: impl FnMut(&mut Random) -> Vec<u32>) -> Vec<u32> {
    loop {
        let set = make(random);
        if set.len() <= 2 * pairs {
            return set;
        }
    }
}
