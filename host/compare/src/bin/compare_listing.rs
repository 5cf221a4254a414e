//! Compares the library's listing with the lines made from the reference's lanes.
//!
//! compare_listing [SEED]    stops at the first difference

use compare::comparison::Comparison;
use compare::list_checker::ListChecker;
use compare::sets;
use compare::{host, Dose, UNKNOWN};
use juolgesot::LIST_ROOM;
use random::Random;

const SEED: u64 = 20_240_613;

fn main() {
    let mut comparison = Comparison::begin("compare_listing", reference::NAME, SEED);
    let checkers = Dose::BOTH.map(|dose| {
        let mut checker = ListChecker::new();
        let edition = host(dose.edition);
        if juolgesot::list(&example(), edition).as_deref() != Ok(EXAMPLE_TEXT.as_bytes()) {
            println!("DIFFERENCE: the listing of document 01 is not its text");
            std::process::exit(1);
        }
        let mut check =
            |kind: &str, records: &[u8]| checker.check(kind, records, edition.number(), LIST_ROOM, 0);
        check("the listing of document 01", &example());
        check("no records", &[]);
        check("end at once", &[0]);
        random_listings(&mut checker, &mut comparison.random, dose);
        boundaries(&mut checker, &mut comparison.random, dose);
        checker.answers.sort();
        let more = if dose.is_full() { &[][..] } else { &["refused 21"] };
        for came in
            ["refused 3", "refused 4", "refused 17", "refused 22", "not written: 29"].iter().chain(more)
        {
            assert!(checker.answers.times(came) > 0, "{} did not come", came);
        }
        checker
    });
    let told: Vec<_> =
        Dose::BOTH.into_iter().zip(&checkers).map(|(dose, c)| (dose, vec![&c.kinds, &c.answers])).collect();
    comparison.finish_both("listings", &told);
}

fn random_listings(checker: &mut ListChecker, random: &mut Random, dose: Dose) {
    let edition = dose.edition.number();
    for _ in 0..dose.times(3_000) {
        let records = random_records(random);
        let spare = random.pick(&[0, 0, 1, 100]);
        checker.check("random", &records, edition, LIST_ROOM, spare);
        let damaged = damaged(random, &records);
        checker.check("damaged", &damaged, edition, LIST_ROOM, spare);
        let short = -(random.between(1, 12) as isize);
        checker.check("short result", &records, edition, LIST_ROOM, short);
        checker.check("short result, damaged", &damaged, edition, LIST_ROOM, short);
        let room = random.pick(&[0, 1, LIST_ROOM - 1]);
        checker.check("short room", &damaged, edition, room, 0);
        let unknown = random.pick(&UNKNOWN);
        checker.check("unknown edition", &damaged, unknown, LIST_ROOM + random.below(2), spare.min(short));
        checker.check("unknown edition, short room", &damaged, unknown, room, 0);
    }
}

/// The limit of positions is the same in both editions: of the small one 4096 bits come before.
fn boundaries(checker: &mut ListChecker, random: &mut Random, dose: Dose) {
    let (edition, lanes, slots) = (dose.edition.number(), dose.edition.number(), dose.edition.slots());
    let mut all = vec![8191, 8192, 8193, 8194];
    all.extend((slots - 1..slots + 2).filter(|&positions| positions < 8190));
    for positions in all {
        for spread in [1, 2, 7, 40, 1 << 19] {
            let records = records_of(random, positions, spread);
            checker.check(&format!("{} positions", positions), &records, edition, LIST_ROOM, 0);
        }
    }
    for words in [lanes, lanes + 1, lanes + 44, slots as u32 / 17] {
        checker.check("words of 17 bits", &seventeen_bits(words), edition, LIST_ROOM, 0);
    }
    let missed = requesting(random, &sets::missed(dose.edition));
    checker.check("the set that the search misses", &missed, edition, LIST_ROOM, 0);
    for _ in 0..20 {
        let set = sets::exactly_full(random, dose.edition);
        checker.check("lanes that could be filled exactly", &requesting(random, &set), edition, LIST_ROOM, 0);
    }
}

/// What document 01 prints for `example`.
const EXAMPLE_TEXT: &str = "rounds 1\n0 0 n 0 00000003\n1 0 n 1 00000020\n2 0 s 0 00000001\n";

fn example() -> Vec<u8> {
    let mut records = Vec::new();
    for (kind, position) in [(1, 0), (1, 1), (1, 37), (2, 0)] {
        push(&mut records, kind, position);
    }
    records.push(0);
    records
}

fn push(records: &mut Vec<u8>, kind: u8, position: u32) {
    records.push(kind);
    records.extend(position.to_le_bytes());
}

/// A set's bits as positions, in no order.
fn requesting(random: &mut Random, set: &[u32]) -> Vec<u8> {
    let mut positions: Vec<(u8, u32)> = Vec::new();
    for pair in set.chunks(2) {
        let kind = 1 + (pair[0] >> 31) as u8;
        positions
            .extend((0..32).filter(|bit| pair[1] >> bit & 1 == 1).map(|bit| (kind, (pair[0] << 5) + bit)));
    }
    random.shuffle(&mut positions);
    let mut records = Vec::new();
    for (kind, position) in positions {
        push(&mut records, kind, position);
    }
    records.push(0);
    records
}

/// So many words, 17 positions of each: two don't fit a lane.
fn seventeen_bits(words: u32) -> Vec<u8> {
    let mut records = Vec::new();
    for word in 0..words {
        for bit in 0..17 {
            push(&mut records, 1 + (word % 2) as u8, 32 * (word / 2) + bit);
        }
    }
    records.push(0);
    records
}

/// Ascending positions, the spread being the mean gap, staged or not as it comes.
fn records_of(random: &mut Random, positions: usize, spread: usize) -> Vec<u8> {
    let mut records = Vec::new();
    let mut position = 0;
    for _ in 0..positions {
        position += random.below(2 * spread) as u32;
        let kind = random.pick(&[1, 1, 2]);
        push(&mut records, kind, position);
    }
    records.push(0);
    records
}

/// A listing of positions in no order, some of them repeated.
fn random_records(random: &mut Random) -> Vec<u8> {
    let positions = if random.chance(40) { random.between(1, 6_000) } else { random.between(1, 50) };
    let end = random.pick(&[64, 1_000, 100_000, u32::MAX as usize]);
    let mut records = Vec::new();
    for _ in 0..positions {
        let position = random.below(end) as u32;
        let kind = random.pick(&[1, 2]);
        push(&mut records, kind, position);
    }
    records.push(0);
    records
}

fn damaged(random: &mut Random, records: &[u8]) -> Vec<u8> {
    let mut records = records.to_vec();
    let record = 5 * random.below((records.len() + 4) / 5);
    match random.below(5) {
        0 => records[record] = random.between(3, 255) as u8,
        1 => records[record] = 0,
        2 => records.truncate(random.between(record, records.len() - 1)),
        3 => records.push(random.below(3) as u8),
        _ => {
            let last = records.len() - 1;
            records[last] = random.below(256) as u8;
        }
    }
    records
}
