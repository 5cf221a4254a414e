//! Compares the library's read rounds with the reference's on every kind of read set.
//!
//! compare_rounds [SEED]    stops at the first difference

use compare::checker::{Checker, Lent, OutLength, FULL, STAGED_STOP, UNSTAGED_STOP};
use compare::comparison::Comparison;
use compare::damage;
use compare::sets;
use compare::tally::Tally;
use compare::{Dose, UNKNOWN};
use juolgesot::SET_ROOM;
use random::Random;

const SEED: u64 = 20_240_611;

fn main() {
    let mut comparison = Comparison::begin("compare_rounds", reference::NAME, SEED);
    let checkers = Dose::BOTH.map(|dose| {
        let mut checker = Checker::new();
        every_kind(&mut checker, &mut comparison.random, dose);
        all_came(&checker, dose);
        checker.tries.sort();
        checker.rounds.sort();
        checker
    });
    let told: Vec<(Dose, Vec<&Tally>)> = Dose::BOTH
        .into_iter()
        .zip(&checkers)
        .map(|(dose, c)| (dose, vec![&c.kinds, &c.answers, &c.tries, &c.rounds, &c.ended]))
        .collect();
    comparison.finish_both("read sets", &told);
}

/// The kinds of sets, of one edition.
fn every_kind(checker: &mut Checker, random: &mut Random, dose: Dose) {
    let lent = Lent::of(dose.edition);
    for set in sets::marked(dose.edition) {
        checker.check("M1 to M5", &set, lent);
    }
    checker.check("the set that the search misses", &sets::missed(dose.edition), lent);
    // Of the small edition every fourth: so few words lie in lanes 0, 1 and 2 of both.
    let (mut seen, kind) = (0, "every set of up to 3 words");
    sets::every_small_set(|set| {
        if dose.is_full() || seen % 4 == 0 {
            checker.check(kind, set, lent);
        }
        seen += 1;
    });
    random_sets(checker, random, dose);
    boundary_sets(checker, random, dose);
    no_packing(checker, random, dose);
    damaged_sets(checker, random, dose);
    short_results(checker, random, dose);
    short_rooms(checker, random, dose);
    last_try(checker, random, dose);
    unknown_editions(checker, random, dose);
}

/// Around the two bounds of "no packing exists", and sets within both that have one and are missed.
fn no_packing(checker: &mut Checker, random: &mut Random, dose: Dose) {
    let (lanes, slots) = (dose.edition.lanes(), dose.edition.slots());
    for wide in [lanes - 1, lanes, lanes + 1, lanes + 2, lanes * 25 / 16, slots / 17] {
        for _ in 0..dose.times(60) {
            let set = sets::so_many_wide(random, dose.edition, wide);
            checker.check(&format!("{} words of 17 bits or more", wide), &set, any_lent(random, dose));
        }
    }
    // Both: 21 comes first.
    for _ in 0..dose.times(60) {
        let bits: Vec<u32> =
            (0..random.between(lanes + 1, 600)).map(|_| random.between(30, 32) as u32).collect();
        let set = sets::with_bits(random, &bits);
        checker.check("too many bits and too many wide words", &set, any_lent(random, dose));
    }
    let ended = checker.ended.times(FULL);
    for _ in 0..dose.times(400) {
        let set = sets::exactly_full(random, dose.edition);
        checker.check("lanes that could be filled exactly", &set, any_lent(random, dose));
    }
    let missed = checker.ended.times(FULL) - ended;
    assert!(missed >= dose.least(LATE), "{} sets that have a packing were missed", missed);
}

/// 4096 pairs (of the small edition 2048) of 1 bit and 3 bits in turn: pieces of two pairs or more have equal totals, so that their order stays, and a pair
/// of 3 is left without room; single pairs, the larger first, fill all lanes. No set has a later try: one of twice as
/// many pairs has a bit in each and wins at once.
fn last_try(checker: &mut Checker, random: &mut Random, dose: Dose) {
    for _ in 0..dose.least(LATE) {
        let set = sets::with_bits(random, &[1, 3].repeat(dose.edition.slots() / 4));
        checker.check("1 bit and 3 bits in turn", &set, any_lent(random, dose));
    }
}

/// Times that each try is to win, and each refusal to come.
const LATE: u64 = 5;
const REFUSED: u64 = 50;

/// Ends the program where a try or a refusal did not come often enough.
fn all_came(checker: &Checker, dose: Dose) {
    for tried in 1..=dose.edition.levels() {
        let times = checker.tries.times(&format!("try {:2}", tried));
        assert!(times >= dose.least(LATE), "{} edition: try {} won {} times", dose.name(), tried, times);
    }
    for number in [1, 2, 3, 4, 14, 21, 22, 29, 32] {
        let times = checker.answers.times(&format!("refused {}", number));
        assert!(times >= dose.least(REFUSED), "refusal {} came {} times", number, times);
    }
    for kind in [STAGED_STOP, UNSTAGED_STOP] {
        let times = checker.ended.times(kind);
        assert!(times >= dose.least(LATE), "{}: {} times", kind, times);
    }
}

/// 29 after 32, and before 1 and all others: sets of every kind, and rooms of either.
fn unknown_editions(checker: &mut Checker, random: &mut Random, dose: Dose) {
    for round in 0..dose.times(400) {
        let pairs = if round % 20 == 0 { random.between(8190, 8200) } else { random.between(0, 20) };
        let mut set = sets::any(random, pairs);
        if !set.is_empty() && random.chance(2) {
            let kind = random.pick(&damage::KINDS);
            set = damage::damaged(random, &set, kind);
        }
        let (edition, out) = (random.pick(&UNKNOWN), OutLength::Exactly(random.below(600)));
        checker.check("unknown edition", &set, Lent { edition, out, ..any_lent(random, dose) });
        let room = SET_ROOM - random.between(1, 20);
        let lent = Lent { edition, room, ..any_lent(random, dose) };
        checker.check("unknown edition, working room too short", &set, lent);
    }
}

/// Any room but a short one, any result room that is enough.
fn any_lent(random: &mut Random, dose: Dose) -> Lent {
    Lent {
        edition: dose.edition.number(),
        room: if random.chance(16) { SET_ROOM + random.below(100) } else { SET_ROOM },
        room_is_zero: !random.chance(4),
        out: OutLength::Spare(if random.chance(2) { 0 } else { random.below(600) }),
    }
}

fn random_sets(checker: &mut Checker, random: &mut Random, dose: Dose) {
    for _ in 0..dose.times(60_000) {
        let pairs = random.between(1, 40);
        let set = if random.chance(2) { sets::any(random, pairs) } else { sets::wide(random, pairs) };
        checker.check("random, 1 to 40 pairs", &set, any_lent(random, dose));
    }
    for _ in 0..dose.times(4_000) {
        let pairs = random.between(41, 500);
        let set = if random.chance(2) { sets::any(random, pairs) } else { sets::wide(random, pairs) };
        checker.check("random, 41 to 500 pairs", &set, any_lent(random, dose));
    }
    for _ in 0..dose.times(1_000) {
        let set = sets::few_then_many(random, dose.edition);
        checker.check("few bits, then many", &set, any_lent(random, dose));
    }
    for _ in 0..dose.times(1_000) {
        let set = sets::runs(random, dose.edition);
        checker.check("runs of equal bit counts", &set, any_lent(random, dose));
    }
}

fn boundary_sets(checker: &mut Checker, random: &mut Random, dose: Dose) {
    let (lanes, slots) = (dose.edition.lanes(), dose.edition.slots());
    let around = [1, 2, 3, lanes - 1, lanes, lanes + 1, lanes + 2, 2 * lanes - 1, 2 * lanes, 2 * lanes + 1];
    for pairs in around {
        for _ in 0..dose.times(400) {
            let set = if random.chance(2) { sets::any(random, pairs) } else { sets::wide(random, pairs) };
            checker.check(&format!("{} pairs", pairs), &set, any_lent(random, dose));
        }
    }
    // The pairs' own limit, and of the small edition its slots.
    let pairs = [8191, 8192, 8193, 8194].into_iter().chain((slots - 1..slots + 2).filter(|&n| n < 8190));
    for pairs in pairs {
        for _ in 0..dose.times(15) {
            let mut bits = vec![1; pairs];
            if random.chance(3) {
                bits[random.below(pairs)] = 2;
            }
            let set = sets::with_bits(random, &bits);
            checker.check(&format!("{} pairs", pairs), &set, any_lent(random, dose));
        }
    }
    for total in [slots - 2, slots - 1, slots, slots + 1] {
        for _ in 0..dose.times(150) {
            let set = sets::of_total(random, total);
            checker.check(&format!("{} bits in all", total), &set, any_lent(random, dose));
        }
    }
    for _ in 0..dose.times(600) {
        let total = random.between(slots * 3 / 4, slots - 3);
        let set = sets::of_total(random, total);
        checker.check("three quarters of the bits and more", &set, any_lent(random, dose));
    }
}

fn damaged_sets(checker: &mut Checker, random: &mut Random, dose: Dose) {
    for kind in damage::KINDS {
        for round in 0..dose.times(2_000) {
            let pairs = if round % 50 == 0 { random.between(200, 8192) } else { random.between(1, 20) };
            let set = sets::any(random, pairs);
            let set = damage::damaged(random, &set, kind);
            let lent = Lent { out: OutLength::Spare(random.below(40)), ..any_lent(random, dose) };
            checker.check(&format!("damaged: {}", kind), &set, lent);
        }
    }
    // 1 comes before 2, and a half pair counts.
    for _ in 0..dose.times(20) {
        let mut set = sets::any(random, 8193);
        checker.check("over 8192 pairs", &set, any_lent(random, dose));
        set.pop();
        checker.check("over 8192 pairs, the last a half", &set, any_lent(random, dose));
        set.pop();
        set.pop();
        checker.check("8192 pairs, the last a half", &set, any_lent(random, dose));
        let longer = random.between(8194, 9000);
        let set = sets::any(random, longer);
        let set = damage::damaged(random, &set, "two words swapped");
        checker.check("over 8192 pairs, damaged", &set, any_lent(random, dose));
    }
}

/// Result rooms around the length that is needed; 3, 21, 22 and 4 come before 14.
fn short_results(checker: &mut Checker, random: &mut Random, dose: Dose) {
    let (lanes, slots) = (dose.edition.lanes(), dose.edition.slots());
    for round in 0..dose.times(6_000) {
        let set = match round % 20 {
            0 => sets::of_total(random, slots * 5 / 8),
            1 => sets::wide(random, lanes + 1),
            2 => Vec::new(),
            3 => sets::exactly_full(random, dose.edition),
            4 => sets::of_total(random, slots + 1),
            _ => {
                let pairs = random.between(1, 30);
                sets::any(random, pairs)
            }
        };
        let out = match random.below(5) {
            0 => OutLength::Exactly(0),
            1 => OutLength::Short(1),
            2 => OutLength::Short(2 * lanes),
            3 => OutLength::Short(0),
            _ => OutLength::Exactly(random.below(700)),
        };
        checker.check("result room around what is needed", &set, Lent { out, ..any_lent(random, dose) });
    }
}

/// Working rooms that are too short, with good and with damaged sets: 32 comes first.
fn short_rooms(checker: &mut Checker, random: &mut Random, dose: Dose) {
    for round in 0..dose.times(6_000) {
        let pairs = if round % 100 == 0 { random.between(8000, 8300) } else { random.between(1, 30) };
        let mut set = sets::any(random, pairs);
        if random.chance(3) {
            let kind = random.pick(&damage::KINDS);
            set = damage::damaged(random, &set, kind);
        }
        let room = match random.below(4) {
            0 => 0,
            1 => SET_ROOM - 1,
            2 => random.below(64),
            _ => random.below(SET_ROOM),
        };
        let out = OutLength::Exactly(random.below(600));
        checker.check(
            "working room too short",
            &set,
            Lent { room, room_is_zero: random.chance(2), out, ..Lent::of(dose.edition) },
        );
    }
}
