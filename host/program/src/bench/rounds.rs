//! Times of read rounds.

use super::{in_two_places, in_words, time_both, timed, Row, Table, Times};
use crate::{Failure, Outcome};
use ::compare::sets;
use model::edition::Edition;
use model::rounds;
use random::Random;
use std::collections::BTreeMap;
use std::time::Duration;

pub fn rows(table: &mut Table, random: &mut Random, time: Duration) -> Outcome {
    table.begin(&["read rounds", "ours", reference::NAME, "ratio"]);
    for (name, set) in read_sets(random) {
        let times = times(&set, time)?;
        let cells = [in_words(times.ours), in_words(times.theirs), in_two_places(times.ratio())];
        table.add(Row { group: "read rounds", name, times }, &cells);
    }
    Ok(())
}

fn read_sets(random: &mut Random) -> Vec<(String, Vec<u32>)> {
    let mut read_sets = Vec::new();
    for pairs in [8, 32, 128, 512] {
        let bits: Vec<u32> = (0..pairs).map(|_| random.between(1, 12) as u32).collect();
        read_sets.push((format!("{} pairs of 1 to 12 bits", pairs), sets::with_bits(random, &bits)));
    }
    for pairs in [2048, 8192] {
        read_sets.push((format!("{} pairs of one bit", pairs), sets::with_bits(random, &vec![1; pairs])));
    }
    let bits = sets::bits_summing_to(random, 8192, |random| random.pick(&[1, 2, 4, 8, 16, 32]));
    read_sets.push((format!("8192 bits in {} pairs", bits.len()), sets::with_bits(random, &bits)));
    // Pieces of 32 pairs and more have equal bits and keep their order, which leaves a pair of 3 bits without room; pieces of 16 do not.
    let bits = [vec![1; 16], vec![3; 16]].concat().repeat(128);
    let late = sets::with_bits(random, &bits);
    assert_eq!(rounds::search(Edition::FULL, &rounds::pairs_of(&late)).map(|packing| packing.tries()), Ok(9));
    read_sets.push(("8192 bits in 4096 pairs: the ninth size wins".to_string(), late));
    let ends = |set: &[u32]| matches!(rounds::pack(Edition::FULL, &rounds::pairs_of(set)), Err((4, _)));
    for (name, set) in [
        ("8192 bits in 259 pairs: no size places them", sets::missed(Edition::FULL)),
        ("2730 pairs of 3 bits: no size places them", sets::with_bits(random, &[3; 2730])),
    ] {
        assert!(ends(&set), "{}", name);
        read_sets.push((name.to_string(), set));
    }
    for words in [257, 481] {
        let set = sets::with_bits(random, &vec![17; words]);
        read_sets.push((format!("{} words of 17 bits: refused without a try", words), set));
    }
    read_sets
}

/// Both make the read section; their map is made before.
fn times(set: &[u32], time: Duration) -> Result<Times, Failure> {
    let map: BTreeMap<u32, u32> = set.chunks(2).map(|pair| (pair[0], pair[1])).collect();
    let mut room = vec![0; juolgesot::SET_ROOM];
    let full = juolgesot::Edition::Full;
    let mut out = vec![0; 32 * full.round_words()];
    let ours = || {
        let (placed, took) = timed(|| juolgesot::read_rounds_into(set, &mut room, &mut out, full));
        (placed.ok().map(|placed| out[..full.round_words() * placed.rounds].to_vec()), took)
    };
    let theirs =
        || timed(|| reference::lanes_of_map(&map).map(|lanes| rounds::section(Edition::FULL, &lanes)));
    time_both(time, ours, theirs)
}
