//! Times of `join`, beside a merge in plain Rust and beside a BTreeMap.

use super::{in_two_places, in_words, time_both, timed, Row, Table, Times};
use crate::{Failure, Outcome};
use model::rounds::check_form;
use random::Random;
use std::cmp::Ordering;
use std::collections::BTreeMap;
use std::time::Duration;

const PAIRS: u32 = 4096;

pub fn rows(table: &mut Table, random: &mut Random, time: Duration) -> Outcome {
    table.begin(&["join", "ours", "theirs", "ratio"]);
    let mut set = |from: u32, apart: u32| -> Vec<u32> {
        (0..PAIRS).flat_map(|index| [from + apart * index, random.word() | 1]).collect()
    };
    let sets = [
        ("in turn", set(0, 2), set(1, 2)),
        ("one behind the other", set(0, 1), set(PAIRS, 1)),
        ("every third word in both", set(0, 2), set(0, 3)),
    ];
    for (name, a, b) in &sets {
        for (beside, theirs) in [("a merge", merge as Join), ("a BTreeMap", by_map)] {
            let times = times(a, b, theirs, time)?;
            let name = format!("{} and {} pairs, {}, beside {}", PAIRS, PAIRS, name, beside);
            let cells = [in_words(times.ours), in_words(times.theirs), in_two_places(times.ratio())];
            table.add(Row { group: "join", name, times }, &cells);
        }
    }
    Ok(())
}

/// The join of two sets, or none where one of them is refused.
type Join = fn(&[u32], &[u32]) -> Option<Vec<u32>>;

/// Both sets are looked through first, as ours does.
fn merge(a: &[u32], b: &[u32]) -> Option<Vec<u32>> {
    check_form(a).and_then(|()| check_form(b)).ok()?;
    let mut joined = Vec::with_capacity(a.len() + b.len());
    let (mut i, mut j) = (0, 0);
    while i < a.len() && j < b.len() {
        match a[i].cmp(&b[j]) {
            Ordering::Less => {
                joined.extend([a[i], a[i + 1]]);
                i += 2;
            }
            Ordering::Greater => {
                joined.extend([b[j], b[j + 1]]);
                j += 2;
            }
            Ordering::Equal => {
                joined.extend([a[i], a[i + 1] | b[j + 1]]);
                i += 2;
                j += 2;
            }
        }
    }
    joined.extend(&a[i..]);
    joined.extend(&b[j..]);
    Some(joined)
}

fn by_map(a: &[u32], b: &[u32]) -> Option<Vec<u32>> {
    check_form(a).and_then(|()| check_form(b)).ok()?;
    let mut joined: BTreeMap<u32, u32> = a.chunks(2).map(|pair| (pair[0], pair[1])).collect();
    for pair in b.chunks(2) {
        *joined.entry(pair[0]).or_insert(0) |= pair[1];
    }
    Some(joined.into_iter().flat_map(|(word, mask)| [word, mask]).collect())
}

fn times(a: &[u32], b: &[u32], theirs: Join, time: Duration) -> Result<Times, Failure> {
    let mut out = vec![0; a.len() + b.len()];
    let ours = || {
        let (pairs, took) = timed(|| juolgesot::join_into(a, b, &mut out));
        (pairs.ok().map(|pairs| out[..2 * pairs].to_vec()), took)
    };
    time_both(time, ours, || timed(|| theirs(a, b)))
}
