//! The plans of document 01's marked examples, in either edition.

use crate::plans::{self, Reads};
use plan::{Edition, Gate, Part, Plan, Position, Stage, Tables, EMPTY};
use random::Random;

/// A part that reads pin 1, with these stages' locations.
pub fn plain_part(edition: Edition, locations: &[&[u32]]) -> Part {
    let stages = locations
        .iter()
        .map(|locations| {
            let mut stage = Stage::empty_of(edition);
            stage.slots[edition.slots()] = 1;
            stage.slots[edition.slots() / 2] = 1;
            stage.locations = locations.to_vec();
            stage
        })
        .collect();
    Part { endpoints: Vec::new(), stages, tables: Tables::zeros(edition) }
}

/// The location that captures the first slots of level 1: 128.
fn level_1(edition: Edition) -> u32 {
    edition.lanes() as u32 / 2
}

pub fn m6(edition: Edition) -> Plan {
    let stages = vec![vec![plain_part(edition, &[&[1, 2], &[3]])]];
    Plan { edition, blocks: 1, layout: vec![1], stages, ..Plan::default() }
}

pub fn m8(edition: Edition) -> Plan {
    let first = [level_1(edition)];
    let mut layout = vec![EMPTY; 40];
    layout[7] = 1;
    let parts = [4, 2, 1, 1].iter().map(|&stages| {
        let mut locations: Vec<&[u32]> = vec![&[]; stages];
        locations[0] = &first;
        plain_part(edition, &locations)
    });
    Plan { edition, blocks: 2, layout, stages: vec![parts.collect()], ..Plan::default() }
}

/// "M10 now has set0 and inv 1 and data inv 0 throughout" (5/13): its bits are always enabled, and not inverted.
pub fn m10(edition: Edition) -> Plan {
    m10_with(edition, u32::MAX, u32::MAX, 0)
}

/// The same with these words in every lane of its enable table.
pub fn m10_with(edition: Edition, set0: u32, inv: u32, data_inv: u32) -> Plan {
    let (mut part, half) = (plain_part(edition, &[&[level_1(edition)]]), edition.slots() / 2);
    part.stages[0].slots[3 * half] = 2;
    part.stages[0].slots[half] = 3;
    part.tables.enable_set0.fill(set0);
    part.tables.enable_inv.fill(inv);
    part.tables.data_inv.fill(data_inv);
    Plan {
        edition,
        blocks: 1,
        gates: vec![Gate { pin: 3, first: 2, second: 5 }],
        layout: vec![1, 2],
        stages: vec![vec![part]],
        ..Plan::default()
    }
}

/// M2's set: bits 0 and 1 of word 0, bit 5 of word 1, and bit 0 of staged word 0, which an earlier major stage stores. Its part of one
/// stage and one round has 16128 words, or 8064 in the small edition.
pub fn m2(edition: Edition) -> Plan {
    let mut reading = Stage::empty_of(edition);
    reading.slots[edition.slots()..][..4].copy_from_slice(&[1, 2, 3, 4]);
    let part = Part { endpoints: Vec::new(), stages: vec![reading], tables: Tables::zeros(edition) };
    let position = |(pin, position, staged)| Position { pin, position, staged };
    let positions = [(1, 0, 0), (2, 1, 0), (3, 37, 0), (4, 0, 1)].into_iter().map(position).collect();
    let storing = plain_part(edition, &[&[level_1(edition), level_1(edition)]]);
    Plan { edition, blocks: 1, positions, stages: vec![vec![storing], vec![part]], ..Plan::default() }
}

/// M5's set: the fifth piece size, 16, wins. (Of the small edition the fourth.)
pub fn m5_reads(edition: Edition) -> Reads {
    Reads { unstaged: [vec![1; edition.lanes()], vec![32]].concat(), staged: Vec::new() }
}

/// The set that no piece size places, though it has a packing (`sets::missed`): the word that is told is the one of 10 bits. In the
/// first of these its words are unstaged, in the second that word is staged, in the third all but the first.
pub fn missed_reads(edition: Edition) -> [Reads; 3] {
    let set = |unstaged: &[Vec<u32>], staged: &[Vec<u32>]| Reads {
        unstaged: unstaged.concat(),
        staged: staged.concat(),
    };
    let lanes = edition.lanes();
    let (wide, rest) = (vec![32; lanes - 2], vec![16, 16, 11, 11]);
    [
        set(&[wide.clone(), vec![10], rest.clone()], &[]),
        set(&[wide, rest.clone()], &[vec![10]]),
        set(&[vec![32]], &[vec![32; lanes - 3], vec![10], rest]),
    ]
}

/// M4's set, 257 words of 17 bits; 129 in the small edition.
pub fn wide_reads(edition: Edition) -> Reads {
    Reads { unstaged: vec![17; edition.lanes() + 1], staged: Vec::new() }
}

/// Plans whose second part reads M5's set, the second of the missed ones, and M4's.
pub fn reads_in_second_part(edition: Edition) -> [(&'static str, Plan); 3] {
    let random = &mut Random::new(20_240_821);
    let few = Reads { unstaged: vec![5; 9], staged: Vec::new() };
    let [_, missed, _] = missed_reads(edition);
    [
        ("m5.plan", plans::reading(random, edition, &[few.clone(), m5_reads(edition)])),
        ("missed.plan", plans::reading(random, edition, &[missed])),
        ("wide.plan", plans::reading(random, edition, &[few, wide_reads(edition)])),
    ]
}
