//! Document 01's marked small set, M1 to M10, through this crate. It is of the full edition.

use juolgesot::*;

const FULL: Edition = Edition::Full;

/// Where the sections of a part's stages begin: behind its head and its rounds.
fn stage_section(script: &Script, head: PartHead, stage: u64) -> &[u32] {
    let at = head.at + 256 + 512 * u64::from(head.rounds) + 5120 * stage;
    &script.words[at as usize..][..5120]
}

/// Entry i of a section: entry 32t + 8k + 2h + e is in word 1024k + 4t + h, the low half for e = 0.
fn entry(section: &[u32], i: usize) -> u32 {
    let (t, k, h, e) = (i / 32, i % 32 / 8, i % 8 / 2, i % 2);
    section[1024 * k + 4 * t + h] >> (16 * e) & 0xFFFF
}

fn heads(script: &Script, stage: usize) -> Vec<PartHead> {
    let starts = script.stage_starts(stage);
    starts.windows(2).flat_map(|range| part_heads(&script.words, range[0], range[1], FULL)).collect()
}

/// A stage that carries pin 1 from slot 0 of level 0 to slot 0 of level 1, with these locations.
fn carrying(locations: &[u32]) -> Stage {
    let mut stage = Stage::empty();
    stage.put(0, 0, Pin(1));
    stage.put(1, 0, Pin(1));
    stage.locations = locations.to_vec();
    stage
}

/// A plan of one major stage, whose pin 1 is the first input.
fn plan(blocks: u32, parts: Vec<Part>) -> Plan {
    let mut plan = Plan::on_blocks(blocks);
    plan.input(Pin(1));
    plan.major_stage(parts);
    plan
}

#[test]
fn m1_empty_read_set() {
    assert_eq!(read_rounds(&[], FULL), Err(Refusal::NothingToRead { part: 0 }));
}

/// The listing's set is placed as one piece.
#[test]
fn m2_size() {
    assert_eq!(read_rounds(&[(0, 3), (1, 0x20), (0x8000_0000, 1)], FULL).unwrap().size, 3);
}

/// The listing's set has local positions 1, 0, 32 and 64: a stage that reads them has these entries.
#[test]
fn m2_local_positions() {
    let mut plan = Plan::on_blocks(1);
    for (pin, position) in [(1, 0), (2, 1), (3, 37)] {
        plan.position(Pin(pin), StatePosition(position));
    }
    plan.staged_position(Pin(4), StatePosition(0));
    plan.major_stage(vec![Part::new(vec![carrying(&[128, 129])])]);
    let mut reading = Stage::empty();
    for slot in 0..4 {
        reading.put(0, slot, Pin(slot + 1));
    }
    plan.major_stage(vec![Part::new(vec![reading])]);
    let script = build(&plan.record()).unwrap();
    assert_eq!(script.pieces, [1, 3]);
    let section = stage_section(&script, heads(&script, 1)[0], 0);
    assert_eq!([0, 1, 2, 3].map(|slot| entry(section, slot)), [1, 0, 32, 64]);
}

/// The same, asked of the set itself.
#[test]
fn m2_local_positions_of_the_set() {
    let set = [(0, 3), (1, 0x20), (0x8000_0000, 1)];
    let positions = [(0, 0), (0, 1), (1, 5), (0x8000_0000, 0)]
        .map(|(word, bit)| local_position(&set, word, bit, FULL).unwrap());
    assert_eq!(positions, [1, 0, 32, 64].map(|position| Some(LocalPosition(position))));
    assert_eq!(local_position(&set, 0, 2, FULL), Ok(None));
    assert_eq!(local_position(&[], 0, 0, FULL), Err(Refusal::NothingToRead { part: 0 }));
}

#[test]
fn m3_256_words_of_17_bits() {
    let pairs: Vec<_> = (0..256).map(|word| (word, 0x1_FFFF)).collect();
    let packed = read_rounds(&pairs, FULL).unwrap();
    assert_eq!((packed.rounds, packed.size), (1, 256));
    assert!((0..256).all(|lane| packed.read(lane, 0) == Some((lane as u32, 0x1_FFFF))));
}

#[test]
fn m4_257_of_them() {
    let pairs: Vec<_> = (0..257).map(|word| (word, 0x1_FFFF)).collect();
    assert_eq!(read_rounds(&pairs, FULL), Err(Refusal::TooManyWideWords { part: 0 }));
}

/// 8192 bits of which 254 words of 32 bits, one of 10, two of 16 and two of 11 have a packing that no piece size finds.
#[test]
fn the_search_ended_at_word_254() {
    let bits = [vec![32; 254], vec![10, 16, 16, 11, 11]].concat();
    let pairs: Vec<_> = (0..).zip(bits.iter().map(|&bits| u32::MAX >> (32 - bits))).collect();
    assert_eq!(read_rounds(&pairs, FULL), Err(Refusal::NoLane { part: 0, word: 254 }));
}

#[test]
fn one_bit_too_many() {
    let mut pairs: Vec<_> = (0..256).map(|word| (word, u32::MAX)).collect();
    assert_eq!(read_rounds(&pairs, FULL).unwrap().size, 256);
    pairs.push((256, 1));
    assert_eq!(read_rounds(&pairs, FULL), Err(Refusal::TooManyBits { part: 0 }));
}

#[test]
fn m5_the_fifth_piece_size_wins() {
    let mut pairs: Vec<_> = (0..256).map(|word| (word, 1)).collect();
    pairs.push((256, u32::MAX));
    let packed = read_rounds(&pairs, FULL).unwrap();
    assert_eq!((packed.rounds, packed.size), (2, 16));
    assert_eq!(packed.read(0, 0), Some((256, u32::MAX)));
    assert_eq!(packed.read(1, 1), Some((255, 1)));
}

#[test]
fn m6_locations() {
    let script = build(&plan(1, vec![Part::new(vec![carrying(&[1, 2]), carrying(&[3])])]).record()).unwrap();
    let at = heads(&script, 0)[0].at as usize;
    assert_eq!(script.words[at + 128..at + 131], [0x0002_0001, 0xFFFF_0103, 0xFFFF_FFFF]);
}

#[test]
fn m7_one_duplicate_word() {
    let mut part = Part::new(vec![carrying(&[128])]);
    part.output(PinIv(10));
    part.staged(Pin(5));
    part.register(PinIv(10), PinIv(1));
    let without = build(&plan(1, vec![part.clone()]).record()).unwrap();
    assert_eq!(heads(&without, 0)[0].duplicates, 0);
    part.output(PinIv(11));
    let script = build(&plan(1, vec![part]).record()).unwrap();
    assert_eq!(heads(&script, 0)[0].duplicates, 1);
}

#[test]
fn m8_blocks_and_state_starts() {
    let mut plan = Plan::on_blocks(2);
    plan.layout = vec![EMPTY; 40];
    plan.layout[7] = 1;
    let part =
        |stages: usize| Part::new((0..stages).map(|s| carrying(if s == 0 { &[128] } else { &[] })).collect());
    plan.major_stage([4, 2, 1, 1].map(part).into());
    let script = build(&plan.record()).unwrap();
    let starts = script.stage_starts(0);
    let block = |block: usize| -> Vec<(u32, u32)> {
        let heads = part_heads(&script.words, starts[block], starts[block + 1], FULL);
        heads.map(|head| (head.stages, head.state_start)).collect()
    };
    // Block 0 has parts 0 and 3, block 1 parts 1 and 2; by part the starts are 2, 4, 5, 3.
    assert_eq!(block(0), [(4, 2), (1, 3)]);
    assert_eq!(block(1), [(2, 4), (1, 5)]);
}

#[test]
fn m9_entry_33() {
    let mut stage = Stage::empty();
    stage.put(0, 33, Pin(1));
    stage.put(0, 0, Pin(2));
    let mut plan = plan(1, vec![Part::new(vec![stage])]);
    plan.input(Pin(2));
    let script = build(&plan.record()).unwrap();
    let section = stage_section(&script, heads(&script, 0)[0], 0);
    // Pin 1 is bit 0 of the word that is read, pin 2 bit 1: local positions 1 and 0.
    assert_eq!(section[4], 0x0001_0000);
    assert_eq!(section.iter().filter(|&&word| word != 0).count(), 1);
}

#[test]
fn m10_a_gate_is_run() {
    let mut stage = carrying(&[128]);
    stage.put(0, 4096, Pin(2));
    stage.put(1, 0, Pin(3));
    let mut part = Part::new(vec![stage]);
    part.tables.enable_set0.fill(u32::MAX);
    part.tables.enable_inv.fill(u32::MAX);
    let mut plan = plan(1, vec![part]);
    plan.input(Pin(2));
    plan.gate(Pin(3), Pin(1).plain(), Pin(2).inverted());
    let script = build(&plan.record()).unwrap();
    let turns = finishing_turns(&script.words, script.stage_starts(0), FULL);
    for (old, stored) in [(1, 1), (3, 0xFFFF_FFFE)] {
        let mut new = [0, 0];
        assert_eq!(run(&script.words, script.stage_starts(0), &turns, &[old, 0], &mut new, FULL), Ok(0));
        assert_eq!(new, [0, stored]);
    }
}
