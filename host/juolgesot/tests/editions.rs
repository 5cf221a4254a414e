//! Both editions: the small one's numbers in the place of document 01's, and 29 at every door.

use juolgesot::*;

const SMALL: Edition = Edition::Small;
/// Numbers that name no edition.
const UNKNOWN: [u32; 10] = [0, 1, 12, 13, 127, 129, 255, 257, 512, u32::MAX];

/// Pairs of words from 0 on that ask for so many bits.
fn pairs(bits: &[u32]) -> Vec<(u32, u32)> {
    (0..).zip(bits.iter().map(|&bits| u32::MAX >> (32 - bits))).collect()
}

/// M10 in an edition: gate 3 = 1 and not 2 at slot 0 of level 1, every bit enabled.
fn m10(edition: Edition) -> Plan {
    let mut stage = Stage::empty_of(edition);
    stage.put(0, 0, Pin(1));
    stage.put(0, edition.slots() as u32 / 2, Pin(2));
    stage.put(1, 0, Pin(3));
    stage.store(edition.lanes() as u32 / 2);
    let mut part = Part::new(vec![stage]);
    part.tables.enable_set0.fill(u32::MAX);
    part.tables.enable_inv.fill(u32::MAX);
    let mut plan = Plan::of_edition(edition, 1);
    plan.input(Pin(1));
    plan.input(Pin(2));
    plan.gate(Pin(3), Pin(1).plain(), Pin(2).inverted());
    plan.major_stage(vec![part]);
    plan
}

/// M2's set is placed in lanes 0, 1 and 2 of either edition; as a part of one stage it has 8064 words in the small one.
#[test]
fn m2_of_the_small_edition() {
    let set = [(0, 3), (1, 0x20), (0x8000_0000, 1)];
    let packed = read_rounds(&set, SMALL).unwrap();
    assert_eq!((packed.rounds, packed.size, packed.words.len()), (1, 3, 256));
    assert_eq!((packed.read(2, 0), packed.read(127, 0), packed.read(128, 0)), (Some(set[2]), None, None));
    assert_eq!(local_position(&set, 1, 5, SMALL), Ok(Some(LocalPosition(32))));
    assert_eq!(Edition::BOTH.map(|edition| edition.part_words(1, 1)), [16128, 8064]);
}

/// 3 and 4 of document 01 and 4/13 with 128 lanes: at the limit and one past.
#[test]
fn limits_of_the_lanes() {
    let ask = |bits: &[u32]| read_rounds(&pairs(bits), SMALL).map(|packed| (packed.rounds, packed.size));
    assert_eq!(ask(&[17; 128]), Ok((1, 128)));
    assert_eq!(ask(&[17; 129]), Err(Refusal::TooManyWideWords { part: 0 }));
    assert_eq!(ask(&[32; 128]), Ok((1, 128)));
    assert_eq!(ask(&[vec![32; 128], vec![1]].concat()), Err(Refusal::TooManyBits { part: 0 }));
    assert_eq!(ask(&[1; 4096]), Ok((32, 4096)));
    assert_eq!(ask(&[1; 4097]), Err(Refusal::TooManyBits { part: 0 }));
    // The set that the search misses, and M5, with 128 words fewer.
    let missed = [vec![32; 126], vec![10, 16, 16, 11, 11]].concat();
    assert_eq!(ask(&missed), Err(Refusal::NoLane { part: 0, word: 126 }));
    assert_eq!(ask(&[vec![1; 128], vec![32]].concat()), Ok((2, 16)));
    // The pair limit is the same.
    let long: Vec<(u32, u32)> = (0..8193).map(|word| (word, 1)).collect();
    assert_eq!(read_rounds(&long, SMALL), Err(Refusal::TooManyPairs));
}

/// "5248 + 256·rounds + 2560·stages", 1024 zeros behind, an empty block of 128 words; run, it stores what M10 does.
#[test]
fn m10_of_both_editions() {
    for (edition, part, block, tail) in [(Edition::Full, 16128, 256, 2048), (SMALL, 8064, 128, 1024)] {
        let mut plan = m10(edition);
        plan.blocks = 2;
        let script = build(&plan.record()).unwrap();
        assert_eq!(script.edition, edition);
        assert_eq!(script.starts, [0, part, part + block]);
        assert_eq!(script.words.len() as u64, part + block + tail);
        assert_eq!(script_file::read(&script_file::bytes(&script)).unwrap().edition, edition);
        let starts = script.stage_starts(0);
        let turns = finishing_turns(&script.words, starts, edition);
        assert_eq!(turns, [0, 0, 0]);
        for (old, stored) in [(1, 1), (3, 0xFFFF_FFFE)] {
            let mut new = [0, 0];
            assert_eq!(run(&script.words, starts, &turns, &[old, 0], &mut new, edition), Ok(0));
            assert_eq!(new, [0, stored]);
        }
        // Words of one edition are none of the other.
        let other = Edition::BOTH[(edition == Edition::Full) as usize];
        let refused = run(&script.words, starts, &turns, &[1, 0], &mut [0, 0], other);
        assert_eq!(refused, Err(Refusal::BadWords { block: 0 }));
    }
}

/// Location 127 and 128 words to write out; entry 4095.
#[test]
fn limits_of_a_plan() {
    for edition in Edition::BOTH {
        let lanes = edition.lanes();
        let with = |change: &dyn Fn(&mut Part)| {
            let mut plan = m10(edition);
            change(&mut plan.stages[0][0]);
            plan_sizes(&plan.record()).err().map(|refusal| (refusal.number(), refusal.numbers()))
        };
        assert_eq!(with(&|part| part.stages[0].locations = vec![lanes as u32 - 1]), None);
        assert_eq!(with(&|part| part.stages[0].locations = vec![lanes as u32]), Some((7, (0, 0))));
        assert_eq!(with(&|part| part.stages[0].locations = vec![1; lanes]), None);
        let item = lanes as u64 + 1;
        assert_eq!(with(&|part| part.stages[0].locations = vec![1; lanes + 1]), Some((7, (0, item))));
        let slots = edition.slots();
        assert_eq!(with(&|part| part.tables.sram[3] = slots as u32 - 1), None);
        assert_eq!(with(&|part| part.tables.sram[3] = slots as u32), Some((13, (0, 3))));
        let item = slots as u64 + 3;
        assert_eq!(with(&|part| part.tables.enable[3] = slots as u32), Some((13, (0, item))));
    }
}

/// Level 12 has one slot, level 0 4096; one past is 5.
#[test]
fn places_of_a_stage() {
    for (edition, levels) in [(Edition::Full, 13), (SMALL, 12)] {
        let netlist = Netlist { gates: &[], levels: &[0, 0] };
        let put = |level, slot| {
            let mut slots = vec![EMPTY; edition.stage_slots()];
            place_bit(netlist, &[], &mut slots, Place { level, slot }, Pin(1), edition)
        };
        assert_eq!(put(levels, 0), Ok(vec![1, levels]));
        assert_eq!(put(0, (1 << levels) - 1), Ok(vec![]));
        for (level, slot) in [(levels + 1, 0), (levels, 1), (1, 1 << (levels - 1)), (0, 1 << levels)] {
            assert_eq!(put(level, slot), Err(Refusal::OutOfRange));
        }
    }
}

/// 29 after 32 and before 1, 5 and 15, at (0, 0).
#[test]
fn unknown_editions_at_every_door() {
    // Each is wrong in other ways too.
    let (long, few) = (vec![0; 2 * 8193], SET_ROOM - 1);
    for edition in UNKNOWN {
        assert_eq!(Edition::numbered(edition), None);
        for (room, code) in [(SET_ROOM, 29), (few, 32)] {
            let mut room = vec![7; room];
            let refused = ffi::Answer { code, first: 0, second: 0 };
            assert_eq!(ffi::read_rounds(&long, &mut room, &mut [], edition), refused);
            assert!(room.iter().all(|&word| word == if code == 29 { 0 } else { 7 }));
            assert_eq!(ffi::local_position(&long, &mut room, 0, 40, edition), refused);
            assert_eq!(ffi::list(&[9], &mut room, &mut [], edition), refused);
        }
        for (room, code) in [(BLOCK_ROOM, 29), (BLOCK_ROOM - 1, 32)] {
            let refused = ffi::Answer { code, first: 0, second: 0 };
            let mut new = [5];
            assert_eq!(ffi::run(&[], &[3, 1], &[9], &[], &mut new, &mut vec![7; room], edition), refused);
            assert_eq!(new, [5]);
        }
        for (room, code) in [(repair_room(1), 29), (repair_room(1) - 1, 32)] {
            let refused = ffi::Answer { code, first: 0, second: 0 };
            let room = &mut vec![7; room];
            assert_eq!(
                ffi::place_bit(&[1], &[], &[1], &mut [], &mut [], room, 99, 0, EMPTY, edition),
                refused
            );
            let room = &mut vec![7; room.len()];
            assert_eq!(ffi::purge_bit(&[1], &mut [], &mut [], room, 99, 0, edition), refused);
        }
        let mut record = m10(Edition::Full).record();
        record[20..24].copy_from_slice(&edition.to_le_bytes());
        record[0] = 0;
        assert_eq!(plan_sizes(&record), Err(Refusal::UnknownEdition));
        assert_eq!(build(&record).map(|_| ()), Err(Refusal::UnknownEdition));
        assert_eq!(value(&record, 0, Pin(1), &[], &[]), Err(Refusal::UnknownEdition));
        let short = &mut vec![0; plan_room(&record) as usize - 1];
        assert_eq!(plan_sizes_into(&record, short), Err(Refusal::ShortRoom));
    }
}
