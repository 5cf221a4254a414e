use juolgesot::{build, read_rounds, Edition, Machine, Part, Pin, Plan, Refusal, Stage};

fn main() -> Result<(), Box<dyn std::error::Error>> {
    let small = Edition::Small;
    assert_eq!((small.lanes(), small.levels(), small.slots()), (128, 12, 4096));

    // Gate 3, 1 and not 2, stands at slot 0 of level 1, over slots 0 and 2048 of level 0.
    let mut stage = Stage::empty_of(small);
    stage.put(0, 0, Pin(1));
    stage.put(0, 2048, Pin(2));
    stage.put(1, 0, Pin(3));
    // Location 64 captures positions 2048 to 2079: slots 0 to 31 of level 1.
    stage.store(64);
    let mut part = Part::new(vec![stage]);
    part.output(Pin(3).plain());
    part.tables.always(0, 0);
    let mut plan = Plan::of_edition(small, 1);
    plan.input(Pin(1));
    plan.input(Pin(2));
    plan.gate(Pin(3), Pin(1).plain(), Pin(2).inverted());
    plan.major_stage(vec![part]);

    // A part of one stage and one round, and 1024 words behind it.
    let script = build(&plan.record())?;
    assert_eq!((script.edition, script.words.len()), (small, 5248 + 256 + 2560 + 1024));
    let mut machine = Machine::new(&plan)?;
    machine.put(Pin(1), true)?;
    machine.cycle()?;
    assert_eq!(machine.output(Pin(3).plain()), Some(true));

    // 129 words of 17 bits have no packing in 128 lanes.
    let wide: Vec<(u32, u32)> = (0..129).map(|word| (word, 0x1_FFFF)).collect();
    assert_eq!(read_rounds(&wide, small), Err(Refusal::TooManyWideWords { part: 0 }));
    assert_eq!(read_rounds(&wide, Edition::Full)?.rounds, 1);
    Ok(())
}
