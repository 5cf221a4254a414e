use juolgesot::{build, part_heads, Part, Pin, Plan, Refusal, Stage};

fn main() -> Result<(), Refusal> {
    let mut stage = Stage::empty();
    stage.put(0, 0, Pin(1));
    stage.put(1, 0, Pin(1));
    stage.store(128);
    let mut plan = Plan::on_blocks(2);
    plan.input(Pin(1));
    plan.major_stage(vec![Part::new(vec![stage])]);

    let script = build(&plan.record())?;
    assert_eq!((script.blocks, script.major_stages()), (2, 1));
    // The first block has the part, the second is empty.
    let starts = script.stage_starts(0);
    let parts: Vec<_> = part_heads(&script.words, starts[0], starts[1], script.edition).collect();
    assert_eq!((parts.len(), parts[0].stages, parts[0].rounds, parts[0].state_start), (1, 1, 1, 1));
    assert_eq!(part_heads(&script.words, starts[1], starts[2], script.edition).count(), 0);
    // It reads one pair, as a piece of one: no search fell back.
    assert_eq!(script.pieces, [1]);
    assert_eq!(script.fell_back(), []);
    Ok(())
}
