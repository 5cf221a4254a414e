use juolgesot::{build, finishing_turns, run, Part, Pin, Plan, Refusal, Stage};

fn main() -> Result<(), Refusal> {
    // Pin 1 is carried from the state's first bit to bit 0 of its second word.
    let mut stage = Stage::empty();
    stage.put(0, 0, Pin(1));
    stage.put(1, 0, Pin(1));
    stage.store(128);
    let mut part = Part::new(vec![stage]);
    part.tables.always(0, 0);
    let mut plan = Plan::on_blocks(1);
    plan.input(Pin(1));
    plan.major_stage(vec![part]);
    let script = build(&plan.record())?;

    let starts = script.stage_starts(0);
    let turns = finishing_turns(&script.words, starts, script.edition);
    let (old, mut new) = ([1, 0], [0, 0]);
    assert_eq!(run(&script.words, starts, &turns, &old, &mut new, script.edition)?, 0);
    assert_eq!(new, [0, 1]);

    // With a turn less the part is not stored, and one is left.
    let mut unfinished = [0, 0];
    assert_eq!(run(&script.words, starts, &turns[1..], &old, &mut unfinished, script.edition)?, 1);
    assert_eq!(unfinished, [0, 0]);
    // There is one block, no block 7.
    assert_eq!(
        run(&script.words, starts, &[0, 7], &old, &mut unfinished, script.edition),
        Err(Refusal::NoBlock { turn: 1 })
    );
    Ok(())
}
