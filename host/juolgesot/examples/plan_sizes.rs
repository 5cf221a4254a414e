use juolgesot::{plan_sizes, Edition, Part, Pin, Plan, Refusal, Stage};

fn main() -> Result<(), Refusal> {
    let mut stage = Stage::empty();
    stage.put(0, 0, Pin(1));
    stage.put(1, 0, Pin(1));
    stage.store(128);
    let mut plan = Plan::on_blocks(1);
    plan.input(Pin(1));
    plan.major_stage(vec![Part::new(vec![stage])]);

    let sizes = plan_sizes(&plan.record())?;
    // One block and its end; a part of one stage and one round, and 2048 words behind it; a word of inputs and one stored.
    assert_eq!(sizes.starts, 2);
    assert_eq!(sizes.words as u64, Edition::Full.part_words(1, 1) + 2048);
    assert_eq!((sizes.state_words, sizes.sram_words), (2, 0));

    // Without a place for pin 1 in the state it is refused, and where is told.
    plan.layout.clear();
    let refusal = plan_sizes(&plan.record()).unwrap_err();
    assert_eq!(refusal, Refusal::BadPosition { edition: Edition::Full, part: 0, stage: 0, slot: 0 });
    assert_eq!(refusal.number(), 12);
    Ok(())
}
