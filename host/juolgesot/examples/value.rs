use juolgesot::{value, Part, Pin, Plan, Refusal, Stage};

fn main() -> Result<(), Refusal> {
    // Gate 3 is 1 and not 2, gate 4 is 3 and 1; the part reads pins 1 and 2.
    let mut stage = Stage::empty();
    stage.put(0, 0, Pin(1));
    stage.put(0, 1, Pin(2));
    let mut plan = Plan::on_blocks(1);
    plan.input(Pin(1));
    plan.input(Pin(2));
    plan.gate(Pin(3), Pin(1).plain(), Pin(2).inverted());
    plan.gate(Pin(4), Pin(3).inverted(), Pin(1).plain());
    plan.major_stage(vec![Part::new(vec![stage])]);

    let values = value(&plan.record(), 0, Pin(4), &[0b01], &[])?;
    assert!(!values.pin());
    assert_eq!((values.gates(), values.gate(0), values.gate(1)), (2, Some(true), Some(false)));
    // With both inputs 1 it is the other way round.
    assert!(value(&plan.record(), 0, Pin(4), &[0b11], &[])?.pin());
    Ok(())
}
