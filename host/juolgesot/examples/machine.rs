use juolgesot::{Machine, Part, Pin, Plan, Stage};

fn main() -> Result<(), Box<dyn std::error::Error>> {
    // Pins 1 and 2 are inputs. Gate 3, 1 and not 2, stands at slot 0 of level 1, over slots 0 and 4096 of level 0.
    let mut stage = Stage::empty();
    stage.put(0, 0, Pin(1));
    stage.put(0, 4096, Pin(2));
    stage.put(1, 0, Pin(3));
    // Location 128 captures positions 4096 to 4127: slots 0 to 31 of level 1. Its first bit is always enabled.
    stage.store(128);
    let mut part = Part::new(vec![stage]);
    part.output(Pin(3).plain());
    part.tables.always(0, 0);
    let mut plan = Plan::on_blocks(1);
    plan.input(Pin(1));
    plan.input(Pin(2));
    plan.gate(Pin(3), Pin(1).plain(), Pin(2).inverted());
    plan.major_stage(vec![part]);

    let mut machine = Machine::new(&plan)?;
    for (first, second) in [(false, false), (true, false), (true, true)] {
        machine.put(Pin(1), first)?;
        machine.put(Pin(2), second)?;
        machine.cycle()?;
        assert_eq!(machine.output(Pin(3).plain()), Some(first && !second));
    }
    Ok(())
}
