use juolgesot::{levels, place_bit, stage_counts, Edition, Netlist, Pin, Place, Refusal, EMPTY};

fn main() -> Result<(), Refusal> {
    // Gate 3 is 1 and not 2. It is at level 1, its inputs at level 0.
    let gates = [3, Pin(1).plain().0, Pin(2).inverted().0];
    let levels = levels(&gates, &[Pin(1), Pin(2)], Pin(3));
    let netlist = Netlist { gates: &gates, levels: &levels };

    // At level 2 it is carried to the slot below, and split there.
    let full = Edition::Full;
    let mut slots = vec![EMPTY; full.stage_slots()];
    let counts = stage_counts(&slots, full);
    let counts = place_bit(netlist, &counts, &mut slots, Place { level: 2, slot: 5 }, Pin(3), full)?;
    assert_eq!(counts, [3, 2]);
    let at = |level, slot| slots[full.index(level, slot).unwrap() - 1];
    assert_eq!([at(2, 5), at(1, 5), at(0, 5), at(0, 5 + 4096)], [3, 3, 1, 2]);

    // There it stands, and nothing can be placed over it.
    let again = place_bit(netlist, &counts, &mut slots, Place { level: 1, slot: 5 }, Pin(3), full);
    assert_eq!(again, Err(Refusal::Occupied));
    Ok(())
}
