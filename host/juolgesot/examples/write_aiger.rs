use juolgesot::{write_aiger, Pin, Refusal};

fn main() -> Result<(), Refusal> {
    // Gate 3 is 2 and not 1: pin, first and second fan-in, the larger first.
    let gates = [3, Pin(2).plain().0, Pin(1).inverted().0];
    assert_eq!(write_aiger(&gates)?, b"aig 3 2 0 0 1\n\x02\x01");

    // The other way round it cannot be written.
    assert_eq!(write_aiger(&[3, 2, 4]), Err(Refusal::NotForAiger));
    Ok(())
}
