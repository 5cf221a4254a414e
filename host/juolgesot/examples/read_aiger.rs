use juolgesot::{read_aiger, Pin, Refusal};

fn main() -> Result<(), Refusal> {
    // The half adder of the format's paper: inputs 1 and 2, gates 3 to 5.
    let file = b"aig 5 2 0 2 3\n10\n6\n\x02\x02\x03\x02\x01\x02c\nhalf adder\n";
    let read = read_aiger(file)?;
    assert_eq!((read.header.inputs, read.header.latches, read.header.gates), (2, 0, 3));
    let gates: Vec<_> = read.gates().collect();
    assert_eq!(gates[0], (Pin(3), Pin(2).plain(), Pin(1).plain()));
    assert_eq!(gates[1], (Pin(4), Pin(2).inverted(), Pin(1).inverted()));
    assert_eq!(gates[2], (Pin(5), Pin(4).inverted(), Pin(3).inverted()));

    assert_eq!(read_aiger(&file[..24]), Err(Refusal::AigerEnd));
    Ok(())
}
