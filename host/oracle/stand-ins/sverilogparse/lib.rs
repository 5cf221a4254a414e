//! Stand-in for the crate `sverilogparse`: the range of a Verilog bus, [0:1].

pub struct SVerilogRange(pub isize, pub isize);
