//! The simulator itself, held to what a counter is.

use netlistdb::Direction;
use oracle::aig::AIG;
use random::Random;
use simulate::Simulator;

const CYCLES: usize = 1000;

/// Each counter of the design "enabled counters of 4" has counted the edges at which it was enabled.
pub fn counts(random: &mut Random) {
    let design = &netlists::enabled::all()[0];
    let (netlist, aig) = (&design.netlist, AIG::from_netlistdb(&design.netlist));
    let is_input = |&pin: &usize| netlist.pin2cell[pin] == 0 && netlist.pindirect[pin] == Direction::O;
    let inputs: Vec<usize> = (0..netlist.num_pins).filter(is_input).collect();
    let (clock, enables) = inputs.split_first().expect("a clock");
    let (edge, _) = *aig.clock_pin2aigpins.get(clock).expect("the first input is the clock");
    let bits = aig.dffs.len() / enables.len();
    let mut simulator = Simulator::new(&aig);
    let mut counted = vec![0; enables.len()];
    for cycle in 0..CYCLES {
        let clocked = random.chance(2);
        simulator.set(edge, clocked);
        for (enable, counted) in enables.iter().zip(&mut counted) {
            let enabled = random.chance(2);
            simulator.set(aig.pin2aigpin_iv[*enable] >> 1, enabled);
            *counted += (clocked && enabled) as usize;
        }
        simulator.settle();
        simulator.clock();
        for (number, register) in aig.dffs.values().enumerate() {
            let expected = counted[number / bits] >> (number % bits) & 1 == 1;
            assert_eq!(simulator.value(2 * register.q), expected, "cycle {}, register {}", cycle, number);
        }
    }
    println!("simulator: {} counters of {} bits counted {:?} enabled edges", enables.len(), bits, counted);
}
