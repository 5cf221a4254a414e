//! Takes the replay's Bloom filters through GEM and writes what the replay needs of them: make_filter DIR. Of each (by
//! how it holds its bits, NAME is logic or enable) there are NAME.packed, the plan record, packed
//! (host/plan/src/packed.rs); NAME.ports, which says where each port's bit is in the state; NAME.plan, the record as it
//! is; and NAME.script, the script that GEM made.

use filter::{Holding, KEY_BITS, PORTS, REGISTERS};
use from_gem::{Made, Place};
use netlists::designs::Clusters;
use plan::{packed, script_file};
use std::collections::HashSet;
use std::fmt::Write;
use std::path::Path;

fn main() {
    let folder = std::env::args().nth(1).expect("usage: make_filter DIR");
    std::fs::create_dir_all(&folder).expect("the folder can be made");
    for holding in Holding::ALL {
        // Hashes in the first major stage, the array in the second; a block of each stays empty.
        let design = netlists::filter::design(holding, &[7], Clusters::Apart(600), 2);
        let made = from_gem::make(&design);
        assert!(made.endpoints.iter().all(|endpoint| matches!(endpoint.place, Place::Normal(_))));
        let (inverted, enables) = inverted_and_enables(&made);
        match holding {
            Holding::Logic => assert_eq!((inverted, enables), (0, 1)),
            Holding::Enable => assert_eq!((inverted, enables), (REGISTERS / 2, REGISTERS)),
        }
        let bytes = write(&made, Path::new(&folder), holding.name());
        println!(
            "make_filter: {}: {} gates, {} parts, {} registers inverted, {} enables, {} bytes packed",
            design.name,
            made.plan.gates.len(),
            made.plan.parts().count(),
            inverted,
            enables,
            bytes
        );
    }
}

/// How many registers are stored inverted, and how many enables they have.
fn inverted_and_enables(made: &Made) -> (usize, usize) {
    let registers = &made.ports.registers;
    let enables: HashSet<u32> = registers.iter().map(|register| register.enable).collect();
    (registers.iter().filter(|register| register.data & 1 == 1).count(), enables.len())
}

/// Writes the files; gives the bytes of the packed plan.
fn write(made: &Made, folder: &Path, name: &str) -> usize {
    let words = made.plan.words();
    let packed = packed::pack(&words);
    assert_eq!(packed::unpack(&packed, words.len()).as_ref(), Some(&words));
    let script = script_file::bytes(&made.script);
    for (kind, bytes) in [
        ("packed", &packed[..]),
        ("ports", ports(&made.ports).as_bytes()),
        ("plan", &made.plan.record()),
        ("script", &script),
    ] {
        std::fs::write(folder.join(name).with_extension(kind), bytes).expect("the file can be written");
    }
    packed.len()
}

/// A line for each port: its name, the inverted pin number, the state position; and for each register, likewise by its
/// output, then data and enable.
fn ports(ports: &from_gem::Ports) -> String {
    let mut names = vec!["clock".to_string(), "clear".to_string(), "insert".to_string()];
    for port in 0..PORTS {
        names.push(format!("look {}", port));
        names.extend((0..KEY_BITS).map(|bit| format!("key {} {}", port, bit)));
    }
    let mut text = "# host/replay: name, pin (twice its number, plus 1 where inverted), state position; \
                    then, for a register, the pins of its data and its enable\n"
        .to_string();
    assert_eq!(names.len(), ports.inputs.len());
    for (name, input) in names.iter().zip(&ports.inputs) {
        let (pin, position) = input.expect("every input is in the layout");
        writeln!(text, "in {}: {} {}", name, pin, position).expect("text");
    }
    for (port, (pin, position)) in ports.outputs.iter().enumerate() {
        writeln!(text, "out maybe {}: {} {}", port, pin, position).expect("text");
    }
    for (number, register) in ports.registers.iter().enumerate() {
        let from_gem::Register { q, position, data, enable } = register;
        writeln!(text, "register {}: {} {} {} {}", number, q, position, data, enable).expect("text");
    }
    text
}
