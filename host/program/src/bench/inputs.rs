//! The plans that are timed, and their scripts.

use ::compare::plan_checker::Expected;
use ::compare::plans::{self, Size};
use plan::{Edition, Part, Plan, Script, EMPTY};
use random::Random;
use std::collections::HashSet;

pub struct Input {
    pub name: String,
    pub plan: Plan,
    pub script: Script,
}

/// Three netlists, then plans whose number of parts doubles.
pub fn all(random: &mut Random) -> Vec<Input> {
    let mut inputs = netlists();
    let one = one_part(random, Edition::Full);
    inputs.extend([1, 2, 4, 8, 16].iter().map(|&parts| copies(&one, parts)));
    inputs
}

/// Through GEM's staging, partitioning and flattening.
#[cfg(feature = "gem")]
fn netlists() -> Vec<Input> {
    let designs = netlists::designs::small_mid_and_large();
    let input = |(size, design): (&str, &netlists::designs::Design)| {
        let from_gem::Made { plan, script, .. } = from_gem::make(design);
        Input { name: format!("{} netlist: {}", size, design.name), plan, script }
    };
    ["small", "mid", "large"].iter().copied().zip(&designs).map(input).collect()
}

#[cfg(not(feature = "gem"))]
fn netlists() -> Vec<Input> {
    println!("\nGEM's sources were missing when this was built: there are no netlists.");
    Vec::new()
}

/// Different pins that the part reads, at least.
const PINS_READ: usize = 500;

/// A random plan of one part of two stages, on two blocks: every slot of its first stage is filled, and it stores many
/// words, under enables of every kind.
pub fn one_part(random: &mut Random, edition: Edition) -> Plan {
    let reads_many = |part: &Part| {
        let read: HashSet<u32> = part.stages[0].slots[edition.slots()..].iter().copied().collect();
        part.stages.len() == 2 && read.len() >= PINS_READ && !read.contains(&EMPTY)
    };
    loop {
        let size = Size { edition, majors: 1, parts: 1, stages: 2, inputs: 3000, wide: false };
        let mut plan = plans::full(random, size);
        plans::any_enables(random, &mut plan);
        plan.blocks = 2;
        if reads_many(&plan.stages[0][0]) && Expected::of(&plan.record()).answer.is_ok() {
            return plan;
        }
    }
}

/// The plan's part so many times, so that each part is as much work as another.
pub fn copies(plan: &Plan, parts: usize) -> Input {
    let mut plan = plan.clone();
    plan.stages[0] = vec![plan.stages[0][0].clone(); parts];
    let script = Expected::of(&plan.record()).answer.expect("as one part is in order, so are its copies");
    Input { name: format!("random, {} part{}", parts, if parts == 1 { "" } else { "s" }), plan, script }
}
