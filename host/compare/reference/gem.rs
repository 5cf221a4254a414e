//! The reference of the comparisons: GEM's own Rust.

use indexmap::{IndexMap, IndexSet};
use model::rounds::Packing;
use oracle::aig::{DriverType, RAMBlock, AIG, DFF};
use oracle::flatten::OracleTables;
use oracle::flatten_given::{oracle_build_given, oracle_notes, OracleGiven};
use oracle::one_bit::{oracle_place_bit, oracle_purge_bit, OracleLevels, OracleStage};
use oracle::pe::{BoomerangStage, Partition};
use oracle::staging::StagedAIG;
use plan::{Edition, Endpoint, Part, Plan, Script, Tables, EMPTY};
use std::any::Any;
use std::collections::BTreeMap;
use std::panic::{catch_unwind, AssertUnwindSafe};
use std::time::{Duration, Instant};

pub const NAME: &str = "GEM's Rust";

/// What GEM's `map_global_read_to_rounds` panics with where no piece size has room (refusals 3, 21, 22 and 4).
const NO_ROOM: &str = "cannot map global init to any multiples of rounds.";

/// The lanes that GEM makes and the piece size that it noted, or the word that its try of size 1 stopped at where it panics for want
/// of room. Any other panic is passed on.
pub fn search(pairs: &[(u32, u32)]) -> Result<Packing, Option<u32>> {
    let set: BTreeMap<u32, u32> = pairs.iter().copied().collect();
    let _ = oracle_notes();
    let searched = catch_unwind(|| oracle::flatten_given::oracle_map_global_read_to_rounds(&set));
    let notes = oracle_notes();
    match searched {
        Ok(lanes) => match notes.won[..] {
            [size] => Ok(Packing { lanes, size }),
            _ => panic!("one search noted {:?}", notes),
        },
        Err(panic) if is_no_room(&panic) => Err(notes.stopped.map(|(size, word)| {
            assert_eq!(size, 1, "the last try is that of size 1");
            word
        })),
        Err(panic) => std::panic::resume_unwind(panic),
    }
}

/// The lanes of GEM's own text, for a map that is made already: what is timed.
pub fn lanes_of_map(set: &BTreeMap<u32, u32>) -> Option<Vec<Vec<(u32, u32)>>> {
    match catch_unwind(|| oracle::flatten::oracle_map_global_read_to_rounds(set)) {
        Ok(lanes) => Some(lanes),
        Err(panic) if is_no_room(&panic) => None,
        Err(panic) => std::panic::resume_unwind(panic),
    }
}

fn is_no_room(panic: &Box<dyn Any + Send>) -> bool {
    panic.downcast_ref::<&str>() == Some(&NO_ROOM)
}

/// What GEM makes of a plan.
pub enum Flattened {
    Script(Script),
    /// With the word that its last try of size 1 stopped at, where the panic is for want of room.
    Panicked(Option<u32>),
    /// GEM cannot be asked: it has a list by pin, and half words in its tables; and it is of the full edition alone.
    NotAsked,
}

/// Pins above this are not given to GEM.
const MOST_PIN: u32 = 100_000;

/// GEM's flattener, given the plan's tables and positions.
pub fn flatten(plan: &Plan) -> Flattened {
    if !can_be_asked(plan) {
        return Flattened::NotAsked;
    }
    match catch_unwind(|| script(plan)) {
        Ok((script, _)) => Flattened::Script(script),
        Err(panic) => {
            let stopped = oracle_notes().stopped.filter(|&(size, _)| size == 1 && is_no_room(&panic));
            Flattened::Panicked(stopped.map(|(_, word)| word))
        }
    }
}

/// The same for a plan in order, and how long GEM's flattener took: its own call alone, its lists being made before.
pub fn flatten_timed(plan: &Plan) -> (Script, Duration) {
    script(plan)
}

fn can_be_asked(plan: &Plan) -> bool {
    let small = |pin: u32| pin <= MOST_PIN;
    plan.edition == Edition::Full
        && plan.gates.iter().all(|gate| small(gate.pin) && small(gate.first >> 1) && small(gate.second >> 1))
        && plan.parts().all(|part| {
            let tables = part.tables.sram.iter().chain(&part.tables.enable);
            let slots = part.stages.iter().flat_map(|stage| &stage.slots);
            tables.into_iter().all(|&entry| entry <= u16::MAX.into())
                && slots.into_iter().all(|&pin| pin == EMPTY || small(pin))
                && part.endpoints.iter().all(|endpoint| endpoint.kind <= 3)
        })
}

/// The script, and how long GEM took for it.
fn script(plan: &Plan) -> (Script, Duration) {
    let (aig, stageds, endpoints) = aig_of(plan);
    let mut endpoints = endpoints.into_iter();
    let parts: Vec<Vec<Partition>> = plan
        .stages
        .iter()
        .map(|parts| {
            let endpoints = endpoints.by_ref();
            parts.iter().map(|part| partition(part, endpoints.next().expect("a list a part"))).collect()
        })
        .collect();
    let slices: Vec<&[Partition]> = parts.iter().map(|parts| &parts[..]).collect();
    let stageds: Vec<&StagedAIG> = stageds.iter().collect();
    let positions = |staged: u32| {
        let of_kind = plan.positions.iter().filter(move |entry| entry.staged == staged);
        of_kind.map(|entry| (entry.pin as usize, entry.position)).collect()
    };
    let tables = plan.parts().map(|part| oracle_tables(&part.tables));
    let given = OracleGiven {
        unstaged: positions(0),
        staged: positions(1),
        tables: tables.collect::<Vec<_>>().into_iter().rev().collect(),
    };
    let layout = plan.layout.iter().map(|&pin| oracle_pin(pin)).collect();
    let _ = oracle_notes();
    let start = Instant::now();
    let made = oracle_build_given(&aig, &stageds, &slices, plan.blocks as usize, layout, given);
    let time = start.elapsed();
    let notes = oracle_notes();
    let script = Script {
        edition: Edition::Full,
        blocks: plan.blocks as usize,
        starts: made.blocks_start.iter().map(|&start| start as u64).collect(),
        words: made.blocks_data.to_vec(),
        state_words: made.reg_io_state_size.into(),
        sram_words: made.sram_storage_size.into(),
        // GEM goes through the parts in their order.
        pieces: notes.won.iter().map(|&size| size as u32).collect(),
    };
    (script, time)
}

/// An AIG with the plan's gates and endpoints, the staged pins of each major stage, and the endpoints of each part.
fn aig_of(plan: &Plan) -> (AIG, Vec<StagedAIG>, Vec<Vec<usize>>) {
    let aig = bare_aig(plan);
    let outputs: BTreeMap<usize, usize> =
        aig.primary_outputs.iter().enumerate().map(|(index, &pin)| (pin, index)).collect();
    // Outputs, then registers, then SRAMs.
    let mut registers = outputs.len()..;
    let mut srams = outputs.len() + aig.dffs.len()..;
    let mut number = |endpoint: &Endpoint| match endpoint.kind {
        0 => outputs[&(endpoint.x as usize)],
        2 => registers.next().expect("no end"),
        _ => srams.next().expect("no end"),
    };
    let mut stageds = Vec::new();
    let mut of_parts = Vec::new();
    for parts in &plan.stages {
        let (staged, of_stage) = staged_aig(parts, &mut number);
        stageds.push(staged);
        of_parts.extend(of_stage);
    }
    (aig, stageds, of_parts)
}

/// An AIG with the plan's gates and endpoints.
fn bare_aig(plan: &Plan) -> AIG {
    let mut drivers = vec![DriverType::InputPort(0); MOST_PIN as usize + 1];
    drivers[0] = DriverType::Tie0;
    for gate in &plan.gates {
        drivers[gate.pin as usize] = DriverType::AndGate(gate.first as usize, gate.second as usize);
    }
    let of_kind =
        |kind: u32| plan.parts().flat_map(|part| &part.endpoints).filter(move |one| one.kind == kind);
    let primary_outputs: IndexSet<usize> = of_kind(0).map(|output| output.x as usize).collect();
    let register = |(cell, register): (usize, &Endpoint)| {
        (cell, DFF { d_iv: register.x as usize, en_iv: register.y as usize, q: 0 })
    };
    let dffs: IndexMap<usize, DFF> = of_kind(2).enumerate().map(register).collect();
    let srams: IndexMap<usize, RAMBlock> =
        of_kind(3).enumerate().map(|(cell, _)| (cell, RAMBlock::default())).collect();
    let num_aigpins = drivers.len() - 1;
    AIG { num_aigpins, drivers, primary_outputs, dffs, srams, ..AIG::default() }
}

/// The staged pins and the endpoints of a major stage, an endpoint by its number in the AIG; and those of each part,
/// staged pins being counted first.
fn staged_aig(parts: &[Part], mut number: impl FnMut(&Endpoint) -> usize) -> (StagedAIG, Vec<Vec<usize>>) {
    let all = parts.iter().flat_map(|part| &part.endpoints);
    let staged_pins: Vec<usize> =
        all.filter(|endpoint| endpoint.kind == 1).map(|endpoint| endpoint.x as usize).collect();
    let (mut pins, mut endpoints) = (0.., Vec::new());
    let mut of_parts = Vec::new();
    for part in parts {
        let of_stage = |endpoint: &Endpoint| match endpoint.kind {
            1 => pins.next().expect("no end"),
            _ => {
                endpoints.push(number(endpoint));
                staged_pins.len() + endpoints.len() - 1
            }
        };
        of_parts.push(part.endpoints.iter().map(of_stage).collect());
    }
    (StagedAIG { primary_inputs: None, primary_output_pins: staged_pins, endpoints }, of_parts)
}

fn partition(part: &Part, endpoints: Vec<usize>) -> Partition {
    let stages = part
        .stages
        .iter()
        .map(|stage| BoomerangStage {
            // Level h has 2^(13-h) slots, at the positions from that number on.
            hier: (0..=13)
                .map(|level| 1 << (13 - level))
                .map(|slots| stage.slots[slots..2 * slots].iter().map(|&pin| oracle_pin(pin)).collect())
                .collect(),
            write_outs: stage.locations.iter().map(|&location| location as usize).collect(),
        })
        .collect();
    Partition { endpoints, stages }
}

fn oracle_pin(pin: u32) -> usize {
    if pin == EMPTY {
        usize::MAX
    } else {
        pin as usize
    }
}

fn oracle_tables(tables: &Tables) -> OracleTables {
    let entries = |list: &[u32]| list.iter().map(|&entry| entry as u16).collect();
    OracleTables {
        sram: entries(&tables.sram),
        sram_inv: tables.sram_inv.clone(),
        sram_set0: tables.sram_set0.clone(),
        enable: entries(&tables.enable),
        enable_inv: tables.enable_inv.clone(),
        enable_set0: tables.enable_set0.clone(),
        data_inv: tables.data_inv.clone(),
        staged_duplicates: 0,
    }
}

/// GEM's `place_bit` and `purge_bit`, over gates (three words each) and the levels of pins.
pub struct Placer {
    levels: OracleLevels,
}

/// A stage that GEM places on.
pub struct PlacerStage {
    stage: OracleStage,
}

impl Placer {
    /// None where GEM cannot be asked: it has a list by pin.
    pub fn of(gates: &[u32], levels: &[u32]) -> Option<Self> {
        let most = gates.chunks_exact(3).map(|gate| gate[0].max(gate[1] >> 1).max(gate[2] >> 1)).max();
        let most = most.unwrap_or(0);
        if most > MOST_PIN {
            return None;
        }
        let mut drivers = vec![DriverType::InputPort(0); most as usize + 1];
        for gate in gates.chunks_exact(3) {
            drivers[gate[0] as usize] = DriverType::AndGate(gate[1] as usize, gate[2] as usize);
        }
        let aig = AIG { drivers, ..AIG::default() };
        let level = levels.iter().map(|&level| level as usize).collect();
        let id2order = (0..levels.len()).map(|pin| (pin, pin)).collect();
        Some(Placer { levels: OracleLevels { aig, level, id2order } })
    }

    /// False where it panicked; the stage is then as it was at that moment.
    pub fn place(&self, stage: &mut PlacerStage, level: u32, slot: u32, node: u32) -> bool {
        let call =
            || oracle_place_bit(&self.levels, &mut stage.stage, level as usize, slot as usize, node as usize);
        catch_unwind(AssertUnwindSafe(call)).is_ok()
    }

    pub fn purge(&self, stage: &mut PlacerStage, level: u32, slot: u32) -> bool {
        let call = || oracle_purge_bit(&self.levels, &mut stage.stage, level as usize, slot as usize);
        catch_unwind(AssertUnwindSafe(call)).is_ok()
    }
}

impl PlacerStage {
    /// Of a stage's slots by index, from 1 on, and a count list.
    pub fn of(slots: &[u32], counts: &[u32]) -> Self {
        let level = |level: u32| {
            let from = (1 << (13 - level)) - 1;
            slots[from..2 * from + 1].iter().map(|&pin| oracle_pin(pin)).collect()
        };
        let counts = counts.chunks_exact(2).map(|entry| (entry[0] as usize, entry[1] as usize)).collect();
        PlacerStage { stage: OracleStage { hier: (0..=13).map(level).collect(), counts } }
    }

    pub fn slots(&self) -> Vec<u32> {
        let pin = |&pin: &usize| if pin == usize::MAX { EMPTY } else { pin as u32 };
        self.stage.hier.iter().rev().flatten().map(pin).collect()
    }

    /// Nodes and counts, in GEM's order.
    pub fn counts(&self) -> Vec<(u32, u64)> {
        self.stage.counts.iter().map(|(&node, &count)| (node as u32, count as u64)).collect()
    }
}
