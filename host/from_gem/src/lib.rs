//! GEM's way from a netlist to a plan and its script: AIG, staging, partitioning and flattening by GEM's own files.

use netlistdb::Direction;
use netlists::designs::{Clusters, Design, Layout};
use oracle::aig::{DriverType, EndpointGroup, AIG};
use oracle::flatten::{juolgesot_plan, oracle_inputs_outputs, FlattenedScriptV1, OraclePlaces, OracleTables};
use oracle::pe::{process_partitions, BoomerangStage, Partition};
use oracle::staging::{build_staged_aigs, StagedAIG};
use plan::{Edition, Endpoint, Gate, Part, Plan, Position, Script, Stage, Tables, EMPTY};
use random::Random;

pub struct Made {
    pub plan: Plan,
    pub script: Script,
    /// Staged pins that lie in duplicate words.
    pub staged_duplicates: usize,
    pub ports: Ports,
    pub aig: AIG,
    /// The pins that are given to a cycle (inputs, edges of clocks, what SRAMs have read), each with its bit in the state.
    pub given: Vec<(usize, u32)>,
    pub endpoints: Vec<PlacedEndpoint>,
}

/// The ports of a design in the order in which they were made, each with its inverted pin number and where its bit is
/// in the state; and the registers.
pub struct Ports {
    pub inputs: Vec<Option<(u32, u32)>>,
    pub outputs: Vec<(u32, u32)>,
    pub registers: Vec<Register>,
}

/// The pin of a register's output and where its bit is in the state; data and enable as inverted pin numbers.
pub struct Register {
    pub q: u32,
    pub position: u32,
    pub data: u32,
    pub enable: u32,
}

/// An endpoint and where GEM put its bit.
pub struct PlacedEndpoint {
    pub what: What,
    pub place: Place,
}

/// Pins of the AIG; an output's is an inverted pin number.
#[derive(Debug, Clone, Copy, PartialEq, Eq)]
pub enum What {
    Output(usize),
    Staged(usize),
    /// A register by its number among the AIG's.
    Register(usize),
    Sram,
}

#[derive(Debug, Clone, Copy, PartialEq, Eq)]
pub enum Place {
    /// A bit of the state, in a normal word.
    Normal(u32),
    /// In a duplicate word.
    Duplicate(u32),
    /// A register whose data is 0 has no bit: GEM reads its output at bit 0 of the state. An SRAM has words.
    None,
}

/// What GEM has of a design once it is flattened.
struct Flattened {
    aig: AIG,
    stages: Vec<StagedAIG>,
    parts: Vec<Vec<Partition>>,
    layout: Vec<usize>,
    script: FlattenedScriptV1,
}

fn flattened(design: &Design, random: &mut Random) -> Flattened {
    let aig = AIG::from_netlistdb(&design.netlist);
    let stages: Vec<StagedAIG> =
        build_staged_aigs(&aig, &design.splits).into_iter().map(|(_, _, stage)| stage).collect();
    let parts: Vec<Vec<Partition>> =
        stages.iter().map(|stage| partitions(&aig, stage, design.clusters, random)).collect();
    let layout = layout(&aig, design.layout, random);
    let (stage_list, part_lists) = lists(&stages, &parts);
    let script = FlattenedScriptV1::from(&aig, &stage_list, &part_lists, design.blocks, layout.clone());
    Flattened { aig, stages, parts, layout, script }
}

/// The same as lists of what is lent, as GEM takes them.
fn lists<'a>(
    stages: &'a [StagedAIG],
    parts: &'a [Vec<Partition>],
) -> (Vec<&'a StagedAIG>, Vec<&'a [Partition]>) {
    (stages.iter().collect(), parts.iter().map(|parts| &parts[..]).collect())
}

/// What host/gem's file for GEM writes of a design: BASE.plan and BASE.script.
pub fn write_pair(design: &Design, base: &str) -> std::io::Result<()> {
    let Flattened { aig, stages, parts, script, .. } = flattened(design, &mut Random::new(design.seed));
    let (stages, parts) = lists(&stages, &parts);
    juolgesot_plan::write(base, &aig, &stages, &parts, &script)
}

pub fn make(design: &Design) -> Made {
    let mut random = Random::new(design.seed);
    let Flattened { aig, stages, parts, layout, script } = flattened(design, &mut random);
    let (stages, slices) = lists(&stages, &parts);
    let (unstaged, staged_pins, tables, places) = oracle_inputs_outputs(&aig, &stages, &slices, &script);

    let mut positions: Vec<Position> = Vec::new();
    for (map, staged) in [(&unstaged, 0), (&staged_pins, 1)] {
        positions.extend(map.iter().map(|(&pin, &position)| Position { pin: pin as u32, position, staged }));
    }
    random.shuffle(&mut positions);
    assert_same_inputs(&script, &layout, &positions);

    let staged_duplicates = tables.iter().map(|tables| tables.staged_duplicates).sum();
    let mut tables = tables.into_iter();
    let plan = Plan {
        edition: Edition::Full,
        blocks: design.blocks as u32,
        gates: gates(&aig),
        layout: layout.iter().map(|&pin| plain_pin(pin)).collect(),
        positions,
        stages: slices
            .iter()
            .zip(&stages)
            .map(|(parts, staged)| plain_parts(&aig, staged, parts, &mut tables))
            .collect(),
    };
    let ports = ports(&aig, design, &script);
    let given = given(&aig, &script);
    let endpoints = endpoints(&aig, &stages, &slices, &places);
    Made { plan, script: plain_script(&script), staged_duplicates, ports, aig, given, endpoints }
}

fn given(aig: &AIG, script: &FlattenedScriptV1) -> Vec<(usize, u32)> {
    let is_given = |&pin: &usize| {
        use DriverType::*;
        matches!(aig.drivers[pin], InputPort(_) | InputClockFlag(..) | SRAM(_))
    };
    let place = |pin| (pin, *script.input_map.get(&pin).expect("every given pin has its bit"));
    (1..=aig.num_aigpins).filter(is_given).map(place).collect()
}

fn endpoints(
    aig: &AIG,
    stages: &[&StagedAIG],
    parts: &[&[Partition]],
    places: &[OraclePlaces],
) -> Vec<PlacedEndpoint> {
    let of_part = |(staged, part): (&StagedAIG, &Partition), places: &OraclePlaces| -> Vec<PlacedEndpoint> {
        let place = |place: Option<u16>| match place.map(u32::from) {
            None => Place::None,
            Some(bit) if bit < 32 * places.normal_words => Place::Normal(32 * places.state_start + bit),
            Some(bit) => Place::Duplicate(32 * places.state_start + bit),
        };
        let endpoint = |(&index, &bit): (&usize, &Option<u16>)| PlacedEndpoint {
            what: what(aig, staged, index),
            place: place(bit),
        };
        part.endpoints.iter().zip(&places.endpoints).map(endpoint).collect()
    };
    let all_parts =
        stages.iter().zip(parts).flat_map(|(&staged, parts)| parts.iter().map(move |part| (staged, part)));
    all_parts.zip(places).flat_map(|(part, places)| of_part(part, places)).collect()
}

fn what(aig: &AIG, staged: &StagedAIG, index: usize) -> What {
    match staged.get_endpoint_group(aig, index) {
        EndpointGroup::PrimaryOutput(pin) => What::Output(pin),
        EndpointGroup::StagedIOPin(pin) => What::Staged(pin),
        EndpointGroup::DFF(dff) => {
            let number = aig.dffs.values().position(|register| register.q == dff.q);
            What::Register(number.expect("one of the AIG's"))
        }
        EndpointGroup::RAMBlock(_) => What::Sram,
    }
}

fn plain_script(script: &FlattenedScriptV1) -> Script {
    Script {
        edition: Edition::Full,
        blocks: script.num_blocks,
        starts: script.blocks_start.iter().map(|&start| start as u64).collect(),
        words: script.blocks_data.to_vec(),
        state_words: script.reg_io_state_size.into(),
        sram_words: script.sram_storage_size.into(),
        pieces: Vec::new(),
    }
}

/// The parts of a major stage, each with the next tables.
fn plain_parts(
    aig: &AIG,
    staged: &StagedAIG,
    parts: &[Partition],
    tables: &mut impl Iterator<Item = OracleTables>,
) -> Vec<Part> {
    let part = |part: &Partition| Part {
        endpoints: part.endpoints.iter().map(|&index| endpoint(aig, staged, index)).collect(),
        stages: part.stages.iter().map(stage).collect(),
        tables: plain_tables(tables.next().expect("tables for every part")),
    };
    parts.iter().map(part).collect()
}

fn ports(aig: &AIG, design: &Design, script: &FlattenedScriptV1) -> Ports {
    let mut ports = Ports { inputs: Vec::new(), outputs: Vec::new(), registers: Vec::new() };
    let place = |pin: usize| script.input_map.get(&pin).map(|&position| (2 * pin as u32, position));
    let netlist = &design.netlist;
    for pin in (0..netlist.num_pins).filter(|&pin| netlist.pin2cell[pin] == 0) {
        match aig.clock_pin2aigpins.get(&pin) {
            Some(&(rising, _)) => ports.inputs.push(place(rising)),
            None if netlist.pindirect[pin] == Direction::O => {
                ports.inputs.push(place(aig.pin2aigpin_iv[pin] >> 1))
            }
            None => {
                let inverted_pin = aig.pin2aigpin_iv[pin];
                let position = script.output_map.get(&inverted_pin).expect("every output is stored");
                ports.outputs.push((inverted_pin as u32, *position));
            }
        }
    }
    ports.registers.extend(aig.dffs.values().map(|register| {
        let (q, position) = place(register.q).expect("every register has its bit");
        Register { q, position, data: register.d_iv as u32, enable: register.en_iv as u32 }
    }));
    ports
}

fn partitions(aig: &AIG, staged: &StagedAIG, clusters: Clusters, random: &mut Random) -> Vec<Partition> {
    let mut endpoints: Vec<usize> = (0..staged.num_endpoint_groups()).collect();
    let size = match clusters {
        Clusters::Merged(size) | Clusters::Apart(size) => size,
        Clusters::Mixed(size) => {
            random.shuffle(&mut endpoints);
            size
        }
        Clusters::Backwards(size) => {
            endpoints.reverse();
            size
        }
    };
    let mut clusters_of: Vec<Vec<usize>> = endpoints.chunks(size).map(|chunk| chunk.to_vec()).collect();
    if let Clusters::Mixed(_) = clusters {
        for cluster in &mut clusters_of {
            cluster.sort_unstable();
        }
    }
    if let Clusters::Merged(_) = clusters {
        return process_partitions(aig, staged, clusters_of, 0).expect("the clusters fit");
    }
    clusters_of
        .iter()
        .map(|cluster| Partition::build_one(aig, staged, cluster).expect("the cluster fits"))
        .collect()
}

fn layout(aig: &AIG, kind: Layout, random: &mut Random) -> Vec<usize> {
    let is_input =
        |&pin: &usize| matches!(aig.drivers[pin], DriverType::InputPort(_) | DriverType::InputClockFlag(..));
    let mut layout: Vec<usize> = (1..=aig.num_aigpins).filter(is_input).collect();
    if let Layout::Plain = kind {
        return layout;
    }
    if let Layout::Crowded = kind {
        for _ in 0..layout.len() / 3 + 1 {
            layout.push(random.pick(&layout));
        }
        let is_register = |&pin: &usize| matches!(aig.drivers[pin], DriverType::DFF(_) | DriverType::SRAM(_));
        layout.extend((1..=aig.num_aigpins).filter(is_register).take(5));
    }
    let gaps = if let Layout::Sparse = kind { 40 * layout.len() } else { layout.len() / 4 + 1 };
    layout.resize(layout.len() + gaps, usize::MAX);
    random.shuffle(&mut layout);
    layout
}

/// The script's input map is the layout and then the positions that are not staged.
fn assert_same_inputs(script: &FlattenedScriptV1, layout: &[usize], positions: &[Position]) {
    let mut map = std::collections::HashMap::new();
    for (index, &pin) in layout.iter().enumerate() {
        if pin != usize::MAX {
            map.insert(pin, index as u32);
        }
    }
    for entry in positions.iter().filter(|entry| entry.staged == 0) {
        map.insert(entry.pin as usize, entry.position);
    }
    assert_eq!(map.len(), script.input_map.len());
    assert!(script.input_map.iter().all(|(pin, position)| map.get(pin) == Some(position)));
}

fn endpoint(aig: &AIG, staged: &StagedAIG, index: usize) -> Endpoint {
    match staged.get_endpoint_group(aig, index) {
        EndpointGroup::PrimaryOutput(pin) => Endpoint::output(pin as u32),
        EndpointGroup::StagedIOPin(pin) => Endpoint::staged(pin as u32),
        EndpointGroup::DFF(dff) => Endpoint::register(dff.d_iv as u32, dff.en_iv as u32),
        EndpointGroup::RAMBlock(_) => Endpoint::sram(),
    }
}

/// Levels 13 down to 0 end to end, index 0 before them.
fn stage(stage: &BoomerangStage) -> Stage {
    let mut slots = vec![EMPTY];
    for level in stage.hier.iter().rev() {
        slots.extend(level.iter().map(|&pin| plain_pin(pin)));
    }
    Stage { slots, locations: stage.write_outs.iter().map(|&location| location as u32).collect() }
}

fn plain_pin(pin: usize) -> u32 {
    if pin == usize::MAX {
        EMPTY
    } else {
        pin as u32
    }
}

fn gates(aig: &AIG) -> Vec<Gate> {
    (0..=aig.num_aigpins)
        .filter_map(|pin| match aig.drivers[pin] {
            DriverType::AndGate(first, second) => {
                Some(Gate { pin: pin as u32, first: first as u32, second: second as u32 })
            }
            _ => None,
        })
        .collect()
}

fn plain_tables(tables: OracleTables) -> Tables {
    let entries = |entries: Vec<u16>| entries.into_iter().map(u32::from).collect();
    Tables {
        sram: entries(tables.sram),
        sram_inv: tables.sram_inv,
        sram_set0: tables.sram_set0,
        enable: entries(tables.enable),
        enable_inv: tables.enable_inv,
        enable_set0: tables.enable_set0,
        data_inv: tables.data_inv,
    }
}
