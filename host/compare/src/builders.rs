//! Both builders on one plan: ours and GEM's, or where GEM cannot be asked, the model.

use crate::plan_checker::{difference, same_pieces, same_script, Expected, More, PlanChecker};
use model::{record, Refused};
use plan::stored::Case;
use plan::{Edition, Endpoint, FellBack, Gate, Part, Plan, Position, Script, Stage, Tables, EMPTY};
use reference::Flattened;

/// What became of a plan.
pub enum Outcome {
    /// Every word, start and size is the same, and every piece size that GEM told.
    Equal,
    /// We refuse it, and GEM does this.
    Refused(Refused, Gem),
    /// How many differences there are, and the first, in words.
    Differs(String),
}

/// What GEM does with a plan that we refuse.
#[derive(Debug, Clone, Copy, PartialEq, Eq)]
pub enum Gem {
    Builds,
    Panics,
    NotAsked,
}

impl Gem {
    pub fn sentence(self) -> &'static str {
        match self {
            Gem::Builds => "GEM builds it",
            Gem::Panics => "GEM panics on it",
            Gem::NotAsked => "GEM was not asked",
        }
    }
}

/// A plan, what it is and what became of it.
pub struct Line {
    pub shape: String,
    pub outcome: Outcome,
    /// The parts whose search fell back to a smaller piece size.
    pub fell_back: Vec<FellBack>,
}

/// A plan and the script that GEM made of it. The script tells no piece sizes: GEM is asked for those of each part's read set.
pub fn pair(checker: &mut PlanChecker, record: &[u8], script: &Script) -> Line {
    let expected = Expected::of(record);
    let outcome = match &expected.answer {
        Ok(made) => same(made, &Script { pieces: searched(record), ..script.clone() }, record),
        Err(refused) => Outcome::Refused(*refused, Gem::Builds),
    };
    finish(checker, record, &expected, outcome)
}

/// A design that GEM staged, partitioned and flattened.
pub fn design(checker: &mut PlanChecker, case: &Case) -> Line {
    pair(checker, &case.record, &case.script)
}

/// A plan record of any kind. GEM is given its tables and positions.
pub fn record(checker: &mut PlanChecker, bytes: &[u8]) -> Line {
    let expected = Expected::of(bytes);
    let words = record::words(bytes);
    let flattened = match record::plan(bytes.len(), &words) {
        Ok(plan) => reference::flatten(&plain(&plan)),
        Err(_) => Flattened::NotAsked,
    };
    let outcome = match (&expected.answer, flattened) {
        (Ok(made), Flattened::Script(script)) => same(made, &script, bytes),
        (Ok(_), Flattened::Panicked(_)) => Outcome::Differs("GEM panicked".to_string()),
        (Ok(_), Flattened::NotAsked) => Outcome::Equal,
        (Err(refused), Flattened::Script(_)) => Outcome::Refused(*refused, Gem::Builds),
        (Err(refused), Flattened::Panicked(_)) => Outcome::Refused(*refused, Gem::Panics),
        (Err(refused), Flattened::NotAsked) => Outcome::Refused(*refused, Gem::NotAsked),
    };
    finish(checker, bytes, &expected, outcome)
}

fn same(made: &Script, gems: &Script, record: &[u8]) -> Outcome {
    let same = same_script(made, gems, record).and_then(|()| same_pieces(made, gems));
    same.map_or_else(Outcome::Differs, |()| Outcome::Equal)
}

/// The piece sizes by GEM's search (or the model's, where GEM is missing) of the read sets of an accepted plan; 0 where it ends.
fn searched(record: &[u8]) -> Vec<u32> {
    let words = record::words(record);
    let accepted = model::build::accept(record.len(), &words).expect("accepted before");
    let size =
        |set: &Vec<_>| crate::search(accepted.plan.edition, set).map_or(0, |packing| packing.size as u32);
    accepted.sets.iter().map(size).collect()
}

/// Where the model and GEM agree, our library is held to them.
fn finish(checker: &mut PlanChecker, record: &[u8], expected: &Expected, outcome: Outcome) -> Line {
    let outcome = match outcome {
        Outcome::Differs(what) => Outcome::Differs(format!("host/model and GEM: {}", what)),
        agreed => match difference(record, expected, More::default()) {
            Ok(number) => {
                checker.count_answer(number);
                agreed
            }
            Err(what) => Outcome::Differs(what),
        },
    };
    let fell_back = expected.answer.as_ref().map_or(Vec::new(), Script::fell_back);
    Line { shape: shape(record, expected), outcome, fell_back }
}

/// Parts, words and rounds of a plan and its script.
pub fn shape(record: &[u8], expected: &Expected) -> String {
    let words = record::words(record);
    let plan = match record::read(record.len(), &words) {
        Ok(plan) => plan,
        Err(fault) => return format!("{:8} bytes, no plan: {}", record.len(), fault.what),
    };
    let stages: Vec<usize> = plan.parts.iter().map(|part| part.stages.len()).collect();
    let of_plan = format!(
        "{}{:3} parts of {:2} stages at most, {:2} major stages, {:4} blocks",
        if plan.edition == model::edition::Edition::FULL { "" } else { "small edition, " },
        stages.len(),
        stages.iter().max().unwrap_or(&0),
        plan.major_parts.len(),
        plan.blocks
    );
    match &expected.answer {
        Err(refused) => format!("{}: part {}, item {}", of_plan, refused.part, refused.item),
        Ok(script) => {
            let accepted = model::build::accept(record.len(), &words).expect("accepted before");
            let rounds = accepted.lanes.iter().map(model::rounds::rounds).max().unwrap_or(0);
            format!(
                "{}: {:8} words, {:2} rounds at most, state {:4}, SRAM {:6}",
                of_plan,
                script.words.len(),
                rounds,
                script.state_words,
                script.sram_words
            )
        }
    }
}

/// A record's plan in plain form.
pub fn plain(plan: &record::Plan<'_>) -> Plan {
    let edition = crate::host(plan.edition);
    let mut parts = plan.parts.iter().map(|part| plain_part(edition, part));
    let stages = plan.major_parts.iter().map(|&count| parts.by_ref().take(count).collect()).collect();
    Plan {
        edition,
        blocks: plan.blocks as u32,
        gates: plan
            .gates
            .chunks(record::GATE)
            .map(|gate| Gate { pin: gate[0], first: gate[1], second: gate[2] })
            .collect(),
        layout: plan.layout.to_vec(),
        positions: plan
            .positions
            .chunks(record::POSITION)
            .map(|entry| Position { pin: entry[0], position: entry[1], staged: entry[2] })
            .collect(),
        stages,
    }
}

fn plain_part(edition: Edition, part: &record::Part<'_>) -> Part {
    let stage = |stage: &record::Stage<'_>| {
        let mut slots = vec![EMPTY];
        slots.extend(stage.positions().map(|(_, pin)| pin));
        slots.extend(stage.level_0());
        Stage { slots, locations: stage.locations.to_vec() }
    };
    let (slots, lanes) = (edition.slots(), edition.lanes());
    let list = |table: &[u32], list: usize| table[slots + lanes * list..][..lanes].to_vec();
    let (sram, enable) = (part.sram_table, part.enable_table);
    Part {
        endpoints: part
            .endpoints
            .chunks(record::ENDPOINT)
            .map(|endpoint| Endpoint { kind: endpoint[0], x: endpoint[1], y: endpoint[2] })
            .collect(),
        stages: part.stages.iter().map(stage).collect(),
        tables: Tables {
            sram: sram[..slots].to_vec(),
            sram_inv: list(sram, 0),
            sram_set0: list(sram, 1),
            enable: enable[..slots].to_vec(),
            enable_inv: list(enable, 0),
            enable_set0: list(enable, 1),
            data_inv: list(enable, 2),
        },
    }
}
