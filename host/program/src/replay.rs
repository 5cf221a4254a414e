//! `juolgesot replay`.

use crate::files::{self, Writing};
use crate::progress::Progress;
use crate::say::{many, say};
use crate::{why, Failure, Outcome, Words};
use ::replay::any::{Any, Seen};
use ::replay::ports::Ports;
use ::replay::report::{self, Gathered};
use ::replay::traffic::Traffic;
use ::replay::vcd::Vcd;
use ::replay::{Counts, Looked, Netlist, Replay, States, TRAFFIC};
use filter::{Answer, Holding};
use juolgesot::Script;

pub const HELP: &str = "
usage: juolgesot replay [--filter logic|enable [--script FILE]] [--traffic FILE] [--lookups N] [OUTPUTS]
       juolgesot replay --plan FILE --ports FILE [--script FILE] [--traffic FILE] [--lookups N] [OUTPUTS]
       juolgesot replay --plan FILE --ports FILE --inputs FILE [--script FILE] [--answers FILE] [--vcd FILE]

Builds the script of a Bloom filter (128 registers, 3 hashes, 8 look-up ports) and replays traffic through the run,
cycle by cycle. Each answer of the gates, and each register, is held to a plain software model of the filter. A no must
be sure: flash does not hold the key. A maybe goes on to flash, which alone says yes. Prints the counts; fails on the
first difference with the cycle and the pin.

Two filters come with it, and both are replayed: in one the registers hold their bits by logic, in the other by
enables, and half of them are stored inverted. Each insert and clear is put on the ports without an edge of the clock
first: all registers must hold. Fails where no register was seen to hold, or no inverted one to be stored, though a
clear emptied the filter.

--filter   only the one that holds by logic, or by enables
--traffic  lines `insert KEY [COUNT [STEP]]`, `lookup KEY [COUNT [STEP]]`, `clear` (host/replay/src/traffic.rs);
           default: the traffic that comes with it, 102,707 look-ups
--plan     a plan record in the place of those that come with it, --ports where its ports are
--script   a script of that plan, or of --filter's, that is built already (`juolgesot build`, or GEM's by make_filter)
--lookups  stop after so many, 1 to 1000000000
--inputs   any netlist: lines `NAME = VALUE` and `cycle [COUNT]` (host/replay/src/any.rs); each output and register is held
           to the plan's gates

OUTPUTS:
--answers  a line for each look-up: cycle, port, key, no or maybe, and what flash said of a maybe. With --inputs a line for
           each cycle: the outputs. Of one filter: --filter or --plan says which
--vcd      waves of inputs, outputs and registers, by name, for GTKWave and others. Of one filter too
--report   an HTML file: how full the filter is, maybes and false maybes over the cycles beside what is expected, counts
Where a difference ends the replay, --answers and --vcd are written as far as it came. (Registers are held to the gates 64 cycles
at a time.)
";

const OPTIONS: [&str; 10] = [
    "--filter",
    "--traffic",
    "--plan",
    "--ports",
    "--script",
    "--lookups",
    "--inputs",
    "--answers",
    "--vcd",
    "--report",
];

pub fn call(words: &[String]) -> Outcome {
    let words = Words::read_options(words, &OPTIONS)?;
    if words.option("--inputs").is_some() {
        return any(&words);
    }
    let netlists = netlists(&words)?;
    let path = words.option("--traffic");
    let text = path.map_or_else(|| Ok(TRAFFIC.to_string()), files::text)?;
    let traffic = Traffic::read(&text).map_err(|what| in_file(path.unwrap_or("the traffic"), what))?;
    let most = words.number("--lookups", 1..=1_000_000_000)?.unwrap_or(u64::MAX);
    let page = words.option("--report").map(Writing::begin).transpose()?;
    let mut pages = Vec::new();
    for (name, netlist) in &netlists {
        let script = script(&words, netlist)?;
        say_script(name, &script);
        let ports = words.option("--ports").unwrap_or("the ports");
        let mut replay = Replay::new(netlist, script).map_err(|what| in_file(ports, what))?;
        let mut outputs = Outputs::begin(&words, "cycle,port,key,answer,flash\n", replay.ports())?;
        outputs.gathered = page.as_ref().map(|_| Gathered::of(name));
        let replayed = cycles(name, &mut replay, &traffic, most, &mut outputs);
        pages.extend(outputs.finish(&replay.states())?);
        replayed?;
    }
    if let Some(mut page) = page {
        let traffic = path.unwrap_or("that which comes with the replay");
        page.write(report::html(&pages, traffic).as_bytes())?;
        page.finish()?;
    }
    Ok(())
}

fn in_file(path: &str, what: String) -> Failure {
    Failure::Failed(format!("{}: {}", path, what))
}

/// Replays the cycles of some traffic, up to so many look-ups.
fn cycles(name: &str, replay: &mut Replay, traffic: &Traffic, most: u64, outputs: &mut Outputs) -> Outcome {
    let mut progress = Progress::of("look-ups");
    let all = traffic.look_ups().min(most);
    for cycle in traffic.cycles() {
        let number = replay.counts.cycles;
        let fill = outputs.gathered.as_ref().map_or((0, 0), |_| replay.fill());
        let looked = replay.cycle(&cycle);
        if replay.states().cycles > number {
            outputs.cycle(&replay.states())?;
        }
        let looked = looked.map_err(|what| Failure::Failed(format!("DIFFERENCE: {}: {}", name, what)))?;
        outputs.looked(number, fill, &looked)?;
        progress.tell(replay.counts.looked_up, all);
        if replay.counts.looked_up >= most {
            break;
        }
    }
    replay.look().map_err(|what| Failure::Failed(format!("DIFFERENCE: {}: {}", name, what)))?;
    if let Some(gathered) = &mut outputs.gathered {
        gathered.finish(replay.counts);
    }
    print(&replay.counts);
    replay.finish().map_err(|what| Failure::Failed(format!("{}: {}", name, what)))?;
    say!("no difference from the software model in any answer or register, {:.1} s", progress.seconds());
    Ok(())
}

fn say_script(name: &str, script: &Script) {
    let (words, state_words) = (script.words.len() as u64, script.state_words);
    say!("{}: a script of {}, {}", name, many(words, "word"), many(state_words, "state word"));
}

/// What is written cycle by cycle.
struct Outputs {
    answers: Option<Writing>,
    vcd: Option<(Writing, Vcd)>,
    gathered: Option<Gathered>,
}

impl Outputs {
    /// Begins the files that are asked for; `head` begins the answers.
    fn begin(words: &Words, head: &str, ports: &Ports) -> Result<Self, Failure> {
        let mut answers = words.option("--answers").map(Writing::begin).transpose()?;
        if let Some(answers) = &mut answers {
            answers.write(head.as_bytes())?;
        }
        let mut vcd =
            words.option("--vcd").map(Writing::begin).transpose()?.map(|file| (file, Vcd::of(ports)));
        if let Some((file, vcd)) = &mut vcd {
            file.write(vcd.head().as_bytes())?;
        }
        Ok(Outputs { answers, vcd, gathered: None })
    }

    fn cycle(&mut self, states: &States<'_>) -> Outcome {
        match &mut self.vcd {
            Some((file, vcd)) => file.write(vcd.cycle(states).as_bytes()),
            None => Ok(()),
        }
    }

    fn looked(&mut self, cycle: u64, fill: (usize, usize), looked: &[Option<Looked>]) -> Outcome {
        if let Some(gathered) = &mut self.gathered {
            gathered.add(fill, looked);
        }
        if let Some(answers) = &mut self.answers {
            for Looked { port, key, answer, in_flash } in looked.iter().flatten() {
                let said = match (answer, in_flash) {
                    (Answer::No, _) => "no,not asked",
                    (Answer::Maybe, true) => "maybe,found",
                    (Answer::Maybe, false) => "maybe,not found",
                };
                answers.write(format!("{},{},{:#010x},{}\n", cycle, port, key, said).as_bytes())?;
            }
        }
        Ok(())
    }

    /// Gives the files their names, after the last cycle. Gives what was gathered.
    fn finish(self, states: &States<'_>) -> Result<Option<Gathered>, Failure> {
        if let Some(answers) = self.answers {
            answers.finish()?;
        }
        if let Some((mut file, mut vcd)) = self.vcd {
            file.write(vcd.end(states).as_bytes())?;
            file.finish()?;
        }
        Ok(self.gathered)
    }
}

/// Any netlist by its inputs.
fn any(words: &Words) -> Outcome {
    let (plan, ports, inputs) = match ["--plan", "--ports", "--inputs"].map(|name| words.option(name)) {
        [Some(plan), Some(ports), Some(inputs)] => (plan, ports, inputs),
        _ => return Err(Failure::Usage("--inputs needs --plan and --ports".to_string())),
    };
    for name in ["--filter", "--traffic", "--lookups", "--report"] {
        if words.option(name).is_some() {
            return Err(Failure::Usage(format!("--inputs, or {}, not both", name)));
        }
    }
    let netlist = Netlist { record: files::read(plan)?, ports: files::text(ports)? };
    let script = script(words, &netlist)?;
    say_script(plan, &script);
    let mut any = Any::new(&netlist, script).map_err(|what| in_file(ports, what))?;
    any.read(&files::text(inputs)?).map_err(|what| in_file(inputs, what))?;
    let names: Vec<String> = any.outputs().map(|(name, _)| format!(",{}", name)).collect();
    let mut outputs = Outputs::begin(words, &format!("cycle{}\n", names.concat()), any.ports())?;
    let (mut progress, all) = (Progress::of("cycles"), any.all_cycles());
    let ran: Outcome = any.run(|any| {
        let cycles = any.states().cycles;
        outputs.cycle(&any.states())?;
        if let Some(answers) = &mut outputs.answers {
            let values: Vec<String> = any.outputs().map(|(_, digits)| format!(",{}", digits)).collect();
            answers.write(format!("{}{}\n", cycles - 1, values.concat()).as_bytes())?;
        }
        progress.tell(cycles, all);
        Ok(())
    });
    outputs.finish(&any.states())?;
    ran?;
    let Seen { outputs, registers, held, inverted } = any.seen();
    say!("cycles       {:8}", any.states().cycles);
    say!("outputs      {:8}   bits, each what its pin's gates say", outputs);
    say!("registers    {:8}   bits, each what the gates give it, or held", registers);
    say!("held         {:8}   of them were not enabled, while their data differed", held);
    say!("inverted     {:8}   of them were stored inverted", inverted);
    say!("no difference from the gates in any output or register, {:.1} s", progress.seconds());
    Ok(())
}

impl From<String> for Failure {
    fn from(what: String) -> Self {
        Failure::Failed(format!("DIFFERENCE: {}", what))
    }
}

/// The filters that are asked for, with what they are called.
fn netlists(words: &Words) -> Result<Vec<(String, Netlist)>, Failure> {
    let stored =
        |holding: Holding| (format!("filter that holds by {}", holding.name()), Netlist::stored(holding));
    match (words.option("--filter"), words.option("--plan"), words.option("--ports")) {
        (None, None, None) => {
            for name in ["--script", "--answers", "--vcd"] {
                if words.option(name).is_some() {
                    let what = format!("{} is of one filter: --filter or --plan says which", name);
                    return Err(Failure::Usage(what));
                }
            }
            Ok(Holding::ALL.map(stored).into())
        }
        (Some(name), None, None) => match Holding::ALL.iter().find(|holding| holding.name() == name) {
            Some(&holding) => Ok(vec![stored(holding)]),
            None => Err(Failure::Usage(format!("--filter is logic or enable, not {}", name))),
        },
        (None, Some(plan), Some(ports)) => {
            let netlist = Netlist { record: files::read(plan)?, ports: files::text(ports)? };
            Ok(vec![(format!("filter of {}", plan), netlist)])
        }
        (Some(_), ..) => Err(Failure::Usage("--filter, or --plan and --ports, not both".to_string())),
        _ => Err(Failure::Usage("--plan and --ports belong together".to_string())),
    }
}

/// The script of a netlist's plan: built, or read from a file that is of that plan by its numbers. It is built without a line
/// that tells how far it is: an emulator runs a program that has had two threads at a third of its pace.
fn script(words: &Words, netlist: &Netlist) -> Result<Script, Failure> {
    let refused = |refusal| why::plan(&netlist.record, refusal);
    let path = match words.option("--script") {
        None => return juolgesot::build(&netlist.record).map_err(refused),
        Some(path) => path,
    };
    let script = files::script(path)?;
    let sizes = juolgesot::plan_sizes(&netlist.record).map_err(refused)?;
    let of_plan = [netlist.blocks() as u64, sizes.starts as u64, sizes.words as u64, sizes.state_words];
    let of_script =
        [script.blocks as u64, script.starts.len() as u64, script.words.len() as u64, script.state_words];
    if of_plan != of_script {
        return Err(Failure::Failed(format!(
            "{} is no script of this plan: blocks, starts, words and state words are {:?}, and {:?} by the plan",
            path, of_script, of_plan
        )));
    }
    Ok(script)
}

fn print(counts: &Counts) {
    say!("cycles       {:8}   {} of them without an edge of the clock", counts.cycles, counts.without_edge);
    say!("inserted     {:8}", counts.inserts);
    say!("looked up    {:8}", counts.looked_up);
    say!("no           {:8}   none of them is in flash", counts.no);
    say!("maybe        {:8}   each of them went on to flash ({} reads)", counts.maybe, counts.flash_reads);
    say!(
        "false maybe  {:8}   flash did not hold the key ({} found)",
        counts.false_maybe,
        counts.found_in_flash
    );
    say!(
        "held         {:8}   bits of registers that were not enabled, while their data differed",
        counts.held
    );
    say!("inverted     {:8}   bits of registers that were stored inverted", counts.inverted);
}
