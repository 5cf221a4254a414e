//! Measures the stack that each function of the library takes: each is called in a thread, in a process of its own, with less and
//! less stack, until the process ends by a signal.
//!
//! measure_stack [by EMULATOR ..]   the least stack of each, in steps of 4 KiB, and whether what juolgesot::stack says is enough;
//!                                  fails where it is not. The words of the emulator are put before the processes' own
//!                                  In the small edition a call has to work with what is told
//! measure_stack EDITION NAME BYTES calls one function in a thread with so much stack

use compare::plans;
use juolgesot::ffi;
use juolgesot::{LIST_ROOM, LIST_TEXT, MOST_ROUNDS, SET_ROOM};
use plan::{Edition, Plan, EMPTY};
use random::Random;
use std::process::{Command, Stdio};
use std::thread;

const STEP: usize = 4096;
/// The smallest stack that a thread gets, whatever is asked for.
const LEAST: usize = 16 << 10;
/// More than any function takes.
const MOST: usize = 4 << 20;

fn main() {
    let words: Vec<String> = std::env::args().skip(1).collect();
    match &words[..] {
        [] => measure_all(&[]),
        [by, emulator @ ..] if by == "by" => measure_all(emulator),
        [edition, name, bytes] => {
            let edition = Edition::named(edition).expect("full or small");
            call_in_thread(edition, name, bytes.parse().expect("a number of bytes"))
        }
        _ => panic!("usage: measure_stack [by EMULATOR ..]"),
    }
}

fn measure_all(emulator: &[String]) {
    let mut short = false;
    for &(name, told) in juolgesot::stack::ALL {
        let least = least(emulator, name);
        let verdict = if least <= told { "" } else { ": MORE THAN IS TOLD" };
        println!(
            "{:14} works in a thread of {:4} KiB, told are {:4}{}",
            name,
            least / 1024,
            told / 1024,
            verdict
        );
        let small = ends_well(emulator, Edition::Small, name, told);
        if !small {
            println!("{:14} does not work with what is told in the small edition", name);
        }
        short |= least > told || !small;
    }
    if short {
        std::process::exit(1);
    }
}

/// The least stack with which a call comes to its end: what is more does too.
fn least(emulator: &[String], name: &str) -> usize {
    assert!(ends_well(emulator, Edition::Full, name, MOST), "{} fails with {} bytes of stack", name, MOST);
    let (mut fails, mut works) = (LEAST / STEP - 1, MOST / STEP);
    while works - fails > 1 {
        let middle = (fails + works) / 2;
        if ends_well(emulator, Edition::Full, name, STEP * middle) {
            works = middle;
        } else {
            fails = middle;
        }
    }
    STEP * works
}

fn ends_well(emulator: &[String], edition: Edition, name: &str, bytes: usize) -> bool {
    let this = std::env::current_exe().expect("this program has a path").display().to_string();
    let words: Vec<&String> = emulator.iter().chain([&this]).collect();
    let mut command = Command::new(words[0]);
    // The message of a thread that ran out of its stack is expected.
    command.args(&words[1..]).args([edition.name(), name, &bytes.to_string()]).stderr(Stdio::null());
    let done = command.output().expect("this program can be started");
    done.status.success() && done.stdout == b"done\n"
}

fn call_in_thread(edition: Edition, name: &str, bytes: usize) {
    let call = prepared(edition, name);
    let thread = thread::Builder::new().stack_size(bytes).spawn(call).expect("a thread");
    thread.join().expect("the call comes to its end");
    println!("done");
}

/// A call of a function that goes through all of it, what it is given being ready.
fn prepared(edition: Edition, name: &str) -> Box<dyn FnOnce() + Send> {
    let (number, slots, top) = (edition.number(), edition.slots() as u32, edition.levels());
    match name {
        "read_rounds" => {
            let set: Vec<u32> = (0..slots).flat_map(|word| [word, 1]).collect();
            let (mut room, mut out) = (vec![0; SET_ROOM], vec![0; edition.round_words() * MOST_ROUNDS]);
            Box::new(move || good(ffi::read_rounds(&set, &mut room, &mut out, number).code))
        }
        "local_position" => {
            let set: Vec<u32> = (0..slots).flat_map(|word| [word, 1]).collect();
            let mut room = vec![0; SET_ROOM];
            Box::new(move || good(ffi::local_position(&set, &mut room, 3711, 0, number).code))
        }
        "list" => {
            let position = |position: u32| [&[1][..], &(33 * position).to_le_bytes()].concat();
            let records: Vec<u8> = (0..slots).rev().flat_map(position).chain([0]).collect();
            let (mut room, mut out) = (vec![0; LIST_ROOM], vec![0; LIST_TEXT]);
            Box::new(move || good(ffi::list(&records, &mut room, &mut out, number).code))
        }
        "plan_sizes" => {
            let (record, mut room) = with_room(any_plan(edition));
            Box::new(move || good(ffi::plan_sizes(&record, &mut room).code))
        }
        "build" => {
            let (record, mut room) = with_room(any_plan(edition));
            let sizes = juolgesot::plan_sizes(&record).expect("a plan in order");
            let (mut starts, mut words) = (vec![0; sizes.starts], vec![0; sizes.words]);
            let mut pieces = vec![0; 64];
            Box::new(move || good(ffi::build(&record, &mut room, &mut starts, &mut words, &mut pieces).code))
        }
        "run" => {
            let script = juolgesot::build(&any_plan(edition).record()).expect("a plan in order");
            let starts = script.stage_starts(0).to_vec();
            let turns = juolgesot::finishing_turns(&script.words, &starts, edition);
            let old = vec![0x5A5A_5A5A; script.state_words as usize];
            let (mut new, mut room) = (old.clone(), vec![0; juolgesot::BLOCK_ROOM * script.blocks]);
            let words = script.words;
            Box::new(move || good(ffi::run(&words, &starts, &turns, &old, &mut new, &mut room, number).code))
        }
        "value" => {
            let plan = any_plan(edition);
            let pin = plan.gates.last().map_or(0, |gate| gate.pin);
            let mut bits = vec![0; plan.gates.len()];
            let (record, mut room) = with_room(plan);
            Box::new(move || good(ffi::value(&record, &mut room, &[7], &[9], &mut bits, 0, pin).code))
        }
        "read_aiger" => {
            let file = juolgesot::write_aiger(&tree()).expect("a list in order");
            let mut out = vec![0; 3 * file.len()];
            Box::new(move || good(ffi::read_aiger(&file, &mut out).code))
        }
        "write_aiger" => {
            let (gates, mut out) = (tree(), vec![0; 1000]);
            Box::new(move || good(ffi::write_aiger(&gates, &mut out).code))
        }
        "place_bit" => {
            let (gates, levels) = (tree(), tree_levels());
            let mut slots = vec![EMPTY; edition.stage_slots()];
            let (mut after, mut room) =
                (vec![0; 2 * edition.stage_slots()], vec![0; juolgesot::repair_room(0)]);
            Box::new(move || {
                let (slots, after, room) = (&mut slots[..], &mut after[..], &mut room[..]);
                good(ffi::place_bit(&gates, &levels, &[], slots, after, room, top, 0, top + 1, number).code)
            })
        }
        "purge_bit" => {
            let (gates, levels) = (tree(), tree_levels());
            let mut slots = vec![EMPTY; edition.stage_slots()];
            let netlist = juolgesot::Netlist { gates: &gates, levels: &levels };
            let place = juolgesot::Place { level: top, slot: 0 };
            let node = plan::Pin(top + 1);
            let counts =
                juolgesot::place_bit(netlist, &[], &mut slots, place, node, edition).expect("a tree");
            let (mut after, mut room) =
                (vec![0; counts.len()], vec![0; juolgesot::repair_room(counts.len())]);
            Box::new(move || {
                good(ffi::purge_bit(&counts, &mut slots, &mut after, &mut room, top, 0, number).code)
            })
        }
        "join" => {
            let set = |from: u32| -> Vec<u32> { (0..4096).flat_map(|word| [from + 2 * word, 1]).collect() };
            let (even, odd, mut out) = (set(0), set(1), vec![0; 16384]);
            Box::new(move || good(ffi::join(&even, &odd, &mut out).code))
        }
        other => panic!("what is '{}'?", other),
    }
}

fn good(code: u32) {
    assert_eq!(code, 0, "the call was refused");
}

/// Random parts of several stages on two blocks, with endpoints of every kind, that are in order.
fn any_plan(edition: Edition) -> Plan {
    let mut random = Random::new(20_240_801);
    let size = plans::Size { edition, majors: 2, parts: 3, stages: 3, inputs: 3000, wide: false };
    loop {
        let plan = plans::full(&mut random, size);
        if plan.parts().count() > 1 && juolgesot::plan_sizes(&plan.record()).is_ok() {
            return plan;
        }
    }
}

fn with_room(plan: Plan) -> (Vec<u8>, Vec<u32>) {
    let record = plan.record();
    let room = vec![0; juolgesot::plan_room(&record) as usize];
    (record, room)
}

/// Gates 2 to 14, each twice the one below: the last one's tree fills a stage; in the small edition that of the last but one.
fn tree() -> Vec<u32> {
    (2..=14).flat_map(|pin| [pin, 2 * (pin - 1) + 1, 2 * (pin - 1)]).collect()
}

/// Pin 1 is at level 0, gate n at level n - 1; the constant has none.
fn tree_levels() -> Vec<u32> {
    (0..=14u32).map(|pin| pin.wrapping_sub(1)).collect()
}
