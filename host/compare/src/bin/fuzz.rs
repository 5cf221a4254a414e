//! Random and damaged inputs over every exported function.
//!
//! fuzz [--edition full|small] [CASES] [SEED]    the full one where none is named
//!
//! Each call is held to the model: its answer, every word of its results, its room, and the guards beside each lent
//! slice; a touch of a page beside one ends the program. Stops at the first difference.

use compare::aiger_checker::AigerChecker;
use compare::aiger_files;
use compare::checker::{Checker, Lent, OutLength};
use compare::join_checker::JoinChecker;
use compare::list_checker::ListChecker;
use compare::local_checker::LocalChecker;
use compare::plan_checker::{More, PlanChecker};
use compare::plans::{self, Size};
use compare::repair_checker::{self, RepairChecker, Work};
use compare::repairs;
use compare::run_checker::RunChecker;
use compare::run_damage::{self, Case};
use compare::sets;
use compare::tally::Tally;
use compare::value_checker::{Question, ValueChecker, ValueRoom};
use compare::{modelled, UNKNOWN};
use plan::Edition;
use random::Random;
use std::time::{Duration, Instant};

const USAGE: &str = "usage: fuzz [--edition full|small] [CASES] [SEED]";
const SEED: u64 = 20_240_618;
const CASES: u64 = 20_000;
/// How many cases a plan or a script is damaged for before others are made.
const REUSE: usize = 300;

fn main() {
    compare::silence_expected_panics();
    let mut words: Vec<String> = std::env::args().skip(1).collect();
    let mut edition = Edition::Full;
    if words.first().map_or(false, |word| word == "--edition") {
        edition = words.get(1).and_then(|name| Edition::named(name)).expect(USAGE);
        words.drain(..2);
    }
    let mut words = words.iter().map(|word| word.parse().expect(USAGE));
    let cases = words.next().unwrap_or(CASES);
    let seed = words.next().unwrap_or(SEED);
    println!("reference: host/model; {} cases of the {} edition, seed {}", cases, edition, seed);
    let start = Instant::now();
    let mut told = Instant::now();
    let mut fuzz = Fuzz::new(edition, seed);
    for case in 0..cases {
        fuzz.case();
        if told.elapsed() > Duration::from_secs(5) {
            told = Instant::now();
            eprintln!("  fuzz: {} of {} cases, {:.0} s", case, cases, start.elapsed().as_secs_f64());
        }
    }
    fuzz.functions.print();
    fuzz.print_answers();
    let seconds = start.elapsed().as_secs_f64();
    println!("fuzz: {} cases of the {} edition, no difference, {:.1} s", cases, edition, seconds);
}

struct Fuzz {
    /// Of which most things are.
    edition: Edition,
    random: Random,
    functions: Tally,
    rounds: Checker,
    listings: ListChecker,
    plans: PlanChecker,
    runs: RunChecker,
    values: ValueChecker,
    aiger: AigerChecker,
    repairs: RepairChecker,
    joins: JoinChecker,
    locals: LocalChecker,
    records: Pool<Vec<u32>>,
    scripts: Pool<Case>,
    stages: Pool<repairs::Case>,
}

/// Something that is damaged again and again before another is made.
struct Pool<T> {
    held: Option<T>,
    left: usize,
}

impl<T: Clone> Pool<T> {
    fn new() -> Self {
        Pool { held: None, left: 0 }
    }

    fn next(&mut self, make: impl FnOnce() -> T) -> T {
        if self.left == 0 {
            self.held = Some(make());
            self.left = REUSE;
        }
        self.left -= 1;
        self.held.clone().expect("made before")
    }
}

impl Fuzz {
    fn new(edition: Edition, seed: u64) -> Self {
        Fuzz {
            edition,
            random: Random::new(seed),
            functions: Tally::new("cases by function"),
            rounds: Checker::new(),
            listings: ListChecker::new(),
            plans: PlanChecker::new(),
            runs: RunChecker::new(),
            values: ValueChecker::new(),
            aiger: AigerChecker::new(),
            repairs: RepairChecker::new(),
            joins: JoinChecker::new(),
            locals: LocalChecker::new(),
            records: Pool::new(),
            scripts: Pool::new(),
            stages: Pool::new(),
        }
    }

    fn print_answers(&mut self) {
        self.rounds.answers.print();
        self.listings.answers.print();
        self.plans.answers.print();
        self.runs.answers.print();
        self.values.answers.print();
        self.aiger.answers.print();
        self.repairs.answers.print();
        self.joins.answers.print();
        self.locals.answers.print();
    }

    /// The number that a call is told: now and then the other edition's, or none's.
    fn told(&mut self) -> u32 {
        match self.random.below(24) {
            0 => self.random.pick(&UNKNOWN),
            1 => any_word(&mut self.random),
            2 => self.random.pick(&Edition::BOTH).number(),
            _ => self.edition.number(),
        }
    }

    /// Read sets and listings are quick and come most often.
    fn case(&mut self) {
        let start = Instant::now();
        let name = match self.random.below(100) {
            0..=34 => self.list(),
            35..=37 => self.plan(),
            38..=40 => self.run(),
            41..=43 => self.value(),
            44..=53 => self.read_aiger(),
            54..=58 => self.write_aiger(),
            59..=61 => self.repair(),
            62..=69 => self.join(),
            70..=79 => self.local_position(),
            _ => self.read_rounds(),
        };
        self.functions.count_timed(name, start.elapsed());
    }

    /// A read set, mostly damaged.
    fn set(&mut self) -> Vec<u32> {
        let random = &mut self.random;
        let pairs = if random.chance(200) { random.between(200, 8300) } else { random.between(0, 30) };
        let mut set = match random.below(4) {
            0 => (0..random.between(0, 2 * pairs)).map(|_| any_word(random)).collect(),
            1 => sets::wide(random, pairs),
            _ => sets::any(random, pairs),
        };
        if !random.chance(4) {
            damage_words(random, &mut set);
        }
        set
    }

    /// Of two sets, one and itself damaged, or one slice twice. Half of those that are damaged are drawn again.
    fn join(&mut self) -> &'static str {
        let mut sets = [self.set(), self.set()];
        let random = &mut self.random;
        for set in &mut sets {
            if random.chance(2) {
                let pairs = random.between(0, 30);
                *set = sets::any(random, pairs);
            }
        }
        let [a, mut b] = sets;
        let more = random.pick(&[0, 0, 0, 1, 50, -1, -3, -1000]);
        match random.below(8) {
            0 => self.joins.check_with_itself("fuzz", &a, more),
            1 | 2 => {
                b = a.clone();
                damage_words(random, &mut b);
                self.joins.check("fuzz", &a, &b, more)
            }
            _ => self.joins.check("fuzz", &a, &b, more),
        };
        "join"
    }

    /// Bits of a set's words and of any, asked for or not.
    fn local_position(&mut self) -> &'static str {
        let (set, edition) = (self.set(), self.told());
        let random = &mut self.random;
        let room =
            if random.chance(12) { random.below(16_384) } else { 16_384 + random.pick(&[0, 0, 1, 77]) };
        let mut bit = || (random.word(), random.below(34) as u32);
        let mut bits = vec![bit(), bit()];
        bits.extend(set.chunks(2).take(3).map(|pair| (pair[0], random.below(34) as u32)));
        self.locals.check("fuzz", &set, edition, room, random.chance(2), &bits);
        "local_position"
    }

    fn read_rounds(&mut self) -> &'static str {
        let (set, edition) = (self.set(), self.told());
        let random = &mut self.random;
        let room =
            if random.chance(12) { random.below(16_384) } else { 16_384 + random.pick(&[0, 0, 1, 77]) };
        let out = match random.below(4) {
            0 => OutLength::Exactly(random.below(600)),
            1 => OutLength::Short(random.below(3)),
            _ => OutLength::Spare(random.below(3)),
        };
        let lent = Lent { edition, room, room_is_zero: random.chance(2), out };
        self.rounds.check("fuzz", &set, lent);
        "read_rounds"
    }

    fn list(&mut self) -> &'static str {
        let edition = self.told();
        let random = &mut self.random;
        let positions = if random.chance(300) { random.between(100, 8300) } else { random.between(0, 30) };
        let mut records: Vec<u8> = Vec::new();
        if random.chance(4) {
            records.extend((0..5 * positions).map(|_| random.pick(&[0, 1, 1, 2, 2, 3, 255])));
        } else {
            let end = random.pick(&[40, 3000, u32::MAX as usize]);
            for _ in 0..positions {
                records.push(random.pick(&[1, 2]));
                records.extend((random.below(end) as u32).to_le_bytes());
            }
            records.push(0);
        }
        if random.chance(2) {
            damage_bytes(random, &mut records);
        }
        let room = if random.chance(12) { random.below(16_384) } else { 16_384 };
        let spare = random.pick(&[0, 0, 0, 1, 50, -1, -3, -1000]);
        self.listings.check("fuzz", &records, edition, room, spare);
        "list"
    }

    /// A damaged plan record: its bytes.
    fn record(&mut self) -> Vec<u8> {
        let random = &mut self.random;
        if random.chance(4) {
            let mut words: Vec<u32> = (0..random.below(300)).map(|_| any_word(random)).collect();
            if words.len() > plan::HEAD_WORDS && random.chance(2) {
                words[0] = random.between(1, 3) as u32;
                words[1] = random.between(1, 3) as u32;
                words[plan::EDITION_WORD] = self.edition.number();
                words[plan::EDITION_WORD + 1..plan::HEAD_WORDS].fill(0);
            }
            let mut bytes = plan::bytes(&words);
            damage_bytes(random, &mut bytes);
            return bytes;
        }
        let edition = self.edition;
        let size = Size { edition, majors: 2, parts: 2, stages: 2, inputs: 200, wide: random.chance(2) };
        let mut words = self.records.next(|| plans::any(random, size).words());
        if random.chance(3) {
            // The front has the counts and the lists.
            let front = words.len().min(random.pick(&[plan::HEAD_WORDS, 40, 900]));
            damage_words_in_place(random, &mut words[..front]);
        } else {
            damage_words(random, &mut words);
        }
        let mut bytes = plan::bytes(&words);
        if random.chance(30) {
            damage_bytes(random, &mut bytes);
        }
        bytes
    }

    fn plan(&mut self) -> &'static str {
        let record = self.record();
        let random = &mut self.random;
        let more = More {
            room: if random.chance(12) { random.pick(&[-1, -16, -100_000]) } else { random.pick(&[0, 0, 5]) },
            room_is_zero: random.chance(2),
            starts: random.pick(&[0, 0, 3, -1]),
            words: random.pick(&[0, 0, 9, -1]),
            pieces: random.pick(&[0, 0, 5, -1]),
        };
        self.plans.check("fuzz", &record, more);
        "plan_sizes and build"
    }

    fn run(&mut self) -> &'static str {
        let (edition, told) = (self.edition, self.told());
        let random = &mut self.random;
        let mut case = self.scripts.next(|| loop {
            let size = Size { edition, majors: 1, parts: 3, stages: 2, inputs: 3000, wide: false };
            let mut plan = plans::any(random, size);
            plans::any_enables(random, &mut plan);
            if let Some(case) = run_damage::case_of(random, &plan) {
                return case;
            }
        });
        if random.chance(2) {
            let places = run_damage::parts(case.edition, &case.words, &case.starts);
            let _ = run_damage::any_enables(random, &mut case, &places);
        }
        match random.below(6) {
            0 => damage_words(random, &mut case.words),
            1 => {
                let places = run_damage::parts(case.edition, &case.words, &case.starts);
                let _ = run_damage::any_word(random, &mut case, &places);
            }
            2 => damage_words(random, &mut case.turns),
            3 => {
                let start = random.below(case.starts.len());
                case.starts[start] =
                    random.pick(&[0, 1, 128, 256, case.words.len() as u64, case.starts[0] + 1, u64::MAX]);
            }
            4 => {
                let state = if random.chance(2) { &mut case.old } else { &mut case.new };
                state.truncate(random.below(state.len() + 1));
            }
            _ => {}
        }
        case.told = told;
        let room = if random.chance(12) { random.pick(&[-1, -1024]) } else { random.pick(&[0, 0, 7]) };
        let _ = self.runs.check("fuzz", &case, room, random.chance(2));
        "run"
    }

    fn value(&mut self) -> &'static str {
        let record = self.record();
        let random = &mut self.random;
        // Many ones: gates are 1 where both fan-ins are.
        let state: Vec<u32> =
            (0..random.below(400)).map(|_| random.word() | random.word() | random.word()).collect();
        let (old, new) = state.split_at(random.below(state.len() + 1));
        let part = random.pick(&[0, 0, 0, 1, 2, 3, u32::MAX]);
        let pin = match random_pin(random, &record) {
            pin if random.chance(2) => pin,
            _ => random.pick(&[0, 1, 2, 50, 200, 1 << 30, u32::MAX]),
        };
        let lent = ValueRoom {
            more_room: if random.chance(12) { -1 } else { 0 },
            room_is_zero: random.chance(2),
            more_bits: random.pick(&[0, 0, 0, 1, 40, -1, -3]),
        };
        let _ = self.values.check("fuzz", Question { record: &record, part, pin, old, new, lent });
        "value"
    }

    fn read_aiger(&mut self) -> &'static str {
        let random = &mut self.random;
        let mut bytes = aiger_files::any(random, 12).bytes();
        if !random.chance(4) {
            damage_bytes(random, &mut bytes);
        }
        let more = random.pick(&[0, 0, 0, 1, 50, -1, -3, -1000]);
        self.aiger.read("fuzz", &bytes, more);
        "read_aiger"
    }

    fn write_aiger(&mut self) -> &'static str {
        let random = &mut self.random;
        let mut gates = aiger_files::list(random, 12);
        if !random.chance(3) {
            damage_words(random, &mut gates);
        }
        let more = random.pick(&[0, 0, 0, 1, 50, -1, -3, -1000]);
        self.aiger.write("fuzz", &gates, more);
        "write_aiger"
    }

    fn repair(&mut self) -> &'static str {
        let (edition, told) = (modelled(self.edition), self.told());
        let random = &mut self.random;
        let mut case = self.stages.next(|| repairs::any(random, edition, 12));
        let work = random.pick(&[Work::Place, Work::Clear]);
        case.aim(random);
        if work == Work::Clear && !random.chance(4) {
            case.aim_at_held(random);
        }
        match random.below(9) {
            0 => damage_words(random, &mut case.gates),
            1 => damage_words(random, &mut case.levels),
            2 => damage_words(random, &mut case.counts),
            3 => damage_words(random, &mut case.slots),
            4 => case.place.level = any_word(random),
            5 => case.place.slot = any_word(random),
            6 => case.node = any_word(random),
            _ => {}
        }
        case.told = told;
        let more = repair_checker::More {
            room: if random.chance(12) { random.pick(&[-1, -4, -100_000]) } else { random.pick(&[0, 0, 5]) },
            room_is_zero: random.chance(2),
            after: random.pick(&[0, 0, 3, -1]),
        };
        let _ = self.repairs.check("fuzz", work, &case, more);
        "place_bit and purge_bit"
    }
}

/// A word of the record: often a pin.
fn random_pin(random: &mut Random, record: &[u8]) -> u32 {
    let words = record.len() / 4;
    if words == 0 {
        return 7;
    }
    let among = words.min(random.pick(&[60, 600, 6000]));
    let at = 4 * random.below(among);
    u32::from_le_bytes([record[at], record[at + 1], record[at + 2], record[at + 3]])
}

/// Words around every bound.
fn any_word(random: &mut Random) -> u32 {
    match random.below(4) {
        0 => random.pick(&[
            0, 1, 2, 31, 32, 127, 128, 129, 255, 256, 257, 1024, 4095, 4096, 4097, 8191, 8192, 8193, 0xFFFF,
            0x1_0000,
        ]),
        1 => random.pick(&[
            1 << 20,
            (1 << 27) - 1,
            1 << 27,
            1 << 30,
            (1 << 30) + 1,
            1 << 31,
            u32::MAX - 1,
            u32::MAX,
        ]),
        2 => random.below(400) as u32,
        _ => random.word(),
    }
}

/// Changes one to three words, or the length.
fn damage_words(random: &mut Random, words: &mut Vec<u32>) {
    match random.below(8) {
        0 => words.truncate(random.below(words.len() + 1)),
        1 => {
            let at = random.below(words.len() + 1);
            words.insert(at, any_word(random));
        }
        2 if !words.is_empty() => {
            words.remove(random.below(words.len()));
        }
        _ => damage_words_in_place(random, words),
    }
}

fn damage_words_in_place(random: &mut Random, words: &mut [u32]) {
    if words.is_empty() {
        return;
    }
    for _ in 0..random.between(1, 3) {
        let at = random.below(words.len());
        words[at] = match random.below(5) {
            0 => words[at] ^ 1 << random.below(32),
            1 => words[random.below(words.len())],
            2 => words[at].wrapping_add(1),
            3 => words[at].wrapping_sub(1),
            _ => any_word(random),
        };
    }
}

fn damage_bytes(random: &mut Random, bytes: &mut Vec<u8>) {
    match random.below(4) {
        0 => bytes.truncate(random.below(bytes.len() + 1)),
        1 => bytes.extend((0..random.between(1, 9)).map(|_| random.below(256) as u8)),
        _ => {
            for _ in 0..random.between(1, 3) {
                if !bytes.is_empty() {
                    let at = random.below(bytes.len());
                    bytes[at] = random.pick(&[0, 1, 2, 3, 127, 128, 255]);
                }
            }
        }
    }
}
