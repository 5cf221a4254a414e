//! Compares the library's reading and writing of binary AIGER with the model's.
//!
//! compare_aiger [DIR] [all] [SEED]    DIR has files of real tools (host/aiger/stored); stops at the first difference

use compare::aiger_checker::AigerChecker;
use compare::aiger_damage;
use compare::aiger_designs;
use compare::aiger_files;
use compare::came::Came;
use compare::comparison::Comparison;
use random::Random;
use std::path::Path;

const SEED: u64 = 20_240_701;
/// How often each damage is to bring about its refusal, and the files that are tried for it.
const TIMES: u32 = 12;
const MOST_TRIES: usize = 400;

fn main() {
    let mut comparison = Comparison::begin("compare_aiger", "host/model", SEED);
    let random = &mut comparison.random;
    let mut checker = AigerChecker::new();
    examples(&mut checker);
    short_strings(&mut checker, comparison.words.iter().any(|word| word == "all"));
    random_files(&mut checker, random);
    damaged_files(&mut checker, random);
    damaged_lists(&mut checker, random);
    every_byte(&mut checker, random);
    if let Some(dir) = comparison.words.first().filter(|word| *word != "all") {
        stored_files(&mut checker, random, Path::new(dir));
        refused_files(&mut checker, &Path::new(dir).join("refused"));
    }

    checker.answers.sort();
    comparison.finish("readings and writings", &[&checker.kinds, &checker.answers]);
    for answer in ["read", "not read: 14", "not read: 18", "not read: 19", "not read: 20"] {
        assert!(checker.answers.times(answer) >= 1000, "seldom: {}", answer);
    }
    for answer in ["written", "not written: 14", "not written: 33"] {
        assert!(checker.answers.times(answer) >= 100, "seldom: {}", answer);
    }
}

/// The number encodings and the half adder of the format's own paper, and the empty file: to the word, without the model.
fn examples(checker: &mut AigerChecker) {
    let numbers: [(u32, &[u8]); 9] = [
        (0, &[0x00]),
        (1, &[0x01]),
        ((1 << 7) - 1, &[0x7F]),
        (1 << 7, &[0x80, 0x01]),
        ((1 << 8) + 2, &[0x82, 0x02]),
        ((1 << 14) - 1, &[0xFF, 0x7F]),
        ((1 << 14) + 3, &[0x83, 0x80, 0x01]),
        ((1 << 28) - 1, &[0xFF, 0xFF, 0xFF, 0x7F]),
        ((1 << 28) + 7, &[0x87, 0x80, 0x80, 0x80, 0x01]),
    ];
    let pin = 1 << 30;
    for (number, bytes) in numbers {
        // The number as second difference, behind a first one of 1.
        let mut file = format!("aig {} {} 0 0 1\n\u{1}", pin, pin - 1).into_bytes();
        file.extend(bytes);
        let first = 2 * pin - 1;
        same(checker, &file, &[pin, first, first - number]);
    }
    same(checker, b"aig 5 2 0 2 3\n10\n6\n\x02\x02\x03\x02\x01\x02", &[3, 4, 2, 4, 5, 3, 5, 9, 7]);
    same(checker, b"aig 0 0 0 0 0\n", &[]);
}

/// The file has these gates; so says the model too.
fn same(checker: &mut AigerChecker, file: &[u8], gates: &[u32]) {
    let read = juolgesot::read_aiger(file).map(|read| read.list);
    if read.as_deref() != Ok(gates) {
        println!("DIFFERENCE: {:?} reads as {:?}, expected {:?}", file, read, gates);
        std::process::exit(1);
    }
    checker.read("examples of the format's paper", file, 0);
    checker.there_and_back("there and back", file);
    checker.write("examples of the format's paper", gates, 0);
    checker.back_and_there("back and there", gates);
}

/// Short strings behind the fronts of a file: all of up to two bytes, and longer ones of the bytes that matter there; with
/// `all` those of three bytes too, behind a front of each kind.
fn short_strings(checker: &mut AigerChecker, all: bool) {
    let any: Vec<u8> = (0..=255).collect();
    let any = &any[..];
    let some = &b"\0\t\n\r +-/01239:a\x7F\x80\xFF"[..];
    for front in [
        "",
        "aig",
        "aig ",
        "aig 0 0 0 0 ",
        "aig 0 0 0 0 0",
        "aig 1 0 0 0 1",
        "aig 1",
        "aig 10 1",
        "aig 1 1 0 1 0\n",
        "aig 1 0 1 0 0\n",
        "aig 12 12 0 1 0\n2",
        "aig 2 0 1 1 1\n0\n",
        "aig 2 1 0 1 1\n5",
    ] {
        for choices in [&[][..], &[any], &[any, any], &[some, some, some]] {
            checker.every_string("short strings behind text", front.as_bytes(), choices);
        }
    }
    let some =
        &[0, 1, 2, 3, 4, 10, 64, 69, 70, 71, 126, 127, 128, 129, 130, 139, 140, 141, 200, 254, 255][..];
    // First differences of one, two and three bytes are in range.
    let three_bytes = "aig 10000 9999 0 0 1\n";
    let last_pin = "aig 1073741824 1073741823 0 0 1\n";
    for (header, groups) in [
        ("aig 0 0 0 0 0\n", &[][..]),
        ("aig 1 0 0 0 1\n", &[]),
        ("aig 2 0 0 0 2\n", &[1]),
        ("aig 3 1 1 0 1\n6\n", &[]),
        ("aig 70 69 0 0 1\n", &[]),
        (three_bytes, &[]),
        (last_pin, &[]),
        (last_pin, &[0x80, 0x80]),
        (last_pin, &[0xFF, 0xFF, 0xFF]),
        (last_pin, &[0x80, 0x80, 0x80, 0x80]),
        (last_pin, &[0x01, 0xFF, 0xFF, 0xFF]),
    ] {
        let front = [header.as_bytes(), groups].concat();
        for choices in [&[][..], &[any], &[any, any], &[some, some, some]] {
            checker.every_string("short strings behind gates", &front, choices);
        }
    }
    let few = &[0, 1, 2, 31, 32, 127, 128, 129, 155, 156, 160, 255][..];
    for choices in [&[any, few, few][..], &[few, any, few], &[few, few, any]] {
        checker.every_string("three bytes as a gate", three_bytes.as_bytes(), choices);
    }
    if all {
        let kinds = [
            ("aig 0 0 0 0 ", &[][..]),
            ("aig 1 1 0 1 0\n", &[]),
            (three_bytes, &[]),
            (last_pin, &[0x80, 0x80]),
            (last_pin, &[0x01, 0xFF, 0xFF]),
        ];
        for (header, groups) in kinds {
            let front = [header.as_bytes(), groups].concat();
            checker.every_string("all strings of three", &front, &[any, any, any]);
        }
    }
}

/// Good files and lists, with rooms around what is needed, and there and back again.
fn random_files(checker: &mut AigerChecker, random: &mut Random) {
    for _ in 0..1_500 {
        let most_gates = random.pick(&[1, 3, 10, 40]);
        let file = aiger_files::any(random, most_gates).bytes();
        for more in [0, -1, random.pick(&[1, 3, 50, -2, -3, -1000])] {
            checker.read("random files", &file, more);
        }
        checker.there_and_back("there and back", &file);
        let list = aiger_files::list(random, most_gates);
        for more in [0, -1, random.pick(&[1, 3, 50, -2, -3, -1000])] {
            checker.write("random lists", &list, more);
        }
        checker.back_and_there("back and there", &list);
    }
}

/// Each clause of 18, 19 and 20, whatever result is lent.
fn damaged_files(checker: &mut AigerChecker, random: &mut Random) {
    let mut came = Came::new(TIMES);
    for (meant, name, change) in aiger_damage::of_files() {
        for _ in 0..MOST_TRIES {
            let mut file = aiger_files::any(random, 6);
            if change(random, &mut file).is_some() {
                let more = random.pick(&[0, 0, 1, -1, -1000]);
                let number = checker.read("damaged files", &file.bytes(), more);
                if number != 14 {
                    came.count(meant, name, number);
                }
            }
            if !came.wants(meant, name) {
                break;
            }
        }
    }
    came.print();
}

/// Each clause of 33, likewise.
fn damaged_lists(checker: &mut AigerChecker, random: &mut Random) {
    let mut came = Came::new(TIMES);
    for (meant, name, change) in aiger_damage::of_lists() {
        for _ in 0..MOST_TRIES {
            let mut list = aiger_files::list(random, 6);
            if change(random, &mut list).is_some() {
                let more = random.pick(&[0, 0, 1, -1, -1000]);
                let number = checker.write("damaged lists", &list, more);
                if number != 14 {
                    came.count(meant, name, number);
                }
            }
            if !came.wants(meant, name) {
                break;
            }
        }
    }
    came.print();
}

/// Files cut at every byte, and with every byte changed.
fn every_byte(checker: &mut AigerChecker, random: &mut Random) {
    for _ in 0..60 {
        let file = aiger_files::any(random, 8).bytes();
        for length in 0..file.len() {
            checker.read("cut at every byte", &file[..length], 0);
        }
        for place in 0..file.len() {
            for _ in 0..3 {
                let mut file = file.clone();
                file[place] = match random.below(5) {
                    0 => file[place] ^ 1 << random.below(8),
                    1 => file[place].wrapping_add(1),
                    2 => file[place].wrapping_sub(1),
                    3 => random.pick(b"0129 \n\r\x00\x7F\x80\xFF"),
                    _ => random.below(256) as u8,
                };
                checker.read("damaged at every byte", &file, 0);
            }
        }
    }
}

/// Files of real tools: what each of them does, there and back, rooms, and damage.
fn stored_files(checker: &mut AigerChecker, random: &mut Random, dir: &Path) {
    let (mut files, mut bits) = (0, 0);
    for (name, file) in files_of(dir) {
        match aiger_designs::check(random, &name, &file) {
            Ok(held) => bits += held,
            Err(what) => {
                println!("DIFFERENCE: {}", what);
                std::process::exit(1);
            }
        }
        for more in [0, 5, -1] {
            let number = checker.read("files of yosys and abc", &file, more);
            assert!(number == 0 || more < 0, "{} is refused by {}", name, number);
        }
        checker.there_and_back("there and back", &file);
        for _ in 0..20 {
            let mut damaged = file.clone();
            damaged[random.below(file.len())] ^= 1 << random.below(8);
            checker.read("files of yosys and abc, damaged", &damaged, 0);
            checker.read("files of yosys and abc, cut", &file[..random.below(file.len())], 0);
        }
        files += 1;
    }
    assert!(files >= 12, "{} stored files", files);
    println!("stored files: {}; every output has its design's value ({} bits)", files, bits);
}

/// Files with start values.
fn refused_files(checker: &mut AigerChecker, dir: &Path) {
    let files = files_of(dir);
    assert!(files.len() >= 2, "{} stored files that are refused", files.len());
    for (name, file) in files {
        let number = checker.read("files of yosys and abc with start values", &file, 0);
        assert_eq!(number, 18, "{}", name);
    }
}

/// The files of a folder that end in .aig, by name.
fn files_of(dir: &Path) -> Vec<(String, Vec<u8>)> {
    let mut files = Vec::new();
    for entry in std::fs::read_dir(dir).expect("the folder can be read") {
        let path = entry.expect("the folder can be read").path();
        if path.extension().map_or(false, |end| end == "aig") {
            let name = path.file_stem().expect("a name").to_string_lossy().into_owned();
            files.push((name, std::fs::read(&path).expect("the file can be read")));
        }
    }
    files.sort();
    files
}
