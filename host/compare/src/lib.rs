//! What the comparison programs share.

pub mod aiger_checker;
pub mod aiger_damage;
pub mod aiger_designs;
pub mod aiger_files;
pub mod answers;
pub mod builders;
pub mod came;
pub mod checker;
pub mod clock;
pub mod comparison;
pub mod damage;
pub mod deep;
pub mod explain;
pub mod join_checker;
pub mod lent;
pub mod list_checker;
pub mod local_checker;
pub mod marked;
pub mod pages;
pub mod plan_answers;
pub mod plan_changes;
pub mod plan_checker;
pub mod plan_damage;
pub mod plans;
pub mod repair_checker;
pub mod repair_damage;
pub mod repairs;
pub mod run_checker;
pub mod run_damage;
pub mod sets;
pub mod stored_bits;
pub mod tally;
pub mod value_checker;

use model::edition::Edition;
use model::rounds::{Packing, Pair};

/// Numbers that name no edition: 29.
pub const UNKNOWN: [u32; 12] = [0, 1, 12, 13, 127, 129, 255, 257, 384, 128 + (1 << 31), 256 << 16, u32::MAX];

/// How much is drawn of an edition.
#[derive(Debug, Clone, Copy)]
pub struct Dose {
    pub edition: Edition,
    share: usize,
}

impl Dose {
    pub const FULL: Dose = Dose { edition: Edition::FULL, share: 1 };
    /// The small one is not compared with GEM, and differs in its numbers alone.
    pub const SMALL: Dose = Dose { edition: Edition::SMALL, share: 4 };
    pub const BOTH: [Dose; 2] = [Dose::FULL, Dose::SMALL];

    /// So many of the full edition, or the share of them.
    pub fn times(self, of_full: usize) -> usize {
        (of_full + self.share - 1) / self.share
    }

    /// The same of counts that are asked for.
    pub fn least(self, of_full: u64) -> u64 {
        self.times(of_full as usize) as u64
    }

    pub fn name(self) -> &'static str {
        host(self.edition).name()
    }

    /// For GEM's Rust, which is of the full edition alone.
    pub fn is_full(self) -> bool {
        self.edition == Edition::FULL
    }
}

/// The host's name of an edition.
pub fn host(edition: Edition) -> plan::Edition {
    plan::Edition::numbered(edition.number()).expect("one of both")
}

/// The model's name of an edition.
pub fn modelled(edition: plan::Edition) -> Edition {
    Edition::numbered(edition.number()).expect("one of both")
}

/// The other one.
pub fn other(edition: Edition) -> Edition {
    if edition == Edition::FULL {
        Edition::SMALL
    } else {
        Edition::FULL
    }
}

/// The search of the reference, or of the model where GEM has none: GEM is of the full edition.
pub fn search(edition: Edition, pairs: &[Pair]) -> Result<Packing, Option<u32>> {
    if edition == Edition::FULL {
        reference::search(pairs)
    } else {
        model::rounds::search(edition, pairs)
    }
}

/// Panics of the reference are expected and caught: keep them off the terminal.
pub fn silence_expected_panics() {
    let print = std::panic::take_hook();
    std::panic::set_hook(Box::new(move |info| {
        let of_reference = |file: &str| file.contains("flatten") || file.ends_with("one_bit.rs");
        let expected = info.location().map_or(false, |place| of_reference(place.file()));
        if !expected {
            print(info);
        }
    }));
}

/// Writes a plan record that shows a difference to a file, and ends the program.
pub fn stop_at_record(record: &[u8]) -> ! {
    let path = std::env::temp_dir().join("juolgesot-difference.plan");
    match std::fs::write(&path, record) {
        Ok(()) => println!("the plan record ({} bytes) is in {}", record.len(), path.display()),
        Err(_) => println!("the plan record has {} bytes", record.len()),
    }
    std::process::exit(1);
}
