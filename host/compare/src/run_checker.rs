//! One comparison of a run, held to the model in its answer and every lent word.

use crate::lent::{Lent, LentRead, Room};
use crate::run_damage::Case;
use crate::tally::Tally;
use juolgesot::ffi::{self, Answer};
use model::run::{self, Ran, BLOCK_ROOM};
use model::Refused;
use std::time::Instant;

pub struct RunChecker {
    pub kinds: Tally,
    pub answers: Tally,
}

impl RunChecker {
    pub fn new() -> Self {
        RunChecker { kinds: Tally::new("runs by kind"), answers: Tally::new("runs by answer") }
    }

    /// Compares one call and counts it, or stops the program at a difference. The room is so many words longer than
    /// needed. Gives what the run is to answer.
    pub fn check(
        &mut self,
        kind: &str,
        case: &Case,
        more_room: i64,
        room_is_zero: bool,
    ) -> Result<Ran, Refused> {
        let start = Instant::now();
        let room = (BLOCK_ROOM * case.starts.len().saturating_sub(1)) as i64 + more_room;
        let room = room.max(0) as usize;
        let expected =
            run::answer(&case.words, &case.starts, &case.turns, &case.old, &case.new, room, case.told);
        if let Err(what) = compare(case, &expected, Room::new(room, room_is_zero)) {
            println!("DIFFERENCE ({}): {}", kind, what);
            println!("words of {} lanes, told {}", case.edition.lanes(), case.told);
            println!("room of {} words, zeros: {}", room, room_is_zero);
            println!("states of {} and {} words", case.old.len(), case.new.len());
            println!("starts {:?}", &case.starts[..case.starts.len().min(40)]);
            println!("turns {:?}", &case.turns[..case.turns.len().min(400)]);
            println!("{} words", case.words.len());
            std::process::exit(1);
        }
        self.answers.count(&match &expected {
            Ok(ran) if ran.turns_left == 0 => "ran, no turns left".to_string(),
            Ok(_) => "ran, turns left".to_string(),
            Err(refused) => format!("refused {}", refused.number),
        });
        self.kinds.count_timed(kind, start.elapsed());
        expected
    }
}

fn compare(case: &Case, expected: &Result<Ran, Refused>, mut room: Room) -> Result<(), String> {
    let mut new = Lent::new(case.new.len(), |index| case.new[index], 0xC0DE_D00D);
    let (words, starts) = (LentRead::new(&case.words), LentRead::new(&case.starts));
    let (turns, old) = (LentRead::new(&case.turns), LentRead::new(&case.old));
    let answer = ffi::run(
        words.slice(),
        starts.slice(),
        turns.slice(),
        old.slice(),
        new.slice(),
        room.slice(),
        case.told,
    );
    let wanted = match expected {
        Ok(ran) => Answer { code: 0, first: ran.turns_left, second: 0 },
        Err(refused) => Answer { code: refused.number, first: refused.part, second: refused.item },
    };
    if answer != wanted {
        return Err(format!("answered {:?}, expected {:?}", answer, wanted));
    }
    let state = expected.as_ref().map_or(&case.new, |ran| &ran.new);
    new.check("word of the new state", state, |_| 0)?;
    room.check(answer.code)
}
