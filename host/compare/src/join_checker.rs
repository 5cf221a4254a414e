//! One comparison of a join of two read sets, held to the model in the answer and every lent word.

use crate::lent::{Lent, LentRead};
use crate::tally::Tally;
use juolgesot::ffi::{self, Answer};
use model::{joins, Refused};

/// Words that a result is lent with where the join is refused.
const OUT: usize = 40;

pub struct JoinChecker {
    pub kinds: Tally,
    pub answers: Tally,
}

impl JoinChecker {
    pub fn new() -> Self {
        JoinChecker { kinds: Tally::new("joins by kind"), answers: Tally::new("joins by answer") }
    }

    /// Joins two sets, lent so many words more than are needed, and counts it, or stops the program at a difference. Gives the
    /// answer's number.
    pub fn check(&mut self, kind: &str, a: &[u32], b: &[u32], more: i64) -> u32 {
        self.count(kind, a, b, difference(a, b, more))
    }

    /// The same with one slice on both sides.
    pub fn check_with_itself(&mut self, kind: &str, a: &[u32], more: i64) -> u32 {
        self.count(kind, a, a, difference_with_itself(a, more))
    }

    fn count(&mut self, kind: &str, a: &[u32], b: &[u32], found: Result<u32, String>) -> u32 {
        let code = found.unwrap_or_else(|what| {
            println!("DIFFERENCE ({}): {}", kind, what);
            println!("first set ({} words): {:x?}", a.len(), &a[..a.len().min(400)]);
            println!("second set ({} words): {:x?}", b.len(), &b[..b.len().min(400)]);
            std::process::exit(1);
        });
        self.kinds.count(kind);
        match code {
            0 => self.answers.count("joined"),
            code => self.answers.count(&format!("refused {}", code)),
        }
        code
    }
}

/// The answer's number, or the first difference.
fn difference(a: &[u32], b: &[u32], more: i64) -> Result<u32, String> {
    let (lent_a, lent_b) = (LentRead::new(a), LentRead::new(b));
    compare(lent_a.slice(), lent_b.slice(), joins::answer(a, b, usize::MAX), more)
}

fn difference_with_itself(a: &[u32], more: i64) -> Result<u32, String> {
    let lent = LentRead::new(a);
    compare(lent.slice(), lent.slice(), joins::answer(a, a, usize::MAX), more)
}

fn compare(a: &[u32], b: &[u32], joined: Result<Vec<u32>, Refused>, more: i64) -> Result<u32, String> {
    let needed = joined.as_ref().map_or(OUT, Vec::len);
    let length = (needed as i64 + more).max(0) as usize;
    let expected = match joined {
        Ok(words) if words.len() > length => Err(Refused::plain(14)),
        other => other,
    };
    let before = |index: usize| 0x9000_0000 + index as u32;
    let mut out = Lent::new(length, before, 0xC0DE_D00D);
    let answer = ffi::join(a, b, out.slice());
    let wanted = match &expected {
        Ok(words) => Answer { code: 0, first: words.len() as u64 / 2, second: 0 },
        Err(refused) => Answer { code: refused.number, first: refused.part, second: refused.item },
    };
    if answer != wanted {
        return Err(format!("answered {:?}, expected {:?}", answer, wanted));
    }
    out.check("result word", expected.as_ref().map_or(&[], |words| words), before)?;
    Ok(answer.code)
}
