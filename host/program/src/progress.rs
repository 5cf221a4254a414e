//! A line on standard error for what takes more than two seconds.

use crate::say::tell;
use std::sync::mpsc::{channel, RecvTimeoutError};
use std::time::{Duration, Instant};

const EVERY: Duration = Duration::from_secs(2);

/// Something that is done in many steps.
pub struct Progress {
    what: &'static str,
    start: Instant,
    told: Instant,
}

impl Progress {
    pub fn of(what: &'static str) -> Self {
        Progress { what, start: Instant::now(), told: Instant::now() }
    }

    /// So many of so many are done.
    pub fn tell(&mut self, done: u64, all: u64) {
        if self.told.elapsed() >= EVERY {
            self.told = Instant::now();
            tell!("  {}: {} of {}, {:.0} s", self.what, done, all, self.start.elapsed().as_secs_f64());
        }
    }

    pub fn seconds(&self) -> f64 {
        self.start.elapsed().as_secs_f64()
    }
}

/// Something that is done in one step.
pub fn while_working<T>(what: &'static str, work: impl FnOnce() -> T) -> T {
    let start = Instant::now();
    let (done, is_done) = channel::<()>();
    let teller = std::thread::spawn(move || {
        while is_done.recv_timeout(EVERY) == Err(RecvTimeoutError::Timeout) {
            tell!("  {}, {:.0} s", what, start.elapsed().as_secs_f64());
        }
    });
    let result = work();
    drop(done);
    teller.join().expect("it only tells");
    result
}
