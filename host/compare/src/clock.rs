//! Processor time, which what else the machine does hardly adds to.

use std::os::raw::{c_int, c_long};
use std::time::Duration;

#[repr(C)]
struct Timespec {
    seconds: i64,
    nanoseconds: c_long,
}

extern "C" {
    fn clock_gettime(clock: c_int, time: *mut Timespec) -> c_int;
}

// Linux, on x86-64 and on Arm.
const CLOCK_THREAD_CPUTIME_ID: c_int = 3;

fn of_thread() -> Duration {
    let mut time = Timespec { seconds: 0, nanoseconds: 0 };
    assert_eq!(unsafe { clock_gettime(CLOCK_THREAD_CPUTIME_ID, &mut time) }, 0, "no clock");
    Duration::new(time.seconds as u64, time.nanoseconds as u32)
}

/// What the work made, and the processor time that this thread spent on it.
pub fn timed<T>(work: impl FnOnce() -> T) -> (T, Duration) {
    let start = of_thread();
    let made = work();
    (made, of_thread() - start)
}
