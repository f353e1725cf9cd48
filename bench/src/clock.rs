//! The time that this thread had the processor. A busy machine takes it away now and then, and that is no cost of a step.

use std::time::Duration;

/// As 64-bit Linux has it.
#[repr(C)]
struct Timespec {
    seconds: i64,
    nanoseconds: i64,
}

const THREAD_CPUTIME: i32 = 3;

extern "C" {
    fn clock_gettime(clock: i32, time: *mut Timespec) -> i32;
}

fn now() -> Duration {
    let mut time = Timespec { seconds: 0, nanoseconds: 0 };
    // Safe: the call writes one Timespec, and this is one.
    let failed = unsafe { clock_gettime(THREAD_CPUTIME, &mut time) };
    assert_eq!(failed, 0, "Linux has this clock");
    Duration::new(time.seconds as u64, time.nanoseconds as u32)
}

/// What the work gives, and the time that it took.
#[inline(always)]
pub fn timed<T>(work: impl FnOnce() -> T) -> (Duration, T) {
    let start = now();
    let given = work();
    (now() - start, given)
}
