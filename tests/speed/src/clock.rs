// The processor time of this thread, which other programs on a busy machine do not lengthen as they do the wall's.

use std::time::Duration;

#[repr(C)]
struct Timespec {
    seconds: i64,
    nanoseconds: i64,
}

/// The C library's number for a thread's own clock on Linux.
const THREAD_CPUTIME: i32 = 3;

extern "C" {
    fn clock_gettime(clock: i32, now: *mut Timespec) -> i32;
}

fn now() -> Duration {
    let mut now = Timespec {
        seconds: 0,
        nanoseconds: 0,
    };
    // SAFETY: the struct is the C library's on x86-64 Linux, and lives until the call returns.
    let failed = unsafe { clock_gettime(THREAD_CPUTIME, &mut now) };
    assert_eq!(failed, 0, "Linux has a clock for each thread");
    Duration::new(now.seconds as u64, now.nanoseconds as u32)
}

/// What the work gave, and the processor time that it took.
pub fn timed<T>(work: impl FnOnce() -> T) -> (Duration, T) {
    let start = now();
    let done = work();
    (now() - start, done)
}
