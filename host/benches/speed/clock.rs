//! The processor's time for this thread, which does not go on while the machine runs something else in its place.
use std::time::Duration;

/// What C calls `struct timespec` on 64-bit Linux.
#[repr(C)]
struct Timespec {
    seconds: i64,
    nanoseconds: i64,
}

/// C's name for the clock: CLOCK_THREAD_CPUTIME_ID.
const THREAD_TIME: i32 = 3;

extern "C" {
    fn clock_gettime(clock: i32, time: *mut Timespec) -> i32;
}

/// How long this thread has run.
pub fn thread_time() -> Duration {
    let mut time = Timespec { seconds: 0, nanoseconds: 0 };
    // The pointer is to what the C function writes, and it keeps none.
    let failed = unsafe { clock_gettime(THREAD_TIME, &mut time) };
    assert_eq!(failed, 0, "the thread's time");
    Duration::new(time.seconds as u64, time.nanoseconds as u32)
}
