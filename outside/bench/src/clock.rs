//! The processor time of this thread, which other work on the machine hardly touches.

use std::ffi::c_int;

#[repr(C)]
struct Time {
    seconds: i64,
    nanoseconds: i64,
}

/// CLOCK_THREAD_CPUTIME_ID of Linux.
const THREAD: c_int = 3;

extern "C" {
    fn clock_gettime(clock: c_int, time: *mut Time) -> c_int;
}

pub fn nanoseconds() -> i64 {
    let mut time = Time { seconds: 0, nanoseconds: 0 };
    // the call writes the time and keeps no pointer
    assert_eq!(unsafe { clock_gettime(THREAD, &mut time) }, 0);
    1_000_000_000 * time.seconds + time.nanoseconds
}
