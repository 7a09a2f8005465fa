//! The processor time of this thread. Other work on the machine hardly counts.

use std::ffi::{c_int, c_long};

#[repr(C)]
struct Timespec {
    seconds: c_long,
    nanoseconds: c_long,
}

extern "C" {
    fn clock_gettime(clock: c_int, time: *mut Timespec) -> c_int;
}

/// Linux's CLOCK_THREAD_CPUTIME_ID.
const OF_THIS_THREAD: c_int = 3;

pub fn nanoseconds() -> i64 {
    let mut time = Timespec {
        seconds: 0,
        nanoseconds: 0,
    };
    // SAFETY: the struct is C's timespec, and it outlives the call.
    let status = unsafe { clock_gettime(OF_THIS_THREAD, &mut time) };
    assert_eq!(status, 0, "there is no clock of processor time");
    time.seconds * 1_000_000_000 + time.nanoseconds
}
