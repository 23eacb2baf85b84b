//! The processor time of this thread, which other work on the machine does not lengthen by taking the processor away.

use std::time::Duration;

#[repr(C)]
struct Timespec {
    seconds: i64,
    nanoseconds: i64,
}

/// CLOCK_THREAD_CPUTIME_ID of Linux.
const THREAD: i32 = 3;

extern "C" {
    fn clock_gettime(clock: i32, time: *mut Timespec) -> i32;
}

pub fn spent() -> Duration {
    let mut time = Timespec { seconds: 0, nanoseconds: 0 };
    // the C library fills the struct that it is lent
    let status = unsafe { clock_gettime(THREAD, &mut time) };
    assert!(status == 0, "the thread has a clock");
    Duration::new(time.seconds as u64, time.nanoseconds as u32)
}
