//! The time that this thread has spent on a processor. Unlike a clock on the wall it does not run on while another program has
//! the processor, so that a call which is longer than a turn there is not counted as slower than it is.

use std::time::Duration;

#[repr(C)]
struct Timespec {
    seconds: i64,
    nanoseconds: i64,
}

/// Linux's number of the clock.
const CLOCK_THREAD_CPUTIME_ID: i32 = 3;

extern "C" {
    fn clock_gettime(clock: i32, time: *mut Timespec) -> i32;
}

pub fn now() -> Duration {
    let mut time = Timespec { seconds: 0, nanoseconds: 0 };
    // Safe: on the machines that the bench is for, both fields of a timespec have 64 bits.
    let status = unsafe { clock_gettime(CLOCK_THREAD_CPUTIME_ID, &mut time) };
    assert_eq!(status, 0, "the thread's clock cannot be read");
    Duration::new(time.seconds as u64, time.nanoseconds as u32)
}
