//! The clock of a thread's processor time, which does not run while the thread waits for a processor.

use std::time::Duration;

/// The clock's number on Linux.
const THREAD_CLOCK: i32 = 3;

/// C's `struct timespec` on 64-bit Linux.
#[repr(C)]
#[derive(Default)]
struct TimeSpec {
    seconds: i64,
    nanoseconds: i64,
}

unsafe extern "C" {
    fn clock_gettime(clock: i32, time: *mut TimeSpec) -> i32;
}

/// The processor time that this thread has used.
pub fn time() -> Duration {
    let mut time = TimeSpec::default();
    // SAFETY: the pointer is to a live `timespec`.
    let status = unsafe { clock_gettime(THREAD_CLOCK, &mut time) };
    assert_eq!(status, 0, "the system has the clock");
    Duration::new(time.seconds as u64, time.nanoseconds as u32)
}
