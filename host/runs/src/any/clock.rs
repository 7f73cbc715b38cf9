//! The time that this thread has had, so that other work on the machine is not counted.

use std::ffi::c_int;

extern "C" {
    fn clock_gettime(clock: c_int, seconds_and_nanoseconds: *mut [i64; 2]) -> c_int;
}

/// The number of Linux for the processor's time of a thread.
const THREAD: c_int = 3;

/// Microseconds.
pub fn now() -> f64 {
    let mut time = [0; 2];
    unsafe { clock_gettime(THREAD, &raw mut time) };
    time[0] as f64 * 1e6 + time[1] as f64 / 1e3
}
