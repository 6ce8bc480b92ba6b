//! The processor time of this thread. Rounds are timed by it and not by the
//! clock on the wall: where other programs want the same processors, a long
//! round is put aside more often than a short one, and the longer side would
//! pay for them.
#![allow(unsafe_code)]

extern "C" {
    fn clock_gettime(clock: i32, time: *mut [i64; 2]) -> i32;
}

/// Linux's number of the clock.
const THREAD_TIME: i32 = 3;

/// Nanoseconds since some beginning.
pub fn now() -> f64 {
    let mut time = [0; 2];
    // Seconds and nanoseconds, 64 bits each where a pointer has 64.
    let told = unsafe { clock_gettime(THREAD_TIME, &mut time) };
    assert_eq!(told, 0, "the thread's clock is there");
    time[0] as f64 * 1e9 + time[1] as f64
}
