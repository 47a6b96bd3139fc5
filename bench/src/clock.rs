// The processor's time of this thread: what other programs take of the machine does not count, as it would by the clock on the wall.

use std::time::Duration;

extern "C" {
    fn clock_gettime(clock: i32, time: *mut [i64; 2]) -> i32;
}

// Linux's number for it.
const THREAD_CPUTIME: i32 = 3;

pub fn now() -> Duration {
    let mut time = [0; 2];
    // SAFETY: on 64-bit Linux a timespec is two 64-bit numbers, seconds and nanoseconds, and `time` has room for them.
    let status = unsafe { clock_gettime(THREAD_CPUTIME, &mut time) };
    assert_eq!(status, 0, "this system has no clock for a thread");
    Duration::new(time[0] as u64, time[1] as u32)
}
