// SPDX-License-Identifier: Apache-2.0 OR BSD-3-Clause
//! The processor time of a thread, which other processes do not lengthen much.

/// Returns the processor time of the thread in nanoseconds.
pub fn processor_time() -> u64 {
    const CLOCK_THREAD_CPUTIME_ID: i32 = 3;
    extern "C" {
        fn clock_gettime(clock: i32, time: *mut [i64; 2]) -> i32;
    }
    let mut time = [0; 2];
    // SAFETY: a `timespec` of 64-bit Linux is two `i64`.
    let status = unsafe { clock_gettime(CLOCK_THREAD_CPUTIME_ID, &mut time) };
    assert_eq!(status, 0);
    (time[0] * 1_000_000_000 + time[1]) as u64
}
