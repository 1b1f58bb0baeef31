//! The processor time of this thread, so that what else runs on the machine counts little.

use std::time::Duration;

#[repr(C)]
struct Timespec {
    seconds: i64,
    nanos: i64,
}

unsafe extern "C" {
    fn clock_gettime(clock: i32, time: *mut Timespec) -> i32;
}

/// `CLOCK_THREAD_CPUTIME_ID` of Linux.
const OF_THREAD: i32 = 3;

pub fn spent() -> Duration {
    let mut time = Timespec { seconds: 0, nanos: 0 };
    // SAFETY: the struct is laid out as C's `timespec` is on 64-bit Linux.
    let status = unsafe { clock_gettime(OF_THREAD, &mut time) };
    assert_eq!(status, 0, "Linux has this clock");
    Duration::new(time.seconds as u64, time.nanos as u32)
}
