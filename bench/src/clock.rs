//! The processor time of the calling thread: what other processes take is not counted.

use std::ffi::{c_int, c_long};
use std::time::Duration;

/// struct timespec of 64-bit Linux.
#[repr(C)]
struct Timespec {
    seconds: c_long,
    nanoseconds: c_long,
}

const CLOCK_THREAD_CPUTIME_ID: c_int = 3;

extern "C" {
    fn clock_gettime(clock: c_int, time: *mut Timespec) -> c_int;
}

/// The time that this thread has run so far.
pub fn thread_time() -> Duration {
    let mut time = Timespec {
        seconds: 0,
        nanoseconds: 0,
    };
    // The pointer is to a local of the C structure's form.
    let answer = unsafe { clock_gettime(CLOCK_THREAD_CPUTIME_ID, &mut time) };
    assert_eq!(answer, 0, "the thread's clock can be read");
    Duration::new(time.seconds as u64, time.nanoseconds as u32)
}
