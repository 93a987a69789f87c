//! The processor time of this thread. It stands still while other programs have the processor, so
//! that a call longer than a time slice is not charged with theirs.

use std::time::Duration;

/// As Linux lays it out on a 64-bit machine.
#[repr(C)]
struct Timespec {
    seconds: i64,
    nanoseconds: i64,
}

/// CLOCK_THREAD_CPUTIME_ID.
const THREAD: i32 = 3;

extern "C" {
    fn clock_gettime(clock: i32, time: *mut Timespec) -> i32;
}

pub fn now() -> Duration {
    let mut time = Timespec { seconds: 0, nanoseconds: 0 };
    // The pointer is to one time of the layout above.
    let status = unsafe { clock_gettime(THREAD, &mut time) };
    assert_eq!(status, 0, "the thread's clock can be read");
    Duration::new(time.seconds as u64, time.nanoseconds as u32)
}
