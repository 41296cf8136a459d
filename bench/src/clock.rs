//! Time that this thread spent on a processor, so that other work on the machine counts for little.

use std::ffi::c_int;

#[repr(C)]
struct Timespec {
    seconds: i64,
    nanoseconds: i64,
}

extern "C" {
    fn clock_gettime(clock: c_int, time: *mut Timespec) -> c_int;
}

const CLOCK_THREAD_CPUTIME_ID: c_int = 3;

/// Nanoseconds on a processor since the thread began.
fn now() -> f64 {
    let mut time = Timespec {
        seconds: 0,
        nanoseconds: 0,
    };
    // SAFETY: the pointer is to a local of the type that the C library of 64-bit Linux has.
    let answer = unsafe { clock_gettime(CLOCK_THREAD_CPUTIME_ID, &mut time) };
    assert_eq!(answer, 0, "clock_gettime gives the time");
    time.seconds as f64 * 1e9 + time.nanoseconds as f64
}

/// Nanoseconds on a processor that `work` takes.
pub fn spent(work: impl FnOnce()) -> f64 {
    let before = now();
    work();
    now() - before
}
