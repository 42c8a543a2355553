//! Time that other work on the machine is not in.

use std::hint::black_box;
use std::time::Instant;

#[repr(C)]
struct Timespec {
    seconds: i64,
    nanoseconds: i64,
}

unsafe extern "C" {
    fn clock_gettime(clock: i32, time: &mut Timespec) -> i32;
}

/// The processor's time of this thread, in nanoseconds.
pub fn processor() -> f64 {
    const CLOCK_THREAD_CPUTIME_ID: i32 = 3;
    let mut time = Timespec { seconds: 0, nanoseconds: 0 };
    // SAFETY: the C library's function writes the struct that it is lent.
    let done = unsafe { clock_gettime(CLOCK_THREAD_CPUTIME_ID, &mut time) };
    assert_eq!(done, 0);
    1e9 * time.seconds as f64 + time.nanoseconds as f64
}

/// From so many nanoseconds on the processor's time is taken, whose own cost does not matter there.
const LONG: f64 = 100_000.0;

/// Nanoseconds. What is made is given back, so that its end is not in the time.
///
/// Short work is timed by the clock on the wall, which costs little. Work that takes long, or
/// that was interrupted and so seems to, is timed by the processor's time.
pub fn time<T>(what: impl FnOnce() -> T) -> (f64, T) {
    let before = processor();
    let start = Instant::now();
    let made = black_box(what());
    let wall = start.elapsed().as_nanos() as f64;
    let taken = processor() - before;
    (if wall < LONG { wall } else { taken }, made)
}
