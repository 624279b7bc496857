//! Processor time of this thread. What other programs take of the machine is not in it.

use std::hint::black_box;

#[repr(C)]
struct Timespec {
    seconds: i64,
    nanoseconds: i64,
}

/// CLOCK_THREAD_CPUTIME_ID of Linux.
const THREAD_PROCESSOR_TIME: i32 = 3;

extern "C" {
    fn clock_gettime(clock: i32, time: *mut Timespec) -> i32;
}

/// In nanoseconds.
fn now() -> i64 {
    let mut time = Timespec { seconds: 0, nanoseconds: 0 };
    // The pointer is to a struct of the layout that the call fills.
    let status = unsafe { clock_gettime(THREAD_PROCESSOR_TIME, &mut time) };
    assert!(status == 0, "this system has no clock of a thread's processor time");
    time.seconds * 1_000_000_000 + time.nanoseconds
}

/// Nanoseconds of one call. Its value is dropped after the clock was read again.
fn nanoseconds<T>(call: impl FnOnce() -> T) -> i64 {
    let started = now();
    let value = black_box(call());
    let ended = now();
    drop(value);
    ended - started
}

/// A clock that takes off what reading it costs by itself.
pub struct Clock {
    own: i64,
}

impl Clock {
    pub fn new() -> Self {
        let own = (0..10_000).map(|_| nanoseconds(|| ())).min().unwrap_or(0);
        Clock { own }
    }

    /// Microseconds of one call.
    pub fn micros<T>(&self, call: impl FnOnce() -> T) -> f64 {
        (nanoseconds(call) - self.own) as f64 / 1e3
    }
}

impl Default for Clock {
    fn default() -> Self {
        Self::new()
    }
}
