//! Two clocks: the wall's, and the processor time of this thread, which other work on the machine moves less.

use std::sync::OnceLock;
use std::time::Instant;

#[derive(Clone, Copy, PartialEq, Eq)]
pub enum Clock {
    Wall,
    Thread,
}

impl Clock {
    /// Seconds since some fixed moment.
    pub fn seconds(self) -> f64 {
        static START: OnceLock<Instant> = OnceLock::new();
        match self {
            Self::Wall => START.get_or_init(Instant::now).elapsed().as_secs_f64(),
            Self::Thread => thread_seconds(),
        }
    }
}

/// The kernel's `struct timespec` on x86-64 Linux.
#[repr(C)]
struct Timespec {
    seconds: i64,
    nanoseconds: i64,
}

/// Linux's number of the clock that counts a thread's processor time.
const CLOCK_THREAD_CPUTIME_ID: i32 = 3;

unsafe extern "C" {
    fn clock_gettime(clock: i32, time: *mut Timespec) -> i32;
}

fn thread_seconds() -> f64 {
    let mut time = Timespec {
        seconds: 0,
        nanoseconds: 0,
    };
    // The C library writes one timespec, and `time` is one.
    let failed = unsafe { clock_gettime(CLOCK_THREAD_CPUTIME_ID, &mut time) };
    assert_eq!(
        failed, 0,
        "this system has no clock of a thread's processor time"
    );
    time.seconds as f64 + time.nanoseconds as f64 / 1e9
}
