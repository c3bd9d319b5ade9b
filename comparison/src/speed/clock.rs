//! The processor time of this thread: what other threads and programs do on the machine is not counted.

use std::hint::black_box;
use std::time::Duration;

/// `struct timespec` of 64-bit Linux.
#[repr(C)]
struct Timespec {
    seconds: i64,
    nanoseconds: i64,
}

extern "C" {
    fn clock_gettime(clock: i32, time: *mut Timespec) -> i32;
}

const CLOCK_THREAD_CPUTIME_ID: i32 = 3;

fn now() -> Duration {
    let mut time = Timespec { seconds: 0, nanoseconds: 0 };
    // SAFETY: the struct is that of the C library, and is lent for the call alone.
    let status = unsafe { clock_gettime(CLOCK_THREAD_CPUTIME_ID, &mut time) };
    assert_eq!(status, 0, "no clock of the thread's processor time");
    Duration::new(time.seconds as u64, time.nanoseconds as u32)
}

/// What the clock itself takes: the least of many.
fn own() -> Duration {
    (0..1_000).map(|_| elapsed(now())).min().unwrap_or_default()
}

fn elapsed(start: Duration) -> Duration {
    now().saturating_sub(start)
}

/// Times calls, without what the clock itself takes.
pub struct Clock {
    own: Duration,
}

impl Clock {
    pub fn new() -> Clock {
        Clock { own: own() }
    }

    /// The time of one call; what it gives is dropped after that.
    pub fn time<R>(&self, call: impl FnOnce() -> R) -> Duration {
        let start = now();
        let result = black_box(call());
        let took = elapsed(start);
        drop(result);
        took.saturating_sub(self.own)
    }

    /// The least time of a call among so many, each made on what is prepared for it.
    pub fn least<T, R>(&self, times: usize, mut prepare: impl FnMut() -> T, mut call: impl FnMut(&mut T) -> R) -> Duration {
        let once = |_| {
            let mut state = prepare();
            self.time(|| call(black_box(&mut state)))
        };
        (0..times).map(once).min().unwrap_or_default()
    }

    /// The same for a call that changes nothing and takes less than the clock can tell: many at once.
    pub fn least_of_batch<R>(&self, times: usize, mut call: impl FnMut() -> R) -> Duration {
        const BATCH: u32 = 32;
        let mut batch = || {
            for _ in 0..BATCH {
                black_box(call());
            }
        };
        (0..times).map(|_| self.time(&mut batch)).min().unwrap_or_default() / BATCH
    }
}
