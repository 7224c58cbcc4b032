//! Time that a call takes, without that in which other work had the processor.
use std::time::{Duration, Instant};

unsafe extern "C" {
    // time.h: seconds and nanoseconds
    fn clock_gettime(clock: i32, time: *mut [i64; 2]) -> i32;
}

/// CLOCK_THREAD_CPUTIME_ID of Linux
const THREAD: i32 = 3;

fn of_thread() -> Duration {
    let mut time = [0; 2];
    // two words are there to be written
    let failed = unsafe { clock_gettime(THREAD, &mut time) };
    assert_eq!(failed, 0, "the thread has a clock");
    Duration::new(time[0] as u64, time[1] as u32)
}

/// The thread's own clock takes longer to read than a short call does, and the other runs on while the thread waits: the
/// one that says less is right.
pub struct Clock {
    thread: Duration,
    all: Instant,
}

impl Clock {
    pub fn start() -> Clock {
        let thread = of_thread();
        Clock {
            thread,
            all: Instant::now(),
        }
    }

    pub fn elapsed(&self) -> Duration {
        let all = self.all.elapsed();
        all.min(of_thread() - self.thread)
    }
}
