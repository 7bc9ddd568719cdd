//! The time that this thread itself has run: what else the machine does is not counted.
use std::time::Duration;

#[repr(C)]
struct Timespec {
    seconds: i64,
    nanoseconds: i64,
}

/// Linux's CLOCK_THREAD_CPUTIME_ID.
const THREAD: i32 = 3;

extern "C" {
    fn clock_gettime(clock: i32, time: *mut Timespec) -> i32;
}

pub struct Clock(Duration);

fn now() -> Duration {
    let mut time = Timespec {
        seconds: 0,
        nanoseconds: 0,
    };
    let failed = unsafe { clock_gettime(THREAD, &mut time) };
    assert_eq!(failed, 0, "the thread has no clock");
    Duration::new(time.seconds as u64, time.nanoseconds as u32)
}

impl Clock {
    pub fn start() -> Clock {
        Clock(now())
    }

    pub fn elapsed(&self) -> Duration {
        now() - self.0
    }
}
