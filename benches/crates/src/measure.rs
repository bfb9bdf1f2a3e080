//! What a row has taken, and the clock of a thread.
use std::time::Duration;

pub struct Measure {
    pub amount: u128,
    pub sum: u64,
}

impl Measure {
    pub fn of_time(took: Duration, sum: u64) -> Measure {
        Measure {
            amount: took.as_nanos(),
            sum,
        }
    }
}

/// The processor time of this thread.
pub fn processor_time() -> Duration {
    #[repr(C)]
    struct Time {
        seconds: i64,
        nanoseconds: i64,
    }
    unsafe extern "C" {
        fn clock_gettime(clock: i32, time: *mut Time) -> i32;
    }
    // As Linux numbers it.
    const THREAD_CLOCK: i32 = 3;
    let mut time = Time {
        seconds: 0,
        nanoseconds: 0,
    };
    // SAFETY: the call writes one time, for which there is place.
    unsafe { clock_gettime(THREAD_CLOCK, &mut time) };
    Duration::new(time.seconds as u64, time.nanoseconds as u32)
}
