//! The time that this thread has run, so that what else the machine does counts as little as it can.

unsafe extern "C" {
    fn clock_gettime(clock: i32, time: *mut [i64; 2]) -> i32;
}

const CLOCK_THREAD_CPUTIME_ID: i32 = 3;

fn now() -> f64 {
    let mut time = [0i64; 2];
    let failed = unsafe { clock_gettime(CLOCK_THREAD_CPUTIME_ID, &mut time) };
    assert_eq!(failed, 0);
    time[0] as f64 + time[1] as f64 * 1e-9
}

/// A moment of this thread's time.
pub struct Moment(f64);

impl Moment {
    pub fn now() -> Moment {
        Moment(now())
    }

    /// The seconds since then.
    pub fn seconds(&self) -> f64 {
        now() - self.0
    }
}
