//! Processor time of this process.

#[repr(C)]
struct Moment {
    seconds: i64,
    nanoseconds: i64,
}

const PROCESS_TIME: i32 = 2;

unsafe extern "C" {
    fn clock_gettime(clock: i32, moment: *mut Moment) -> i32;
}

fn now() -> f64 {
    let mut moment = Moment {
        seconds: 0,
        nanoseconds: 0,
    };
    // Safety: the pointer is to a whole timespec of a 64-bit Linux.
    let failed = unsafe { clock_gettime(PROCESS_TIME, &mut moment) };
    assert_eq!(failed, 0, "the process has a clock");
    moment.seconds as f64 + moment.nanoseconds as f64 / 1e9
}

/// Seconds of processor time that `work` takes.
pub fn seconds<T>(work: impl FnOnce() -> T) -> (T, f64) {
    let begun = now();
    let made = work();
    (made, now() - begun)
}
