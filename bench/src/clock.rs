//! CPU time of this process: what others do on the machine is not in it, though it still wears on caches and clock.

#[repr(C)]
struct Timespec {
    seconds: i64,
    nanoseconds: i64,
}

/// Linux's number of the clock.
const CLOCK_PROCESS_CPUTIME_ID: i32 = 2;

extern "C" {
    fn clock_gettime(clock: i32, time: *mut Timespec) -> i32;
}

/// In microseconds.
pub fn cpu_time() -> f64 {
    let mut time = Timespec {
        seconds: 0,
        nanoseconds: 0,
    };
    // The struct is that of 64-bit Linux.
    let failed = unsafe { clock_gettime(CLOCK_PROCESS_CPUTIME_ID, &mut time) };
    assert_eq!(failed, 0, "no clock of CPU time");
    time.seconds as f64 * 1e6 + time.nanoseconds as f64 / 1e3
}
