//! The processor's time.

#[repr(C)]
struct TimeSpec {
    seconds: i64,
    nanoseconds: i64,
}

const CLOCK_PROCESS_CPUTIME_ID: i32 = 2;

extern "C" {
    fn clock_gettime(clock: i32, time: *mut TimeSpec) -> i32;
}

/// The nanoseconds that this process has had a processor, other processes' turns left out.
pub fn processor_time() -> i64 {
    let mut time = TimeSpec { seconds: 0, nanoseconds: 0 };
    // It writes the time given, which lives until it has returned.
    let status = unsafe { clock_gettime(CLOCK_PROCESS_CPUTIME_ID, &mut time) };
    assert!(status == 0, "no clock of the processor's time");
    time.seconds * 1_000_000_000 + time.nanoseconds
}
