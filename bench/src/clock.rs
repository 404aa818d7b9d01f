//! Processor time of this thread. A search is so long that on a busy machine others run in between,
//! which is no part of it.

#[repr(C)]
struct Timespec {
    seconds: i64,
    nanoseconds: i64,
}

const THREAD: i32 = 3; // CLOCK_THREAD_CPUTIME_ID of Linux

extern "C" {
    fn clock_gettime(clock: i32, time: *mut Timespec) -> i32;
}

/// In nanoseconds.
pub fn processor_time() -> i64 {
    let mut time = Timespec {
        seconds: 0,
        nanoseconds: 0,
    };
    // `time` is laid out as Linux on x86-64 has it, and is written before the call returns.
    let code = unsafe { clock_gettime(THREAD, &mut time) };
    assert_eq!(code, 0);
    time.seconds * 1_000_000_000 + time.nanoseconds
}
