//! Time as the bench and the growth count it: the thread's own, so that other work on the machine does not count.

/// What is timed, under a name that callgrind finds. Nanoseconds.
#[no_mangle]
#[inline(never)]
pub fn measured(f: &mut dyn FnMut()) -> u64 {
    let t = thread_time();
    f();
    thread_time() - t
}

/// Nanoseconds of this thread on the processor.
fn thread_time() -> u64 {
    #[repr(C)]
    struct Timespec {
        sec: i64,
        nsec: i64,
    }
    extern "C" {
        fn clock_gettime(clock: i32, t: *mut Timespec) -> i32;
    }
    const CLOCK_THREAD_CPUTIME_ID: i32 = 3;
    let mut t = Timespec { sec: 0, nsec: 0 };
    assert!(unsafe { clock_gettime(CLOCK_THREAD_CPUTIME_ID, &mut t) } == 0);
    t.sec as u64 * 1_000_000_000 + t.nsec as u64
}

/// The middle one.
pub fn median(v: &mut [f64]) -> f64 {
    v.sort_by(f64::total_cmp);
    v[v.len() / 2]
}
