//! Cores and clocks, of which the standard library has a part: the rest are calls of the system's C library.

/// Clocks in nanoseconds, and cores, by the calls of Linux.
#[cfg(target_os = "linux")]
mod calls {
    use std::ffi::{c_int, c_long};
    use std::mem;

    const CLOCK_MONOTONIC: c_int = 1;
    const CLOCK_PROCESS_CPUTIME_ID: c_int = 2;
    const CLOCK_THREAD_CPUTIME_ID: c_int = 3;

    #[repr(C)]
    struct Timespec {
        seconds: c_long,
        nanoseconds: c_long,
    }

    extern "C" {
        fn clock_gettime(clock: c_int, time: *mut Timespec) -> c_int;
        fn sched_setaffinity(thread: c_int, size: usize, set: *const u64) -> c_int;
    }

    fn told_by(clock: c_int) -> u64 {
        let mut time = Timespec { seconds: 0, nanoseconds: 0 };
        // SAFETY: the pointer leads to a time that the call may write.
        let code = unsafe { clock_gettime(clock, &mut time) };
        crate::must(code == 0, "no clock");
        time.seconds as u64 * 1_000_000_000 + time.nanoseconds as u64
    }

    pub fn processor_time() -> u64 {
        told_by(CLOCK_THREAD_CPUTIME_ID)
    }

    pub fn busy_time() -> u64 {
        told_by(CLOCK_PROCESS_CPUTIME_ID)
    }

    pub fn elapsed() -> u64 {
        told_by(CLOCK_MONOTONIC)
    }

    pub fn pin(core: usize) {
        let mut set = [0u64; 16];
        crate::must(core < 1024, "there is no such core");
        set[core / 64] = 1 << (core % 64);
        // SAFETY: the pointer leads to as many bytes as the number says, which are only read.
        let code = unsafe { sched_setaffinity(0, mem::size_of_val(&set), set.as_ptr()) };
        crate::must(code == 0, "a thread can't be pinned to its core");
    }
}

/// The time of day alone, and no cores.
#[cfg(not(target_os = "linux"))]
mod calls {
    use std::sync::OnceLock;
    use std::time::Instant;

    static BEGIN: OnceLock<Instant> = OnceLock::new();

    pub fn elapsed() -> u64 {
        BEGIN.get_or_init(Instant::now).elapsed().as_nanos() as u64
    }

    pub fn processor_time() -> u64 {
        elapsed()
    }

    pub fn busy_time() -> u64 {
        elapsed()
    }

    pub fn pin(_core: usize) {
        crate::must(false, "threads can't be pinned here");
    }
}

pub use calls::{busy_time, elapsed, pin, processor_time};
