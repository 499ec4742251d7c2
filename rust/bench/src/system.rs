//! What is asked of the system so that a busy machine disturbs the times less.

/// Nanoseconds that this thread and the processes that it waited for have worked: not those in which they waited for
/// their turn.
#[cfg(all(target_os = "linux", target_pointer_width = "64"))]
pub fn worked() -> f64 {
    #[repr(C)]
    #[derive(Default)]
    struct Time {
        seconds: i64,
        fraction: i64,
    }
    #[repr(C)]
    #[derive(Default)]
    struct Usage {
        user: Time,
        system: Time,
        rest: [i64; 14],
    }
    extern "C" {
        fn clock_gettime(clock: i32, time: *mut Time) -> i32;
        fn getrusage(whose: i32, usage: *mut Usage) -> i32;
    }
    const OF_THIS_THREAD: i32 = 3;
    const OF_CHILDREN: i32 = -1;
    let (mut time, mut usage) = (Time::default(), Usage::default());
    // SAFETY: time and usage outlive the calls, and have the layout that the system writes.
    let failed = unsafe { getrusage(OF_CHILDREN, &mut usage) != 0 || clock_gettime(OF_THIS_THREAD, &mut time) != 0 };
    assert!(!failed, "the system has these clocks");
    let seconds = time.seconds + usage.user.seconds + usage.system.seconds;
    let microseconds = usage.user.fraction + usage.system.fraction;
    seconds as f64 * 1e9 + microseconds as f64 * 1e3 + time.fraction as f64
}

/// Nanoseconds, waiting included.
#[cfg(not(all(target_os = "linux", target_pointer_width = "64")))]
pub fn worked() -> f64 {
    static START: std::sync::OnceLock<std::time::Instant> = std::sync::OnceLock::new();
    START.get_or_init(std::time::Instant::now).elapsed().as_nanos() as f64
}

/// Keeps the heap from giving freed memory back to the system: whether the original's blocks went back, and came again
/// page by page, would hang on what happens to lie above them.
pub fn keep_the_heap() {
    #[cfg(target_env = "gnu")]
    {
        extern "C" {
            fn mallopt(parameter: i32, value: i32) -> i32;
        }
        const TRIM_THRESHOLD: i32 = -1;
        // SAFETY: sets one number of the allocator, while no other thread is there.
        unsafe { mallopt(TRIM_THRESHOLD, i32::MAX) };
    }
}
