//! Times of the benchmarks. A thread's processor time stands still while another program has the processor, so that a busy
//! machine does not alter the ratios.

/// Linux's clock of the processor time of a thread.
const CLOCK_THREAD_CPUTIME_ID: i32 = 3;

#[repr(C)]
struct TimeSpec {
    seconds: i64,
    nanoseconds: i64,
}

/// Seconds and microseconds.
#[repr(C)]
#[derive(Clone, Copy)]
struct Time {
    seconds: i64,
    microseconds: i64,
}

/// The times of a process in user mode and in the system, and fourteen counts that are not used here.
#[repr(C)]
struct Usage {
    user: Time,
    system: Time,
    counts: [i64; 14],
}

extern "C" {
    fn clock_gettime(clock: i32, time: *mut TimeSpec) -> i32;
    fn getrusage(who: i32, usage: *mut Usage) -> i32;
}

/// What this thread has used so far, in nanoseconds.
pub fn processor_time() -> f64 {
    let mut time = TimeSpec { seconds: 0, nanoseconds: 0 };
    // SAFETY: the call writes the struct that it is lent, of the C struct's layout, and keeps no pointer.
    let status = unsafe { clock_gettime(CLOCK_THREAD_CPUTIME_ID, &mut time) };
    assert_eq!(status, 0, "Linux has this clock");
    time.seconds as f64 * 1e9 + time.nanoseconds as f64
}

/// The processor time of all processes that were started here and have ended, in seconds. Other work on the machine
/// disturbs it less than the time on a clock.
pub fn processor_time_of_children() -> f64 {
    const CHILDREN: i32 = -1;
    let none = Time { seconds: 0, microseconds: 0 };
    let mut usage = Usage { user: none, system: none, counts: [0; 14] };
    // SAFETY: the struct has the layout of the system's own and is lent for the call alone.
    assert_eq!(unsafe { getrusage(CHILDREN, &mut usage) }, 0, "the times of processes can be read");
    let seconds = |time: Time| time.seconds as f64 + time.microseconds as f64 / 1e6;
    seconds(usage.user) + seconds(usage.system)
}

pub fn median(mut times: Vec<f64>) -> f64 {
    times.sort_by(f64::total_cmp);
    times[times.len() / 2]
}
