//! Times for the measurements of the proved server and the proved store: only the time that the thread itself runs counts.

/// As C's `struct timespec` is on Linux for x86-64.
#[repr(C)]
struct Timespec {
    seconds: i64,
    nanoseconds: i64,
}

extern "C" {
    fn clock_gettime(clock: i32, time: *mut Timespec) -> i32;
}

/// The time that this thread has run, in nanoseconds: other programs on the machine do not count.
fn now() -> f64 {
    const CLOCK_THREAD_CPUTIME_ID: i32 = 3;
    let mut time = Timespec {
        seconds: 0,
        nanoseconds: 0,
    };
    let status = unsafe { clock_gettime(CLOCK_THREAD_CPUTIME_ID, &mut time) };
    assert_eq!(status, 0);
    time.seconds as f64 * 1e9 + time.nanoseconds as f64
}

/// The time of one act in nanoseconds, over so many.
pub fn timed(acts: usize, mut act: impl FnMut()) -> f64 {
    let began = now();
    (0..acts).for_each(|_| act());
    (now() - began) / acts as f64
}

pub fn median(mut times: Vec<f64>) -> f64 {
    times.sort_by(f64::total_cmp);
    times[times.len() / 2]
}

/// How many acts a run has, so that the clock measures it well, and how many runs are made, so that all take about as long.
pub struct Plan {
    pub acts: usize,
    pub runs: usize,
}

/// The least time of a run, and about the time of all runs, in nanoseconds.
const RUN: f64 = 200_000.0;
const ALL_RUNS: f64 = 150_000_000.0;

impl Plan {
    /// `once` makes so many acts and says the time of one; an act that does not repeat is made once a run.
    pub fn new(repeats: bool, mut once: impl FnMut(usize) -> f64) -> Plan {
        let mut acts = 1;
        while repeats && once(acts) * (acts as f64) < RUN {
            acts *= 2;
        }
        let run = once(acts) * acts as f64;
        let runs = ((ALL_RUNS / run) as usize).clamp(7, 101);
        Plan { acts, runs }
    }
}

/// The median time of one act in nanoseconds.
pub fn measured(mut act: impl FnMut()) -> f64 {
    let mut once = |acts| timed(acts, &mut act);
    let plan = Plan::new(true, &mut once);
    median((0..plan.runs).map(|_| once(plan.acts)).collect())
}

/// The value, of which the compiler then knows nothing, so that it leaves out no work on it. (Rust 1.63 has no `std::hint::black_box`.)
pub fn opaque<T>(mut value: T) -> T {
    // no instruction, but one that could read and write the value
    unsafe {
        std::arch::asm!("/* {0} */", in(reg) &mut value, options(nostack, preserves_flags));
    }
    value
}
