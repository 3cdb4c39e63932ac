//! Processor times of two runs that take turns in one thread, so that what else the machine does counts less
//! and a change of its speed meets both.

/// C's `struct timespec`.
#[repr(C)]
struct Timespec {
    seconds: i64,
    nanoseconds: i64,
}

extern "C" {
    fn clock_gettime(clock: i32, time: *mut Timespec) -> i32;
}

/// Linux's number of the clock of this thread's processor time.
const THREAD_CLOCK: i32 = 3;

/// Nanoseconds that this thread has run.
fn thread_time() -> u128 {
    let mut time = Timespec { seconds: 0, nanoseconds: 0 };
    // SAFETY: `time` is live and has C's layout.
    let status = unsafe { clock_gettime(THREAD_CLOCK, &mut time) };
    assert_eq!(status, 0, "no clock of processor time");
    time.seconds as u128 * 1_000_000_000 + time.nanoseconds as u128
}

/// Keeps memory that was given back in the process. Whether glibc hands it to the system, and must ask for it
/// again in the next run, depends on what else lies in the heap: a Rust side was 1.2 times slower so.
pub fn keep_memory() {
    #[cfg(all(target_os = "linux", target_env = "gnu"))]
    {
        extern "C" {
            fn mallopt(which: i32, value: i32) -> i32;
        }
        // glibc's M_TRIM_THRESHOLD and M_MMAP_THRESHOLD
        // SAFETY: it takes and gives numbers alone.
        unsafe {
            mallopt(-1, 1 << 30);
            mallopt(-3, 1 << 25);
        }
    }
}

/// Nanoseconds of one run of each side.
#[derive(Debug, Clone, Copy)]
pub struct Times {
    pub port: u128,
    pub rust: u128,
}

impl Times {
    pub fn ratio(&self) -> f64 {
        self.port as f64 / self.rust as f64
    }

    /// The better of two sittings, side by side.
    pub fn best(self, other: Times) -> Times {
        Times { port: self.port.min(other.port), rust: self.rust.min(other.rust) }
    }
}

/// Rounds that are made however long they take.
const LEAST_ROUNDS: usize = 20;
/// Runs are timed as one up to so many nanoseconds, beside which a look at the clock counts little; so the shorter
/// a run, the more often it is made.
const BATCH_TIME: u128 = 40_000;
const MOST_RUNS: u128 = 128;

/// Nanoseconds of one of several runs.
pub fn batch(runs: usize, mut run: impl FnMut()) -> u128 {
    let start = thread_time();
    for _ in 0..runs {
        run();
    }
    (thread_time() - start) / runs as u128
}

/// The time under which a tenth of the rounds stayed: that of a quiet machine, but for single odd readings.
fn quiet(mut times: Vec<u128>) -> u128 {
    times.sort_unstable();
    times[times.len() / 10].max(1)
}

/// Two measurements in turn for so many nanoseconds.
pub fn in_turn(
    span: u128,
    mut port: impl FnMut() -> u128,
    mut rust: impl FnMut() -> u128,
) -> Times {
    let (mut ports, mut rusts) = (Vec::new(), Vec::new());
    let start = thread_time();
    while ports.len() < LEAST_ROUNDS || thread_time() - start < span {
        ports.push(port());
        rusts.push(rust());
    }
    Times { port: quiet(ports), rust: quiet(rusts) }
}

/// How many runs are timed as one.
fn runs_in_batch(mut run: impl FnMut()) -> usize {
    run();
    (BATCH_TIME / batch(1, run).max(1)).clamp(1, MOST_RUNS) as usize
}

/// Two runs in turn for so many nanoseconds, each in batches.
pub fn runs_in_turn(span: u128, mut port: impl FnMut(), mut rust: impl FnMut()) -> Times {
    let (ports, rusts) = (runs_in_batch(&mut port), runs_in_batch(&mut rust));
    in_turn(span, || batch(ports, &mut port), || batch(rusts, &mut rust))
}
