//! Times in turn: each round runs every side once, so that all see the same machine; the best round
//! of each side counts. The clock is this thread's own CPU time, so that other work disturbs less.
use std::hint::black_box;

pub const ROUNDS: usize = 15;

/// A round of one side lasts at least about this long, so that the clock itself does not count.
const ROUND_NS: f64 = 300_000.0;

/// One way to do an operation. It keeps what it made until it is asked to drop it, outside the clock.
pub struct Side<'a> {
    pub run: Box<dyn FnMut() + 'a>,
    pub after: Option<Box<dyn FnMut() + 'a>>,
}

impl<'a> Side<'a> {
    /// What comes out is used, and costs nothing to drop.
    pub fn new<T>(mut f: impl FnMut() -> T + 'a) -> Self {
        Self { run: Box::new(move || drop(black_box(f()))), after: None }
    }
}

/// CPU time of this thread, in ns (Linux).
fn cpu_ns() -> f64 {
    const CLOCK_THREAD_CPUTIME_ID: i32 = 3;
    unsafe extern "C" {
        fn clock_gettime(clock: i32, time: *mut [i64; 2]) -> i32;
    }
    let mut t = [0; 2];
    // SAFETY: on a 64-bit machine a timespec is two 64-bit integers.
    assert_eq!(unsafe { clock_gettime(CLOCK_THREAD_CPUTIME_ID, &mut t) }, 0);
    t[0] as f64 * 1e9 + t[1] as f64
}

/// The time of `times` runs. Where something must be dropped after each, the clock stops for it.
fn round(side: &mut Side, times: usize) -> f64 {
    let Some(after) = &mut side.after else {
        let start = cpu_ns();
        (0..times).for_each(|_| (side.run)());
        return cpu_ns() - start;
    };
    let mut sum = 0.0;
    for _ in 0..times {
        let start = cpu_ns();
        (side.run)();
        sum += cpu_ns() - start;
        after();
    }
    sum
}

/// The best time of one run of each side, in ns.
pub fn best(sides: &mut [Side]) -> Vec<f64> {
    // The first runs warm caches and tell how many runs make a round.
    let times: Vec<usize> = sides
        .iter_mut()
        .map(|side| {
            round(side, 1);
            let once = round(side, 2) / 2.0;
            (ROUND_NS / once.max(20.0)).ceil().clamp(1.0, 10_000.0) as usize
        })
        .collect();
    let mut best = vec![f64::INFINITY; sides.len()];
    for _ in 0..ROUNDS {
        for (k, side) in sides.iter_mut().enumerate() {
            best[k] = best[k].min(round(side, times[k]) / times[k] as f64);
        }
    }
    best
}
