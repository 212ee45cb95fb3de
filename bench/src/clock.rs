//! How long a call takes: the best of many short batches by the thread's own time, so that what else
//! runs on the machine counts least.

use std::ffi::{c_int, c_long};
use std::hint::black_box;
use std::time::Duration;

const BATCH: Duration = Duration::from_millis(1);
const ROUNDS: usize = 25;

/// How many states are made ready at a time: few enough to stay in the cache.
const READY: u64 = 8;

/// The clock of the calling thread, as Linux numbers it.
const CLOCK_THREAD_CPUTIME_ID: c_int = 3;

extern "C" {
    fn clock_gettime(clock: c_int, time: *mut [c_long; 2]) -> c_int;
}

fn now() -> Duration {
    let mut time = [0; 2];
    assert_eq!(
        unsafe { clock_gettime(CLOCK_THREAD_CPUTIME_ID, &mut time) },
        0
    );
    Duration::new(time[0] as u64, time[1] as u32)
}

/// Makes so many calls and tells how long they took.
pub type Batch<'a> = &'a mut dyn FnMut(u64) -> Duration;

/// Calls one after the other.
pub fn in_a_row<T>(mut call: impl FnMut() -> T) -> impl FnMut(u64) -> Duration {
    move |calls| {
        let start = now();
        for _ in 0..calls {
            black_box(call());
        }
        now() - start
    }
}

/// Calls on a state that is made ready for each. Making it ready, and dropping it, is not timed.
pub fn on_ready<S, T>(
    mut ready: impl FnMut() -> S,
    mut call: impl FnMut(&mut S) -> T,
) -> impl FnMut(u64) -> Duration {
    let step = clock_step();
    move |mut calls| {
        let mut total = Duration::ZERO;
        while calls > 0 {
            let mut states: Vec<S> = (0..calls.min(READY)).map(|_| ready()).collect();
            calls -= states.len() as u64;
            let start = now();
            for state in &mut states {
                black_box(call(black_box(state)));
            }
            total += (now() - start).saturating_sub(step);
        }
        total
    }
}

/// What two looks at the clock cost, in the middle of many.
fn clock_step() -> Duration {
    let mut steps = [(); 1000].map(|_| {
        let start = now();
        now() - start
    });
    steps.sort();
    steps[steps.len() / 2]
}

/// Nanoseconds of one call of each kind. The kinds take turns.
pub fn best<const N: usize>(mut kinds: [Batch<'_>; N]) -> [f64; N] {
    let calls = kinds.each_mut().map(|kind| calls_in_a_batch(kind));
    let mut best = [f64::INFINITY; N];
    for _ in 0..ROUNDS {
        for i in 0..N {
            let took = kinds[i](calls[i]).as_nanos() as f64 / calls[i] as f64;
            best[i] = best[i].min(took);
        }
    }
    best
}

/// By all that passes, with what is made ready.
fn calls_in_a_batch(kind: &mut Batch<'_>) -> u64 {
    let mut calls = 1;
    loop {
        let start = now();
        kind(calls);
        if now() - start >= BATCH {
            return calls;
        }
        calls *= 2;
    }
}
