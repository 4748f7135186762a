//! Least time of several repeats, and how a time is written.

use std::hint::black_box;
use std::time::{Duration, Instant};

/// The least times of two works, repeated by turns until both together took `budget`, so that what disturbs the machine disturbs both. Each is done once
/// before it is timed, and twice more at least, unless it takes longer than that budget.
pub fn race<T>(budget: Duration, mut one: impl FnMut() -> T, mut other: impl FnMut() -> T) -> (Duration, Duration) {
    let begun = Instant::now();
    let (once_of_one, once_of_other) = (timed(1, &mut one), timed(1, &mut other));
    let (turns_of_one, turns_of_other) = (turns(once_of_one), turns(once_of_other));
    let mut least = (once_of_one, once_of_other);
    let mut rounds = 0;
    while (rounds < 2 && least.0.max(least.1) < budget) || begun.elapsed() < budget {
        least.0 = least.0.min(timed(turns_of_one, &mut one));
        least.1 = least.1.min(timed(turns_of_other, &mut other));
        rounds += 1;
    }
    least
}

/// The least times of three works, as in a race.
pub fn least<A, B, C>(
    budget: Duration,
    mut one: impl FnMut() -> A,
    mut two: impl FnMut() -> B,
    mut three: impl FnMut() -> C,
) -> [Duration; 3] {
    let begun = Instant::now();
    let once = [timed(1, &mut one), timed(1, &mut two), timed(1, &mut three)];
    let turns = once.map(turns);
    let mut least = once;
    let mut rounds = 0;
    while rounds < 2 || begun.elapsed() < budget {
        let now = [timed(turns[0], &mut one), timed(turns[1], &mut two), timed(turns[2], &mut three)];
        least = [0, 1, 2].map(|i| least[i].min(now[i]));
        rounds += 1;
    }
    least
}

/// How often a work is done in one go, so that reading the clock does not count.
fn turns(once: Duration) -> u32 {
    const LONG: Duration = Duration::from_micros(50);
    (LONG.as_nanos() / once.max(Duration::from_nanos(100)).as_nanos()) as u32 + 1
}

/// The time of one turn.
fn timed<T>(turns: u32, work: &mut impl FnMut() -> T) -> Duration {
    let begun = on_the_core();
    for _ in 0..turns {
        black_box(work());
    }
    (on_the_core() - begun) / turns
}

/// How long this thread has been on a core: what other programs take does not count.
fn on_the_core() -> Duration {
    #[repr(C)]
    struct Timespec {
        seconds: i64,
        nanoseconds: i64,
    }
    extern "C" {
        fn clock_gettime(clock: i32, time: *mut Timespec) -> i32;
    }
    const THREAD: i32 = 3;
    let mut time = Timespec { seconds: 0, nanoseconds: 0 };
    // SAFETY: the C library that Rust links has this function, and a 64-bit Linux this layout.
    let failed = unsafe { clock_gettime(THREAD, &mut time) };
    assert_eq!(failed, 0);
    Duration::new(time.seconds as u64, time.nanoseconds as u32)
}

pub fn median<T: Ord + Copy>(list: &mut [T]) -> T {
    list.sort();
    list[list.len() / 2]
}

pub fn written(time: Duration) -> String {
    let micros = time.as_secs_f64() * 1e6;
    match micros {
        _ if micros < 10.0 => format!("{micros:.2} µs"),
        _ if micros < 1_000.0 => format!("{micros:.0} µs"),
        _ if micros < 10_000.0 => format!("{:.2} ms", micros / 1e3),
        _ => format!("{:.0} ms", micros / 1e3),
    }
}

pub fn ratio(one: Duration, other: Duration) -> String {
    format!("{:.2}", one.as_secs_f64() / other.as_secs_f64())
}
