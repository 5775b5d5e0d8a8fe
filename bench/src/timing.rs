//! Times of works done in turn, and the table that they are printed in.

use std::hint::black_box;

extern "C" {
    fn clock_gettime(clock: i32, time: *mut [i64; 2]) -> i32;
}

/// Linux's number for the clock of the thread's own time on a processor.
const THREAD_TIME: i32 = 3;

pub const ROUNDS: usize = 9;

/// The thread's time so far, in seconds. What else runs on the machine does not count.
fn now() -> f64 {
    let mut time = [0; 2];
    assert_eq!(unsafe { clock_gettime(THREAD_TIME, &mut time) }, 0);
    time[0] as f64 + time[1] as f64 / 1e9
}

/// The median of each work's times over the rounds, in seconds; in a round each is done once, in turn.
pub fn medians<const N: usize>(mut works: [&mut dyn FnMut(); N]) -> [f64; N] {
    let mut times = [const { Vec::new() }; N];
    for _ in 0..ROUNDS {
        for (work, times) in works.iter_mut().zip(&mut times) {
            let start = now();
            work();
            times.push(now() - start);
        }
    }
    times.map(|mut times| {
        times.sort_by(f64::total_cmp);
        times[ROUNDS / 2]
    })
}

/// A work done so many times.
pub fn repeat(count: u32, mut work: impl FnMut()) -> impl FnMut() {
    move || (0..count).for_each(|_| work())
}

/// The heading of rows that `row` prints; `last` names what is printed after them.
pub fn heading(what: &str, others: &[&str], last: &str) {
    print!("\n{what:<38}{:>10}", "proved");
    for other in others {
        print!("{other:>12}{:>8}", "ratio");
    }
    println!("{last}");
}

/// The proved call's time and then each other's, with the ratio to it; times in nanoseconds for each of `count`.
pub fn row<const N: usize>(name: &str, count: u32, times: [f64; N], last: &str) {
    let each = |seconds: f64| seconds * 1e9 / count as f64;
    print!("{name:<38}{:>10.2}", each(times[0]));
    for other in &times[1..] {
        print!("{:>12.2}{:>8.2}", each(*other), times[0] / other);
    }
    println!("{last}");
}

/// The row of a proved call beside another's, each made so many times.
pub fn compare<T, U>(name: &str, calls: u32, mut proved: impl FnMut() -> T, mut other: impl FnMut() -> U) {
    let times = medians([
        &mut repeat(calls, || {
            black_box(proved());
        }),
        &mut repeat(calls, || {
            black_box(other());
        }),
    ]);
    row(name, calls, times, "");
}
