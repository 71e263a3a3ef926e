//! Two functions side by side: the best of many short rounds of each, taken in turn in one run.
use std::hint::black_box;
use std::time::Instant;

const ROUNDS: usize = 40;

fn round<T>(calls: usize, f: &mut impl FnMut() -> T) -> f64 {
    let start = Instant::now();
    for _ in 0..calls {
        black_box(f());
    }
    start.elapsed().as_secs_f64() * 1e9 / calls as f64
}

/// The nanoseconds of a call of each.
pub fn both<T, U>(calls: usize, mut ours: impl FnMut() -> T, mut theirs: impl FnMut() -> U) -> (f64, f64) {
    let (mut a, mut b) = (f64::MAX, f64::MAX);
    for _ in 0..ROUNDS {
        a = a.min(round(calls, &mut ours));
        b = b.min(round(calls, &mut theirs));
    }
    (a, b)
}

/// One line: what is measured, the nanoseconds of each, and their ratio.
pub fn line(what: &str, (ours, theirs): (f64, f64)) {
    println!("{what:<44} {ours:>10.1} ns {theirs:>10.1} ns   {:>5.2}", ours / theirs);
}

/// The nanoseconds of a call of each of three.
pub fn three<T, U, V>(
    calls: usize,
    mut ours: impl FnMut() -> T,
    mut theirs: impl FnMut() -> U,
    mut other: impl FnMut() -> V,
) -> (f64, f64, f64) {
    let (mut a, mut b, mut c) = (f64::MAX, f64::MAX, f64::MAX);
    for _ in 0..ROUNDS {
        a = a.min(round(calls, &mut ours));
        b = b.min(round(calls, &mut theirs));
        c = c.min(round(calls, &mut other));
    }
    (a, b, c)
}

/// One line: what is measured, the nanoseconds of each, and the ratio of the first two.
pub fn line_of_three(what: &str, (ours, theirs, other): (f64, f64, f64)) {
    println!("{what:<44} {ours:>10.1} ns {theirs:>10.1} ns   {:>5.2}   {other:>7.1} ns", ours / theirs);
}
