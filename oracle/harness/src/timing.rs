//! Times the two sides on the same inputs.

use std::{
    hint::black_box,
    time::{Duration, Instant},
};

/// Timed runs of each side. The best counts, since anything else on the machine only adds time.
const RUNS: usize = 60;

/// Long enough that reading the clock does not show.
const RUN: Duration = Duration::from_millis(4);

pub fn head() {
    println!(
        "{:<32} {:>9} {:>9} {:>9} {:>9} {:>10}",
        "ns per call", "port", "rust", "port/rust", "floor", "port/floor"
    );
}

/// Prints the best time of each side for one call, and answers the port's. Each closure makes `calls` calls.
pub fn race(name: &str, calls: usize, port: impl FnMut(), rust: impl FnMut()) -> f64 {
    let [port, rust] = best(calls, port, rust);
    println!("{name:<32} {port:>9.2} {rust:>9.2} {:>9.2}", port / rust);
    port
}

/// The same beside a floor, which is the least that anyone could do with the same bytes: to copy them, or to look at each. How many
/// times the floor the port's time is stands behind it.
pub fn race_above(
    name: &str,
    calls: usize,
    port: impl FnMut(),
    rust: impl FnMut(),
    floor: impl FnMut(),
) -> f64 {
    let [port, rust] = best(calls, port, rust);
    let floor = best_alone(floor) / calls as f64;
    let (ratio, multiple) = (port / rust, port / floor);
    println!("{name:<32} {port:>9.2} {rust:>9.2} {ratio:>9.2} {floor:>9.2} {multiple:>10.2}");
    port
}

/// The floor of what reads or writes these bytes: a copy of them.
pub fn copying(bytes: Vec<u8>) -> impl FnMut() {
    let mut copy = vec![0; bytes.len()];
    move || {
        copy.copy_from_slice(black_box(&bytes));
        black_box(&copy);
    }
}

/// The floor of what tests these texts: a look at each byte.
pub fn looking(texts: &[Vec<u8>]) -> impl FnMut() {
    move || {
        for text in texts {
            black_box(black_box(text).iter().fold(0, |all, byte| all | byte));
        }
    }
}

/// Prints the port's best time for one call of the first kind, of the second, and the first divided by the second.
pub fn compare(name: &str, calls: usize, first: impl FnMut(), second: impl FnMut()) {
    let [first, second] = best(calls, first, second);
    let ratio = first / second;
    println!("{name:<32} {first:>9.2} then {second:.2}, the first {ratio:.2} of the second");
}

/// Prints the port's best time for a call that the Rust is not asked.
pub fn alone(name: &str, port: impl FnMut()) {
    let best = best_alone(port);
    println!(
        "{name:<32} {best:>9.2}, or {:.1} microseconds",
        best / 1000.0
    );
}

/// The best time of a pass.
pub fn best_alone(mut side: impl FnMut()) -> f64 {
    let passes = passes_for_a_run(&mut side);
    let times = (0..RUNS).map(|_| time(passes, &mut side));
    times.min().unwrap_or_default().as_nanos() as f64 / passes as f64
}

/// Prints the best time of so many processes.
pub fn processes(name: &str, runs: usize, mut process: impl FnMut()) {
    let times = (0..runs).map(|_| time(1, &mut process));
    let best = times.min().unwrap_or_default().as_secs_f64() * 1000.0;
    println!("{name:<32} {best:>9.2} milliseconds, the best of {runs} processes");
}

/// The best time of a call of each. They take turns, so that a slow spell of the machine meets both.
fn best(calls: usize, mut one: impl FnMut(), mut other: impl FnMut()) -> [f64; 2] {
    let passes = passes_for_a_run(&mut other);
    let mut best = [Duration::MAX; 2];
    for _ in 0..RUNS {
        best[0] = best[0].min(time(passes, &mut one));
        best[1] = best[1].min(time(passes, &mut other));
    }
    best.map(|time| time.as_nanos() as f64 / (passes * calls) as f64)
}

/// Prints how many bytes a second the port's time for a call of so many bytes comes to.
pub fn rate(bytes: u64, nanoseconds: f64) {
    let millions = bytes as f64 * 1000.0 / nanoseconds;
    println!("{millions:>42.0} million bytes a second, {bytes} bytes a call");
}

fn passes_for_a_run(side: &mut impl FnMut()) -> usize {
    let mut passes = 1;
    while time(passes, side) < RUN {
        passes *= 2;
    }
    passes
}

fn time(passes: usize, side: &mut impl FnMut()) -> Duration {
    let start = Instant::now();
    for _ in 0..passes {
        side();
    }
    start.elapsed()
}
