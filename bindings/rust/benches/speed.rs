//! Times the proved library beside `plain` and `best`: the same inputs, runs interleaved.
//!
//! `cargo bench` measures all calls, `cargo bench -- join cut` the named ones. The library is
//! called through `pepperknoll::raw`, its C interface as it is; the safe calls above it are not
//! in the measured way. For each call stand the median times and the median ratios library/plain
//! and library/best with their quartiles: each round gives one ratio, taken from runs that
//! stand next to each other.

mod calls;

use std::time::{Duration, Instant};

use calls::{copy, Call, Run, CALLS};

const ROUNDS: usize = 101;
/// How long one run of one version takes, about: short beside the slices in which a machine that
/// is shared is dealt out, so that most rounds are not broken into.
const RUN: Duration = Duration::from_micros(200);

fn main() {
    let named: Vec<String> = std::env::args()
        .skip(1)
        .filter(|word| !word.starts_with('-'))
        .collect();
    println!("{ROUNDS} rounds, library through raw; times in ns per call, ratios as");
    println!("median (first to third quartile)");
    println!(
        "{:28} {:>8} {:>8} {:>8}   {:22} {:22}",
        "call", "library", "plain", "best", "library/plain", "library/best"
    );
    for call in CALLS {
        if named.is_empty() || named.iter().any(|name| name == call.name) {
            measure(call);
        }
    }
}

/// Seconds that so many calls take.
fn seconds(run: &mut Run, times: u64) -> f64 {
    let start = Instant::now();
    run(times);
    start.elapsed().as_secs_f64()
}

/// How many calls fill a run.
fn calibrate(run: &mut Run) -> u64 {
    let mut times = 16;
    loop {
        let took = seconds(run, times);
        if took > RUN.as_secs_f64() / 4.0 {
            return (times as f64 * RUN.as_secs_f64() / took).ceil() as u64;
        }
        times *= 4;
    }
}

fn measure(call: &Call) {
    same_answers(call);
    let mut runs = [(call.library)(), (call.plain)(), (call.best)(), copy()];
    let versions = if call.beside_copy { 4 } else { 3 };
    let times = calibrate(&mut runs[0]);
    let mut took = [const { Vec::new() }; 4];
    for _ in 0..ROUNDS {
        for version in 0..versions {
            took[version].push(seconds(&mut runs[version], times) / times as f64 * 1e9);
        }
    }
    let [library, plain, best, copied] = &took;
    println!(
        "{:28} {:8.1} {:8.1} {:8.1}   {:22} {:22}",
        call.name,
        quartiles(library.clone())[1],
        quartiles(plain.clone())[1],
        quartiles(best.clone())[1],
        ratio(library, plain),
        ratio(library, best),
    );
    if call.beside_copy {
        println!(
            "{:28} {:8} copy of 4,096 bytes {:.1} ns, library/copy {}",
            "",
            "",
            quartiles(copied.clone())[1],
            ratio(library, copied)
        );
    }
}

/// The versions must do the same work: their answers add up to the same.
fn same_answers(call: &Call) {
    let sum = |make: fn() -> Run| make()(1000);
    let library = sum(call.library);
    assert_eq!(library, sum(call.plain), "{}: plain", call.name);
    assert_eq!(library, sum(call.best), "{}: best", call.name);
}

fn quartiles(mut values: Vec<f64>) -> [f64; 3] {
    values.sort_by(f64::total_cmp);
    let at = |quarter: usize| values[(values.len() - 1) * quarter / 4];
    [at(1), at(2), at(3)]
}

fn ratio(ours: &[f64], theirs: &[f64]) -> String {
    let ratios = ours.iter().zip(theirs).map(|(ours, theirs)| ours / theirs);
    let [low, median, high] = quartiles(ratios.collect());
    format!("{median:.2} ({low:.2} to {high:.2})")
}
