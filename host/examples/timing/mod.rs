//! Two things timed in turn, in one process: nanoseconds a call, and the median of the rounds' ratios.

use std::time::Instant;

const ROUNDS: usize = 41;

fn median(mut numbers: Vec<f64>) -> f64 {
    numbers.sort_by(f64::total_cmp);
    numbers[numbers.len() / 2]
}

/// Runs `ours` and `theirs`, each of so many calls, in turn, and prints what they took.
pub fn beside(what: &str, calls: usize, mut ours: impl FnMut(), mut theirs: impl FnMut()) {
    let time = |run: &mut dyn FnMut()| {
        let start = Instant::now();
        run();
        start.elapsed().as_secs_f64() * 1e9 / calls as f64
    };
    let rounds: Vec<(f64, f64)> = (0..ROUNDS).map(|_| (time(&mut ours), time(&mut theirs))).collect();
    let ours = median(rounds.iter().map(|r| r.0).collect());
    let theirs = median(rounds.iter().map(|r| r.1).collect());
    let ratio = median(rounds.iter().map(|r| r.0 / r.1).collect());
    println!("{what}: {ours:.2} ns, the original {theirs:.2} ns, ratio {ratio:.2}");
}
