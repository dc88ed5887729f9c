//! The best time of several rounds, each of all inputs in turn; the ways to be timed take turns by round. And the middle
//! of what several seeds gave.

use std::time::Instant;

/// Microseconds an input, for each way.
pub fn best<const WAYS: usize>(
    rounds: usize,
    inputs: usize,
    mut way: impl FnMut(usize, usize),
) -> [f64; WAYS] {
    let mut best = [f64::INFINITY; WAYS];
    for _ in 0..rounds {
        for (number, best) in best.iter_mut().enumerate() {
            let started = Instant::now();
            for input in 0..inputs {
                way(number, input);
            }
            let time = started.elapsed().as_secs_f64() * 1e6 / inputs as f64;
            *best = best.min(time);
        }
    }
    best
}

/// The middle number, or the mean of the two in the middle.
pub fn median(numbers: impl Iterator<Item = f64>) -> f64 {
    let mut numbers: Vec<f64> = numbers.collect();
    numbers.sort_by(f64::total_cmp);
    let half = numbers.len() / 2;
    if numbers.len() % 2 == 1 {
        numbers[half]
    } else {
        (numbers[half - 1] + numbers[half]) / 2.0
    }
}
