//! The integral of a model, with the exact one: the whole call of ours beside that of the second implementation, whose
//! answers are compared. bench/versus has the same rows for two builds of the library.

use crate::inputs::{integrand, Parity};
use crate::products::stored;
use crate::timing::{best, median};
use hechroung::Model;
use reference::calls;
use reference::generate::Random;
use std::hint::black_box;

const SEEDS: u64 = 6;
const INPUTS: usize = 64;
const ROUNDS: usize = 60;

/// Microseconds of our call and of the second implementation's.
type Times = [f64; 2];

pub fn print(seed: u64) {
    println!(
        "| Integral, 4 variables | Terms | Order | Ours, µs | Second, µs | Ours / second, median of {SEEDS} seeds | \
         Lowest | Highest |"
    );
    println!("|---|---|---|---|---|---|---|---|");
    row("sparse, most terms odd", 64, 15, Parity::Any, seed);
    row("all terms even", 64, 15, Parity::Even, seed);
    row("dense", 15, 4, Parity::Any, seed);
    println!();
}

fn row(name: &str, terms: usize, order: u8, parity: Parity, seed: u64) {
    let times: Vec<Times> = (seed..seed + SEEDS)
        .map(|seed| measured(&mut Random::new(seed), terms, order, parity))
        .collect();
    let [ours, second] = [0, 1].map(|way| median(times.iter().map(|times| times[way])));
    let ratios = || times.iter().map(|[ours, second]| ours / second);
    let lowest = ratios().fold(f64::INFINITY, f64::min);
    let highest = ratios().fold(0.0, f64::max);
    let middle = median(ratios());
    println!(
        "| {name} | {terms} | {order} | {ours:.2} | {second:.2} | {middle:.3} | {lowest:.3} | {highest:.3} |"
    );
}

fn measured(random: &mut Random, terms: usize, order: u8, parity: Parity) -> Times {
    let models: Vec<Model> = (0..INPUTS)
        .map(|_| integrand(random, terms, order, parity))
        .collect();
    let stored: Vec<_> = models.iter().map(stored).collect();
    for (model, stored) in models.iter().zip(&stored) {
        let ours = hechroung::integral(model).map(|integral| integral.exact);
        let parts = ours.map(|exact| [exact.quotient, exact.remainder].map(i128::from));
        let theirs = calls::integral(stored);
        assert_eq!(theirs.refusal, None, "the integral is accepted");
        let expected = theirs.integral.exact;
        assert_eq!(parts, Ok([expected.quotient, expected.remainder]));
    }
    best(ROUNDS, INPUTS, |way, input| {
        if way == 0 {
            let _ = black_box(hechroung::integral(&models[input]));
        } else {
            let _ = black_box(calls::integral(&stored[input]));
        }
    })
}
