//! An antiderivative's whole call beside the whole call of a dense product of 64 by 64 terms, in one run. Each answer
//! is compared with the second implementation's.

use crate::inputs::{factors, Kind, VARIABLES};
use crate::products::stored;
use crate::timing::{best, median};
use hechroung::Model;
use reference::calls;
use reference::generate::Random;
use std::hint::black_box;

const SEEDS: u64 = 6;
const INPUTS: usize = 64;
const ROUNDS: usize = 60;
const TERMS: usize = 64;
const ORDER: u8 = 4;

/// Microseconds of an antiderivative and of the product.
type Times = [f64; 2];

pub fn print(seed: u64) {
    println!(
        "| Antiderivative, 4 variables | Terms | Order | Call, µs | Dense product of {TERMS} x {TERMS}, µs | \
         Ratio, median of {SEEDS} seeds | Lowest | Highest |"
    );
    println!("|---|---|---|---|---|---|---|---|");
    row("sparse, what is inexact", TERMS, 15, Kind::Any, seed);
    row("dense, half of it swept", TERMS, ORDER, Kind::Any, seed);
    row("few terms", 4, ORDER, Kind::Any, seed);
    println!();
}

fn row(name: &str, terms: usize, order: u8, kind: Kind, seed: u64) {
    let times: Vec<Times> = (seed..seed + SEEDS)
        .map(|seed| measured(&mut Random::new(seed), terms, order, kind))
        .collect();
    let [call, product] = [0, 1].map(|way| median(times.iter().map(|times| times[way])));
    let ratios = || times.iter().map(|[call, product]| call / product);
    let lowest = ratios().fold(f64::INFINITY, f64::min);
    let highest = ratios().fold(0.0, f64::max);
    let middle = median(ratios());
    println!(
        "| {name} | {terms} | {order} | {call:.2} | {product:.2} | {middle:.3} | {lowest:.3} | {highest:.3} |"
    );
}

fn measured(random: &mut Random, terms: usize, order: u8, kind: Kind) -> Times {
    let models: Vec<Model> = (0..INPUTS)
        .map(|_| factors(random, terms, order, kind).0)
        .collect();
    let pairs: Vec<(Model, Model)> = (0..INPUTS)
        .map(|_| factors(random, TERMS, ORDER, Kind::Kept))
        .collect();
    let variable = |input: usize| 1 + input as u8 % VARIABLES;
    for (input, model) in models.iter().enumerate() {
        let ours = hechroung::antiderivative(order, variable(input), model);
        let theirs = calls::antiderivative(&stored(model), variable(input), order);
        assert_eq!(
            ours.map(|model| stored(&model)),
            Ok(theirs.model),
            "both implementations give one model"
        );
    }
    best(ROUNDS, INPUTS, |way, input| {
        if way == 0 {
            let _ = black_box(hechroung::antiderivative(
                order,
                variable(input),
                &models[input],
            ));
        } else {
            let (f, g) = &pairs[input];
            let _ = black_box(hechroung::multiply(ORDER, f, g));
        }
    })
}
