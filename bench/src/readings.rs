//! Evaluation at a point, beside the second implementation's, and rows of readings beside as many single evaluations:
//! whole public calls through the library's C interface. The answers are compared.

use crate::inputs::{factors, Kind, VARIABLES};
use crate::products::stored;
use crate::timing::{best, median};
use hechroung::{evaluate, first_contradicting, Model, Reading, MOST_READINGS, MOST_VARS, UNIT};
use reference::calls;
use reference::generate::Random;
use std::hint::black_box;

const MODELS: usize = 16;
const ROUNDS: usize = 20;
const SEEDS: u64 = 6;
const ORDER: u8 = 4;
const TERMS: [usize; 2] = [15, 64];

fn point(random: &mut Random) -> [i64; MOST_VARS] {
    let mut point = [0; MOST_VARS];
    for x in &mut point[..VARIABLES.into()] {
        *x = random.between(-UNIT, UNIT);
    }
    point
}

/// Models and points, and for each model a row in which no reading contradicts.
struct Input {
    model: Model,
    points: Vec<[i64; MOST_VARS]>,
    row: Vec<Reading>,
}

impl Input {
    fn new(random: &mut Random, terms: usize) -> Input {
        let (model, _) = factors(random, terms, ORDER, Kind::Kept);
        let points: Vec<_> = (0..MOST_READINGS).map(|_| point(random)).collect();
        let second = stored(&model);
        let row = points.iter().map(|&point| {
            let ends = evaluate(&model, point).expect("the model is sound");
            let other = calls::evaluate(&second, &point).ends;
            assert_eq!(
                [ends.low, ends.high].map(i128::from),
                [other.low, other.high]
            );
            Reading {
                point,
                low: ends.high,
                high: ends.high + 1,
            }
        });
        let row = row.collect();
        Input { model, points, row }
    }
}

/// Lowest, middle and highest of what the seeds gave.
fn shown(ratios: &[f64]) -> String {
    let least = ratios.iter().copied().fold(f64::INFINITY, f64::min);
    let most = ratios.iter().copied().fold(0.0, f64::max);
    let middle = median(ratios.iter().copied());
    format!("{middle:.3} | {least:.3} | {most:.3}")
}

pub fn print(seed: u64) {
    println!("| Evaluate, 4 variables | Terms | Ours, µs | Second, µs | Ours / second, median of 6 seeds | Lowest | Highest |");
    println!("|---|---|---|---|---|---|---|");
    for terms in TERMS {
        let found: Vec<[f64; 2]> = (seed..seed + SEEDS)
            .map(|seed| evaluated(seed, terms))
            .collect();
        let ratios: Vec<f64> = found.iter().map(|[ours, second]| ours / second).collect();
        let [ours, second] = [0, 1].map(|way| median(found.iter().map(|times| times[way])));
        println!(
            "| dense, order {ORDER} | {terms} | {ours:.2} | {second:.2} | {} |",
            shown(&ratios)
        );
    }
    println!();
    println!("| Row of 256 readings, 4 variables | Terms | Row, µs | 256 evaluations, µs | Ratio, median of 6 seeds | Lowest | Highest |");
    println!("|---|---|---|---|---|---|---|");
    for terms in TERMS {
        let found: Vec<[f64; 2]> = (seed..seed + SEEDS).map(|seed| held(seed, terms)).collect();
        let ratios: Vec<f64> = found.iter().map(|[row, single]| row / single).collect();
        let [row, single] = [0, 1].map(|way| median(found.iter().map(|times| times[way])));
        println!(
            "| none contradicts | {terms} | {row:.1} | {single:.1} | {} |",
            shown(&ratios)
        );
    }
    println!();
}

fn inputs(seed: u64, terms: usize) -> Vec<Input> {
    let mut random = Random::new(seed);
    (0..MODELS)
        .map(|_| Input::new(&mut random, terms))
        .collect()
}

fn evaluated(seed: u64, terms: usize) -> [f64; 2] {
    let inputs = inputs(seed, terms);
    let second: Vec<_> = inputs.iter().map(|input| stored(&input.model)).collect();
    best(ROUNDS, MODELS * 16, |way, number| {
        let (model, place) = (number % MODELS, number / MODELS);
        let point = &inputs[model].points[place];
        if way == 0 {
            let _ = black_box(evaluate(&inputs[model].model, *point));
        } else {
            let _ = black_box(calls::evaluate(&second[model], point));
        }
    })
}

fn held(seed: u64, terms: usize) -> [f64; 2] {
    let inputs = inputs(seed, terms);
    best(ROUNDS, MODELS, |way, number| {
        let input = &inputs[number];
        if way == 0 {
            let found = black_box(first_contradicting(&input.model, &input.row));
            assert_eq!(found, Ok(None));
        } else {
            for point in &input.points {
                let _ = black_box(evaluate(&input.model, *point));
            }
        }
    })
}
