//! The whole call of a curve in doubles beside that of a sum of 4 and 4 terms, in one run. Each answer is compared with
//! the second implementation's.

use crate::inputs::{factors, Kind};
use crate::products::stored;
use crate::timing::{best, median};
use hechroung::{Doubles, Model};
use reference::doubles::Record;
use reference::generate::Random;
use std::hint::black_box;

const SEEDS: u64 = 6;
const INPUTS: usize = 64;
const ROUNDS: usize = 200;
const TERMS: usize = 4;
const ORDER: u8 = 4;

/// Microseconds of a conversion and of the sum.
type Times = [f64; 2];

pub fn print(seed: u64) {
    println!(
        "| Curve in doubles | Call, µs | Sum of {TERMS} and {TERMS} terms, µs | Ratio, median of {SEEDS} seeds | \
         Lowest | Highest |"
    );
    println!("|---|---|---|---|---|---|");
    row("three inexact coefficients", seed, |random| {
        let [c0, c1, c2, radius] = [300, 300, 300, 10].map(|most| fraction(random, most));
        let radius = radius.abs();
        Doubles { c0, c1, c2, radius }
    });
    row("whole units", seed, |random| {
        let units = |random: &mut Random| random.between(-(1 << 28), 1 << 28) as f64 / 1_048_576.0;
        let [c0, c1, c2] = [(); 3].map(|()| units(random));
        let radius = units(random).abs();
        Doubles { c0, c1, c2, radius }
    });
    row("any bits, mostly refused", seed, |random| {
        let [c0, c1, c2, radius] = [(); 4].map(|()| f64::from_bits(random.next_u64()));
        Doubles { c0, c1, c2, radius }
    });
    println!();
}

/// Any double in size up to this.
fn fraction(random: &mut Random, most: i64) -> f64 {
    random.between(-(most << 40), most << 40) as f64 / (1_u64 << 40) as f64
}

fn row(name: &str, seed: u64, curve: impl Fn(&mut Random) -> Doubles) {
    let times: Vec<Times> = (seed..seed + SEEDS)
        .map(|seed| measured(&mut Random::new(seed), &curve))
        .collect();
    let [call, sum] = [0, 1].map(|way| median(times.iter().map(|times| times[way])));
    let ratios = || times.iter().map(|[call, sum]| call / sum);
    let lowest = ratios().fold(f64::INFINITY, f64::min);
    let highest = ratios().fold(0.0, f64::max);
    let middle = median(ratios());
    println!("| {name} | {call:.3} | {sum:.3} | {middle:.3} | {lowest:.3} | {highest:.3} |");
}

fn measured(random: &mut Random, curve: &impl Fn(&mut Random) -> Doubles) -> Times {
    let curves: Vec<Doubles> = (0..INPUTS).map(|_| curve(random)).collect();
    let pairs: Vec<(Model, Model)> = (0..INPUTS)
        .map(|_| factors(random, TERMS, ORDER, Kind::Kept))
        .collect();
    for curve in &curves {
        let ours = hechroung::from_doubles(curve);
        let theirs = Record::of([curve.c0, curve.c1, curve.c2], curve.radius).answer();
        let number = theirs.refusal.map(|refusal| refusal.number());
        assert_eq!(
            ours.map(|model| stored(&model))
                .map_err(|refusal| refusal.number),
            number.map_or(Ok(theirs.model), Err),
            "both implementations give one answer"
        );
    }
    best(ROUNDS, INPUTS, |way, input| {
        if way == 0 {
            let _ = black_box(hechroung::from_doubles(black_box(&curves[input])));
        } else {
            let (f, g) = &pairs[input];
            let _ = black_box(hechroung::add(black_box(f), black_box(g)));
        }
    })
}
