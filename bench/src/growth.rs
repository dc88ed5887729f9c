//! How the cost grows: a table with bars for a plot. All sizes take turns by round, so that a busy moment of the machine
//! does not fall on one of them.

use crate::inputs::{largest, Kind};
use crate::products::Pair;
use crate::timing::best;
use reference::generate::Random;
use std::hint::black_box;

const INPUTS: usize = 16;
const ROUNDS: usize = 60;
const SIZES: [usize; 11] = [1, 2, 4, 8, 16, 24, 32, 40, 48, 56, 64];
/// The longest bar.
const COLUMNS: f64 = 60.0;

pub fn print(random: &mut Random) {
    println!(
        "Product of two sparse models in 4 variables, order 15, by the terms of each factor:\n"
    );
    plot("terms", products(random));
    println!("Run of a sheet of 16 models of 64 terms, by its steps; all but two are products of 64 by 64 terms:\n");
    plot("steps", runs(random));
}

fn products(random: &mut Random) -> [f64; SIZES.len()] {
    let pairs = SIZES.map(|terms| {
        let pair = |_| Pair::new(random, terms, 15, Kind::Kept);
        (0..INPUTS).map(pair).collect::<Vec<_>>()
    });
    best(ROUNDS, INPUTS, |size, input| {
        let pair = &pairs[size][input];
        let _ = black_box(hechroung::multiply(15, &pair.f, &pair.g));
    })
}

fn runs(random: &mut Random) -> [f64; SIZES.len()] {
    let sheets = SIZES.map(|steps| {
        let sheet = |_| largest(random, steps);
        (0..INPUTS).map(sheet).collect::<Vec<_>>()
    });
    best(ROUNDS, INPUTS, |size, input| {
        let _ = black_box(hechroung::run(&sheets[size][input]));
    })
}

/// A line for each size: the size, the time and a bar.
fn plot(name: &str, times: [f64; SIZES.len()]) {
    let longest = times.into_iter().fold(0.0, f64::max);
    println!("    {name:>8}      µs");
    for (size, time) in SIZES.into_iter().zip(times) {
        let bar = "#".repeat((time / longest * COLUMNS).round() as usize);
        println!("    {size:>8} {time:>7.2}  {bar}");
    }
    println!();
}
