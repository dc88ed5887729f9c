//! A model of 64 terms stored in the archive and restored from it, beside a sum of 64 and 64 terms, in one run. Each
//! answer is compared with the second implementation's.

use crate::inputs::{factors, Kind};
use crate::products::stored;
use crate::timing::{best, median};
use hechroung::{Model, LONGEST_ARCHIVED};
use reference::archive;
use reference::generate::Random;
use std::hint::black_box;

const SEEDS: u64 = 6;
const INPUTS: usize = 64;
const ROUNDS: usize = 200;
const ORDER: u8 = 15;

/// Microseconds of a store, a restore of all terms, one of the first eight, and the sum.
type Times = [f64; 4];

pub fn print(seed: u64) {
    println!("| Archive | Call, µs | Sum of as many and as many terms, µs | Ratio, median of {SEEDS} seeds | Lowest | Highest |");
    println!("|---|---|---|---|---|---|");
    for terms in [64, 15, 4] {
        let times: Vec<Times> = (seed..seed + SEEDS)
            .map(|seed| measured(&mut Random::new(seed), terms))
            .collect();
        for (way, name) in ["store", "restore all", "restore 8"].iter().enumerate() {
            row(&format!("{name}, {terms} terms"), &times, way);
        }
    }
    println!();
}

fn row(name: &str, times: &[Times], way: usize) {
    let [call, sum] = [way, 3].map(|way| median(times.iter().map(|times| times[way])));
    let ratios = || times.iter().map(|times| times[way] / times[3]);
    let lowest = ratios().fold(f64::INFINITY, f64::min);
    let highest = ratios().fold(0.0, f64::max);
    let middle = median(ratios());
    println!("| {name} | {call:.3} | {sum:.3} | {middle:.3} | {lowest:.3} | {highest:.3} |");
}

fn measured(random: &mut Random, terms: usize) -> Times {
    let pairs: Vec<(Model, Model)> = (0..INPUTS)
        .map(|_| factors(random, terms, ORDER, Kind::Kept))
        .collect();
    let archived: Vec<Vec<u8>> = pairs.iter().map(|(f, _)| compared(f)).collect();
    let mut buffer = [0; LONGEST_ARCHIVED];
    best(ROUNDS, INPUTS, |way, input| {
        let (f, g) = &pairs[input];
        match way {
            0 => drop(black_box(hechroung::store(black_box(f), &mut buffer))),
            1 => drop(black_box(hechroung::restore(
                black_box(&archived[input]),
                64,
            ))),
            2 => drop(black_box(hechroung::restore(
                black_box(&archived[input]),
                8,
            ))),
            _ => drop(black_box(hechroung::add(black_box(f), black_box(g)))),
        }
    })
}

/// The model's bytes, which both implementations make and restore alike.
fn compared(f: &Model) -> Vec<u8> {
    let mut buffer = [0; LONGEST_ARCHIVED];
    let length = hechroung::store(f, &mut buffer).expect("the model is sound");
    let mut other = [0; LONGEST_ARCHIVED];
    let theirs = archive::store(&stored(f), &mut other);
    assert_eq!(
        (length, buffer),
        (theirs.length, other),
        "both implementations store alike"
    );
    let whole = hechroung::restore(&buffer[..length], 64).expect("what is stored is restored");
    assert_eq!(
        stored(&whole),
        archive::restore(&buffer[..length], 64).model
    );
    buffer[..length].to_vec()
}
