//! The run with the shares of its steps beside the plain run, by turns on the same largest sheets, each as a call of
//! the C interface. Every answer is compared with the second implementation's.

use crate::inputs::{largest, STEPS};
use crate::timing::{best, median};
use hechroung::{raw, MOST_STEPS, MOST_TERMS};
use reference::generate::Random;
use reference::run::report_sheet;
use std::hint::black_box;

const SEEDS: u64 = 6;
const INPUTS: usize = 16;
const ROUNDS: usize = 60;

/// Microseconds of a run with shares and of the plain one.
type Times = [f64; 2];

/// The slices of an answer.
struct Room {
    keys: [u32; MOST_TERMS],
    coefficients: [i64; MOST_TERMS],
    numbers: [u64; 4],
    ends: [i64; 6],
    shares: [u64; 4 * MOST_STEPS],
}

impl Room {
    const EMPTY: Room = Room {
        keys: [0; MOST_TERMS],
        coefficients: [0; MOST_TERMS],
        numbers: [0; 4],
        ends: [0; 6],
        shares: [0; 4 * MOST_STEPS],
    };

    fn run(&mut self, sheet: &[u8]) -> u8 {
        raw::run(
            sheet,
            &mut self.keys,
            &mut self.coefficients,
            &mut self.numbers,
            &mut self.ends,
        )
    }

    fn shares(&mut self, sheet: &[u8]) -> u8 {
        raw::shares(
            sheet,
            &mut self.keys,
            &mut self.coefficients,
            &mut self.numbers,
            &mut self.ends,
            &mut self.shares,
        )
    }
}

pub fn print(seed: u64) {
    println!(
        "| Largest sheet, {STEPS} steps | With shares, µs | Plain, µs | With shares / plain, median of {SEEDS} seeds | \
         Lowest | Highest |"
    );
    println!("|---|---|---|---|---|---|");
    row("run", seed);
    println!();
}

fn row(name: &str, seed: u64) {
    let times: Vec<Times> = (seed..seed + SEEDS)
        .map(|seed| measured(&mut Random::new(seed)))
        .collect();
    let [shares, plain] = [0, 1].map(|way| median(times.iter().map(|times| times[way])));
    let ratios = || times.iter().map(|[shares, plain]| shares / plain);
    let lowest = ratios().fold(f64::INFINITY, f64::min);
    let highest = ratios().fold(0.0, f64::max);
    let middle = median(ratios());
    println!("| {name} | {shares:.1} | {plain:.1} | {middle:.3} | {lowest:.3} | {highest:.3} |");
}

fn measured(random: &mut Random) -> Times {
    let sheets: Vec<Vec<u8>> = (0..INPUTS).map(|_| largest(random, STEPS)).collect();
    let mut room = Room::EMPTY;
    for sheet in &sheets {
        let expected = report_sheet(sheet);
        assert_eq!((room.shares(sheet), expected.answer.refusal), (0, None));
        let rows = expected.shares.iter();
        let four = rows.flat_map(|row| [row.carried, row.rounding, row.swept, row.slack]);
        let stored = room.shares.iter().map(|&share| i128::from(share));
        assert!(stored.eq(four), "both implementations give the same shares");
        assert!(
            room.shares.iter().any(|&share| share != 0),
            "and there are some"
        );
    }
    best(ROUNDS, INPUTS, |way, input| {
        let sheet = &sheets[input];
        let number = if way == 0 {
            room.shares(sheet)
        } else {
            room.run(sheet)
        };
        let _ = black_box(number);
    })
}
