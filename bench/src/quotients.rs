//! A quotient as a step, beside its three products and two differences made as steps. Both are runs of sheets over the
//! same inputs, from which the time of a run of the inputs alone is taken away. Each answer is compared with the second
//! implementation's.

use crate::inputs::{quotient_models, VARIABLES};
use crate::timing::{best, median};
use hechroung::UNIT;
use reference::book::{Step, INPUT, MULTIPLY, SUBTRACT};
use reference::generate::{Draft, Random};
use reference::text;
use std::hint::black_box;

const SEEDS: u64 = 6;
const INPUTS: usize = 16;
const ROUNDS: usize = 60;

/// How many quotients, or as many times their products and differences, a sheet of quotients has.
const QUOTIENTS: usize = 11;

/// Sheets over the same inputs, f, g, h, w and 1: nothing more, quotients of them, and as many times what each quotient
/// works out, as steps.
struct QuotientSheets {
    inputs: Vec<u8>,
    quotients: Vec<u8>,
    forms: Vec<u8>,
}

fn quotient_sheets(random: &mut Random, terms: usize, order: u8) -> QuotientSheets {
    let models = quotient_models(random, terms, order);
    let mut inputs: Vec<Step> = (0..4).map(|number| Step::one(INPUT, number)).collect();
    inputs.push(Step::constant(UNIT as i32));
    let [f, g, h, w, one] = [0, 1, 2, 3, 4];
    let mut quotients = inputs.clone();
    let mut forms = inputs.clone();
    for _ in 0..QUOTIENTS {
        quotients.push(Step::quotient(f, g, h, w));
        let first = forms.len() as u8;
        forms.push(Step::two(MULTIPLY, g, h));
        forms.push(Step::two(SUBTRACT, first, f));
        forms.push(Step::two(MULTIPLY, w, first + 1));
        forms.push(Step::two(MULTIPLY, w, g));
        forms.push(Step::two(SUBTRACT, one, first + 3));
    }
    let sheet = |steps: Vec<Step>| Draft::new(VARIABLES, order, models.clone(), steps).bytes();
    QuotientSheets {
        inputs: sheet(inputs),
        quotients: sheet(quotients),
        forms: sheet(forms),
    }
}

/// Microseconds of a quotient, and of its products and differences.
type Times = [f64; 2];

pub fn print(seed: u64) {
    println!("| Quotient, 4 variables, radius 0 | Terms | Order | Step, µs | 3 products and 2 differences, µs | Ratio, median of {SEEDS} seeds | Lowest | Highest |");
    println!("|---|---|---|---|---|---|---|---|");
    row("dense", 15, 4, seed);
    row("dense", 64, 4, seed);
    println!();
}

fn row(name: &str, terms: usize, order: u8, seed: u64) {
    let times: Vec<Times> = (seed..seed + SEEDS)
        .map(|seed| measured(&mut Random::new(seed), terms, order))
        .collect();
    let [step, forms] = [0, 1].map(|way| median(times.iter().map(|times| times[way])));
    let ratios = || times.iter().map(|[step, forms]| step / forms);
    let lowest = ratios().fold(f64::INFINITY, f64::min);
    let highest = ratios().fold(0.0, f64::max);
    let middle = median(ratios());
    println!(
        "| {name} | {terms} | {order} | {step:.2} | {forms:.2} | {middle:.3} | {lowest:.3} | {highest:.3} |"
    );
}

fn measured(random: &mut Random, terms: usize, order: u8) -> Times {
    let all: Vec<QuotientSheets> = (0..INPUTS)
        .map(|_| quotient_sheets(random, terms, order))
        .collect();
    for sheets in &all {
        for sheet in [&sheets.inputs, &sheets.quotients, &sheets.forms] {
            let lines = hechroung::lines(sheet);
            assert_eq!(
                lines,
                text::lines_of_sheet(sheet),
                "both implementations print the same"
            );
            assert!(lines.starts_with("radius"), "accepted, not {lines}");
        }
    }
    let [inputs, quotients, forms] = best(ROUNDS, INPUTS, |way, input| {
        let sheets = &all[input];
        let sheet = match way {
            0 => &sheets.inputs,
            1 => &sheets.quotients,
            _ => &sheets.forms,
        };
        let _ = black_box(hechroung::run(sheet));
    });
    [quotients, forms].map(|time| (time - inputs) / QUOTIENTS as f64)
}
