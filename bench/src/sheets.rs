//! Sheets: run, opened with tests 1 to 6 only, stepped through and read. Each answer is compared with the second implementation's.

use crate::inputs::{largest, typical, ORDER, STEPS};
use crate::timing::best;
use hechroung::{raw, Model};
use reference::book::INPUT;
use reference::generate::Random;
use reference::stored::StoredModel;
use reference::{records, run::run_sheet, sheet, text};
use std::hint::black_box;

const INPUTS: usize = 16;
const ROUNDS: usize = 20;

pub fn print(random: &mut Random) {
    println!("| Sheet, 4 variables | Bytes | Steps | Ours, µs | Second, µs | Ours / second |");
    println!("|---|---|---|---|---|---|");
    let typical: Vec<Vec<u8>> = (0..INPUTS).map(|_| typical(random)).collect();
    let largest: Vec<Vec<u8>> = (0..INPUTS).map(|_| largest(random, STEPS)).collect();
    run_row(
        "run, typical: 3 models of 15 terms, sums and products",
        20,
        &typical,
    );
    run_row(
        "run, largest: 16 models of 64 terms, 62 products of 64 x 64",
        STEPS,
        &largest,
    );
    open_row("opened, largest (tests 1 to 6)", STEPS, &largest);
    println!();
    stepping_row(&largest);
    products_row(&largest);
}

/// Opening, opening and stepping through all records, and reading, on the same sheets. Each is a call of the C
/// interface. Reading is not exported alone: the sheet is read, and its book tested for a buffer that is too short.
fn stepping_row(sheets: &[Vec<u8>]) {
    for sheet in sheets {
        let records = records::open(sheet).reader;
        let expected: Vec<_> = records.map(|record| record.bytes().to_vec()).collect();
        let opened = hechroung::open(sheet).expect("the largest sheet is accepted");
        let stepped = opened.map(|record| record.bytes);
        assert!(stepped.eq(expected), "both implementations step alike");
    }
    let mut numbers = [0; 2];
    let mut bytes = [0; hechroung::LONGEST_RECORD];
    let [opened, stepped, read] = best(ROUNDS, sheets.len(), |way, input| {
        let sheet = &sheets[input];
        match way {
            0 => {
                let _ = black_box(raw::open(sheet, &mut numbers));
            }
            1 => {
                let _ = black_box(raw::open(sheet, &mut numbers));
                while raw::next(sheet, numbers[1] as usize, &mut bytes, &mut numbers) != 0 {
                    black_box(&bytes);
                }
            }
            _ => {
                let _ = black_box(raw::rewrite(sheet, &mut [], &mut numbers));
            }
        }
    });
    println!("| Largest sheet: opened, µs | Opened and its 80 records stepped through, µs | Read, µs | Opened / read | Stepped / read |");
    println!("|---|---|---|---|---|");
    println!(
        "| {opened:.1} | {stepped:.1} | {read:.1} | {:.2} | {:.2} |",
        opened / read,
        stepped / read
    );
    println!();
}

/// The largest run beside the sum of its products, each made again by a single call on the same operands.
fn products_row(sheets: &[Vec<u8>]) {
    let products: Vec<Vec<(Model, Model)>> = sheets.iter().map(|sheet| products(sheet)).collect();
    let [run, calls] = best(ROUNDS, sheets.len(), |way, input| match way {
        0 => {
            let _ = black_box(hechroung::run(&sheets[input]));
        }
        _ => {
            for (f, g) in &products[input] {
                let _ = black_box(hechroung::multiply(ORDER, f, g));
            }
        }
    });
    println!("| Largest run, µs | Its products as single calls, µs | Run / products |");
    println!("|---|---|---|");
    println!("| {run:.1} | {calls:.1} | {:.2} |", run / calls);
    println!();
}

/// The operands of each product of a sheet of inputs and products.
fn products(sheet: &[u8]) -> Vec<(Model, Model)> {
    let book = sheet::read(sheet).book;
    let mut results: Vec<Model> = Vec::new();
    let mut products = Vec::new();
    for step in &book.steps[..book.step_count] {
        let result = if step.code == INPUT {
            handed(&book.models[usize::from(step.a)])
        } else {
            let f = results[usize::from(step.a)];
            let g = results[usize::from(step.b)];
            products.push((f, g));
            hechroung::multiply(ORDER, &f, &g).expect("each product is accepted")
        };
        results.push(result);
    }
    let last = hechroung::run(sheet).expect("the largest sheet is accepted");
    assert_eq!(
        results.last(),
        Some(&last.model),
        "the single calls end where the run does"
    );
    products
}

/// A model of the second implementation as the wrapper has it.
fn handed(stored: &StoredModel) -> Model {
    Model {
        n: stored.n,
        count: stored.count,
        radius: stored.radius,
        keys: std::array::from_fn(|place| stored.terms[place].key),
        coefficients: std::array::from_fn(|place| stored.terms[place].coefficient),
    }
}

fn run_row(name: &str, steps: usize, sheets: &[Vec<u8>]) {
    for sheet in sheets {
        let lines = hechroung::lines(sheet);
        assert_eq!(
            lines,
            text::lines_of_sheet(sheet),
            "both implementations print the same"
        );
        assert!(
            lines.starts_with("radius"),
            "{name} is accepted, not {lines}"
        );
    }
    let times = best(ROUNDS, sheets.len(), |way, input| {
        let sheet = &sheets[input];
        match way {
            0 => {
                let _ = black_box(hechroung::run(sheet));
            }
            _ => {
                let _ = black_box(run_sheet(sheet));
            }
        }
    });
    row(name, steps, sheets, times);
}

/// All tests, and nothing kept.
fn open_row(name: &str, steps: usize, sheets: &[Vec<u8>]) {
    let times = best(ROUNDS, sheets.len(), |way, input| {
        let sheet = &sheets[input];
        match way {
            0 => {
                let _ = black_box(hechroung::open(sheet));
            }
            _ => {
                let _ = black_box(records::open(sheet));
            }
        }
    });
    row(name, steps, sheets, times);
}

fn row(name: &str, steps: usize, sheets: &[Vec<u8>], [ours, second]: [f64; 2]) {
    let bytes = sheets[0].len();
    println!(
        "| {name} | {bytes} | {steps} | {ours:.1} | {second:.1} | {:.3} |",
        ours / second
    );
}
