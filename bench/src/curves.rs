//! Calls on Chebyshev curves beside our own product of two models that have all powers of one variable, 16 by 16 terms
//! of order 15, in one run; and beside the second implementation, with whose answer each one is compared.

use crate::inputs::{factors_at, Kind};
use crate::products::{line, stored};
use crate::timing::{best, median};
use hechroung::{curves, Curve, Ends, Model, CURVE_PLACES, UNIT};
use reference::chebyshev::{calls, StoredChebyshev};
use reference::generate::Random;
use reference::stored::StoredModel;
use std::hint::black_box;

const SEEDS: u64 = 6;
const INPUTS: usize = 64;
const ROUNDS: usize = 200;
const ORDER: u8 = 15;

/// Curves and models with all sixteen places in use, as each side takes them.
struct Inputs {
    f: Curve,
    g: Curve,
    /// What a conversion to powers takes: the coefficients of high degrees in powers are large.
    small: Curve,
    powers: Model,
    factors: (Model, Model),
    second: Second,
}

struct Second {
    f: StoredChebyshev,
    g: StoredChebyshev,
    small: StoredChebyshev,
    powers: StoredModel,
}

pub fn print(seed: u64) {
    println!(
        "| Chebyshev curves | Call, µs | Product in powers of 16 x 16, µs | Ratio, median of {SEEDS} seeds | Lowest | \
         Highest | Second, µs | Ours / second |"
    );
    println!("|---|---|---|---|---|---|---|---|");
    row(
        "multiply",
        seed,
        |inputs| curves::multiply(&inputs.f, &inputs.g),
        |inputs| calls::multiply(&inputs.second.f, &inputs.second.g),
        |ours, second| ours.map(|curve| to_second(&curve)) == Ok(second.model),
    );
    row(
        "to powers",
        seed,
        |inputs| curves::to_powers(&inputs.small),
        |inputs| calls::to_powers(&inputs.second.small),
        |ours, second| ours.map(|model| stored(&model)) == Ok(second.model),
    );
    row(
        "from powers",
        seed,
        |inputs| curves::from_powers(&inputs.powers),
        |inputs| calls::from_powers(&inputs.second.powers),
        |ours, second| ours.map(|curve| to_second(&curve)) == Ok(second.model),
    );
    row(
        "add",
        seed,
        |inputs| curves::add(&inputs.f, &inputs.g),
        |inputs| calls::add(&inputs.second.f, &inputs.second.g),
        |ours, second| ours.map(|curve| to_second(&curve)) == Ok(second.model),
    );
    row(
        "range",
        seed,
        |inputs| curves::range(&inputs.f),
        |inputs| calls::range(&inputs.second.f),
        |ours, second| {
            let wide = |ends: Ends| (i128::from(ends.low), i128::from(ends.high));
            ours.map(wide) == Ok((second.ends.low, second.ends.high))
        },
    );
    println!();
}

/// Times a call, the product in powers and the second implementation's call by turns.
fn row<A, B>(
    name: &str,
    seed: u64,
    ours: impl Fn(&Inputs) -> A,
    second: impl Fn(&Inputs) -> B,
    agree: impl Fn(A, B) -> bool,
) {
    let measured = |seed: u64| -> [f64; 3] {
        let mut random = Random::new(seed);
        let inputs: Vec<Inputs> = (0..INPUTS).map(|_| Inputs::new(&mut random)).collect();
        for inputs in &inputs {
            let agreed = agree(ours(inputs), second(inputs));
            assert!(agreed, "both implementations accept with one answer");
        }
        best(ROUNDS, INPUTS, |way, input| {
            let inputs = &inputs[input];
            match way {
                0 => drop(black_box(ours(inputs))),
                1 => {
                    let (f, g) = &inputs.factors;
                    let _ = black_box(hechroung::multiply(ORDER, f, g));
                }
                _ => drop(black_box(second(inputs))),
            }
        })
    };
    let times: Vec<[f64; 3]> = (seed..seed + SEEDS).map(measured).collect();
    let [call, product, other] = [0, 1, 2].map(|way| median(times.iter().map(|times| times[way])));
    let ratios = || times.iter().map(|[call, product, _]| call / product);
    let lowest = ratios().fold(f64::INFINITY, f64::min);
    let highest = ratios().fold(0.0, f64::max);
    println!(
        "| {name} | {call:.2} | {product:.2} | {:.2} | {lowest:.2} | {highest:.2} | {other:.2} | {:.3} |",
        median(ratios()),
        call / other
    );
}

impl Inputs {
    fn new(random: &mut Random) -> Inputs {
        let f = curve(random, UNIT / 4);
        let g = curve(random, UNIT / 4);
        let small = curve(random, 60);
        let powers = factors_at(random, 1, &line(), Kind::Quarters).0;
        Inputs {
            second: Second {
                f: to_second(&f),
                g: to_second(&g),
                small: to_second(&small),
                powers: stored(&powers),
            },
            factors: factors_at(random, 1, &line(), Kind::Quarters),
            f,
            g,
            small,
            powers,
        }
    }
}

/// No coefficient is 0 or above this size.
fn curve(random: &mut Random, most: i64) -> Curve {
    let mut coefficients = [0; CURVE_PLACES];
    coefficients.fill_with(|| random.sign() * random.between(1, most));
    let radius = 5;
    Curve {
        coefficients,
        radius,
    }
}

/// The curve as the second implementation takes it.
fn to_second(curve: &Curve) -> StoredChebyshev {
    StoredChebyshev {
        coefficients: curve.coefficients,
        radius: curve.radius,
    }
}
