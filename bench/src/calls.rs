//! Single calls other than products and integrals, each beside the second implementation's: the whole public call
//! through the library's C interface. The answers of both are compared.

use crate::inputs::{factors, Kind, VARIABLES};
use crate::products::stored;
use crate::timing::best;
use hechroung::{Ends, Model, Refusal, MOST_VARS, UNIT};
use reference::calls::{self, EndsAnswer, ModelAnswer};
use reference::generate::Random;
use reference::stored::StoredModel;
use std::hint::black_box;

const INPUTS: usize = 64;
const ROUNDS: usize = 40;
const TERMS: usize = 15;
const ORDER: u8 = 4;
/// A point inside the box.
const POINT: [i64; MOST_VARS] = [UNIT / 2, -UNIT / 3, UNIT / 5, -UNIT / 7, 0, 0, 0, 0];

/// Two models, as each side takes them; the second one's range lies inside the box.
struct Operands {
    f: Model,
    g: Model,
    stored_f: StoredModel,
    stored_g: StoredModel,
}

impl Operands {
    fn new(random: &mut Random) -> Operands {
        let (f, mut g) = factors(random, TERMS, ORDER, Kind::Kept);
        g.coefficients[0] = random.between(1, UNIT / 2);
        Operands {
            stored_f: stored(&f),
            stored_g: stored(&g),
            f,
            g,
        }
    }
}

pub fn print(random: &mut Random) {
    let all: Vec<Operands> = (0..INPUTS).map(|_| Operands::new(random)).collect();
    println!("| Call, 4 variables | Terms | Ours, µs | Second, µs | Ours / second |");
    println!("|---|---|---|---|---|");
    model_row(
        "add",
        &all,
        |o| hechroung::add(&o.f, &o.g),
        |o| calls::add(&o.stored_f, &o.stored_g),
    );
    model_row(
        "substitute, order 4",
        &all,
        |o| hechroung::substitute(ORDER, VARIABLES, &o.f, &o.g),
        |o| calls::substitute(&o.stored_f, &o.stored_g, VARIABLES, ORDER),
    );
    ends_row(
        "evaluate",
        &all,
        |o| hechroung::evaluate(&o.f, POINT),
        |o| calls::evaluate(&o.stored_f, &POINT),
    );
    ends_row(
        "range",
        &all,
        |o| hechroung::range(&o.f),
        |o| calls::range(&o.stored_f),
    );
    println!();
}

fn model_row(
    name: &str,
    all: &[Operands],
    ours: impl Fn(&Operands) -> Result<Model, Refusal>,
    second: impl Fn(&Operands) -> ModelAnswer,
) {
    for operands in all {
        let (a, b) = (ours(operands), second(operands));
        assert_eq!(b.refusal, None, "{name} is accepted");
        let a = a.map(|model| stored(&model));
        assert_eq!(a, Ok(b.model), "{name}: both give one model");
    }
    row(name, all, ours, second);
}

fn ends_row(
    name: &str,
    all: &[Operands],
    ours: impl Fn(&Operands) -> Result<Ends, Refusal>,
    second: impl Fn(&Operands) -> EndsAnswer,
) {
    for operands in all {
        let (a, b) = (ours(operands), second(operands));
        assert_eq!(b.refusal, None, "{name} is accepted");
        assert_eq!(
            a.map(|ends| [ends.low, ends.high].map(i128::from)),
            Ok([b.ends.low, b.ends.high]),
            "{name}: both give the same ends"
        );
    }
    row(name, all, ours, second);
}

fn row<A, B>(
    name: &str,
    all: &[Operands],
    ours: impl Fn(&Operands) -> A,
    second: impl Fn(&Operands) -> B,
) {
    let [ours, second] = best(ROUNDS, all.len(), |way, input| {
        let operands = &all[input];
        if way == 0 {
            let _ = black_box(ours(operands));
        } else {
            let _ = black_box(second(operands));
        }
    });
    println!(
        "| {name} | {TERMS} | {ours:.2} | {second:.2} | {:.3} |",
        ours / second
    );
}
