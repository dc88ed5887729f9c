//! Products of two models in 4 variables, or in the first of them alone, and in 8. Ours is the whole public call by the
//! library's C interface: both models tested and read in their arrays, all products collected by monomial, rounded, the
//! radius, all places of the result stored.
//! FLINT's is the exact product alone, of polynomials built beforehand. The second implementation's is its whole call.

use crate::flint::Polynomial;
use crate::inputs::{cubic, factors, factors_at, factors_in, shift, up_to_degree, Kind, VARIABLES};
use crate::timing::best;
use hechroung::Model;
use reference::calls;
use reference::generate::Random;
use reference::stored::{StoredModel, StoredTerm};
use std::hint::black_box;

const INPUTS: usize = 64;
const ROUNDS: usize = 40;

/// Two factors, as each side takes them.
pub struct Pair {
    pub f: Model,
    pub g: Model,
    stored_f: StoredModel,
    stored_g: StoredModel,
    polynomials: (Polynomial, Polynomial),
}

impl Pair {
    pub fn new(random: &mut Random, terms: usize, order: u8, kind: Kind) -> Pair {
        Pair::of(factors(random, terms, order, kind))
    }

    fn of((f, g): (Model, Model)) -> Pair {
        Pair {
            stored_f: stored(&f),
            stored_g: stored(&g),
            polynomials: (Polynomial::new(&f), Polynomial::new(&g)),
            f,
            g,
        }
    }

    /// Both implementations' answers, which must agree: whether the product is accepted.
    fn accepted(&self, order: u8) -> bool {
        let ours = hechroung::multiply(order, &self.f, &self.g);
        let theirs = calls::multiply(&self.stored_f, &self.stored_g, order);
        let expected = match theirs.refusal {
            None => Ok(theirs.model),
            Some(refusal) => Err((refusal.number(), refusal.place())),
        };
        assert_eq!(
            ours.map(|model| stored(&model))
                .map_err(|refusal| (refusal.number, refusal.place)),
            expected,
            "both implementations give one model or one refusal"
        );
        expected.is_ok()
    }
}

pub fn print(random: &mut Random) {
    heads(VARIABLES);
    row(random, "sparse, refused", 64, 15, Kind::Any);
    row(random, "sparse, kept", 64, 15, Kind::Kept);
    row(random, "dense, kept", 64, 4, Kind::Kept);
    row(random, "dense, kept", 15, 4, Kind::Kept);
    row(random, "dense, kept", 4, 4, Kind::Kept);
    row(random, "all of degree 1", 5, 1, Kind::Kept);
    row(random, "10 of degree 2", 10, 2, Kind::Kept);
    row(random, "all of degree 3", 35, 3, Kind::Kept);
    let line: Vec<Pair> = (0..INPUTS)
        .map(|_| Pair::of(factors_at(random, VARIABLES, &line(), Kind::Kept)))
        .collect();
    timed("all powers of one variable", 16, 15, &line);
    println!();
    print_eight(random);
}

fn heads(variables: u8) {
    println!("| Product, {variables} variables | Terms | Order | Accepted | Ours, µs | FLINT, µs | Ours / FLINT | Second, µs | Ours / second |");
    println!("|---|---|---|---|---|---|---|---|---|");
}

/// The powers 0 to 15 of variable 1.
pub fn line() -> Vec<u32> {
    (0..16).map(|exponent| exponent << shift(1)).collect()
}

/// In 8 variables: sparse factors, and some whose products up to the order are at most 64, all of them kept.
fn print_eight(random: &mut Random) {
    heads(8);
    row_of(random, "sparse, refused", 15, |random| {
        factors_in(random, 8, 64, 15, Kind::Any)
    });
    row_of(random, "sparse, kept", 15, |random| {
        factors_in(random, 8, 64, 15, Kind::Kept)
    });
    row_of(random, "all up to degree 1", 2, |random| {
        up_to_degree(random, 1)
    });
    row_of(random, "all up to degree 2", 2, |random| {
        up_to_degree(random, 2)
    });
    row_of(random, "1 and 63 of degree 3", 3, cubic);
    println!();
}

fn row_of(
    random: &mut Random,
    name: &str,
    order: u8,
    factors: impl Fn(&mut Random) -> (Model, Model),
) {
    let pairs: Vec<Pair> = (0..INPUTS).map(|_| Pair::of(factors(random))).collect();
    timed(name, pairs[0].f.count, order, &pairs);
}

fn row(random: &mut Random, name: &str, terms: usize, order: u8, kind: Kind) {
    let pairs: Vec<Pair> = (0..INPUTS)
        .map(|_| Pair::new(random, terms, order, kind))
        .collect();
    timed(name, terms, order, &pairs);
}

fn timed(name: &str, terms: usize, order: u8, pairs: &[Pair]) {
    let accepted = pairs.iter().filter(|pair| pair.accepted(order)).count();
    let [ours, flint, second] = best(ROUNDS, INPUTS, |way, input| {
        let pair = &pairs[input];
        match way {
            0 => {
                let _ = black_box(hechroung::multiply(order, &pair.f, &pair.g));
            }
            1 => pair.polynomials.0.multiply(&pair.polynomials.1),
            _ => {
                let _ = black_box(calls::multiply(&pair.stored_f, &pair.stored_g, order));
            }
        }
    });
    println!(
        "| {name} | {terms} x {terms} | {order} | {accepted} of {INPUTS} | {ours:.2} | {flint:.2} | {:.2} | {second:.1} | {:.3} |",
        ours / flint,
        ours / second
    );
}

/// The model as the second implementation takes it.
pub fn stored(model: &Model) -> StoredModel {
    let terms = std::array::from_fn(|place| StoredTerm {
        key: model.keys[place],
        coefficient: model.coefficients[place],
    });
    StoredModel {
        n: model.n,
        count: model.count,
        radius: model.radius,
        terms,
    }
}
