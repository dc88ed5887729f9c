//! Inputs that are timed, in 4 variables where no other number is named: factors of products, and sheets.

use hechroung::{Model, UNIT};
use reference::book::{Step, ADD, INPUT, MULTIPLY};
use reference::generate::{self, Draft, DraftModel, Random};
use std::collections::BTreeSet;
use std::ops::RangeInclusive;

/// The order of the largest sheets.
pub const ORDER: u8 = 15;
/// The most steps.
pub const STEPS: usize = 64;
const MODELS: usize = 16;
pub const VARIABLES: u8 = 4;
const RADIUS: u64 = 5;

/// What the factors of a row are like.
#[derive(Clone, Copy, PartialEq)]
pub enum Kind {
    /// Coefficients of any size: with many monomials more than 64 are kept, and the call refuses with 8.
    Any,
    /// One large coefficient and small others at the same keys, so that what is kept fits.
    Kept,
    /// Coefficients of up to 1/4: nothing is above the largest span, and every monomial up to the order is kept.
    Quarters,
}

/// Two factors of this many terms each.
pub fn factors(random: &mut Random, terms: usize, order: u8, kind: Kind) -> (Model, Model) {
    factors_in(random, VARIABLES, terms, order, kind)
}

/// The same in n variables.
pub fn factors_in(
    random: &mut Random,
    n: u8,
    terms: usize,
    order: u8,
    kind: Kind,
) -> (Model, Model) {
    let keys = keys_in(random, 1..=n, terms, order);
    let other = match kind {
        Kind::Any => keys_in(random, 1..=n, terms, order),
        Kind::Kept | Kind::Quarters => keys.clone(),
    };
    let f = model(random, n, &keys, kind);
    let g = model(random, n, &other, kind);
    (f, g)
}

/// The 8 variables of the models below.
const EIGHT: RangeInclusive<u8> = 1..=8;

/// Two factors in 8 variables, of all monomials up to this degree.
pub fn up_to_degree(random: &mut Random, degree: u8) -> (Model, Model) {
    let mut keys: Vec<u32> = (0..=degree).flat_map(|d| all_of_degree(EIGHT, d)).collect();
    keys.sort_unstable();
    factors_at(random, *EIGHT.end(), &keys, Kind::Quarters)
}

/// Two factors in 8 variables, of 1 and the same 63 monomials of degree 3: with order 3 these are kept.
pub fn cubic(random: &mut Random) -> (Model, Model) {
    let all = all_of_degree(EIGHT, 3);
    let mut keys = BTreeSet::from([0]);
    while keys.len() < 64 {
        keys.insert(*random.pick(&all));
    }
    let keys: Vec<u32> = keys.into_iter().collect();
    factors_at(random, *EIGHT.end(), &keys, Kind::Quarters)
}

/// Two factors in n variables with these keys.
pub fn factors_at(random: &mut Random, n: u8, keys: &[u32], kind: Kind) -> (Model, Model) {
    let f = model(random, n, keys, kind);
    let g = model(random, n, keys, kind);
    (f, g)
}

/// Which terms a model has whose integral is timed.
#[derive(Clone, Copy, PartialEq)]
pub enum Parity {
    /// Any, of which most have an odd exponent and give 0.
    Any,
    /// Even in every variable: each one counts.
    Even,
}

/// A model of this many terms with coefficients of any size.
pub fn integrand(random: &mut Random, terms: usize, order: u8, parity: Parity) -> Model {
    let keys = match parity {
        Parity::Any => keys(random, terms, order),
        Parity::Even => {
            let halves = even_halves(random, terms, order / 2);
            halves.into_iter().map(|key| 2 * key).collect()
        }
    };
    model(random, VARIABLES, &keys, Kind::Any)
}

/// Different rising keys of degree at most this, all equally likely to be tried.
fn even_halves(random: &mut Random, terms: usize, degree: u8) -> BTreeSet<u32> {
    let mut halves = BTreeSet::from([0]);
    while halves.len() < terms {
        let key = random.next_u64() as u32 & 0x7777_0000;
        if generate::models::degree(key) <= degree {
            halves.insert(key);
        }
    }
    halves
}

/// Different rising keys of degree at most the order, 0 among them. For high orders low exponents are the likelier.
pub fn keys(random: &mut Random, terms: usize, order: u8) -> Vec<u32> {
    keys_in(random, 1..=VARIABLES, terms, order)
}

/// The same in these variables alone.
pub fn keys_in(
    random: &mut Random,
    variables: RangeInclusive<u8>,
    terms: usize,
    order: u8,
) -> Vec<u32> {
    let mut keys = BTreeSet::from([0]);
    while keys.len() < terms {
        let mut left = order;
        let mut key = 0;
        for variable in variables.clone() {
            let most = if order > 8 { left / 2 } else { left };
            let exponent = random.byte(0, most);
            left -= exponent;
            key |= u32::from(exponent) << shift(variable);
        }
        keys.insert(key);
    }
    keys.into_iter().collect()
}

/// Where the exponent of a variable, from 1, stands in a key.
pub fn shift(variable: u8) -> u32 {
    32 - 4 * u32::from(variable)
}

/// All monomials of these variables with this degree.
pub fn all_of_degree(variables: RangeInclusive<u8>, degree: u8) -> Vec<u32> {
    let (first, last) = variables.clone().into_inner();
    if first == last {
        return vec![u32::from(degree) << shift(first)];
    }
    let with = |exponent: u8| {
        let others = all_of_degree(first + 1..=last, degree - exponent);
        let power = u32::from(exponent) << shift(first);
        others.into_iter().map(move |key| power | key)
    };
    (0..=degree).flat_map(with).collect()
}

fn model(random: &mut Random, n: u8, keys: &[u32], kind: Kind) -> Model {
    let mut model = Model {
        n,
        count: keys.len(),
        radius: RADIUS,
        ..Model::ZERO
    };
    for (place, &key) in keys.iter().enumerate() {
        let size = match kind {
            Kind::Any => random.between(1, 1 << 22),
            Kind::Kept if place == 0 => UNIT + random.between(0, 999),
            Kind::Kept => random.between(1, 60),
            Kind::Quarters => random.between(1, UNIT / 4),
        };
        let sign = if place == 0 { 1 } else { random.sign() };
        model.keys[place] = key;
        model.coefficients[place] = size * sign;
    }
    model
}

/// Three inputs, then sums and products in turn of a result and an input.
pub fn typical(random: &mut Random) -> Vec<u8> {
    let keys = keys(random, 15, 4);
    let models = (0..3).map(|_| draft_model(random, &keys)).collect();
    let mut steps: Vec<Step> = (0..3).map(|number| Step::one(INPUT, number)).collect();
    while steps.len() < 20 {
        let code = if steps.len() % 2 == 1 { MULTIPLY } else { ADD };
        let last = steps.len() as u8 - 1;
        let earlier = random.byte(0, 2);
        steps.push(if code == ADD {
            Step::two(ADD, earlier, random.byte(0, 2))
        } else {
            Step::two(MULTIPLY, last, earlier)
        });
    }
    Draft::new(4, 4, models, steps).bytes()
}

/// Sixteen models of 64 terms at the same keys; two inputs, then products of the last result and an input.
pub fn largest(random: &mut Random, count: usize) -> Vec<u8> {
    largest_in(random, VARIABLES, count)
}

/// The same in n variables.
pub fn largest_in(random: &mut Random, n: u8, count: usize) -> Vec<u8> {
    let keys = keys_in(random, 1..=n, 64, 15);
    let models = (0..MODELS).map(|_| draft_model(random, &keys)).collect();
    let mut steps = vec![
        Step::one(INPUT, random.byte(0, 15)),
        Step::one(INPUT, random.byte(0, 15)),
    ];
    while steps.len() < count {
        let last = steps.len() as u8 - 1;
        steps.push(Step::two(MULTIPLY, last, random.byte(0, 1)));
    }
    steps.truncate(count);
    Draft::new(n, ORDER, models, steps).bytes()
}

/// Small coefficients but for the constant one, so that 62 products in a row keep the same 64 terms.
pub fn draft_model(random: &mut Random, keys: &[u32]) -> DraftModel {
    let model = model(random, VARIABLES, keys, Kind::Kept);
    let small = |key: u32, c: i64| {
        if key == 0 {
            c
        } else {
            c.signum() * (c.abs() % 15 + 1)
        }
    };
    DraftModel {
        radius: model.radius as u32,
        terms: model
            .terms()
            .map(|(key, c)| (key, small(key, c) as i32))
            .collect(),
    }
}

/// f, g, h and w of a quotient that is certified: models of this many terms at the same keys with radius 0, all about 1.
pub fn quotient_models(random: &mut Random, terms: usize, order: u8) -> Vec<DraftModel> {
    let keys = keys(random, terms, order);
    let mut exact = || DraftModel {
        radius: 0,
        ..draft_model(random, &keys)
    };
    (0..4).map(|_| exact()).collect()
}
