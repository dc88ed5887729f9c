//! Sheets that pass tests 1 to 6 and whose run is refused at a known step: with
//! 7, 8, 9 or 12. Random accepted steps stand before, random steps after.

use super::draft::{Draft, DraftModel};
use super::models::{self, LARGEST_SPAN, UNIT};
use super::quotients::{self, many_monomials, Operands};
use super::random::Random;
use super::sound::{self, Shape};
use super::{Expected, Kind};
use crate::book::{Step, ADD, MOST_STEPS, MULTIPLY, SUBTRACT};

pub const KINDS: [Kind; 20] = [
    kind("7 by a sum of constants", span_by_sum),
    kind("7 by a difference", span_by_difference),
    kind("7 by radii added", span_by_radii),
    kind("7 by a product, one above", span_by_product),
    kind("7 by radii multiplied", span_by_radius_product),
    kind("7 inside a substitution", span_by_substitution),
    kind(
        "7 by the last addition of a substitution",
        span_by_last_radius,
    ),
    kind("7 before a later 8 in a substitution", span_before_terms),
    kind("8 by a sum", terms_by_sum),
    kind("8 by a product", terms_by_product),
    kind("8 by a substitution's product", terms_by_inner_product),
    kind("8 by a substitution's sum", terms_by_inner_sum),
    kind("8 and 7 together", terms_and_span),
    kind("9 by a constant", leaves_by_constant),
    kind("9 by a radius only", leaves_by_radius),
    kind("9 by an even power", leaves_by_even_power),
    kind("9 by the growth of an antiderivative", leaves_by_growth),
    kind("9 where the variable is missing", leaves_without_variable),
    kind("7, 8 or 12 by a quotient", refused_quotient),
    kind("12 by a quotient", uncertified_quotient),
];

type Made = (Vec<u8>, Expected);

const fn kind(name: &'static str, make: fn(&mut Random) -> Made) -> Kind {
    Kind { name, make }
}

/// Leaves room for the models and steps of a fault.
const BEFORE: Shape = Shape {
    models: 6,
    steps: 59,
    terms: 8,
};

fn before(random: &mut Random) -> Draft {
    sound::accepted(random, BEFORE)
}

fn before_of(random: &mut Random, n: u8, least_order: u8) -> Draft {
    let d = random.byte(least_order, 15);
    sound::accepted_of(random, n, d, BEFORE)
}

/// The last step of the draft is refused with the number; steps that keep
/// their form may follow, as the run ends before them.
fn refused(random: &mut Random, mut draft: Draft, number: u8) -> Made {
    let place = draft.steps.len() - 1;
    let room = MOST_STEPS - draft.steps.len();
    for _ in 0..random.size(0, room.min(6)) {
        let step = sound::well_formed_step(random, &draft);
        draft.push(step);
    }
    (draft.bytes(), Expected::Refused(number, place))
}

fn span_by_sum(random: &mut Random) -> Made {
    let mut draft = before(random);
    let first = random.between(1, LARGEST_SPAN);
    let beyond = if random.one_in(2) {
        1
    } else {
        random.between(1, first)
    };
    let sign = random.sign();
    let a = draft.push(Step::constant((sign * first) as i32));
    let second = LARGEST_SPAN - first + beyond;
    let b = draft.push(Step::constant((sign * second) as i32));
    draft.push(Step::two(ADD, a, b));
    refused(random, draft, 7)
}

fn span_by_difference(random: &mut Random) -> Made {
    let mut draft = before(random);
    let v = random.byte(1, draft.n);
    let a = draft.push(Step::variable(v));
    let size = LARGEST_SPAN - UNIT + 1;
    let b = draft.push(Step::constant((random.sign() * size) as i32));
    draft.push(Step::two(SUBTRACT, a, b));
    refused(random, draft, 7)
}

fn span_by_radii(random: &mut Random) -> Made {
    let mut draft = before(random);
    let first = random.between(1, LARGEST_SPAN);
    let second = LARGEST_SPAN - first + 1;
    let a = draft.push_input(DraftModel::new(first as u32, &[]));
    let b = draft.push_input(DraftModel::new(second as u32, &[]));
    let code = *random.pick(&[ADD, SUBTRACT]);
    draft.push(Step::two(code, a, b));
    refused(random, draft, 7)
}

/// (2^25 + 2^13 + 1)(2^25 - 2^13 + 1) = 2^50 + 1: the coefficient is 2^30, and
/// the rest of 1 costs a radius of 1.
fn span_by_product(random: &mut Random) -> Made {
    let mut draft = before(random);
    let a = draft.push(Step::constant((1 << 25) + (1 << 13) + 1));
    let b = draft.push(Step::constant((1 << 25) - (1 << 13) + 1));
    draft.push(Step::two(MULTIPLY, a, b));
    refused(random, draft, 7)
}

fn span_by_radius_product(random: &mut Random) -> Made {
    let mut draft = before(random);
    let a = draft.push_input(DraftModel::new(1 << 25, &[]));
    let b = draft.push_input(DraftModel::new((1 << 25) + 1, &[]));
    draft.push(Step::two(MULTIPLY, a, b));
    refused(random, draft, 7)
}

/// U/4 × (1 + x + x^2 + x^3) in the variable of the given key.
fn four_quarters(x: u32) -> DraftModel {
    let terms: Vec<(u32, i32)> = (0..4).map(|k| (k * x, 1 << 18)).collect();
    DraftModel::wide(0, &terms)
}

/// (2^30 - 1) × x with four quarters put in: each quarter rounds up, and the
/// rests together cost a radius of 1.
fn span_by_substitution(random: &mut Random) -> Made {
    let n = models::any_n(random);
    let mut draft = before_of(random, n, 3);
    let v = random.byte(1, n);
    let x = models::variable_key(v);
    let f = draft.push_input(DraftModel::wide(0, &[(x, (1 << 30) - 1)]));
    let g = draft.push_input(four_quarters(x));
    draft.push(Step::substitute(f, g, v));
    refused(random, draft, 7)
}

/// (2^30 - 1001) × x with radius 1001: the inner product has room for its two
/// units of rounding, and only the radius of f passes the limit.
fn span_by_last_radius(random: &mut Random) -> Made {
    let n = models::any_n(random);
    let mut draft = before_of(random, n, 3);
    let v = random.byte(1, n);
    let x = models::variable_key(v);
    let f = draft.push_input(DraftModel::wide(1001, &[(x, (1 << 30) - 1001)]));
    let g = draft.push_input(four_quarters(x));
    draft.push(Step::substitute(f, g, v));
    refused(random, draft, 7)
}

/// (2^30 - 10) × x^2 with 64 terms of U/64 put in: the first product passes
/// the span with 64 terms, the second would have more than 64.
fn span_before_terms(random: &mut Random) -> Made {
    let n = random.byte(4, 8);
    let mut draft = before_of(random, n, 8);
    let terms: Vec<(u32, i32)> = models::all_keys(n, 4)[..64]
        .iter()
        .map(|&key| (key, 1 << 14))
        .collect();
    let f = draft.push_input(DraftModel::new(0, &[(0x2000, (1 << 30) - 10)]));
    let g = draft.push_input(DraftModel::wide(0, &terms));
    draft.push(Step::substitute(f, g, 1));
    refused(random, draft, 7)
}

/// 64 and `extra` terms with distinct keys, in two models.
fn split_terms(random: &mut Random, n: u8, d: u8, extra: usize) -> (DraftModel, DraftModel) {
    let keys = models::keys(random, n, d, 64 + extra);
    let mut first = DraftModel::default();
    let mut second = DraftModel::default();
    let skipped = random.size(0, 64);
    for (index, &key) in keys.iter().enumerate() {
        let coefficient = (random.sign() * random.between(1, UNIT)) as i32;
        let is_extra = (skipped..skipped + extra).contains(&index);
        let model = if is_extra { &mut second } else { &mut first };
        model.terms.push((key, coefficient));
    }
    (first, second)
}

fn terms_by_sum(random: &mut Random) -> Made {
    let (n, least) = many_monomials(random);
    let mut draft = before_of(random, n, least);
    let (f, g) = split_terms(random, n, draft.d, 1);
    let f = draft.push_input(f);
    let g = draft.push_input(g);
    let code = *random.pick(&[ADD, SUBTRACT]);
    let (a, b) = if random.one_in(2) { (f, g) } else { (g, f) };
    draft.push(Step::two(code, a, b));
    refused(random, draft, 8)
}

/// All monomials up to a degree, each with the same coefficient.
fn full_model(n: u8, degree: u8, coefficient: i32) -> DraftModel {
    let keys = models::all_keys(n, degree);
    DraftModel {
        radius: 0,
        terms: keys.iter().map(|&key| (key, coefficient)).collect(),
    }
}

/// Two full models whose product has more than 64 monomials up to the order.
fn product_of_full_models(random: &mut Random, coefficient: i32) -> Made {
    let (n, least) = many_monomials(random);
    let mut draft = before_of(random, n, least);
    let half = least / 2;
    let f = draft.push_input(full_model(n, half, coefficient));
    let g = draft.push_input(full_model(n, least - half, coefficient));
    draft.push(Step::two(MULTIPLY, f, g));
    refused(random, draft, 8)
}

fn terms_by_product(random: &mut Random) -> Made {
    product_of_full_models(random, 1 << 17)
}

/// The same with a product whose span is above the limit too.
fn terms_and_span(random: &mut Random) -> Made {
    product_of_full_models(random, 1 << 24)
}

/// x (1 + y + ... + y^9) with all 21 monomials of degree up to 5 for x: 75
/// monomials, all of degree up to 14. x and y are the first and the last variable.
fn terms_by_inner_product(random: &mut Random) -> Made {
    let n = random.byte(2, 8);
    let mut draft = before_of(random, n, 14);
    let (x, y) = (models::variable_key(1), models::variable_key(n));
    let terms: Vec<(u32, i32)> = (0..10).map(|k| (x + k * y, 1 << 23)).collect();
    let f = draft.push_input(DraftModel::wide(0, &terms));
    let powers = (0..=5).flat_map(|i| (0..=5 - i).map(move |j| (i * x + j * y, 1 << 15)));
    let terms: Vec<(u32, i32)> = powers.collect();
    let g = draft.push_input(DraftModel::wide(0, &terms));
    draft.push(Step::substitute(f, g, 1));
    refused(random, draft, 8)
}

/// x plus 63 terms without x, with x/2 + x^2/4 put in: the product has two
/// terms, and the sum 65.
fn terms_by_inner_sum(random: &mut Random) -> Made {
    let n = random.byte(3, 8);
    let mut draft = before_of(random, n, 10);
    let x = models::variable_key(1);
    // Enough for 63 without x: 66 in two variables, 84 in three.
    let degree = if n == 3 { 10 } else { 6 };
    let keys = models::all_keys(n, degree).into_iter();
    let without_x = keys.filter(|&key| key < x).take(63);
    let mut terms: Vec<(u32, i32)> = without_x.map(|key| (key, 1)).collect();
    terms.push((x, 1 << 20));
    let f = draft.push_input(DraftModel::wide(0, &terms));
    let g = draft.push_input(DraftModel::new(0, &[(0x1000, 1 << 19), (0x2000, 1 << 18)]));
    draft.push(Step::substitute(f, g, 1));
    refused(random, draft, 8)
}

fn leaves_by_constant(random: &mut Random) -> Made {
    let mut draft = before(random);
    let v = random.byte(1, draft.n);
    let f = draft.push(Step::variable(v));
    let beyond = if random.one_in(2) {
        1
    } else {
        random.between(1, UNIT)
    };
    let g = draft.push(Step::constant((random.sign() * (UNIT + beyond)) as i32));
    draft.push(Step::substitute(f, g, v));
    refused(random, draft, 9)
}

/// The polynomial stays in the box, and only the radius leaves it, by 1.
fn leaves_by_radius(random: &mut Random) -> Made {
    let mut draft = before(random);
    let v = random.byte(1, draft.n);
    let f = draft.push(Step::variable(v));
    let g = inside_model(random, draft.n, draft.d);
    let g = draft.push_input(g);
    draft.push(Step::substitute(f, g, v));
    refused(random, draft, 9)
}

/// Coefficients within U together, all of one sign, so that they meet at a corner
/// of the box, and a radius one too large.
fn inside_model(random: &mut Random, n: u8, d: u8) -> DraftModel {
    let scale = models::Scale::Inside;
    let count = random.size(0, 4);
    let mut model = models::of_scale(random, n, d, count, scale);
    let sign = random.sign() as i32;
    model
        .terms
        .iter_mut()
        .for_each(|(_, c)| *c = sign * c.abs());
    model.radius = 0;
    model.radius = (UNIT as u64 - model.span() + 1) as u32;
    model
}

/// From one end of the box to one beyond the other: at 0 it is at the one end, and
/// the even power takes it to the other.
fn leaves_by_even_power(random: &mut Random) -> Made {
    let n = models::any_n(random);
    let mut draft = before_of(random, n, 2);
    let v = random.byte(1, n);
    let f = draft.push(Step::variable(v));
    let power = u32::from(2 * random.byte(1, draft.d / 2));
    let key = power * models::variable_key(v);
    let sign = random.sign() as i32;
    let end = sign * UNIT as i32;
    let g = DraftModel::wide(0, &[(0, -end), (key, 2 * end + sign)]);
    let g = draft.push_input(g);
    draft.push(Step::substitute(f, g, v));
    refused(random, draft, 9)
}

/// 1 + c × x gathered is x + c/2 × x^2, and just inside without the 1 that c adds
/// to the radius: as an odd c of a tiny size, or as one swept above the order.
fn leaves_by_growth(random: &mut Random) -> Made {
    let mut draft = before(random);
    let v = random.byte(1, draft.n);
    let key = models::variable_key(v);
    let f = draft.push(Step::variable(v));
    let sign = random.sign() as i32;
    let flow = DraftModel::wide(0, &[(0, sign * UNIT as i32), (key, sign)]);
    let flow = draft.push_input(flow);
    let gathered = draft.push(Step::antiderivative(flow, v));
    draft.push(Step::substitute(f, gathered, v));
    refused(random, draft, 9)
}

fn leaves_without_variable(random: &mut Random) -> Made {
    let mut draft = before(random);
    let v = random.byte(1, draft.n);
    let f = if random.one_in(2) {
        draft.push(Step::constant(0))
    } else {
        draft.push_input(DraftModel::new(5, &[]))
    };
    let x = draft.push(Step::variable(v));
    let one = draft.push(Step::constant(1));
    let g = draft.push(Step::two(ADD, x, one));
    draft.push(Step::substitute(f, g, v));
    refused(random, draft, 9)
}

/// A quotient of four inputs, refused by any of its forms.
fn refused_quotient(random: &mut Random) -> Made {
    let way = *random.pick(&quotients::REFUSED);
    let operands = (way.make)(random);
    quotient_of(random, &operands, way.refusal)
}

fn uncertified_quotient(random: &mut Random) -> Made {
    let uncertified = quotients::REFUSED.iter().filter(|way| way.refusal == 12);
    let ways: Vec<_> = uncertified.collect();
    let operands = (random.pick(&ways).make)(random);
    quotient_of(random, &operands, 12)
}

/// A sheet whose quotient of these operands is refused.
pub fn quotient_of(random: &mut Random, operands: &Operands, number: u8) -> Made {
    let mut draft = sound::accepted_of(random, operands.n, operands.d, BEFORE);
    let [a, b, h, w] = operands.models.clone().map(|model| draft.push_input(model));
    draft.push(Step::quotient(a, b, h, w));
    refused(random, draft, number)
}
