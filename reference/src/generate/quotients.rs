//! Operands of quotients: f, g, h and w that are accepted, and such that a known
//! test refuses, in each of the forms that a quotient works out in turn: g × h,
//! minus f, w × that, w × g, 1 minus that, and at last the result.

use super::draft::DraftModel;
use super::models::{self, Scale, LARGEST_SPAN, UNIT};
use super::proposals;
use super::random::Random;
use crate::model::Model;
use crate::operations;

/// f, g, h and w of a quotient, in n variables with order d.
#[derive(Clone, Debug, PartialEq, Eq)]
pub struct Operands {
    pub n: u8,
    pub d: u8,
    pub models: [DraftModel; 4],
}

/// A way to make operands, with the refusal that they get; 0 means accepted.
#[derive(Clone, Copy, Debug)]
pub struct Way {
    pub name: &'static str,
    pub refusal: u8,
    pub make: fn(&mut Random) -> Operands,
}

const fn way(name: &'static str, refusal: u8, make: fn(&mut Random) -> Operands) -> Way {
    Way {
        name,
        refusal,
        make,
    }
}

/// Every form can be refused by its terms and by its span.
pub const REFUSED: [Way; 20] = [
    way("12 by a w of zero", 12, zero_w),
    way("12 by a g without a middle", 12, no_middle),
    way("12 by a w of the wrong sign", 12, wrong_sign),
    way("12 by mu at U", 12, mu_at_unit),
    way("12 by an even power", 12, mu_by_even_power),
    way("12 by the radius of g", 12, wide_divisor),
    way("8 by g h", 8, terms_by_product),
    way("7 by g h", 7, span_by_product),
    way("8 by g h - f", 8, terms_by_difference),
    way("7 by g h - f", 7, span_by_difference),
    way("8 by w (g h - f)", 8, terms_by_weighted),
    way("7 by w (g h - f)", 7, span_by_weighted),
    way("8 by w g", 8, terms_by_divisor),
    way("7 by w g", 7, span_by_divisor),
    way("8 by 1 - w g", 8, terms_by_one_minus),
    way("7 by 1 - w g", 7, span_by_one_minus),
    way("7 by the result", 7, span_by_result),
    way("7 by the result, one above", 7, span_just_above),
    way("7 by g h before 8 by w g", 7, span_before_terms),
    way("7 by g h - f before 12", 7, span_before_mu),
];

/// A model of up to so many terms, of a scale at which products have room.
fn small(random: &mut Random, n: u8, d: u8, most: usize) -> DraftModel {
    let scale = *random.pick(&[Scale::Tiny, Scale::Inside, Scale::Unit]);
    let count = random.size(0, most);
    models::of_scale(random, n, d, count, scale)
}

/// One term of key 0, or none.
fn constant(value: i64) -> DraftModel {
    let terms: &[(u16, i32)] = &[(0, value as i32)];
    DraftModel::new(0, if value == 0 { &[] } else { terms })
}

/// Anything in the place of a radius that is not looked at.
fn any_radius(random: &mut Random, model: &mut DraftModel) {
    let most = LARGEST_SPAN - model.span() as i64;
    let radius = match random.below(4) {
        0 => most,
        1 => random.between(0, most),
        2 => random.between(0, most.min(9)),
        _ => 0,
    };
    model.radius += radius as u32;
}

/// The radii of h and w never matter.
fn operands(
    random: &mut Random,
    n: u8,
    d: u8,
    f: DraftModel,
    g: DraftModel,
    mut h: DraftModel,
    mut w: DraftModel,
) -> Operands {
    any_radius(random, &mut h);
    any_radius(random, &mut w);
    Operands {
        n,
        d,
        models: [f, g, h, w],
    }
}

fn any_n_and_order(random: &mut Random) -> (u8, u8) {
    (models::any_n(random), random.byte(1, 15))
}

/// An n and a least order with more than 64 monomials.
pub fn many_monomials(random: &mut Random) -> (u8, u8) {
    *random.pick(&[(2, 10), (3, 6), (4, 4), (5, 4), (6, 4), (7, 4), (8, 4)])
}

/// All monomials up to a degree, each with the same coefficient.
fn full(n: u8, degree: u8, coefficient: i32) -> DraftModel {
    let keys = models::all_keys(n, degree);
    DraftModel {
        radius: 0,
        terms: keys.iter().map(|&key| (key, coefficient)).collect(),
    }
}

/// Two full models whose product has more than 64 monomials up to the order.
fn full_factors(random: &mut Random) -> (u8, u8, DraftModel, DraftModel) {
    let (n, least) = many_monomials(random);
    let half = least / 2;
    let first = full(n, half, 1 << 17);
    let second = full(n, least - half, 1 << 17);
    let d = random.byte(least, 15);
    (n, d, first, second)
}

/// Two constants whose product passes the span, by 1 or far, each within it.
fn large_constants(random: &mut Random) -> (i64, i64) {
    if random.one_in(3) {
        // Their product is 2^50 + 1: the rest of 1 costs a radius of 1.
        return ((1 << 25) + (1 << 13) + 1, (1 << 25) - (1 << 13) + 1);
    }
    let first = random.between(1 << 21, LARGEST_SPAN);
    let least = LARGEST_SPAN * UNIT / first + 1;
    let second = random.between(least, LARGEST_SPAN);
    (random.sign() * first, random.sign() * second)
}

// Accepted.

/// A model that is nowhere zero: its constant coefficient outweighs everything
/// else, or its even powers lead away from zero.
pub fn divisor(random: &mut Random, n: u8, d: u8, most_terms: usize) -> DraftModel {
    if d >= 2 && random.one_in(3) {
        return even_divisor(random, n, d, most_terms);
    }
    outweighing(random, n, d, most_terms)
}

/// c × (1 + s), with s a sum of even powers up to several times 1.
fn even_divisor(random: &mut Random, n: u8, d: u8, most_terms: usize) -> DraftModel {
    let middle = random.between(1 << 17, 1 << 21);
    let sign = random.sign();
    let count = random.size(1, most_terms);
    let keys = models::keys(random, n, d / 2, count);
    let mut terms = vec![(0, (sign * middle) as i32)];
    for key in keys.into_iter().map(|key| 2 * key).filter(|&key| key != 0) {
        terms.push((key, (sign * random.between(1, 2 * middle)) as i32));
    }
    DraftModel::wide(random.below(900) as u32, &terms)
}

/// A model whose constant coefficient outweighs everything else.
fn outweighing(random: &mut Random, n: u8, d: u8, most_terms: usize) -> DraftModel {
    let power = random.byte(16, 23);
    let middle = random.between(1 << power, 2 << power);
    let count = random.size(0, most_terms);
    let mut others = models::of_scale(random, n, d, count, Scale::Inside);
    others.terms.retain(|&(key, _)| key != 0);
    others.radius %= 1 << random.below(12);
    // The others together are at most U; so much of the middle is left them.
    let part = random.between(1, 15);
    for (_, c) in &mut others.terms {
        *c = (i64::from(*c) * middle * part / (16 * UNIT)) as i32;
    }
    others.terms.retain(|&(_, c)| c != 0);
    let term = (0, (random.sign() * middle) as i32);
    others.terms.insert(0, term);
    others
}

/// Operands that a run accepts, by a proposal of Newton's rule.
pub fn accepted(random: &mut Random) -> Operands {
    let (n, d) = any_n_and_order(random);
    for _ in 0..8 {
        let most = *random.pick(&[2, 6, 20]);
        let f = small(random, n, d, most);
        let g = divisor(random, n, d, 5);
        let (sound_f, sound_g) = (f.model(n), g.model(n));
        let order = u32::from(d);
        let proposal = proposals::proposal(random, &sound_f, &sound_g, order);
        let Some(proposals::Proposal { h, w }) = proposal else {
            continue;
        };
        if operations::quotient(&sound_f, &sound_g, &h, &w, order).is_ok() {
            let (h, w) = (DraftModel::of(&h), DraftModel::of(&w));
            return operands(random, n, d, f, g, h, w);
        }
    }
    let one = constant(UNIT);
    operands(random, n, d, constant(0), one.clone(), constant(0), one)
}

// Refused with 12.

/// 1 - w × g is 1.
fn zero_w(random: &mut Random) -> Operands {
    let (n, d) = any_n_and_order(random);
    let (f, g) = (small(random, n, d, 6), small(random, n, d, 6));
    operands(random, n, d, f, g, constant(0), constant(0))
}

/// A constant w: the constant coefficient of 1 - w × g is U.
fn no_middle(random: &mut Random) -> Operands {
    let (n, d) = any_n_and_order(random);
    let mut g = small(random, n, d, 6);
    g.terms.retain(|&(key, _)| key != 0);
    let f = small(random, n, d, 6);
    let h = constant(random.between(-UNIT, UNIT));
    let w = constant(random.between(-UNIT, UNIT));
    operands(random, n, d, f, g, h, w)
}

/// The constant coefficient of 1 - w × g is about 2.
fn wrong_sign(random: &mut Random) -> Operands {
    let (n, d) = any_n_and_order(random);
    let f = small(random, n, d, 6);
    let g = outweighing(random, n, d, 4);
    let w = proposals::middle_inverse(&g.model(n)).expect("a divisor has a middle");
    let mut w = DraftModel::of(&w);
    w.terms.iter_mut().for_each(|(_, c)| *c = -*c);
    operands(random, n, d, f, g, constant(0), w)
}

/// g = 1 + s, with s a variable or a radius of 1, and w = 1: mu is U.
fn mu_at_unit(random: &mut Random) -> Operands {
    let (n, d) = any_n_and_order(random);
    let f = small(random, n, d, 6);
    let g = if random.one_in(2) {
        let key = models::variable_key(random.byte(1, n));
        DraftModel::wide(0, &[(0, 1 << 20), (key, (random.sign() * UNIT) as i32)])
    } else {
        DraftModel::new(1 << 20, &[(0, 1 << 20)])
    };
    operands(random, n, d, f, g, constant(0), constant(UNIT))
}

/// g = 1 + c × x^k with k even and c from 1 on, or from -1 on down, and w = 1: x^k
/// takes 1 - w × g to -c or c.
fn mu_by_even_power(random: &mut Random) -> Operands {
    let (n, d) = (models::any_n(random), random.byte(2, 15));
    let f = small(random, n, d, 6);
    let power = u32::from(2 * random.byte(1, d / 2));
    let key = power * models::variable_key(random.byte(1, n));
    let size = *random.pick(&[UNIT, UNIT + 1, 3 * UNIT]);
    let c = (random.sign() * size) as i32;
    let g = DraftModel::wide(0, &[(0, 1 << 20), (key, c)]);
    operands(random, n, d, f, g, constant(0), constant(UNIT))
}

/// A good w, but the radius of g reaches across zero.
fn wide_divisor(random: &mut Random) -> Operands {
    let (n, d) = any_n_and_order(random);
    let f = small(random, n, d, 6);
    let mut g = outweighing(random, n, d, 3);
    let w = proposals::middle_inverse(&g.model(n)).expect("a divisor has a middle");
    g.radius = g.terms[0].1.unsigned_abs() + random.below(3_000) as u32 + 64;
    operands(random, n, d, f, g, constant(0), DraftModel::of(&w))
}

// Refused in the first form, w × (g × h - f).

fn terms_by_product(random: &mut Random) -> Operands {
    let (n, d, g, h) = full_factors(random);
    let (f, w) = (small(random, n, d, 3), small(random, n, d, 3));
    operands(random, n, d, f, g, h, w)
}

fn span_by_product(random: &mut Random) -> Operands {
    let (n, d) = any_n_and_order(random);
    let (f, w) = (small(random, n, d, 6), small(random, n, d, 6));
    let (g, h) = large_constants(random);
    operands(random, n, d, f, constant(g), constant(h), w)
}

/// 64 terms and another one, in two models.
fn split_terms(random: &mut Random, n: u8, d: u8) -> (DraftModel, DraftModel) {
    let keys = models::keys(random, n, d, 65);
    let extra = random.size(0, 64);
    let mut many = DraftModel::default();
    let mut one = DraftModel::default();
    for (index, &key) in keys.iter().enumerate() {
        let coefficient = (random.sign() * random.between(1, UNIT)) as i32;
        let model = if index == extra { &mut one } else { &mut many };
        model.terms.push((key, coefficient));
    }
    (many, one)
}

/// g = 1, so that g × h is h.
fn terms_by_difference(random: &mut Random) -> Operands {
    let (n, least) = many_monomials(random);
    let d = random.byte(least, 15);
    let (many, one) = split_terms(random, n, d);
    let (f, h) = if random.one_in(2) {
        (many, one)
    } else {
        (one, many)
    };
    let w = small(random, n, d, 3);
    operands(random, n, d, f, constant(UNIT), h, w)
}

fn span_by_difference(random: &mut Random) -> Operands {
    let (n, d) = any_n_and_order(random);
    let sign = random.sign();
    let size = random.between(1, LARGEST_SPAN);
    let beyond = if random.one_in(2) {
        1
    } else {
        random.between(1, size)
    };
    let h = constant(sign * size);
    let f = constant(-sign * (LARGEST_SPAN - size + beyond));
    let w = small(random, n, d, 3);
    operands(random, n, d, f, constant(UNIT), h, w)
}

/// g = 1 and f = 0, so that w × h is made.
fn terms_by_weighted(random: &mut Random) -> Operands {
    let (n, d, h, w) = full_factors(random);
    operands(random, n, d, constant(0), constant(UNIT), h, w)
}

fn span_by_weighted(random: &mut Random) -> Operands {
    let (n, d) = any_n_and_order(random);
    let (h, w) = large_constants(random);
    let (h, w) = (constant(h), constant(w));
    operands(random, n, d, constant(0), constant(UNIT), h, w)
}

// Refused in the second form, 1 - w × g, while the first one is zero.

fn terms_by_divisor(random: &mut Random) -> Operands {
    let (n, d, g, w) = full_factors(random);
    operands(random, n, d, constant(0), g, constant(0), w)
}

fn span_by_divisor(random: &mut Random) -> Operands {
    let (n, d) = any_n_and_order(random);
    let (g, w) = large_constants(random);
    let (g, w) = (constant(g), constant(w));
    operands(random, n, d, constant(0), g, constant(0), w)
}

/// 64 terms without a constant one, from which 1 is taken away.
fn terms_by_one_minus(random: &mut Random) -> Operands {
    let (n, least) = many_monomials(random);
    let d = random.byte(least, 15);
    let mut keys = models::keys(random, n, d, 65);
    keys.retain(|&key| key != 0);
    keys.truncate(64);
    let terms: Vec<(u32, i32)> = keys.iter().map(|&key| (key, 1 << 14)).collect();
    let many = DraftModel::wide(0, &terms);
    let (g, w) = if random.one_in(2) {
        (many, constant(UNIT))
    } else {
        (constant(UNIT), many)
    };
    operands(random, n, d, constant(0), g, constant(0), w)
}

/// w × g is within the span, and 1 minus that above it.
fn span_by_one_minus(random: &mut Random) -> Operands {
    let (n, d) = any_n_and_order(random);
    let beyond = if random.one_in(2) {
        1
    } else {
        random.between(1, UNIT)
    };
    let size = LARGEST_SPAN - UNIT + beyond;
    let large = if random.one_in(2) {
        constant(-size)
    } else {
        let key = models::variable_key(random.byte(1, n));
        DraftModel::wide(0, &[(key, (random.sign() * size) as i32)])
    };
    let (g, w) = if random.one_in(2) {
        (large, constant(UNIT))
    } else {
        (constant(UNIT), large)
    };
    operands(random, n, d, constant(0), g, constant(0), w)
}

// Refused at last.

/// g = 1 / U and w = 1: mu is U - 1, and beta becomes U times as large.
fn span_by_result(random: &mut Random) -> Operands {
    let (n, d) = any_n_and_order(random);
    let f = constant(random.sign() * random.between(1025, LARGEST_SPAN));
    operands(random, n, d, f, constant(1), constant(0), constant(UNIT))
}

/// g = w = 1: the radius is the size of h - f, and one too large.
fn span_just_above(random: &mut Random) -> Operands {
    let (n, d) = any_n_and_order(random);
    let sign = random.sign();
    let room = random.between(0, LARGEST_SPAN / 2);
    let size = LARGEST_SPAN - room;
    let h = constant(sign * size);
    let f = constant(sign * (size - room - 1));
    let one = constant(UNIT);
    operands(random, n, d, f, one.clone(), h, one)
}

/// The first form has no room for g × h, the second would have too many terms.
fn span_before_terms(random: &mut Random) -> Operands {
    let (n, d, g, w) = full_factors(random);
    let f = small(random, n, d, 3);
    // Every term of g has 2^17, and one times 2^30 is 2^27; there are 10 or more.
    operands(random, n, d, f, g, constant(LARGEST_SPAN), w)
}

/// The first form has no room for the difference, and w is zero.
fn span_before_mu(random: &mut Random) -> Operands {
    let (n, d) = any_n_and_order(random);
    let (f, h) = (constant(-1), constant(LARGEST_SPAN));
    operands(random, n, d, f, constant(UNIT), h, constant(0))
}

/// The operands as sound models.
pub fn sound(operands: &Operands) -> [Model; 4] {
    operands
        .models
        .each_ref()
        .map(|model| model.model(operands.n))
}
