//! Random sound models.

use super::draft::DraftModel;
use super::random::Random;
use crate::model::{key_of_monomial, monomial_of_key, MOST_VARIABLES, ONE};
use std::collections::BTreeSet;

pub const UNIT: i64 = 1 << 20;
pub const LARGEST_SPAN: i64 = 1 << 30;

/// How large the numbers of a model are.
#[derive(Clone, Copy, Debug, PartialEq, Eq)]
pub enum Scale {
    /// A few units of the last place, where rounding is everything.
    Tiny,
    /// A span of at most U, so that the model may be substituted.
    Inside,
    /// Coefficients about as large as U.
    Unit,
    /// Odd multiples of U/2, so that products fall on halves.
    Halves,
    /// A span up to the largest.
    Wide,
    /// Exactly the largest span.
    Full,
    /// Small coefficients and a radius that leaves little or no room for the
    /// rounding of a substitution.
    Brim,
    /// Even powers about a constant, whose range reaches the ends of the box or
    /// next to them, though the span may be three times as large.
    Even,
}

pub const SCALES: [Scale; 8] = [
    Scale::Tiny,
    Scale::Inside,
    Scale::Unit,
    Scale::Halves,
    Scale::Wide,
    Scale::Full,
    Scale::Brim,
    Scale::Even,
];

/// Any number of variables: as many sheets have each mark.
pub fn any_n(random: &mut Random) -> u8 {
    random.byte(1, MOST_VARIABLES as u8)
}

/// The key of a variable, from 1.
pub fn variable_key(v: u8) -> u32 {
    1 << (32 - 4 * u32::from(v))
}

/// A random key of n exponents with total degree at most `degree`.
pub fn key(random: &mut Random, n: u8, degree: u8) -> u32 {
    key_from(random, 1, n, degree)
}

/// A random key with exponents of variables `first` to n only.
fn key_from(random: &mut Random, first: u8, n: u8, degree: u8) -> u32 {
    let mut exponents = ONE;
    // One factor at a time: low degrees come as often as high ones.
    for _ in 0..random.byte(0, degree) {
        exponents[usize::from(random.byte(first, n)) - 1] += 1;
    }
    key_of_monomial(&exponents)
}

/// The total degree of a key's monomial.
pub fn degree(key: u32) -> u8 {
    monomial_of_key(key).iter().sum()
}

/// How many monomials of n variables have a degree of at most `degree`.
pub fn monomial_count(n: u8, degree: u8) -> usize {
    all_keys(n, degree).len()
}

/// All keys of n exponents with total degree at most `degree`, rising.
pub fn all_keys(n: u8, degree: u8) -> Vec<u32> {
    let mut keys = Vec::new();
    push_keys(&mut keys, 0, 1, n, degree);
    keys
}

/// Every choice of exponents of variables v to n, after those already in the key.
fn push_keys(keys: &mut Vec<u32>, key: u32, v: u8, n: u8, degree: u8) {
    if v > n {
        keys.push(key);
        return;
    }
    for exponent in 0..=degree {
        let key = key + u32::from(exponent) * variable_key(v);
        push_keys(keys, key, v + 1, n, degree - exponent);
    }
}

/// Rising random keys, as many as asked for or as there are. Now and then a few
/// have variables 5 to 8 alone, or the last one.
pub fn keys(random: &mut Random, n: u8, degree: u8, count: usize) -> Vec<u32> {
    let first = if n > 4 && count <= 8 {
        *random.pick(&[1, 1, 1, 5, 5, n])
    } else {
        1
    };
    let mut chosen = BTreeSet::new();
    for _ in 0..4 * count {
        if chosen.len() < count {
            chosen.insert(key_from(random, first, n, degree));
        }
    }
    if chosen.len() < count {
        let missing = all_keys(n, degree);
        let start = random.size(0, missing.len() - 1);
        let turned = missing[start..].iter().chain(&missing[..start]);
        for &key in turned {
            if chosen.len() < count {
                chosen.insert(key);
            }
        }
    }
    chosen.into_iter().collect()
}

/// A random sound model with at most `most_terms` terms.
pub fn model(random: &mut Random, n: u8, d: u8, most_terms: usize) -> DraftModel {
    // Even powers more often than the others, as order 1 makes constants of them.
    let scale = match random.below(4) {
        0 => Scale::Even,
        _ => *random.pick(&SCALES),
    };
    let count = random.size(0, most_terms);
    of_scale(random, n, d, count, scale)
}

/// A random sound model of a scale, with `count` terms or as many as there are.
pub fn of_scale(random: &mut Random, n: u8, d: u8, count: usize, scale: Scale) -> DraftModel {
    if scale == Scale::Even {
        return of_even_powers(random, n, d, count);
    }
    let keys = keys(random, n, d, count);
    let span = span_of(random, keys.len(), scale);
    let mut left = span;
    let mut terms = Vec::new();
    for (index, &key) in keys.iter().enumerate() {
        let later = (keys.len() - index - 1) as i64;
        let size = coefficient_size(random, left - later, later + 1, scale);
        left -= size;
        terms.push((key, (size * random.sign()) as i32));
    }
    let radius = match scale {
        Scale::Full => left,
        Scale::Brim => LARGEST_SPAN - (span - left) - random.between(0, 2),
        _ => radius_up_to(random, left),
    };
    DraftModel {
        radius: radius as u32,
        terms,
    }
}

/// A constant from -U to U and even powers, of which the positive ones reach up
/// to U and the negative ones down to -U, or either one further.
fn of_even_powers(random: &mut Random, n: u8, d: u8, count: usize) -> DraftModel {
    let constant = match random.below(4) {
        0 => random.sign() * UNIT,
        1 => 0,
        _ => random.between(-UNIT, UNIT),
    };
    let radius = radius_up_to(random, UNIT - constant.abs());
    let mut above = UNIT - constant - radius;
    let mut below = UNIT + constant - radius;
    // Twice the exponents of any monomial of half the degree.
    let keys = keys(random, n, d / 2, count);
    let mut terms = Vec::new();
    for key in keys.into_iter().map(|key| 2 * key).filter(|&key| key != 0) {
        let upwards = random.one_in(2);
        let left = if upwards { &mut above } else { &mut below };
        let size = match random.below(3) {
            0 => *left,
            _ => random.between(0, *left),
        };
        *left -= size;
        if size > 0 {
            terms.push((key, (if upwards { size } else { -size }) as i32));
        }
    }
    if constant != 0 {
        terms.insert(0, (0, constant as i32));
    }
    let beyond = u32::from(random.one_in(6));
    DraftModel {
        radius: radius as u32 + beyond,
        terms,
    }
}

/// A span that leaves at least 1 for each coefficient.
fn span_of(random: &mut Random, count: usize, scale: Scale) -> i64 {
    let least = count as i64;
    let most = match scale {
        Scale::Tiny | Scale::Brim => 2 * least + 8,
        Scale::Inside => UNIT,
        Scale::Unit => 8 * UNIT,
        Scale::Halves => 64 * UNIT,
        Scale::Wide | Scale::Full | Scale::Even => LARGEST_SPAN,
    };
    match scale {
        Scale::Full => most,
        Scale::Inside if random.one_in(3) => most,
        Scale::Halves => most,
        _ => random.between(least, most),
    }
}

/// A size from 1 to `most`, about a share of it.
fn coefficient_size(random: &mut Random, most: i64, shares: i64, scale: Scale) -> i64 {
    let half = UNIT / 2;
    if scale == Scale::Halves && most >= 3 * half {
        return half * (2 * random.between(0, (most / half - 1) / 2 / shares) + 1);
    }
    let share = (2 * most / shares).clamp(1, most);
    random.between(1, share)
}

/// Often 0 and often small, as large radii drown everything else.
fn radius_up_to(random: &mut Random, most: i64) -> i64 {
    match random.below(4) {
        0 => 0,
        1 => random.between(0, most.min(8)),
        2 => random.between(0, most.min(UNIT)),
        _ => random.between(0, most),
    }
}
