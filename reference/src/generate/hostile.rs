//! Hostile models and arguments for every single call.

use super::draft::DraftModel;
use super::models::{self, Scale, LARGEST_SPAN, UNIT};
use super::quotients::{self, Operands};
use super::random::Random;
use crate::calls::Call;
use crate::model::MOST_VARIABLES;
use crate::stored::{StoredModel, StoredTerm};

/// The largest n of a sound model.
const MOST: u8 = MOST_VARIABLES as u8;

/// How many kinds of single calls there are.
pub const CALLS: u64 = 13;

/// A single call of any kind, one for each number from 0; numbers are
/// independent of each other.
pub fn call(seed: u64, number: u64) -> Call {
    let mut random = Random::new(seed ^ number.wrapping_mul(0xD1B5_4A32_D192_ED03));
    call_of_kind(&mut random, number % CALLS)
}

fn call_of_kind(random: &mut Random, kind: u64) -> Call {
    match kind {
        0 => Call::Constant {
            n: small_number(random, 1, MOST),
            value: value(random),
        },
        1 => variable(random),
        2 => Call::Negate { f: one(random) },
        3 => {
            let (f, g) = two(random, 15);
            Call::Add { f, g }
        }
        4 => {
            let (f, g) = two(random, 15);
            Call::Subtract { f, g }
        }
        5 => multiply(random),
        6 => substitute(random),
        7 => Call::Sweep {
            f: one(random),
            threshold: value(random),
        },
        8 => Call::Range { f: one(random) },
        9 => Call::Integral { f: one(random) },
        10 => evaluate(random),
        11 => quotient(random),
        _ => antiderivative(random),
    }
}

fn variable(random: &mut Random) -> Call {
    let n = small_number(random, 1, MOST);
    let i = small_number(random, 1, n.clamp(1, MOST));
    Call::Variable { n, i }
}

fn multiply(random: &mut Random) -> Call {
    let order = small_number(random, 1, 15);
    let (f, g) = two(random, order);
    Call::Multiply { f, g, order }
}

fn substitute(random: &mut Random) -> Call {
    let order = small_number(random, 1, 15);
    let (f, mut g) = two(random, order);
    if random.one_in(2) {
        // Most models leave the box; this one has the best chance to stay.
        let n = f.n.clamp(1, MOST);
        let count = random.size(0, 12);
        let scale = *random.pick(&[Scale::Inside, Scale::Even]);
        let inside = models::of_scale(random, n, order.clamp(1, 15), count, scale);
        *g = stored(random, n, &inside);
    }
    let i = small_number(random, 1, f.n.clamp(1, MOST));
    Call::Substitute { f, g, i, order }
}

/// Often of a scale at which most divisions are inexact, and of a degree that the
/// raised exponent takes above the order.
fn antiderivative(random: &mut Random) -> Call {
    let order = small_number(random, 1, 15);
    let n = models::any_n(random);
    let mut f = model(random, n, order);
    if random.one_in(2) {
        let count = random.size(0, 64);
        let scale = *random.pick(&[Scale::Tiny, Scale::Inside, Scale::Full]);
        let small = models::of_scale(random, n, order.clamp(1, 15), count, scale);
        f = stored(random, n, &small);
    }
    let i = small_number(random, 1, f.n.clamp(1, MOST));
    Call::Antiderivative {
        f: Box::new(f),
        i,
        order,
    }
}

fn evaluate(random: &mut Random) -> Call {
    let f = one(random);
    let n = usize::from(f.n);
    let point = std::array::from_fn(|index| {
        let unused = index >= n;
        if unused && !random.one_in(60) {
            0
        } else {
            coordinate(random)
        }
    });
    Call::Evaluate { f, point }
}

/// Accepted, refused by some form, or four models of any kind; at times a model
/// or two are replaced, broken or have another n, so that places 0 to 3 and a
/// difference between any two of them are reached.
fn quotient(random: &mut Random) -> Call {
    let operands = match random.below(5) {
        0 | 1 => quotients::accepted(random),
        2 | 3 => (random.pick(&quotients::REFUSED).make)(random),
        _ => any_operands(random),
    };
    let mut order = operands.d;
    let mut models = operands
        .models
        .map(|draft| stored(random, operands.n, &draft));
    for _ in 0..random.below(3) {
        let place = random.size(0, 3);
        match random.below(8) {
            0 => models[place].n = models::any_n(random),
            1 => spoil(random, &mut models[place], order),
            2 => models[place] = model(random, operands.n, order),
            3 => models[place] = model(random, other_n(operands.n), order),
            4 => order = small_number(random, 1, 15),
            _ => {}
        }
    }
    let [f, g, h, w] = models.map(Box::new);
    Call::Quotient { f, g, h, w, order }
}

/// Another n, so that models differ in it while each is sound.
fn other_n(n: u8) -> u8 {
    n % MOST + 1
}

fn any_operands(random: &mut Random) -> Operands {
    let (n, d) = (models::any_n(random), random.byte(1, 15));
    let models = std::array::from_fn(|_| models::model(random, n, d, 12));
    Operands { n, d, models }
}

/// Mostly from the low to the high end, at times outside.
pub(super) fn small_number(random: &mut Random, low: u8, high: u8) -> u8 {
    match random.below(24) {
        0 => low - 1,
        1 => high.saturating_add(1),
        2 => random.byte(0, 255),
        _ => random.byte(low, high),
    }
}

/// A constant or threshold: small, at the limits, or far outside.
fn value(random: &mut Random) -> i64 {
    match random.below(8) {
        0 => random.between(-4, 4),
        1 => random.between(-UNIT, UNIT),
        2 => random.between(-LARGEST_SPAN, LARGEST_SPAN),
        3 => random.sign() * (LARGEST_SPAN + random.between(-1, 1)),
        4 => *random.pick(&[i64::MIN, i64::MAX, 1 << 32, -(1 << 32), i64::MIN + 1]),
        5 => random.next_u64() as i64,
        _ => random.between(0, LARGEST_SPAN),
    }
}

fn coordinate(random: &mut Random) -> i64 {
    match random.below(40) {
        0 => random.sign() * (UNIT + 1),
        1 => *random.pick(&[i64::MIN, i64::MAX, 1 << 32]),
        2..=9 => random.sign() * (UNIT - random.between(0, 2)),
        10..=14 => random.between(-2, 2),
        15..=19 => random.sign() * UNIT / 2,
        _ => random.between(-UNIT, UNIT),
    }
}

/// One model for a call without an order.
fn one(random: &mut Random) -> Box<StoredModel> {
    let n = models::any_n(random);
    Box::new(model(random, n, 15))
}

/// Two models, mostly of one n.
fn two(random: &mut Random, order: u8) -> (Box<StoredModel>, Box<StoredModel>) {
    let n = models::any_n(random);
    let other = if random.one_in(12) {
        models::any_n(random)
    } else {
        n
    };
    let f = model(random, n, order);
    let g = model(random, other, order);
    (Box::new(f), Box::new(g))
}

/// A model in memory: mostly sound, at times with a fault, at times noise.
pub fn model(random: &mut Random, n: u8, order: u8) -> StoredModel {
    let order = order.clamp(1, 15);
    let most = *random.pick(&[3, 12, 64]);
    let count = if random.one_in(6) {
        64
    } else {
        random.size(0, most)
    };
    let scale = *random.pick(&models::SCALES);
    let draft = models::of_scale(random, n, order, count, scale);
    let mut model = stored(random, n, &draft);
    match random.below(16) {
        0 => spoil(random, &mut model, order),
        1 => model = noise(random),
        _ => {}
    }
    model
}

/// Puts a draft into memory. What stands beyond the count is anything.
pub fn stored(random: &mut Random, n: u8, draft: &DraftModel) -> StoredModel {
    let mut model = StoredModel {
        n,
        count: draft.terms.len(),
        radius: u64::from(draft.radius),
        ..noise(random)
    };
    for (place, &(key, coefficient)) in model.terms.iter_mut().zip(&draft.terms) {
        place.key = key;
        place.coefficient = i64::from(coefficient);
    }
    model
}

/// Every field is anything.
pub fn noise(random: &mut Random) -> StoredModel {
    let zeros = random.one_in(3);
    let mut model = StoredModel {
        n: random.byte(0, 255),
        count: random.next_u64() as usize,
        radius: random.next_u64(),
        ..StoredModel::ZEROS
    };
    for place in model.terms.iter_mut().filter(|_| !zeros) {
        *place = StoredTerm {
            key: random.next_u64() as u32,
            coefficient: random.next_u64() as i64,
        };
    }
    model
}

/// Breaks one rule (or, where the model has no terms, perhaps none). The model
/// and the order may be broken before.
fn spoil(random: &mut Random, model: &mut StoredModel, order: u8) {
    let last = model.count.clamp(1, 64) - 1;
    let place = random.size(0, last);
    let largest = LARGEST_SPAN as u64;
    match random.below(12) {
        0 => model.n = *random.pick(&[0, MOST + 1, 255]),
        1 => model.count = *random.pick(&[65, 255, 256, 1 << 32, usize::MAX]),
        2 => model.radius = *random.pick(&[largest + 1, 1 << 32, 1 << 63, u64::MAX]),
        3 => model.terms[place].coefficient = 0,
        4 => model.terms[place].coefficient = *random.pick(&[i64::MIN, i64::MAX, 1 << 32]),
        5 => model.terms[place].key ^= 1 << random.below(32),
        6 => model.terms[place].key = model.terms[place.saturating_sub(1)].key,
        7 => model.terms.swap(place, place.saturating_sub(1)),
        8 => model.terms[last].key = u32::from(order.min(14) + 1) << 28,
        9 => model.terms[last].key = 0xF000_0000 | 1 << (4 * random.below(7)),
        10 => model.radius = model.radius.max(largest + 1),
        _ => model.count = model.count.saturating_add(1).min(64),
    }
}
