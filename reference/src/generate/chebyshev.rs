//! Chebyshev curves, and calls on them: sound and broken, at the span's limit,
//! and refused by each number.

use super::hostile;
use super::models::{self, Scale, LARGEST_SPAN, UNIT};
use super::random::Random;
use super::{kind, CallKind, DraftModel, Expected};
use crate::chebyshev::{Call, StoredChebyshev, PLACES};
use crate::exact::chebyshev::Deviation;
use crate::exact::Fraction;
use crate::stored::StoredModel;

/// How many kinds of calls there are.
pub const CALLS: u64 = 7;

/// A call of any kind, one for each number from 0; numbers are independent of
/// each other.
pub fn call(seed: u64, number: u64) -> Call {
    let mut random = Random::new(seed ^ number.wrapping_mul(0xBF58_476D_1CE4_E5B9));
    call_of_kind(&mut random, number % CALLS)
}

fn call_of_kind(random: &mut Random, kind: u64) -> Call {
    match kind {
        0 => Call::Negate { f: curve(random) },
        1 => {
            let (f, g) = addends(random);
            Call::Add { f, g }
        }
        2 => {
            let (f, g) = addends(random);
            Call::Subtract { f, g }
        }
        3 => {
            let (f, g) = factors(random);
            Call::Multiply { f, g }
        }
        4 => Call::Range { f: curve(random) },
        5 => Call::ToPowers {
            f: to_convert(random),
        },
        _ => from_powers(random),
    }
}

/// A curve in memory: mostly sound, at times over the span, at times noise.
pub fn curve(random: &mut Random) -> StoredChebyshev {
    match random.below(16) {
        0 => over_span(random),
        1 => noise(random),
        _ => sound(random),
    }
}

/// A sound curve of any scale.
pub fn sound(random: &mut Random) -> StoredChebyshev {
    let scale = *random.pick(&models::SCALES);
    of_scale(random, scale)
}

/// A sound curve of a scale: the numbers of a power model, put before T_0 to T_15.
pub fn of_scale(random: &mut Random, scale: Scale) -> StoredChebyshev {
    let count = match random.below(4) {
        0 => PLACES,
        1 => 1,
        _ => random.size(0, PLACES),
    };
    let draft = models::of_scale(random, 1, 15, count, scale);
    of_draft(&draft)
}

fn of_draft(draft: &DraftModel) -> StoredChebyshev {
    let mut curve = StoredChebyshev {
        radius: u64::from(draft.radius),
        ..StoredChebyshev::ZEROS
    };
    for &(key, coefficient) in &draft.terms {
        curve.coefficients[(key >> 28) as usize] = i64::from(coefficient);
    }
    curve
}

/// The number before one T_k, radius 0.
fn single(k: usize, coefficient: i64) -> StoredChebyshev {
    let mut curve = StoredChebyshev::ZEROS;
    curve.coefficients[k] = coefficient;
    curve
}

fn any_degree(random: &mut Random) -> usize {
    random.size(0, PLACES - 1)
}

fn turned(curve: &StoredChebyshev) -> StoredChebyshev {
    StoredChebyshev {
        coefficients: curve.coefficients.map(|c| -c),
        radius: curve.radius,
    }
}

/// The span is above 2^30, often by 1 only.
pub fn over_span(random: &mut Random) -> StoredChebyshev {
    let mut curve = of_scale(random, Scale::Full);
    let place = any_degree(random);
    match random.below(5) {
        0 => curve.radius += 1,
        1 => {
            let c = &mut curve.coefficients[place];
            *c += if *c < 0 { -1 } else { 1 };
        }
        2 => curve.coefficients[place] = *random.pick(&[i64::MIN, i64::MAX, 1 << 32]),
        3 => curve.radius = *random.pick(&[u64::MAX, 1 << 63, 1 << 32, (1 << 30) + 1]),
        _ => curve.coefficients = [*random.pick(&[i64::MIN, i64::MAX, 1 << 60]); PLACES],
    }
    curve
}

/// Every field is anything.
fn noise(random: &mut Random) -> StoredChebyshev {
    StoredChebyshev {
        coefficients: std::array::from_fn(|_| random.next_u64() as i64),
        radius: random.next_u64(),
    }
}

/// Two curves to be added or subtracted, often with a span at the limit.
fn addends(random: &mut Random) -> (StoredChebyshev, StoredChebyshev) {
    match random.below(4) {
        0 => (curve(random), curve(random)),
        1 => {
            let beyond = random.size(0, 1) as i64;
            addends_of_span(random, LARGEST_SPAN + beyond)
        }
        2 => {
            // Much cancels, in a sum or in a difference.
            let f = sound(random);
            let mut g = if random.one_in(2) { f } else { turned(&f) };
            g.coefficients[any_degree(random)] = 0;
            (f, g)
        }
        _ => (small(random), small(random)),
    }
}

/// Two sound curves whose sum and difference both have this span, which is from
/// 2^30 to 2^30 + 1: one has the even places, the other the odd ones.
fn addends_of_span(random: &mut Random, span: i64) -> (StoredChebyshev, StoredChebyshev) {
    let full = of_scale(random, Scale::Full);
    let mut halves = [full, full];
    for (place, half) in halves.iter_mut().enumerate() {
        for k in (place..PLACES).step_by(2) {
            half.coefficients[k] = 0;
        }
    }
    let [mut f, mut g] = halves;
    f.radius = random.size(0, full.radius as usize) as u64;
    g.radius -= f.radius;
    // One unit goes where neither span is at the limit before.
    let beyond = (span - LARGEST_SPAN) as u64;
    if span_of(&f) <= span_of(&g) {
        f.radius += beyond;
    } else {
        g.radius += beyond;
    }
    (f, g)
}

fn span_of(curve: &StoredChebyshev) -> u128 {
    let sizes = curve.coefficients.map(|c| u128::from(c.unsigned_abs()));
    sizes.iter().sum::<u128>() + u128::from(curve.radius)
}

/// A curve whose products with others of this kind are mostly accepted.
fn small(random: &mut Random) -> StoredChebyshev {
    let scale = *random.pick(&[Scale::Tiny, Scale::Inside, Scale::Unit]);
    of_scale(random, scale)
}

/// Two curves to be multiplied.
fn factors(random: &mut Random) -> (StoredChebyshev, StoredChebyshev) {
    let (f, g) = match random.below(9) {
        0 => (curve(random), curve(random)),
        1 | 2 => (small(random), small(random)),
        3 | 4 => factors_of_halves(random),
        5 => factors_that_cancel(random),
        6 | 7 => factors_of_limit(random),
        _ => (small(random), curve(random)),
    };
    if random.one_in(2) {
        (f, g)
    } else {
        (g, f)
    }
}

/// A few units by odd multiples of U / 2: the product has quarters of units, and
/// with few coefficients many halves.
pub fn factors_of_halves(random: &mut Random) -> (StoredChebyshev, StoredChebyshev) {
    let count = random.size(1, 4);
    let tiny = models::of_scale(random, 1, 15, count, Scale::Tiny);
    let count = random.size(1, 2);
    let halves = models::of_scale(random, 1, 15, count, Scale::Halves);
    let mut g = of_draft(&halves);
    if random.one_in(2) {
        g.coefficients = g.coefficients.map(|c| c / (UNIT / 2) * UNIT);
    }
    if random.one_in(2) {
        g.radius = 0;
    }
    (of_draft(&tiny), g)
}

/// T_i + T_j by T_i - T_j, in parts or wholes: what meets at T_(i+j) and at
/// T_|i-j| cancels.
fn factors_that_cancel(random: &mut Random) -> (StoredChebyshev, StoredChebyshev) {
    let (i, j) = (any_degree(random), any_degree(random));
    let (a, b) = (random.between(-UNIT, UNIT), random.between(-UNIT, UNIT));
    let mut f = single(i, a);
    f.coefficients[j] += b;
    let mut g = single(i, a);
    g.coefficients[j] -= b;
    (f, g)
}

/// U × T_i by a curve of the largest span, or nearly: what is kept and what is
/// swept have this span again, and rounding may take it above.
fn factors_of_limit(random: &mut Random) -> (StoredChebyshev, StoredChebyshev) {
    let unit = random.sign() * UNIT;
    let f = single(any_degree(random), unit);
    let mut g = of_scale(random, Scale::Full);
    match random.below(3) {
        0 => g.radius = g.radius.saturating_sub(random.below(9)),
        1 => g.coefficients = g.coefficients.map(|c| c / 2 * 2),
        _ => {}
    }
    (f, g)
}

/// A curve that may become powers: high degrees must be small for it.
fn to_convert(random: &mut Random) -> StoredChebyshev {
    match random.below(5) {
        0 => curve(random),
        1 => {
            let beyond = random.size(0, 1) as i64;
            of_span_in_powers(random, LARGEST_SPAN + beyond)
        }
        _ => small(random),
    }
}

/// The sum of the sizes of T_k's coefficients in powers. Their signs alternate,
/// so that by the recurrence each is twice the last plus the one before.
fn size_in_powers(k: usize) -> i64 {
    let (mut size, mut next) = (1, 1);
    for _ in 0..k {
        (size, next) = (next, 2 * next + size);
    }
    size
}

/// A sound curve that has this span in powers, which is from 2^30 to 2^30 + 1.
/// Two degrees that differ by an odd number meet in no power.
fn of_span_in_powers(random: &mut Random, span: i64) -> StoredChebyshev {
    let low = random.size(0, PLACES - 2);
    let high = random.size((low + 1).max(2), PLACES - 1);
    let largest = LARGEST_SPAN / size_in_powers(high);
    let c = random.between(1, largest);
    let mut curve = single(high, random.sign() * c);
    let mut left = span - c * size_in_powers(high);
    if (high - low) % 2 == 1 {
        let c = random.between(0, left / size_in_powers(low));
        curve.coefficients[low] = random.sign() * c;
        left -= c * size_in_powers(low);
    }
    curve.radius = left as u64;
    curve
}

/// A power model, mostly of one variable.
fn from_powers(random: &mut Random) -> Call {
    let n = match random.below(8) {
        0 => models::any_n(random),
        _ => 1,
    };
    let f = if random.one_in(4) {
        let draft = powers_of_limit(random);
        hostile::stored(random, n, &draft)
    } else {
        hostile::model(random, n, 15)
    };
    Call::FromPowers { f: Box::new(f) }
}

/// Of the largest span: rounding takes some above it.
fn powers_of_limit(random: &mut Random) -> DraftModel {
    let count = random.size(1, 3);
    let mut draft = models::of_scale(random, 1, 15, count, Scale::Full);
    draft.radius -= draft.radius.min(random.below(4) as u32);
    draft
}

/// Accepted at the limit, and refused by each number at each place.
pub const KINDS: [CallKind<Call>; 12] = [
    kind("a sum at the limit", sum_at_limit),
    kind("a product at the limit", product_at_limit),
    kind("powers at the limit", powers_at_limit),
    kind("a conversion back at the limit", back_at_limit),
    kind("5, 0", first_over),
    kind("5, 1", second_over),
    kind("5 and 13 together", broken_of_many_variables),
    kind("13", many_variables),
    kind("7 of a sum", sum_over),
    kind("7 of a product", product_over),
    kind("7 of a conversion to powers", powers_over),
    kind("7 of a conversion back", back_over),
];

const ACCEPTED: Expected = Expected::Accepted;
const OVER: Expected = Expected::Refused(7, 0);

fn sum_of_span(random: &mut Random, span: i64) -> Call {
    let (f, g) = addends_of_span(random, span);
    if random.one_in(2) {
        Call::Add { f, g }
    } else {
        Call::Subtract { f, g }
    }
}

fn sum_at_limit(random: &mut Random) -> (Call, Expected) {
    (sum_of_span(random, LARGEST_SPAN), ACCEPTED)
}

fn sum_over(random: &mut Random) -> (Call, Expected) {
    (sum_of_span(random, LARGEST_SPAN + 1), OVER)
}

/// U × T_i by one even coefficient and a radius: nothing is rounded.
fn product_of_limit(random: &mut Random) -> (StoredChebyshev, StoredChebyshev) {
    let unit = random.sign() * UNIT;
    let f = single(any_degree(random), unit);
    let c = 2 * random.between(0, LARGEST_SPAN / 2);
    let mut g = single(any_degree(random), random.sign() * c);
    g.radius = (LARGEST_SPAN - c) as u64;
    (f, g)
}

fn product_at_limit(random: &mut Random) -> (Call, Expected) {
    let (f, g) = product_of_limit(random);
    (Call::Multiply { f, g }, ACCEPTED)
}

/// A unit more in the first factor's radius adds the second's span over U.
fn product_over(random: &mut Random) -> (Call, Expected) {
    let (mut f, g) = product_of_limit(random);
    f.radius = 1;
    let call = if random.one_in(2) {
        Call::Multiply { f, g }
    } else {
        Call::Multiply { f: g, g: f }
    };
    (call, OVER)
}

fn powers_at_limit(random: &mut Random) -> (Call, Expected) {
    let f = of_span_in_powers(random, LARGEST_SPAN);
    (Call::ToPowers { f }, ACCEPTED)
}

fn powers_over(random: &mut Random) -> (Call, Expected) {
    let f = of_span_in_powers(random, LARGEST_SPAN + 1);
    (Call::ToPowers { f }, OVER)
}

/// c × x² and a radius, of the largest span: c / 2 before T_0 and T_2.
fn square_of_limit(random: &mut Random, c: i64) -> Call {
    let radius = (LARGEST_SPAN - c) as u32;
    let terms = vec![(0x2000_0000, (random.sign() * c) as i32)];
    let draft = DraftModel { radius, terms };
    let f = Box::new(hostile::stored(random, 1, &draft));
    Call::FromPowers { f }
}

fn back_at_limit(random: &mut Random) -> (Call, Expected) {
    let c = 2 * random.between(1, LARGEST_SPAN / 2);
    (square_of_limit(random, c), ACCEPTED)
}

/// c is below a multiple of 4 by 1, so that both halves go up; and the radius has
/// a unit for them.
fn back_over(random: &mut Random) -> (Call, Expected) {
    let c = 4 * random.between(1, LARGEST_SPAN / 4) - 1;
    (square_of_limit(random, c), OVER)
}

/// The second curve may be over the span as well.
fn first_over(random: &mut Random) -> (Call, Expected) {
    let (f, g) = (over_span(random), curve(random));
    let call = match random.below(6) {
        0 => Call::Negate { f },
        1 => Call::Add { f, g },
        2 => Call::Subtract { f, g },
        3 => Call::Multiply { f, g },
        4 => Call::Range { f },
        _ => Call::ToPowers { f },
    };
    (call, Expected::Refused(5, 0))
}

fn second_over(random: &mut Random) -> (Call, Expected) {
    let (f, g) = (sound(random), over_span(random));
    let call = match random.below(3) {
        0 => Call::Add { f, g },
        1 => Call::Subtract { f, g },
        _ => Call::Multiply { f, g },
    };
    (call, Expected::Refused(5, 1))
}

fn of_many_variables(random: &mut Random) -> StoredModel {
    let n = random.byte(2, 8);
    let draft = models::model(random, n, 15, 12);
    hostile::stored(random, n, &draft)
}

fn many_variables(random: &mut Random) -> (Call, Expected) {
    let f = Box::new(of_many_variables(random));
    (Call::FromPowers { f }, Expected::Refused(13, 0))
}

fn broken_of_many_variables(random: &mut Random) -> (Call, Expected) {
    let mut f = Box::new(of_many_variables(random));
    match random.below(3) {
        0 => f.n = *random.pick(&[0, 9, 255]),
        1 => f.radius = (1 << 30) + 1,
        _ => f.count = 65,
    }
    (Call::FromPowers { f }, Expected::Refused(5, 0))
}

/// How far a function is from its model's polynomial; the ends come most often.
pub fn deviation(random: &mut Random) -> Deviation {
    match random.below(4) {
        0 | 1 => Deviation::Constant(Fraction::of(random.sign().into(), 1)),
        2 => Deviation::Polynomial {
            k: any_degree(random),
            negative: random.one_in(2),
        },
        _ => Deviation::Jumping {
            seed: random.next_u64(),
        },
    }
}
