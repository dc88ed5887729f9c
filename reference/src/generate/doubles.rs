//! Records of four doubles: random bits, values around ties, subnormals, zeros,
//! what is not finite, huge values, and spans at the limit.

use super::models::{LARGEST_SPAN, UNIT};
use super::random::Random;
use super::{kind, CallKind, Expected};
use crate::doubles::Record;

/// The bit of the sign.
const SIGN: u64 = 1 << 63;
/// The bits of plus infinity: beyond them a double is no number.
const INFINITY: u64 = 0x7FF << 52;
/// The smallest normal double, 2^-1022.
const NORMAL: u64 = 1 << 52;

/// A record, one for each number from 0; numbers are independent of each other.
pub fn record(seed: u64, number: u64) -> Record {
    let mut random = Random::new(seed ^ number.wrapping_mul(0x9FB2_1C65_1E98_DF25));
    match random.below(5) {
        0 => noise(&mut random),
        1 => (random.pick(&KINDS).make)(&mut random).0,
        2 => Record {
            coefficients: std::array::from_fn(|_| near_tie(&mut random)),
            radius: size(small(&mut random)),
        },
        3 => Record {
            coefficients: std::array::from_fn(|_| small(&mut random)),
            radius: size(near_tie(&mut random)),
        },
        _ => Record {
            coefficients: std::array::from_fn(|_| any(&mut random)),
            radius: any_radius(&mut random),
        },
    }
}

/// Every pattern of bits alike: most are tiny or huge.
fn noise(random: &mut Random) -> Record {
    Record {
        coefficients: std::array::from_fn(|_| random.next_u64()),
        radius: random.next_u64(),
    }
}

/// The double without its sign.
fn size(bits: u64) -> u64 {
    bits & !SIGN
}

fn signed(random: &mut Random, size: u64) -> u64 {
    if random.one_in(2) {
        size
    } else {
        size | SIGN
    }
}

/// Halves of units, which are exact as doubles.
fn halves(number: i64) -> u64 {
    (number as f64 / (2 * UNIT) as f64).to_bits()
}

/// Whole units, which are exact as doubles.
fn units(number: i64) -> u64 {
    halves(2 * number)
}

/// A tie between two whole numbers of units, or the double below or above one.
fn near_tie(random: &mut Random) -> u64 {
    let most = 1_i64 << random.below(30);
    let tie = halves(2 * random.between(0, most) + 1);
    let nudged = tie.wrapping_add_signed(random.between(-1, 1));
    signed(random, nudged)
}

/// A whole number of units, or the double below or above one.
fn near_whole(random: &mut Random) -> u64 {
    let most = 1_i64 << random.below(31);
    let whole = units(random.between(1, most));
    let nudged = whole.wrapping_add_signed(random.between(-1, 1));
    signed(random, nudged)
}

/// Below the smallest normal double, or just above.
fn subnormal(random: &mut Random) -> u64 {
    let size = match random.below(5) {
        0 => 1,
        1 => NORMAL - 1,
        2 => NORMAL,
        3 => 1 << random.below(52),
        _ => random.below(NORMAL),
    };
    signed(random, size)
}

/// From some 2^-60 to 2^11, where rounding and the span decide.
fn small(random: &mut Random) -> u64 {
    let exponent = random.between(1_023 - 60, 1_023 + 11) as u64;
    let fraction = match random.below(3) {
        0 => 0,
        1 => random.below(8) << 49,
        _ => random.below(NORMAL),
    };
    signed(random, exponent << 52 | fraction)
}

/// Above every span, up to the largest finite double.
fn huge(random: &mut Random) -> u64 {
    let size = match random.below(3) {
        0 => INFINITY - 1,
        1 => (1_023 + 1_023) << 52,
        _ => random.between(1_023 + 11, 2_046) as u64 * NORMAL + random.below(NORMAL),
    };
    signed(random, size)
}

/// An infinity, or what is no number: quiet or signalling, with any payload.
fn not_finite(random: &mut Random) -> u64 {
    let fraction = match random.below(5) {
        0 | 1 => 0,
        2 => 1 << 51,
        3 => 1,
        _ => 1 + random.below(NORMAL - 1),
    };
    signed(random, INFINITY | fraction)
}

fn zero(random: &mut Random) -> u64 {
    signed(random, 0)
}

fn any(random: &mut Random) -> u64 {
    match random.below(24) {
        0 => not_finite(random),
        1 => huge(random),
        2..=4 => zero(random),
        5..=7 => subnormal(random),
        8..=12 => near_whole(random),
        13..=17 => near_tie(random),
        _ => small(random),
    }
}

/// Mostly not negative.
fn any_radius(random: &mut Random) -> u64 {
    let bits = any(random);
    if random.one_in(16) {
        bits
    } else {
        size(bits)
    }
}

/// Accepted at the limit, and refused by each number.
pub const KINDS: [CallKind<Record>; 10] = [
    kind("whole units at the limit", whole_at_limit),
    kind("whole units over it", whole_over),
    kind("parts of units at the limit", parts_at_limit),
    kind("parts of units over it", parts_over),
    kind("subnormals and zeros", nearly_zero),
    kind("a radius of minus zero", minus_zero_radius),
    kind("7 by a huge value", huge_value),
    kind("16, not finite", value_not_finite),
    kind("16, a negative radius", negative_radius),
    kind("16 and 7 together", bad_and_huge),
];

const ACCEPTED: Expected = Expected::Accepted;
const OVER: Expected = Expected::Refused(7, 0);
const BAD: Expected = Expected::Refused(16, 0);

/// Three sizes from 4 units on, and what is left for the radius.
fn sizes(random: &mut Random) -> ([i64; 3], i64) {
    let mut left = LARGEST_SPAN - 64;
    let sizes = std::array::from_fn(|_| {
        let size = random.between(4, left / 3);
        left -= size;
        size
    });
    (sizes, left + 64)
}

fn whole_of_span(random: &mut Random, beyond: i64) -> Record {
    let (sizes, left) = sizes(random);
    Record {
        coefficients: sizes.map(|size| units(random.sign() * size)),
        radius: units(left + beyond),
    }
}

fn whole_at_limit(random: &mut Random) -> (Record, Expected) {
    (whole_of_span(random, 0), ACCEPTED)
}

fn whole_over(random: &mut Random) -> (Record, Expected) {
    (whole_of_span(random, 1), OVER)
}

/// Coefficients a double below or above a whole number have this number, and 1 each
/// goes to the radius; the radius itself is a double below a whole number and goes up
/// to it. Some are whole and add nothing.
fn parts_of_span(random: &mut Random, beyond: i64) -> Record {
    let (sizes, mut left) = sizes(random);
    let coefficients = sizes.map(|size| {
        let nudge = random.between(-1, 1);
        left -= nudge.abs();
        let bits = units(size).wrapping_add_signed(nudge);
        signed(random, bits)
    });
    Record {
        coefficients,
        radius: units(left + beyond) - random.below(2),
    }
}

fn parts_at_limit(random: &mut Random) -> (Record, Expected) {
    (parts_of_span(random, 0), ACCEPTED)
}

fn parts_over(random: &mut Random) -> (Record, Expected) {
    (parts_of_span(random, 1), OVER)
}

fn nearly_zero(random: &mut Random) -> (Record, Expected) {
    let record = Record {
        coefficients: std::array::from_fn(|_| {
            if random.one_in(3) {
                zero(random)
            } else {
                subnormal(random)
            }
        }),
        radius: size(subnormal(random)),
    };
    (record, ACCEPTED)
}

fn minus_zero_radius(random: &mut Random) -> (Record, Expected) {
    let (sizes, _) = sizes(random);
    let record = Record {
        coefficients: sizes.map(units),
        radius: SIGN,
    };
    (record, ACCEPTED)
}

/// A finite record with this double at any of the four places.
fn with(random: &mut Random, bits: u64) -> Record {
    let mut record = Record {
        coefficients: std::array::from_fn(|_| small(random)),
        radius: size(small(random)),
    };
    match random.size(0, 3) {
        3 => record.radius = bits,
        place => record.coefficients[place] = bits,
    }
    record
}

fn huge_value(random: &mut Random) -> (Record, Expected) {
    let bits = huge(random);
    let mut record = with(random, bits);
    record.radius = size(record.radius);
    (record, OVER)
}

fn value_not_finite(random: &mut Random) -> (Record, Expected) {
    let bits = not_finite(random);
    (with(random, bits), BAD)
}

fn negative_radius(random: &mut Random) -> (Record, Expected) {
    let mut record = with(random, 0);
    record.radius = match random.below(4) {
        0 => 1 | SIGN,
        1 => size(subnormal(random)) | SIGN | 1,
        2 => size(huge(random)) | SIGN,
        _ => size(small(random)) | SIGN,
    };
    (record, BAD)
}

fn bad_and_huge(random: &mut Random) -> (Record, Expected) {
    let (mut record, _) = match random.below(2) {
        0 => value_not_finite(random),
        _ => negative_radius(random),
    };
    for bits in &mut record.coefficients {
        // What is not finite stays.
        if size(*bits) < INFINITY {
            *bits = huge(random);
        }
    }
    (record, BAD)
}
