//! Curves delivered in doubles by hand-made cases, from their bits.

mod common;

use common::{pair, stored};
use reference::doubles::Record;
use reference::stored::StoredModel;

const U: i64 = 1 << 20;
const LARGEST: i64 = 1 << 30;
/// 2^-20 and 2^-21, a unit and half of it.
const ONE_UNIT: u64 = (1_023 - 20) << 52;
const HALF_UNIT: u64 = (1_023 - 21) << 52;
const ONE: u64 = 1_023 << 52;
const SIGN: u64 = 1 << 63;
const INFINITY: u64 = 0x7FF0_0000_0000_0000;
const QUIET: u64 = 0x7FF8_0000_0000_0000;
const SIGNALLING: u64 = 0x7FF0_0000_0000_0001;
const LARGEST_FINITE: u64 = 0x7FEF_FFFF_FFFF_FFFF;
const SMALLEST: u64 = 1;
const LARGEST_SUBNORMAL: u64 = 0x000F_FFFF_FFFF_FFFF;
const SMALLEST_NORMAL: u64 = 0x0010_0000_0000_0000;

/// A model of one variable, by its three coefficients and its radius.
fn model(coefficients: [i64; 3], radius: u64) -> StoredModel {
    let terms = [0x0000, 0x1000, 0x2000].into_iter().zip(coefficients);
    let terms: Vec<(u16, i64)> = terms.filter(|term| term.1 != 0).collect();
    stored(1, radius, &terms)
}

fn accepted(coefficients: [u64; 3], radius: u64) -> StoredModel {
    let answer = Record {
        coefficients,
        radius,
    }
    .answer();
    assert_eq!(answer.refusal, None, "{coefficients:x?} {radius:x}");
    answer.model
}

/// The refusal, with the zero model beside it.
fn refused(coefficients: [u64; 3], radius: u64) -> Option<(u8, usize)> {
    let answer = Record {
        coefficients,
        radius,
    }
    .answer();
    if answer.refusal.is_some() {
        assert_eq!(answer.model, StoredModel::REFUSED);
    }
    pair(answer.refusal)
}

/// Zeros, with one double at a place: 0 to 2 are coefficients, 3 is the radius.
fn alone(place: usize, bits: u64) -> ([u64; 3], u64) {
    let mut four = [0; 4];
    four[place] = bits;
    let [c0, c1, c2, radius] = four;
    ([c0, c1, c2], radius)
}

/// What a single coefficient gives, the same at every place, and its mirror image.
fn assert_coefficient(bits: u64, expected: i64, radius: u64) {
    for place in 0..3 {
        let mut coefficients = [0; 3];
        coefficients[place] = expected;
        let (doubles, zero) = alone(place, bits);
        assert_eq!(
            accepted(doubles, zero),
            model(coefficients, radius),
            "{bits:x}"
        );
        coefficients[place] = -expected;
        let (doubles, zero) = alone(place, bits ^ SIGN);
        assert_eq!(
            accepted(doubles, zero),
            model(coefficients, radius),
            "-{bits:x}"
        );
    }
}

fn assert_radius(bits: u64, expected: u64) {
    let (doubles, radius) = alone(3, bits);
    assert_eq!(
        accepted(doubles, radius),
        model([0; 3], expected),
        "{bits:x}"
    );
}

#[test]
fn exact_values() {
    let half = ONE - (1 << 52);
    let two = ONE + (1 << 52);
    let found = accepted([half, ONE | SIGN, two], ONE_UNIT);
    assert_eq!(found, model([U / 2, -U, 2 * U], 1));
    assert_eq!(accepted([ONE_UNIT; 3], 0), model([1; 3], 0));
    // 1.5 is hex 3FF8.., 1000 is 408F40...
    let found = accepted([0x3FF8 << 48, 0xC08F_4000_0000_0000, 0], ONE);
    assert_eq!(found, model([3 * U / 2, -1_000 * U, 0], U as u64));
    // 1 + 2^-20 has the unit as its last bit here.
    assert_coefficient(ONE + (1 << 32), U + 1, 0);
    assert_coefficient(ONE + (1 << 31), U, 1);
    assert_coefficient(ONE + (1 << 31) + 1, U + 1, 1);
    assert_eq!(accepted([0; 3], 0), model([0; 3], 0));
}

/// 1/2, 3/2 and 5/2 units, and the doubles below and above each.
#[test]
fn ties_go_to_the_even_number() {
    let three_halves = ONE_UNIT + (1 << 51);
    let five_halves = ONE_UNIT + (1 << 52) + (1 << 50);
    for (tie, below, even, above) in [
        (HALF_UNIT, 0, 0, 1),
        (three_halves, 1, 2, 2),
        (five_halves, 2, 2, 3),
    ] {
        assert_coefficient(tie - 1, below, 1);
        assert_coefficient(tie, even, 1);
        assert_coefficient(tie + 1, above, 1);
    }
}

/// A radius is rounded up, never to nearest.
#[test]
fn radii_go_up() {
    assert_radius(HALF_UNIT, 1);
    assert_radius(ONE_UNIT - 1, 1);
    assert_radius(ONE_UNIT, 1);
    assert_radius(ONE_UNIT + 1, 2);
    assert_radius(ONE, U as u64);
    assert_radius(ONE + 1, U as u64 + 1);
}

#[test]
fn the_smallest_doubles() {
    for bits in [
        SMALLEST,
        2,
        LARGEST_SUBNORMAL,
        SMALLEST_NORMAL,
        SMALLEST_NORMAL + 1,
    ] {
        assert_coefficient(bits, 0, 1);
        assert_radius(bits, 1);
    }
    assert_eq!(accepted([SMALLEST; 3], SMALLEST), model([0; 3], 4));
    assert_eq!(
        accepted([SMALLEST, SMALLEST | SIGN, 0], 0),
        model([0; 3], 2)
    );
}

#[test]
fn minus_zero_is_zero() {
    assert_coefficient(SIGN, 0, 0);
    assert_radius(SIGN, 0);
    assert_eq!(accepted([SIGN; 3], SIGN), model([0; 3], 0));
    assert_eq!(accepted([SIGN, ONE, SIGN], SIGN), model([0, U, 0], 0));
}

#[test]
fn what_is_not_finite_gets_16() {
    for bits in [
        INFINITY,
        QUIET,
        SIGNALLING,
        QUIET | 77,
        SIGNALLING | 1 << 50,
        u64::MAX >> 1,
    ] {
        for place in 0..4 {
            for sign in [0, SIGN] {
                let (coefficients, radius) = alone(place, bits | sign);
                assert_eq!(refused(coefficients, radius), Some((16, 0)), "{bits:x}");
            }
        }
    }
}

#[test]
fn a_negative_radius_gets_16() {
    for bits in [
        SMALLEST,
        LARGEST_SUBNORMAL,
        SMALLEST_NORMAL,
        ONE_UNIT,
        ONE,
        LARGEST_FINITE,
    ] {
        assert_eq!(refused([0; 3], bits | SIGN), Some((16, 0)));
        assert_eq!(refused([ONE; 3], bits | SIGN), Some((16, 0)));
    }
}

/// 2^1023 and the largest finite double are far above the span; so are 2^10 and one unit, or a double above.
#[test]
fn huge_values_get_7() {
    let two_to_10 = (1_023 + 10) << 52;
    for place in 0..4 {
        for bits in [
            LARGEST_FINITE,
            (1_023 + 1_023) << 52,
            two_to_10 + 1,
            two_to_10 + (1 << 52),
        ] {
            let (coefficients, radius) = alone(place, bits);
            assert_eq!(
                refused(coefficients, radius),
                Some((7, 0)),
                "{place} {bits:x}"
            );
        }
        let (coefficients, radius) = alone(place, two_to_10);
        assert_eq!(refused(coefficients, radius), None);
    }
    assert_eq!(refused([LARGEST_FINITE; 3], LARGEST_FINITE), Some((7, 0)));
    let negative = LARGEST_FINITE | SIGN;
    assert_eq!(refused([negative; 3], LARGEST_FINITE), Some((7, 0)));
}

#[test]
fn sixteen_comes_before_7() {
    assert_eq!(refused([LARGEST_FINITE, INFINITY, 0], 0), Some((16, 0)));
    assert_eq!(refused([LARGEST_FINITE; 3], QUIET), Some((16, 0)));
    assert_eq!(refused([LARGEST_FINITE; 3], SMALLEST | SIGN), Some((16, 0)));
    assert_eq!(refused([LARGEST_FINITE; 3], SIGN), Some((7, 0)));
}

/// The largest span is 2^10, a quarter of it in each of the four.
#[test]
fn spans_at_the_limit() {
    let of_units = |number: i64| (number as f64 / U as f64).to_bits();
    let quarter = LARGEST / 4;
    let whole = [quarter, -quarter, quarter].map(of_units);
    let found = accepted(whole, of_units(quarter));
    assert_eq!(found, model([quarter, -quarter, quarter], quarter as u64));
    assert_eq!(refused(whole, of_units(quarter + 1)), Some((7, 0)));
    // A part of a unit more is rounded up to one.
    assert_eq!(refused(whole, of_units(quarter) + 1), Some((7, 0)));
    // An inexact coefficient costs a unit of radius, whichever way it goes.
    for nudge in [-1, 1] {
        let mut parts = whole;
        parts[1] = parts[1].wrapping_add_signed(nudge);
        assert_eq!(refused(parts, of_units(quarter)), Some((7, 0)));
        let found = accepted(parts, of_units(quarter - 1));
        assert_eq!(found, model([quarter, -quarter, quarter], quarter as u64));
    }
    let largest = of_units(LARGEST);
    assert_eq!(accepted([largest, 0, 0], 0), model([LARGEST, 0, 0], 0));
    assert_eq!(refused([largest, SMALLEST, 0], 0), Some((7, 0)));
    // Just below, it goes up to the limit and has no room for its own unit.
    assert_eq!(refused([largest - 1, 0, 0], 0), Some((7, 0)));
    assert_eq!(refused([0; 3], largest - 1), None);
}

/// Doubles as they are written in a program.
#[test]
fn records_of_numbers() {
    let record = Record::of([0.1, -0.25, 3.0], 1e-9);
    // 0.1 U is 104857.6; the radius has a part of a unit and an inexact coefficient.
    let expected = model([104_858, -U / 4, 3 * U], 2);
    assert_eq!(record.answer().model, expected);
    let record = Record::of([f64::NAN, 0.0, 0.0], 0.0);
    assert_eq!(pair(record.answer().refusal), Some((16, 0)));
    let record = Record::of([-0.0, f64::MIN_POSITIVE, 0.0], -0.0);
    assert_eq!(record.answer().model, model([0; 3], 1));
}
