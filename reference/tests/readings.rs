//! Readings held against a curve by hand-made cases, and the order of the tests.

mod common;

use common::{point, stored};
use reference::readings::{hold, Reading, ReadingsAnswer};
use reference::stored::StoredModel;

const U: i64 = 1 << 20;
const LARGEST: i64 = 1 << 30;

/// What a row answers: the number of a contradiction, or a refusal by number and place.
#[derive(Debug, PartialEq, Eq)]
enum Found {
    None,
    At(usize),
    Refused(u8, usize),
}

fn found(f: &StoredModel, readings: &[Reading]) -> Found {
    match hold(f, readings) {
        ReadingsAnswer::NoneContradicts => Found::None,
        ReadingsAnswer::Contradicts(number) => Found::At(number),
        ReadingsAnswer::Refused(refusal) => Found::Refused(refusal.number(), refusal.place()),
    }
}

/// A reading at the first coordinate.
fn at(x: i64, low: i64, high: i64) -> Reading {
    Reading {
        point: point([x, 0, 0, 0]),
        low,
        high,
    }
}

/// One that agrees with everything.
fn wide(x: i64) -> Reading {
    at(x, i64::MIN, i64::MAX)
}

fn broken() -> StoredModel {
    stored(1, u64::MAX, &[])
}

/// 10 + x and a radius of 3 units: from 7 to 13 where x is 0.
fn line() -> StoredModel {
    stored(1, 3, &[(0, 10), (0x1000, U)])
}

/// One unit of x and the largest radius beside it: 7 where x is between 1/2 and 1 in size.
fn brim() -> StoredModel {
    stored(1, LARGEST as u64 - 1, &[(0x1000, 1)])
}

#[test]
fn an_empty_row_has_none() {
    assert_eq!(found(&line(), &[]), Found::None);
    assert_eq!(found(&stored(8, 0, &[]), &[]), Found::None);
    assert_eq!(found(&broken(), &[]), Found::Refused(5, 0));
}

#[test]
fn ends_that_touch_have_a_number_in_common() {
    let one = |low, high| found(&line(), &[at(0, low, high)]);
    assert_eq!(one(13, 13), Found::None);
    assert_eq!(one(13, 99), Found::None);
    assert_eq!(one(14, 99), Found::At(0));
    assert_eq!(one(14, 14), Found::At(0));
    assert_eq!(one(7, 7), Found::None);
    assert_eq!(one(-99, 7), Found::None);
    assert_eq!(one(-99, 6), Found::At(0));
    assert_eq!(one(6, 6), Found::At(0));
    // Inside, around and across either end.
    assert_eq!(one(9, 11), Found::None);
    assert_eq!(one(-99, 99), Found::None);
    assert_eq!(one(-99, 8), Found::None);
    assert_eq!(one(12, 99), Found::None);
    assert_eq!(one(i64::MIN, i64::MAX), Found::None);
    assert_eq!(one(i64::MIN, i64::MIN), Found::At(0));
    assert_eq!(one(i64::MAX, i64::MAX), Found::At(0));
}

#[test]
fn the_point_counts() {
    assert_eq!(found(&line(), &[at(U, U + 13, U + 13)]), Found::None);
    assert_eq!(found(&line(), &[at(U, U + 14, U + 14)]), Found::At(0));
    assert_eq!(found(&line(), &[at(-U, 7 - U, 7 - U)]), Found::None);
    assert_eq!(found(&line(), &[at(-U, 7, 7)]), Found::At(0));
    // x1 x8, in units.
    let mut f = stored(8, 0, &[(0x1000, U)]);
    f.terms[0].key += 1;
    let mut reading = at(U / 2, -U / 4, -U / 4);
    assert_eq!(found(&f, &[reading]), Found::At(0));
    reading.point[7] = -U / 2;
    assert_eq!(found(&f, &[reading]), Found::None);
}

#[test]
fn the_first_contradiction_is_answered_from_0() {
    let (good, bad) = (at(0, 7, 7), at(0, 6, 6));
    assert_eq!(found(&line(), &[good, good, good]), Found::None);
    assert_eq!(found(&line(), &[bad, good, bad]), Found::At(0));
    assert_eq!(found(&line(), &[good, bad, bad]), Found::At(1));
    assert_eq!(found(&line(), &[good, good, bad]), Found::At(2));
    let mut row = vec![good; 256];
    assert_eq!(found(&line(), &row), Found::None);
    row[255] = bad;
    assert_eq!(found(&line(), &row), Found::At(255));
}

/// A row of 257 is refused before everything else, whatever stands in it.
#[test]
fn a_row_has_up_to_256() {
    let good = wide(0);
    assert_eq!(found(&line(), &[good; 256]), Found::None);
    assert_eq!(found(&line(), &[good; 257]), Found::Refused(15, 0));
    assert_eq!(found(&line(), &[at(0, 6, 6); 257]), Found::Refused(15, 0));
    assert_eq!(found(&broken(), &[good; 256]), Found::Refused(5, 0));
    assert_eq!(found(&broken(), &[good; 257]), Found::Refused(15, 0));
    let mut row = [good; 257];
    row[3] = at(U + 1, 1, 0);
    assert_eq!(found(&line(), &row), Found::Refused(15, 0));
    assert_eq!(found(&line(), &row[..256]), Found::Refused(15, 3));
}

#[test]
fn low_may_equal_high() {
    assert_eq!(found(&line(), &[at(0, 7, 7)]), Found::None);
    assert_eq!(found(&line(), &[at(0, 8, 7)]), Found::Refused(15, 0));
    let row = [wide(0), wide(0), at(0, i64::MAX, i64::MIN), at(0, 1, 0)];
    assert_eq!(found(&line(), &row), Found::Refused(15, 2));
}

/// 5, then 15 of all readings, then 6 of all, then 9 of all.
#[test]
fn tests_go_test_by_test() {
    let mut row = [wide(0); 9];
    // 9 of reading 0.
    row[0].point[0] = U + 1;
    assert_eq!(found(&line(), &row), Found::Refused(9, 0));
    row[0].point[0] = 0;
    row[8].point[0] = -U - 1;
    assert_eq!(found(&line(), &row), Found::Refused(9, 8));
    row[0].point[0] = i64::MIN;
    // 6 of reading 7 comes before 9 of reading 0.
    row[7].point[1] = 1;
    assert_eq!(found(&line(), &row), Found::Refused(6, 7));
    row[0].point[7] = -1;
    assert_eq!(found(&line(), &row), Found::Refused(6, 0));
    // 15 of reading 5 comes before 6 of reading 0.
    row[5].low = i64::MAX;
    row[5].high = 0;
    assert_eq!(found(&line(), &row), Found::Refused(15, 5));
    assert_eq!(found(&broken(), &row), Found::Refused(5, 0));
}

/// All tests come before any reading is evaluated.
#[test]
fn refusals_come_before_contradictions() {
    let bad = at(0, 6, 6);
    let mut outside = wide(U + 1);
    assert_eq!(found(&line(), &[bad, outside]), Found::Refused(9, 1));
    outside.point[1] = 5;
    assert_eq!(found(&line(), &[bad, outside]), Found::Refused(6, 1));
    let empty = at(0, 1, 0);
    assert_eq!(found(&line(), &[bad, empty]), Found::Refused(15, 1));
    assert_eq!(
        found(&brim(), &[wide(3 * U / 4), empty]),
        Found::Refused(15, 1)
    );
}

/// One unit at 3/4 is one unit, and a quarter is left over: a span of 2^30 + 1.
#[test]
fn seven_has_the_reading_as_place() {
    let (good, refused, bad) = (wide(U), wide(3 * U / 4), at(0, LARGEST, LARGEST));
    assert_eq!(found(&brim(), &[good, bad]), Found::At(1));
    assert_eq!(found(&brim(), &[good, good, refused]), Found::Refused(7, 2));
    // 7 at reading 3 after a contradiction at 2 is not seen.
    assert_eq!(found(&brim(), &[good, good, bad, refused]), Found::At(2));
    // 7 at reading 3 before one at 4 is the answer.
    let row = [good, good, good, refused, bad];
    assert_eq!(found(&brim(), &row), Found::Refused(7, 3));
    // Half a unit goes to 0, and a whole one is exact.
    let accepted = [wide(U / 2), wide(-U / 2), wide(-U), wide(0), wide(1)];
    assert_eq!(found(&brim(), &accepted), Found::None);
    let row = [wide(0), wide(-U / 2 - 1)];
    assert_eq!(found(&brim(), &row), Found::Refused(7, 1));
}

/// A model without an order has degrees up to 15.
#[test]
fn all_sound_models_are_held() {
    let f = stored(1, 0, &[(0xF000, U)]);
    assert_eq!(found(&f, &[at(-U, -U, -U)]), Found::None);
    let f = stored(2, 0, &[(0xF100, U)]);
    assert_eq!(found(&f, &[at(0, 0, 0)]), Found::Refused(5, 0));
    for n in [0, 9, 255] {
        assert_eq!(found(&stored(n, 0, &[]), &[]), Found::Refused(5, 0));
    }
}
