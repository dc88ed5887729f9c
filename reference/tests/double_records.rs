//! Curves delivered in doubles by generated records: refusals, the machine's own doubles, exact fractions.

mod common;

use common::pair;
use reference::doubles::Record;
use reference::exact::doubles::{check_model, value_of, Delivered, Violation};
use reference::exact::{Fraction, Point};
use reference::generate::doubles as generate;
use reference::generate::{functions, Expected, Random};
use reference::model::{Model, LARGEST_DEGREE};
use reference::stored::StoredModel;
use std::collections::BTreeMap;

#[test]
fn every_kind_gives_what_it_expects() {
    let mut random = Random::new(301);
    for kind in generate::KINDS {
        for _ in 0..5_000 {
            let (record, expected) = (kind.make)(&mut random);
            let answer = record.answer();
            let wanted = match expected {
                Expected::Refused(number, place) => Some((number, place)),
                _ => None,
            };
            assert_eq!(pair(answer.refusal), wanted, "{}: {record:x?}", kind.name);
            if kind.name.ends_with("at the limit") {
                assert_eq!(sound(&answer.model).span(), 1 << 30);
            }
        }
    }
}

fn sound(model: &StoredModel) -> Model {
    model.sound(LARGEST_DEGREE).expect("an answer is sound")
}

#[test]
fn every_refusal_is_reached() {
    let mut counts: BTreeMap<Option<(u8, usize)>, usize> = BTreeMap::new();
    let mut inexact = 0;
    for number in 0..200_000 {
        let answer = generate::record(302, number).answer();
        *counts.entry(pair(answer.refusal)).or_default() += 1;
        if answer.refusal.is_some() {
            assert_eq!(answer.model, StoredModel::REFUSED);
        }
        inexact += usize::from(answer.model.radius > 0);
    }
    println!("{counts:?}, {inexact} with a radius");
    let known = [None, Some((7, 0)), Some((16, 0))];
    assert_eq!(counts.keys().copied().collect::<Vec<_>>(), known);
    assert!(counts.values().all(|&count| count > 10_000) && inexact > 50_000);
}

/// What the machine's doubles give, or the number of a refusal. U times a double is exact unless it is
/// beyond the largest, and so are rounding to nearest with ties to even and rounding up.
fn by_machine(record: &Record) -> Result<([i64; 3], u64), u8> {
    let doubles = record.coefficients.map(f64::from_bits);
    let radius = f64::from_bits(record.radius);
    if doubles.iter().any(|c| !c.is_finite()) || !radius.is_finite() || radius < 0.0 {
        return Err(16);
    }
    let unit = 1_048_576.0;
    let largest = 1_073_741_824.0;
    let scaled = doubles.map(|c| c * unit);
    if scaled.iter().any(|c| c.abs() > 2.0 * largest) || radius * unit > 2.0 * largest {
        return Err(7);
    }
    let rounded = scaled.map(f64::round_ties_even);
    let inexact = (0..3)
        .filter(|&power| rounded[power] != scaled[power])
        .count();
    let radius = (radius * unit).ceil() as u64 + inexact as u64;
    let coefficients = rounded.map(|c| c as i64);
    let span = coefficients.iter().map(|c| c.unsigned_abs()).sum::<u64>() + radius;
    if span > 1 << 30 {
        return Err(7);
    }
    Ok((coefficients, radius))
}

fn coefficients(model: &StoredModel) -> [i64; 3] {
    let mut coefficients = [0; 3];
    for term in &model.terms[..model.count] {
        coefficients[(term.key >> 28) as usize] = term.coefficient;
    }
    coefficients
}

#[test]
fn the_machine_gives_the_same() {
    let (mut accepted, mut refused) = (0, 0);
    for number in 0..300_000 {
        let record = generate::record(303, number);
        let answer = record.answer();
        let found = match answer.refusal {
            None => Ok((coefficients(&answer.model), answer.model.radius)),
            Some(refusal) => Err(refusal.number()),
        };
        assert_eq!(found, by_machine(&record), "{record:x?}");
        accepted += usize::from(found.is_ok());
        refused += usize::from(found.is_err());
    }
    println!("{accepted} accepted, {refused} refused");
    assert!(accepted > 50_000 && refused > 50_000);
}

fn points(random: &mut Random) -> Vec<Point> {
    vec![
        functions::corner(1, 0),
        functions::corner(1, 1),
        functions::middle(),
        functions::any_point(random, 1),
        functions::any_point(random, 1),
    ]
}

#[test]
fn functions_within_theirs_are_within_ours() {
    let mut random = Random::new(304);
    let mut checked = 0;
    for number in 0..20_000 {
        let record = generate::record(305, number);
        let answer = record.answer();
        if answer.refusal.is_none() {
            let delivered = Delivered::of(&record).expect("a finite record");
            let (points, seed) = (points(&mut random), random.next_u64());
            let found = check_model(&delivered, &sound(&answer.model), &points, seed);
            assert_eq!(found, Ok(()), "{record:x?}");
            checked += 1;
        }
    }
    println!("{checked} records");
    assert!(checked > 5_000);
}

/// A record is refused with 16 exactly where it has no exact values.
#[test]
fn sixteen_is_for_what_has_no_value() {
    for number in 0..20_000 {
        let record = generate::record(306, number);
        let bad = pair(record.answer().refusal) == Some((16, 0));
        assert_eq!(bad, Delivered::of(&record).is_none(), "{record:x?}");
    }
}

#[test]
fn values_of_doubles() {
    let value = |double: f64| value_of(double.to_bits());
    assert_eq!(value(1.0), Some(Fraction::one()));
    assert_eq!(value(-0.75), Some(Fraction::of(-3, 4)));
    assert_eq!(
        value(0.1),
        Some(Fraction::of(3_602_879_701_896_397, 1 << 55))
    );
    assert_eq!(value(-0.0), Some(Fraction::zero()));
    assert_eq!(value(1e15), Some(Fraction::of(1_000_000_000_000_000, 1)));
    assert_eq!(value(f64::INFINITY), None);
    assert_eq!(value(f64::NAN), None);
    // 2^-1074 twice is 2^-1073, and the smallest normal one is 2^52 of them.
    let smallest = value_of(1).expect("a finite double");
    assert_eq!(value_of(2), Some(&smallest + &smallest));
    let normal = &smallest * &Fraction::of(1 << 52, 1);
    assert_eq!(value(f64::MIN_POSITIVE), Some(normal));
    assert_eq!(smallest.bits(), 1_075);
}

/// The check can fail in each of its parts.
#[test]
fn the_check_finds_what_is_wrong() {
    let record = Record::of([0.1, 0.5, -2.5 / 1_048_576.0], 1e-9);
    let delivered = Delivered::of(&record).expect("a finite record");
    let model = sound(&record.answer().model);
    let ends = [functions::corner(1, 0), functions::corner(1, 1)];
    let found = |model: &Model| check_model(&delivered, model, &ends, 1);
    assert_eq!(found(&model), Ok(()));
    let with = |change: fn(&mut Model)| {
        let mut changed = model.clone();
        change(&mut changed);
        found(&changed)
    };
    assert_eq!(with(|m| m.radius -= 1), Err(Violation::NotRoundedUp));
    assert_eq!(with(|m| m.radius += 1), Err(Violation::NotRoundedUp));
    assert_eq!(with(|m| m.n = 2), Err(Violation::Terms));
    let first = |m: &mut Model| *m.polynomial.values_mut().next().expect("a term") -= 1;
    assert_eq!(with(first), Err(Violation::NotNearest(0)));
    // -2.5 units go to -2, not to -3.
    let last = |m: &mut Model| *m.polynomial.values_mut().last().expect("a term") -= 1;
    assert_eq!(with(last), Err(Violation::NotNearest(2)));
    let extra = |m: &mut Model| {
        m.polynomial.insert([3, 0, 0, 0, 0, 0, 0, 0], 1);
    };
    assert_eq!(with(extra), Err(Violation::Terms));
}
