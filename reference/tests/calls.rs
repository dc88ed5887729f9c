//! The single calls: the order of their tests, and hostile arguments.

mod common;

use common::{pair, point, stored};
use reference::calls::{self, Call, CallAnswer};
use reference::exact::check::encloses;
use reference::exact::{ExactPolynomial, Fraction};
use reference::generate::hostile;
use reference::model::{LARGEST_DEGREE, UNIT};
use reference::operations::{Ends, Integral};
use reference::stored::StoredModel;
use std::collections::{BTreeMap, BTreeSet};

const LARGEST: i64 = 1 << 30;

fn broken() -> StoredModel {
    stored(1, u64::MAX, &[])
}

fn x(n: u8) -> StoredModel {
    stored(n, 0, &[(0x1000, 1 << 20)])
}

#[test]
fn constants_and_variables() {
    assert_eq!(calls::constant(3, 5).model, stored(3, 0, &[(0, 5)]));
    assert_eq!(calls::constant(3, 0).model, stored(3, 0, &[]));
    assert_eq!(
        calls::variable(4, 3).model,
        stored(4, 0, &[(0x10, 1 << 20)])
    );
    assert_eq!(pair(calls::constant(0, i64::MIN).refusal), Some((3, 0)));
    assert_eq!(pair(calls::constant(9, 0).refusal), Some((3, 0)));
    assert_eq!(pair(calls::constant(1, LARGEST).refusal), None);
    assert_eq!(pair(calls::constant(1, -LARGEST).refusal), None);
    assert_eq!(pair(calls::constant(1, LARGEST + 1).refusal), Some((6, 0)));
    assert_eq!(pair(calls::constant(1, i64::MIN).refusal), Some((6, 0)));
    assert_eq!(pair(calls::variable(0, 0).refusal), Some((3, 0)));
    assert_eq!(pair(calls::variable(2, 0).refusal), Some((6, 0)));
    assert_eq!(pair(calls::variable(2, 3).refusal), Some((6, 0)));
}

#[test]
fn a_refused_call_gives_the_zero_model() {
    let answer = calls::negate(&broken());
    assert_eq!(answer.model, stored(1, 0, &[]));
    let answer = calls::range(&broken());
    assert_eq!(answer.ends, Ends { low: 0, high: 0 });
}

#[test]
fn tests_of_a_product_stand_in_order() {
    let refusal = |f, g, d| pair(calls::multiply(&f, &g, d).refusal);
    assert_eq!(refusal(broken(), broken(), 0), Some((3, 0)));
    assert_eq!(refusal(broken(), broken(), 16), Some((3, 0)));
    assert_eq!(refusal(broken(), broken(), 1), Some((5, 0)));
    assert_eq!(refusal(x(1), broken(), 1), Some((5, 1)));
    assert_eq!(refusal(x(1), x(2), 1), Some((10, 0)));
    let square = stored(1, 0, &[(0x2000, 1)]);
    assert_eq!(refusal(square, x(2), 1), Some((5, 0)));
    assert_eq!(refusal(x(1), square, 1), Some((5, 1)));
    assert_eq!(refusal(x(1), square, 2), None);
    let large = stored(1, 0, &[(0, LARGEST)]);
    assert_eq!(refusal(large, large, 1), Some((7, 0)));
}

#[test]
fn tests_of_a_substitution_stand_in_order() {
    let refusal = |f, g, i, d| pair(calls::substitute(&f, &g, i, d).refusal);
    let outside = stored(1, 1, &[(0, 1 << 20)]);
    let square = stored(1, 0, &[(0x2000, 1)]);
    assert_eq!(refusal(broken(), broken(), 9, 0), Some((3, 0)));
    assert_eq!(refusal(broken(), broken(), 9, 1), Some((5, 0)));
    assert_eq!(refusal(x(1), square, 9, 1), Some((5, 1)));
    assert_eq!(refusal(x(2), outside, 9, 1), Some((10, 0)));
    assert_eq!(refusal(x(1), outside, 2, 1), Some((6, 0)));
    assert_eq!(refusal(x(1), outside, 0, 1), Some((6, 0)));
    assert_eq!(refusal(x(1), outside, 1, 1), Some((9, 0)));
    let constant = stored(1, 0, &[(0, 7)]);
    assert_eq!(refusal(constant, outside, 1, 1), Some((9, 0)));
    assert_eq!(refusal(constant, x(1), 1, 1), None);
}

#[test]
fn tests_of_a_sweep_and_of_sums() {
    let sweep = |f, t| pair(calls::sweep(&f, t).refusal);
    assert_eq!(sweep(broken(), -1), Some((5, 0)));
    assert_eq!(sweep(x(1), -1), Some((6, 0)));
    assert_eq!(sweep(x(1), LARGEST + 1), Some((6, 0)));
    assert_eq!(sweep(x(1), LARGEST), None);
    let sum = |f, g| pair(calls::add(&f, &g).refusal);
    assert_eq!(sum(broken(), broken()), Some((5, 0)));
    assert_eq!(sum(x(1), broken()), Some((5, 1)));
    assert_eq!(sum(x(1), x(2)), Some((10, 0)));
    // Without an order, degrees up to 15 are sound.
    let high = stored(1, 0, &[(0xF000, 1)]);
    assert_eq!(sum(high, high), None);
    assert_eq!(sum(stored(2, 0, &[(0xF100, 1)]), x(2)), Some((5, 0)));
}

#[test]
fn tests_of_an_evaluation_stand_in_order() {
    let refusal = |f, first| pair(calls::evaluate(&f, &point(first)).refusal);
    let beyond = UNIT as i64 + 1;
    assert_eq!(refusal(broken(), [beyond, 1, 0, 0]), Some((5, 0)));
    assert_eq!(refusal(x(1), [beyond, 0, 0, 1]), Some((6, 0)));
    assert_eq!(refusal(x(1), [beyond, 0, 0, 0]), Some((9, 0)));
    assert_eq!(refusal(x(3), [0, 0, i64::MIN, 0]), Some((9, 0)));
    assert_eq!(refusal(x(3), [0, 0, 0, i64::MIN]), Some((6, 0)));
    assert_eq!(refusal(x(3), [-UNIT as i64, 0, UNIT as i64, 0]), None);
}

#[test]
fn evaluations_by_hand() {
    let f = stored(2, 3, &[(0, 10), (0x0100, 4), (0x1000, -2)]);
    let ends = |first| calls::evaluate(&f, &point(first)).ends;
    let unit = UNIT as i64;
    assert_eq!(ends([unit, unit, 0, 0]), Ends { low: 9, high: 15 });
    assert_eq!(ends([0, -unit, 0, 0]), Ends { low: 3, high: 9 });
    // -2 × 1/2 is exact, 4 × 1/8 is a half: to the even 0, with radius 1.
    let halfway = ends([unit / 2, unit / 8, 0, 0]);
    assert_eq!(halfway, Ends { low: 5, high: 13 });
    // 4 × 3/8 is 1.5: to the even 2, and 4 × -3/8 to -2.
    let halfway = ends([unit / 2, 3 * unit / 8, 0, 0]);
    assert_eq!(halfway, Ends { low: 7, high: 15 });
    let halfway = ends([unit / 2, -3 * unit / 8, 0, 0]);
    assert_eq!(halfway, Ends { low: 3, high: 11 });
}

#[test]
fn an_evaluation_can_pass_the_span() {
    // The term costs a radius of 1 on top of a full span.
    let f = stored(1, (1 << 30) - 1, &[(0x1000, 1)]);
    let answer = calls::evaluate(&f, &point([UNIT as i64 - 1, 0, 0, 0]));
    assert_eq!(pair(answer.refusal), Some((7, 0)));
    assert_eq!(
        pair(calls::evaluate(&f, &point([UNIT as i64, 0, 0, 0])).refusal),
        None
    );
}

#[test]
fn every_field_is_tested_and_nothing_beyond_the_count() {
    let sound = stored(2, 1, &[(0, 1), (0x0100, 2), (0x1000, 3)]);
    let accepts = |model: &StoredModel| calls::range(model).refusal.is_none();
    assert!(accepts(&sound));
    let with = |change: fn(&mut StoredModel)| {
        let mut model = sound;
        change(&mut model);
        accepts(&model)
    };
    assert!(with(|model| model.terms[3].coefficient = i64::MIN));
    assert!(with(|model| model.terms[63].key = 0xFFFF_0000));
    assert!(with(|model| model.count = 2));
    assert!(with(|model| model.count = 0));
    assert!(!with(|model| model.count = 4));
    assert!(!with(|model| model.count = 65));
    assert!(!with(|model| model.count = usize::MAX));
    assert!(!with(|model| model.n = 0));
    assert!(!with(|model| model.n = 1));
    assert!(!with(|model| model.n = 9));
    assert!(!with(|model| model.radius = 1 << 30));
    assert!(!with(|model| model.radius = u64::MAX));
    assert!(!with(|model| model.terms[1].coefficient = 0));
    assert!(!with(|model| model.terms[1].coefficient = i64::MIN));
    assert!(!with(|model| model.terms[1].key = 0));
    assert!(!with(|model| model.terms[1].key = 0x0010_0000));
    assert!(!with(|model| model.terms[2].key = 0xF100_0000));
    assert!(with(|model| model.terms[2].key = 0xF000_0000));
    assert!(!with(|model| model.terms.swap(0, 1)));
}

/// Answers keep their form on any arguments.
#[test]
fn hostile_calls_are_answered() {
    for number in 0..60_000 {
        let call = hostile::call(11, number);
        match call.answer() {
            CallAnswer::Model(answer) => match answer.refusal {
                Some(_) => assert_eq!(answer.model, StoredModel::REFUSED),
                None => assert_sound(&answer.model),
            },
            CallAnswer::Ends(answer) => match answer.refusal {
                Some(_) => assert_eq!(answer.ends, Ends::default()),
                None => assert!(answer.ends.low <= answer.ends.high),
            },
            CallAnswer::Integral(answer) => match answer.refusal {
                Some(_) => assert_eq!(answer.integral, Integral::default()),
                None => assert!(answer.integral.ends.low <= answer.integral.ends.high),
            },
        }
    }
}

/// A sound model with zeros beyond its count.
fn assert_sound(model: &StoredModel) {
    let sound = model.sound(LARGEST_DEGREE).expect("a sound answer");
    assert_eq!(StoredModel::store(&sound), *model);
}

/// Each call reaches exactly the refusals that the paper gives it.
#[test]
fn every_call_reaches_its_refusals() {
    let mut reached: BTreeMap<&str, BTreeSet<(u8, usize)>> = BTreeMap::new();
    for number in 0..150_000 {
        let call = hostile::call(13, number);
        let refusals = reached.entry(call.name()).or_default();
        refusals.extend(pair(call.answer().refusal()));
    }
    let sum = [(5, 0), (5, 1), (7, 0), (8, 0), (10, 0)];
    let product = [(3, 0), (5, 0), (5, 1), (7, 0), (8, 0), (10, 0)];
    let substitution = [(6, 0), (9, 0)];
    let quotient = [(5, 2), (5, 3), (12, 0)];
    let expected: [(&str, Vec<(u8, usize)>); 13] = [
        ("constant", vec![(3, 0), (6, 0)]),
        ("variable", vec![(3, 0), (6, 0)]),
        ("negate", vec![(5, 0)]),
        ("add", sum.to_vec()),
        ("subtract", sum.to_vec()),
        ("multiply", product.to_vec()),
        ("substitute", [product.as_slice(), &substitution].concat()),
        ("quotient", [product.as_slice(), &quotient].concat()),
        ("sweep", vec![(5, 0), (6, 0)]),
        ("antiderivative", vec![(3, 0), (5, 0), (6, 0)]),
        ("range", vec![(5, 0)]),
        ("integral", vec![(5, 0)]),
        ("evaluate", vec![(5, 0), (6, 0), (7, 0), (9, 0)]),
    ];
    let expected = expected.map(|(name, pairs)| (name, BTreeSet::from_iter(pairs)));
    assert_eq!(reached, BTreeMap::from(expected));
}

#[test]
fn hostile_calls_are_reproducible() {
    for number in [0, 5, 6, 1_000, 9_999] {
        assert_eq!(hostile::call(3, number), hostile::call(3, number));
        assert_ne!(hostile::call(3, number), hostile::call(4, number));
    }
}

/// Evaluations and integrals enclose what exact fractions give.
#[test]
fn accepted_ends_enclose_the_exact_values() {
    let mut checked = 0;
    for number in 0..40_000 {
        match hostile::call(12, number) {
            Call::Evaluate { f, point } => {
                let answer = calls::evaluate(&f, &point);
                if answer.refusal.is_none() {
                    let point = point.map(|x| Fraction::of(x.into(), UNIT));
                    let value = |p: &ExactPolynomial| p.at(&point);
                    assert_encloses(&f, answer.ends, 1, value);
                    checked += 1;
                }
            }
            Call::Integral { f } => {
                let answer = calls::integral(&f);
                if answer.refusal.is_none() {
                    let n = usize::from(f.n);
                    let value = |p: &ExactPolynomial| p.integral(n);
                    assert_encloses(&f, answer.integral.ends, 1 << n, value);
                    checked += 1;
                }
            }
            _ => {}
        }
    }
    assert!(checked > 2_000, "only {checked} accepted");
}

/// The value of the polynomial, plus and minus so many radii, lies within.
fn assert_encloses(
    f: &StoredModel,
    ends: Ends,
    radii: i128,
    value: impl Fn(&ExactPolynomial) -> Fraction,
) {
    let model = f.sound(LARGEST_DEGREE).expect("accepted");
    let value = value(&ExactPolynomial::of_model(&model));
    let radius = Fraction::of(radii * model.radius, UNIT);
    assert!(encloses(ends, &(&value + &radius)));
    assert!(encloses(ends, &(&value - &radius)));
}
