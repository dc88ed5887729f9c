//! Chebyshev curves by generated calls: refusals, enclosure, mirrored factors, and
//! products worked out by another way.

mod common;

use common::{curve, pair, stored};
use reference::chebyshev::calls::{self, Call, CallAnswer, ChebyshevAnswer};
use reference::chebyshev::table::polynomials_in_powers;
use reference::chebyshev::{StoredChebyshev, PLACES};
use reference::exact::chebyshev::{check_call, Deviation, Violation};
use reference::exact::{Fraction, Point};
use reference::generate::chebyshev as generate;
use reference::generate::models::{Scale, SCALES};
use reference::generate::{functions, Expected, Random};
use reference::model::UNIT;
use reference::stored::StoredModel;
use std::collections::BTreeMap;

const U: i64 = UNIT as i64;

#[test]
fn every_kind_gives_what_it_expects() {
    let mut random = Random::new(101);
    for kind in generate::KINDS {
        for _ in 0..2_000 {
            let (call, expected) = (kind.make)(&mut random);
            let found = pair(call.answer().refusal());
            let wanted = match expected {
                Expected::Refused(number, place) => Some((number, place)),
                _ => None,
            };
            assert_eq!(found, wanted, "{}: {call:?}", kind.name);
        }
    }
}

/// A refusal's number and place, or that there is none.
type Outcome = Option<(u8, usize)>;

/// Every call is accepted often, and refused by every number and place it knows.
#[test]
fn every_refusal_is_reached() {
    let mut counts: BTreeMap<(&str, Outcome), usize> = BTreeMap::new();
    for number in 0..70_000 {
        let call = generate::call(102, number);
        let answer = call.answer();
        assert_zeros_if_refused(&answer);
        let refusal = pair(answer.refusal());
        *counts.entry((call.name(), refusal)).or_default() += 1;
    }
    println!("{counts:?}");
    let (first, second) = (Some((5, 0)), Some((5, 1)));
    let (several, over) = (Some((13, 0)), Some((7, 0)));
    let known: [(&str, &[Outcome]); 7] = [
        ("negate", &[None, first]),
        ("add", &[None, first, second, over]),
        ("subtract", &[None, first, second, over]),
        ("multiply", &[None, first, second, over]),
        ("range", &[None, first]),
        ("to powers", &[None, first, over]),
        ("from powers", &[None, first, several, over]),
    ];
    for (name, refusals) in known {
        let seen = counts
            .range((name, None)..)
            .take_while(|(key, _)| key.0 == name);
        let seen: Vec<Outcome> = seen.map(|(key, _)| key.1).collect();
        assert_eq!(seen.len(), refusals.len(), "{name}");
        for refusal in refusals {
            assert!(counts[&(name, *refusal)] > 50, "{name} {refusal:?}");
        }
    }
}

fn assert_zeros_if_refused(answer: &CallAnswer) {
    match answer {
        CallAnswer::Chebyshev(answer) if answer.refusal.is_some() => {
            assert_eq!(answer.model, StoredChebyshev::ZEROS);
        }
        CallAnswer::Powers(answer) if answer.refusal.is_some() => {
            assert_eq!(answer.model, StoredModel::REFUSED);
        }
        CallAnswer::Ends(answer) if answer.refusal.is_some() => {
            assert_eq!((answer.ends.low, answer.ends.high), (0, 0));
        }
        _ => {}
    }
}

/// Points where the deviations and the polynomials reach their ends, and others.
fn points(random: &mut Random) -> Vec<Point> {
    let mut points = vec![functions::corner(1, 0), functions::corner(1, 1)];
    points.push(functions::middle());
    points.push(functions::any_point(random, 1));
    points.push(functions::any_point(random, 1));
    points
}

fn assert_enclosed(random: &mut Random, call: &Call) -> usize {
    let deviations = [generate::deviation(random), generate::deviation(random)];
    let points = points(random);
    let checked = check_call(call, &call.answer(), &deviations, &points);
    checked.unwrap_or_else(|violation| panic!("{violation:?} {call:?} {deviations:?}"))
}

#[test]
fn calls_enclose_what_functions_give() {
    let mut random = Random::new(103);
    let mut checked: BTreeMap<&str, usize> = BTreeMap::new();
    for number in 0..14_000 {
        let call = generate::call(104, number);
        *checked.entry(call.name()).or_default() += assert_enclosed(&mut random, &call);
    }
    for kind in generate::KINDS {
        for _ in 0..50 {
            let (call, _) = (kind.make)(&mut random);
            *checked.entry(call.name()).or_default() += assert_enclosed(&mut random, &call);
        }
    }
    println!("{checked:?}");
    assert!(checked.len() == 7 && checked.values().all(|&points| points > 2_000));
}

fn at_top() -> [Deviation; 2] {
    let top = Deviation::Constant(Fraction::one());
    [top.clone(), top]
}

/// The answer with its radius one less.
fn narrowed(mut answer: ChebyshevAnswer) -> CallAnswer {
    answer.model.radius -= 1;
    CallAnswer::Chebyshev(answer)
}

/// Radii that are reached: what is swept, what the factors bring, what is rounded.
#[test]
fn the_check_finds_a_radius_that_is_too_small() {
    let factors = [
        (curve(0, &[(15, U)]), curve(0, &[(15, U)])),
        (curve(3, &[(3, U)]), curve(5, &[(4, U)])),
        (curve(2, &[]), curve(3, &[])),
        (curve(0, &[(1, 3)]), curve(0, &[(2, U)])),
    ];
    let ends = [functions::corner(1, 0), functions::corner(1, 1)];
    for (f, g) in factors {
        let answer = calls::multiply(&f, &g);
        let call = Call::Multiply { f, g };
        let whole = CallAnswer::Chebyshev(answer.clone());
        assert_eq!(check_call(&call, &whole, &at_top(), &ends), Ok(2));
        let found = check_call(&call, &narrowed(answer), &at_top(), &ends);
        assert!(matches!(found, Err(Violation::Radius(_))));
    }
    let f = Box::new(stored(1, 4, &[(0x2000, 1)]));
    let answer = calls::from_powers(&f);
    let call = Call::FromPowers { f };
    let found = check_call(&call, &narrowed(answer), &at_top(), &ends);
    assert!(matches!(found, Err(Violation::Radius(_))));
}

#[test]
fn the_check_finds_ends_that_are_too_narrow() {
    let f = curve(5, &[(0, -3), (2, 7), (15, 1)]);
    let mut answer = calls::range(&f);
    let call = Call::Range { f };
    let ends = [functions::corner(1, 0)];
    let whole = CallAnswer::Ends(answer);
    assert_eq!(check_call(&call, &whole, &at_top(), &ends), Ok(1));
    answer.ends.high -= 1;
    let found = check_call(&call, &CallAnswer::Ends(answer), &at_top(), &ends);
    assert!(matches!(found, Err(Violation::Range(_))));
}

/// Wider is not exact: a conversion to powers leaves no room.
#[test]
fn the_check_finds_a_conversion_that_is_not_exact() {
    let f = curve(5, &[(0, -3), (2, 7), (15, 1)]);
    let call = Call::ToPowers { f };
    let answer = calls::to_powers(&f);
    let middle = [functions::middle()];
    let found = |answer| {
        check_call(
            &call,
            &CallAnswer::Powers(Box::new(answer)),
            &at_top(),
            &middle,
        )
    };
    assert_eq!(found(answer.clone()), Ok(1));
    let mut wider = answer.clone();
    wider.model.radius += 1;
    assert!(matches!(found(wider), Err(Violation::Inexact(_))));
    let mut moved = answer.clone();
    moved.model.radius += 100;
    moved.model.terms[0].coefficient += 100;
    assert!(matches!(found(moved), Err(Violation::Inexact(_))));
    let mut broken = answer;
    broken.model.n = 2;
    assert_eq!(found(broken), Err(Violation::BrokenAnswer));
}

#[test]
fn the_check_finds_an_answer_that_is_owed_as_a_refusal() {
    let f = curve(1, &[(0, 1 << 30)]);
    let answer = calls::negate(&StoredChebyshev::ZEROS);
    let call = Call::Negate { f };
    let found = check_call(&call, &CallAnswer::Chebyshev(answer), &at_top(), &[]);
    assert_eq!(found, Err(Violation::BrokenModel));
}

fn turned(curve: &StoredChebyshev) -> StoredChebyshev {
    StoredChebyshev {
        coefficients: curve.coefficients.map(i64::saturating_neg),
        radius: curve.radius,
    }
}

fn assert_mirrored(answer: &ChebyshevAnswer, other: &ChebyshevAnswer) {
    assert_eq!(pair(other.refusal), pair(answer.refusal));
    assert_eq!(other.model, turned(&answer.model));
}

/// Turning the sign of one factor turns the product's sign and keeps its radius, or the same refusal.
fn assert_product_mirrored(f: &StoredChebyshev, g: &StoredChebyshev) -> ChebyshevAnswer {
    let answer = calls::multiply(f, g);
    assert_mirrored(&answer, &calls::multiply(&turned(f), g));
    assert_mirrored(&answer, &calls::multiply(f, &turned(g)));
    assert_eq!(answer, calls::multiply(&turned(f), &turned(g)));
    answer
}

#[test]
fn mirrored_factors_give_mirrored_products() {
    let (mut accepted, mut refused) = (0, 0);
    for number in 0..70_000 {
        if let Call::Multiply { f, g } = generate::call(105, number) {
            let answer = assert_product_mirrored(&f, &g);
            accepted += usize::from(answer.refusal.is_none());
            refused += usize::from(answer.refusal.is_some());
        }
    }
    assert!(accepted > 4_000 && refused > 1_000);
    let mut random = Random::new(106);
    let mut rounded = 0;
    for _ in 0..5_000 {
        let (f, g) = generate::factors_of_halves(&mut random);
        let answer = assert_product_mirrored(&f, &g);
        rounded += usize::from(answer.model.radius > 0);
    }
    assert!(rounded > 3_000);
}

/// Conversions turn their sign too, there and back.
#[test]
fn mirrored_curves_are_converted_alike() {
    let mut accepted = 0;
    for number in 0..30_000 {
        if let Call::FromPowers { f } = generate::call(107, number) {
            let mut other = f.clone();
            for term in &mut other.terms {
                term.coefficient = term.coefficient.saturating_neg();
            }
            let answer = calls::from_powers(&f);
            assert_mirrored(&answer, &calls::from_powers(&other));
            accepted += usize::from(answer.refusal.is_none());
        }
    }
    assert!(accepted > 1_000);
}

/// To powers and back is the same curve, wherever the powers have room.
#[test]
fn conversions_to_powers_can_be_undone() {
    let mut accepted = 0;
    for number in 0..30_000 {
        if let Call::ToPowers { f } = generate::call(108, number) {
            let there = calls::to_powers(&f);
            if there.refusal.is_none() {
                let back = calls::from_powers(&there.model);
                assert_eq!((back.model, back.refusal), (f, None));
                accepted += 1;
            }
        }
    }
    assert!(accepted > 1_000);
}

/// That an answer is the one the rule names: z over the divisor to nearest, halves to even; the radius no
/// smaller and no larger than what is left over, swept and carried.
fn assert_rounded(answer: &StoredChebyshev, collected: &[i128], divisor: i128, carried: i128) {
    let mut excess = carried;
    for (k, &z) in collected.iter().enumerate() {
        let c = answer.coefficients.get(k).map_or(0, |&c| i128::from(c));
        let residual = (z - c * divisor).abs();
        excess += residual;
        if k < PLACES {
            assert!(2 * residual < divisor || 2 * residual == divisor && c % 2 == 0);
        }
    }
    let radius = i128::from(answer.radius);
    assert!(excess <= radius * divisor && (radius == 0 || (radius - 1) * divisor < excess));
}

fn in_powers(curve: &StoredChebyshev) -> [i128; PLACES] {
    let rows = polynomials_in_powers();
    let share = |k: usize, power: usize| i128::from(curve.coefficients[k]) * rows[k][power];
    std::array::from_fn(|power| (0..PLACES).map(|k| share(k, power)).sum())
}

/// x^m in Chebyshev polynomials by binomial coefficients, times 2^30.
fn of_power(power: usize, k: usize) -> i128 {
    if k > power || (power - k) % 2 == 1 {
        return 0;
    }
    let down = (power - k) / 2;
    let ways = (1..=down).fold(1, |ways, i| ways * (power - down + i) / i);
    let sides = if k == 0 { 1 } else { 2 };
    sides * ways as i128 * (1 << (30 - power))
}

fn of_powers(powers: &[i128]) -> Vec<i128> {
    let share = |power: usize, k: usize| powers[power] * of_power(power, k);
    let places = 0..powers.len();
    let sum = |k| places.clone().map(|power| share(power, k)).sum();
    places.clone().map(sum).collect()
}

/// The product by another way: both factors to powers, multiplied there, and back from degree 30.
#[test]
fn products_go_through_powers_as_well() {
    let mut random = Random::new(109);
    let mut accepted = 0;
    for _ in 0..4_000 {
        let mut small = || {
            let scale = *random.pick(&[Scale::Tiny, Scale::Inside, Scale::Unit]);
            generate::of_scale(&mut random, scale)
        };
        let (f, g) = (small(), small());
        let (left, right) = (in_powers(&f), in_powers(&g));
        let mut powers = [0; 2 * PLACES - 1];
        for (i, a) in left.iter().enumerate() {
            for (j, b) in right.iter().enumerate() {
                powers[i + j] += a * b;
            }
        }
        let size = |curve: &StoredChebyshev| curve.coefficients.map(|c| i128::from(c).abs());
        let [a, b] = [&f, &g].map(|curve| size(curve).iter().sum::<i128>());
        let [e1, e2] = [f.radius, g.radius].map(i128::from);
        let carried = a * e2 + b * e1 + e1 * e2;
        let answer = calls::multiply(&f, &g);
        if answer.refusal.is_none() {
            let divisor = UNIT << 30;
            assert_rounded(&answer.model, &of_powers(&powers), divisor, carried << 30);
            accepted += 1;
        }
    }
    assert!(accepted > 3_500);
}

#[test]
fn powers_come_back_by_binomial_coefficients() {
    let mut accepted = 0;
    for number in 0..30_000 {
        if let Call::FromPowers { f } = generate::call(110, number) {
            let answer = calls::from_powers(&f);
            if answer.refusal.is_none() {
                let mut powers = [0; PLACES];
                for term in &f.terms[..f.count] {
                    powers[(term.key >> 28) as usize] = i128::from(term.coefficient);
                }
                let carried = i128::from(f.radius) << 30;
                assert_rounded(&answer.model, &of_powers(&powers), 1 << 30, carried);
                accepted += 1;
            }
        }
    }
    assert!(accepted > 1_000);
}

/// Sound curves are sound, whatever their scale, and none over the span is.
#[test]
fn generated_curves_are_what_they_say() {
    let mut random = Random::new(111);
    for number in 0..4_000 {
        let scale = SCALES[number % SCALES.len()];
        let curve = generate::of_scale(&mut random, scale);
        assert!(curve.sound().is_some(), "{scale:?}");
        assert!(generate::over_span(&mut random).sound().is_none());
    }
}
