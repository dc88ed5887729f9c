//! Readings held against a curve by generated rows: refusals, single evaluations, and exact enclosure.

mod common;

use common::pair;
use reference::calls::{self, EndsAnswer};
use reference::exact::readings::{is_passed_through, point_of};
use reference::exact::{Fraction, InputFunction};
use reference::generate::readings as generate;
use reference::generate::{functions, Random};
use reference::model::{Model, LARGEST_DEGREE, UNIT};
use reference::operations::Ends;
use reference::readings::{Call, Reading, ReadingsAnswer};
use std::collections::{BTreeMap, BTreeSet};

#[test]
fn every_kind_gives_what_it_expects() {
    let mut random = Random::new(401);
    let mut places: BTreeMap<u8, BTreeSet<usize>> = BTreeMap::new();
    for kind in generate::KINDS {
        for _ in 0..600 {
            let (call, expected) = (kind.make)(&mut random);
            let found = call.answer();
            assert_eq!(found, expected, "{}: {call:?}", kind.name);
            if let Some((number, place)) = outcome(&found) {
                places.entry(number).or_default().insert(place);
            }
        }
    }
    println!("{places:?}");
    let numbers: Vec<u8> = places.keys().copied().collect();
    assert_eq!(numbers, [0, 5, 6, 7, 9, 15]);
    assert!([0, 6, 7, 9, 15]
        .iter()
        .all(|number| places[number].len() > 50));
}

/// 0 and the number of a contradiction, or a refusal's number and place.
fn outcome(answer: &ReadingsAnswer) -> Option<(u8, usize)> {
    match answer {
        ReadingsAnswer::NoneContradicts => None,
        ReadingsAnswer::Contradicts(number) => Some((0, *number)),
        ReadingsAnswer::Refused(refusal) => pair(Some(*refusal)),
    }
}

#[test]
fn every_answer_is_reached() {
    let mut counts: BTreeMap<Option<u8>, usize> = BTreeMap::new();
    let mut places: BTreeMap<u8, BTreeSet<usize>> = BTreeMap::new();
    let mut lengths = BTreeSet::new();
    for number in 0..4_000 {
        let call = generate::call(402, number);
        lengths.insert(call.readings.len());
        let found = outcome(&call.answer());
        *counts.entry(found.map(|pair| pair.0)).or_default() += 1;
        if let Some((number, place)) = found {
            places.entry(number).or_default().insert(place);
        }
    }
    let reached: BTreeMap<u8, usize> = places.iter().map(|(&k, v)| (k, v.len())).collect();
    println!("{counts:?}, places {reached:?}, {} lengths", lengths.len());
    let known = [None, Some(0), Some(5), Some(6), Some(7), Some(9), Some(15)];
    assert_eq!(counts.keys().copied().collect::<Vec<_>>(), known);
    assert!(counts.values().all(|&count| count > 100));
    assert!([0, 6, 7, 9, 15]
        .iter()
        .all(|number| places[number].len() > 40));
    assert!(lengths.contains(&0) && lengths.contains(&256) && lengths.contains(&257));
    assert!(lengths.len() > 200);
}

fn single(call: &Call, reading: &Reading) -> EndsAnswer {
    calls::evaluate(&call.f, &reading.point)
}

fn is_apart(reading: &Reading, ends: Ends) -> bool {
    let common = Ends {
        low: ends.low.max(reading.low.into()),
        high: ends.high.min(reading.high.into()),
    };
    common.low > common.high
}

/// The answer again by single evaluations: those before it agree, and it does not.
#[test]
fn rows_agree_with_single_evaluations() {
    let (mut none, mut contradicting, mut refused) = (0, 0, 0);
    for number in 0..2_000 {
        let call = generate::call(403, number);
        let answer = call.answer();
        let evaluated = match outcome(&answer) {
            None => call.readings.len(),
            Some((0 | 7, place)) => place,
            Some(_) => continue,
        };
        for reading in &call.readings[..evaluated] {
            let single = single(&call, reading);
            assert!(single.refusal.is_none() && !is_apart(reading, single.ends));
        }
        match outcome(&answer) {
            None => none += 1,
            Some((0, place)) => {
                let single = single(&call, &call.readings[place]);
                assert!(single.refusal.is_none());
                assert!(is_apart(&call.readings[place], single.ends));
                contradicting += 1;
            }
            Some((_, place)) => {
                let single = single(&call, &call.readings[place]);
                assert_eq!(pair(single.refusal), Some((7, 0)));
                refused += 1;
            }
        }
    }
    println!("{none} {contradicting} {refused}");
    assert!(none > 200 && contradicting > 200 && refused > 100);
}

fn sound(call: &Call) -> Model {
    call.f.sound(LARGEST_DEGREE).expect("an accepted model")
}

/// No value that a function within the model can have is in a band that contradicts it.
#[test]
fn no_function_passes_through_a_contradiction() {
    let mut random = Random::new(404);
    let (mut checked, mut close) = (0, 0);
    for number in 0..3_000 {
        let call = generate::call(405, number);
        if let ReadingsAnswer::Contradicts(place) = call.answer() {
            let (model, reading) = (sound(&call), call.readings[place]);
            assert!(!is_passed_through(&model, &reading), "{call:?}");
            assert_outside(&mut random, &model, &reading);
            checked += 1;
            // One unit nearer would touch the evaluation.
            let ends = single(&call, &reading).ends;
            let gap = i128::from(reading.low) - ends.high;
            close += usize::from(gap == 1 || ends.low - i128::from(reading.high) == 1);
        }
    }
    println!("{checked} contradictions, {close} by one unit");
    assert!(checked > 500 && close > 100);
}

fn assert_outside(random: &mut Random, model: &Model, reading: &Reading) {
    let functions = [
        InputFunction::jumping(model, random.next_u64()),
        InputFunction::Polynomial(functions::polynomial_within(random, model)),
    ];
    for function in functions {
        let value = &function.at(&point_of(reading)) * &Fraction::of(UNIT, 1);
        let (low, high) = (reading.low.into(), reading.high.into());
        assert!(value < Fraction::of(low, 1) || Fraction::of(high, 1) < value);
    }
}

/// The check can fail: bands of readings that agree are mostly passed through. Where rounding has widened an
/// evaluation, some are not: nothing is promised of them.
#[test]
fn most_agreeing_readings_are_passed_through() {
    let (mut passed, mut widened) = (0, 0);
    for number in 0..400 {
        let call = generate::call(406, number);
        if call.answer() == ReadingsAnswer::NoneContradicts {
            let model = sound(&call);
            for reading in &call.readings {
                if is_passed_through(&model, reading) {
                    passed += 1;
                } else {
                    widened += 1;
                }
            }
        }
    }
    println!("{passed} passed through, {widened} not");
    assert!(passed > 2_000 && widened > 0 && widened < passed);
}
