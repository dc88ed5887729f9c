//! The archive by generated calls: refusals, round trips, terms read in part, and what these enclose.

mod common;

use common::pair;
use reference::archive::{restore, store, Call, CallAnswer};
use reference::exact::{ExactPolynomial, Fraction, InputFunction};
use reference::generate::archive::{self as generate, DraftArchive};
use reference::generate::{functions, hostile, Expected, Random};
use reference::model::{degree, Model, LARGEST_DEGREE, UNIT};
use reference::stored::StoredModel;
use std::collections::{BTreeMap, BTreeSet};

#[test]
fn every_kind_gives_what_it_expects() {
    let mut random = Random::new(501);
    let mut places: BTreeMap<u8, BTreeSet<usize>> = BTreeMap::new();
    for kind in generate::KINDS {
        for _ in 0..1_000 {
            let (call, expected) = (kind.make)(&mut random);
            let found = pair(call.answer().refusal());
            let wanted = match expected {
                Expected::Refused(number, place) => Some((number, place)),
                _ => None,
            };
            assert_eq!(found, wanted, "{}: {call:?}", kind.name);
            if let Some((number, place)) = found {
                places.entry(number).or_default().insert(place);
            }
        }
    }
    let reached: BTreeMap<u8, usize> = places.iter().map(|(&k, v)| (k, v.len())).collect();
    println!("places {reached:?}");
    let numbers: Vec<u8> = places.keys().copied().collect();
    assert_eq!(numbers, [1, 3, 5, 11, 17]);
    assert!(places[&17].len() > 150 && places[&17].contains(&0) && places[&17].contains(&254));
}

#[test]
fn every_refusal_is_reached() {
    let mut counts: BTreeMap<(&str, Option<u8>), usize> = BTreeMap::new();
    let mut places = BTreeSet::new();
    for number in 0..40_000 {
        let call = generate::call(502, number);
        let answer = call.answer();
        assert_unchanged_if_refused(&call, &answer);
        let found = pair(answer.refusal());
        let number = found.map(|pair| pair.0);
        *counts.entry((call.name(), number)).or_default() += 1;
        places.extend(found.filter(|pair| pair.0 == 17).map(|pair| pair.1));
        assert!(found.is_none_or(|(number, place)| number == 17 || place == 0));
    }
    println!("{counts:?}, 17 at {} places", places.len());
    let known = [
        ("restore", None),
        ("restore", Some(1)),
        ("restore", Some(3)),
        ("restore", Some(5)),
        ("restore", Some(17)),
        ("store", None),
        ("store", Some(3)),
        ("store", Some(5)),
        ("store", Some(11)),
    ];
    assert_eq!(counts.keys().copied().collect::<Vec<_>>(), known);
    assert!(counts.values().all(|&count| count > 300) && places.len() > 100);
}

fn assert_unchanged_if_refused(call: &Call, answer: &CallAnswer) {
    match (call, answer) {
        (
            Call::Store { buffer, .. },
            CallAnswer::Stored {
                answer,
                buffer: after,
            },
        ) => {
            assert_eq!(after.len(), buffer.len());
            assert_eq!(after[answer.length..], buffer[answer.length..]);
            assert_eq!(answer.length == 0, answer.refusal.is_some());
        }
        (_, CallAnswer::Restored(answer)) => {
            if answer.refusal.is_some() {
                assert_eq!(answer.model, StoredModel::REFUSED);
            }
        }
        _ => panic!("an answer of the other call"),
    }
}

fn sound(model: &StoredModel) -> Model {
    model.sound(LARGEST_DEGREE).expect("a sound model")
}

/// Any sound model of up to four variables, in memory with anything beyond its count, and its archive put
/// together apart from the store.
fn model_and_bytes(random: &mut Random) -> (StoredModel, Vec<u8>) {
    let (n, draft) = generate::sound(random, 64);
    let bytes = DraftArchive::of(n, &draft).bytes();
    (hostile::stored(random, n, &draft), bytes)
}

#[test]
fn what_was_stored_is_restored() {
    let mut random = Random::new(503);
    for _ in 0..5_000 {
        let (f, bytes) = model_and_bytes(&mut random);
        let mut buffer = random.bytes(390);
        let before = buffer.clone();
        let answer = store(&f, &mut buffer);
        assert_eq!((answer.refusal, answer.length), (None, 6 + 6 * f.count));
        assert_eq!(buffer[..answer.length], bytes);
        assert_eq!(buffer[answer.length..], before[answer.length..]);
        let most = f.count + random.size(0, 3);
        let back = restore(&bytes, most);
        assert_eq!(back.refusal, None);
        assert_eq!(back.model, StoredModel::store(&sound(&f)));
    }
}

/// Whatever bytes are restored in whole, storing gives them again.
#[test]
fn what_was_restored_is_stored() {
    let mut accepted = 0;
    for number in 0..30_000 {
        if let Call::Restore { bytes, .. } = generate::call(504, number) {
            let answer = restore(&bytes, usize::MAX);
            if answer.refusal.is_none() {
                let mut buffer = vec![0; bytes.len()];
                let stored = store(&answer.model, &mut buffer);
                assert_eq!((stored.refusal, stored.length), (None, bytes.len()));
                assert_eq!(buffer, bytes);
                accepted += 1;
            }
        }
    }
    println!("{accepted} archives");
    assert!(accepted > 2_500);
}

/// The first terms by degree and then key, of the whole model's.
fn first_terms(model: &Model, most: usize) -> Model {
    let mut terms: Vec<_> = model.polynomial.clone().into_iter().collect();
    terms.sort_by_key(|(monomial, _)| (degree(monomial), *monomial));
    terms.truncate(most);
    Model {
        polynomial: terms.into_iter().collect(),
        ..model.clone()
    }
}

#[test]
fn fewer_are_the_first_ones() {
    let mut random = Random::new(505);
    let mut fewer = 0;
    for _ in 0..4_000 {
        let (f, bytes) = model_and_bytes(&mut random);
        let most = random.size(0, f.count + 1);
        let model = sound(&restore(&bytes, most).model);
        assert_eq!(model, first_terms(&sound(&f), most));
        // No term left out has a lower degree than one that was read.
        let highest = model.polynomial.keys().map(degree).max().unwrap_or(0);
        let whole = sound(&f);
        let mut left_out = whole.polynomial.keys();
        assert!(left_out.all(|m| model.polynomial.contains_key(m) || degree(m) >= highest));
        fewer += usize::from(most < f.count);
    }
    assert!(fewer > 2_000);
}

/// Fewer terms promise no band. With the sizes of those left out added to the radius they would: functions
/// within the whole model are within that one, and at a corner some are not with less.
#[test]
fn sizes_left_out_would_have_to_be_added() {
    let mut random = Random::new(506);
    let mut beyond = 0;
    for _ in 0..2_000 {
        let (f, bytes) = model_and_bytes(&mut random);
        let whole = sound(&f);
        let most = random.size(0, f.count);
        let part = sound(&restore(&bytes, most).model);
        let left_out = whole.coefficient_sum() - part.coefficient_sum();
        let polynomial = ExactPolynomial::of_model(&part);
        let function = InputFunction::jumping(&whole, random.next_u64());
        for point in functions::points(&mut random, whole.n) {
            let deviation = (&function.at(&point) - &polynomial.at(&point)).abs();
            assert!(deviation <= Fraction::of(part.radius + left_out, UNIT));
            beyond += usize::from(deviation > Fraction::of(part.radius, UNIT));
        }
    }
    println!("{beyond} points beyond the stored radius");
    assert!(beyond > 500);
}
