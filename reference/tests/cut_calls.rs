//! Ranges of a cut box by generated calls: refusals, what lies inside, and enclosure.

mod common;

use common::pair;
use reference::calls;
use reference::cuts::Call;
use reference::exact::cuts::leaves_at;
use reference::exact::InputFunction;
use reference::generate::cuts as generate;
use reference::generate::{functions, Expected, Random};
use reference::model::{Model, LARGEST_DEGREE};
use reference::operations::Ends;
use std::collections::{BTreeMap, BTreeSet};

#[test]
fn every_kind_gives_what_it_expects() {
    let mut random = Random::new(201);
    let mut places: BTreeMap<u8, BTreeSet<usize>> = BTreeMap::new();
    for kind in generate::KINDS {
        for _ in 0..800 {
            let (call, expected) = (kind.make)(&mut random);
            let found = pair(call.answer().refusal);
            let wanted = match expected {
                Expected::Refused(number, place) => Some((number, place)),
                _ => None,
            };
            assert_eq!(found, wanted, "{}: {call:?}", kind.name);
            if let Some((number, place)) = found {
                places.entry(number).or_default().insert(place);
            }
        }
    }
    println!("{places:?}");
    assert_eq!(
        places.keys().copied().collect::<Vec<u8>>(),
        [3, 5, 6, 7, 8, 14]
    );
    assert!(places[&7].len() > 15 && places[&8].len() > 7);
    assert!(places[&7].contains(&63) && places[&8].contains(&16));
}

/// Every number is reached often, 7 and 8 at many pieces, and nothing else is.
#[test]
fn every_refusal_is_reached() {
    let mut counts: BTreeMap<Option<u8>, usize> = BTreeMap::new();
    let mut places: BTreeSet<(u8, usize)> = BTreeSet::new();
    let mut depths: BTreeMap<u8, usize> = BTreeMap::new();
    for number in 0..6_000 {
        let call = generate::call(202, number);
        let answer = call.answer();
        match pair(answer.refusal) {
            Some((number, place)) => {
                assert_eq!(answer.ends, Ends::default());
                *counts.entry(Some(number)).or_default() += 1;
                places.insert((number, place));
            }
            None => {
                *counts.entry(None).or_default() += 1;
                *depths.entry(call.depth).or_default() += 1;
            }
        }
    }
    println!("{counts:?} {places:?} {depths:?}");
    let known = [None, Some(3), Some(5), Some(6), Some(7), Some(8), Some(14)];
    assert_eq!(counts.keys().copied().collect::<Vec<_>>(), known);
    assert!(counts.values().all(|&count| count > 100));
    assert!(depths.len() == 7 && depths.values().all(|&count| count > 50));
    let later = |number| {
        places
            .iter()
            .filter(move |place| place.0 == number && place.1 > 0)
    };
    assert!(later(7).count() > 10 && later(8).count() > 6);
    let first_only = |number| places.iter().filter(|place| place.0 == number).count() == 1;
    assert!([3, 5, 6, 14].into_iter().all(first_only));
}

/// The answer is never empty and never beyond the undivided range; at depth 0 it is that range.
#[test]
fn answers_lie_inside_the_range() {
    let (mut whole, mut narrower) = (0, 0);
    for number in 0..4_000 {
        let call = generate::call(203, number);
        let answer = call.answer();
        if answer.refusal.is_some() {
            continue;
        }
        let undivided = calls::range(&call.f).ends;
        assert!(answer.ends.low <= answer.ends.high);
        assert!(undivided.low <= answer.ends.low && answer.ends.high <= undivided.high);
        if call.depth == 0 {
            assert_eq!(answer.ends, undivided);
            whole += 1;
        }
        narrower += usize::from(answer.ends != undivided);
    }
    println!("{whole} {narrower}");
    assert!(whole > 100 && narrower > 300);
}

fn sound(call: &Call) -> Model {
    call.f.sound(LARGEST_DEGREE).expect("an accepted model")
}

fn function(random: &mut Random, model: &Model) -> InputFunction {
    if random.one_in(3) {
        InputFunction::jumping(model, random.next_u64())
    } else {
        InputFunction::Polynomial(functions::polynomial_within(random, model))
    }
}

fn assert_enclosed(random: &mut Random, call: &Call) -> usize {
    let answer = call.answer();
    if answer.refusal.is_some() {
        return 0;
    }
    let function = function(random, &sound(call));
    let points = generate::points(random, call);
    let left = leaves_at(&answer, &function, &points);
    assert_eq!(left, None, "{call:?} {function:?}");
    points.len()
}

#[test]
fn functions_stay_inside_on_every_piece() {
    let mut random = Random::new(204);
    let mut points = 0;
    for number in 0..1_500 {
        points += assert_enclosed(&mut random, &generate::call(205, number));
    }
    for _ in 0..1_500 {
        let call = generate::clear_call(&mut random);
        points += assert_enclosed(&mut random, &call);
    }
    println!("{points} points");
    assert!(points > 10_000);
}

/// Ends one unit narrower are left wherever the true range reaches them: the check can fail.
#[test]
fn the_check_finds_ends_that_are_too_narrow() {
    let f = Box::new(common::stored(
        1,
        3,
        &[(0, 1 << 20), (0x1000, 1 << 20), (0x2000, 1 << 20)],
    ));
    let call = Call {
        f,
        i: 1,
        depth: 1,
        order: 2,
    };
    let mut answer = call.answer();
    let top = functions::corner(1, 0);
    let points = [top.clone()];
    // A jumping function reaches the upper end of its radius at some seed.
    let at_top = (0..64).map(|seed| InputFunction::jumping(&sound(&call), seed));
    let functions: Vec<InputFunction> = at_top.collect();
    assert!(functions
        .iter()
        .all(|f| leaves_at(&answer, f, &points).is_none()));
    answer.ends.high -= 1;
    assert!(functions
        .iter()
        .any(|f| leaves_at(&answer, f, &points) == Some(&top)));
}
