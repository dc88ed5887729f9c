//! Rows of readings held against a model: of every length, contradicting and refused
//! at any place, with faults of several kinds in one row.

use super::hostile;
use super::models::{self, Scale, LARGEST_SPAN, UNIT};
use super::random::Random;
use super::{kind, CallKind, DraftModel};
use crate::calls;
use crate::model::MOST_VARIABLES;
use crate::readings::{Call, Reading, ReadingsAnswer, MOST_READINGS};
use crate::refusal::Refusal;
use crate::stored::StoredModel;

/// A row and its model, one for each number from 0; numbers are independent of each
/// other.
pub fn call(seed: u64, number: u64) -> Call {
    let mut random = Random::new(seed ^ number.wrapping_mul(0xE703_7ED1_A0B4_28DB));
    match random.below(3) {
        0 => (random.pick(&KINDS).make)(&mut random).0,
        1 => hostile_call(&mut random),
        _ => sound_call(&mut random),
    }
}

/// Any model, often broken, and readings that may have every fault.
fn hostile_call(random: &mut Random) -> Call {
    let n = models::any_n(random);
    let f = Box::new(hostile::model(random, n, 15));
    let mut readings = row(random, &f, 40);
    for _ in 0..random.below(3) {
        let fault = *random.pick(&FAULTS);
        spoil(random, &f, &mut readings, fault);
    }
    Call { f, readings }
}

/// A sound model and readings that agree with it up to one that does not, if any.
fn sound_call(random: &mut Random) -> Call {
    let f = Box::new(if random.one_in(2) {
        unit_model(random)
    } else {
        sound_model(random)
    });
    let mut readings = row(random, &f, MOST_READINGS);
    let faults = [Fault::Contradicts, Fault::Contradicts, Fault::Refused];
    for _ in 0..random.below(3) {
        let fault = *random.pick(&faults);
        spoil(random, &f, &mut readings, fault);
    }
    Call { f, readings }
}

fn sound_model(random: &mut Random) -> StoredModel {
    let n = models::any_n(random);
    let scale = *random.pick(&models::SCALES);
    let count = random.size(0, 12);
    let draft = models::of_scale(random, n, 15, count, scale);
    hostile::stored(random, n, &draft)
}

/// One unit of a variable, and a radius of all the rest: a coordinate between a half
/// and a whole in size gets 7, as the product is a unit and something is left over.
fn unit_model(random: &mut Random) -> StoredModel {
    let n = models::any_n(random);
    let key = models::variable_key(random.byte(1, n));
    let draft = DraftModel {
        radius: LARGEST_SPAN as u32 - 1,
        terms: vec![(key, random.sign() as i32)],
    };
    hostile::stored(random, n, &draft)
}

/// Where the one term of a unit model has its exponent.
fn unit_place(f: &StoredModel) -> usize {
    f.terms[0].key.leading_zeros() as usize / 4
}

/// So many readings at most, a few or all of it; at times one more than a row has.
fn any_length(random: &mut Random, most: usize) -> usize {
    match random.below(12) {
        0 => random.size(0, 2),
        1 => MOST_READINGS,
        2 => MOST_READINGS + 1,
        _ => random.size(0, most),
    }
}

fn row(random: &mut Random, f: &StoredModel, most: usize) -> Vec<Reading> {
    let length = any_length(random, most);
    row_of(random, f, length)
}

/// Readings that agree with the model, if it is sound.
fn row_of(random: &mut Random, f: &StoredModel, length: usize) -> Vec<Reading> {
    (0..length).map(|_| agreeing(random, f)).collect()
}

/// A point of the box with zeros above n, and for a unit model one that is accepted.
fn any_point(random: &mut Random, f: &StoredModel) -> [i64; MOST_VARIABLES] {
    let n = usize::from(f.n);
    let mut point = std::array::from_fn(|place| match random.below(6) {
        _ if place >= n => 0,
        0 => 0,
        1 => random.sign() * UNIT,
        2 => random.sign() * UNIT / 2,
        _ => random.between(-UNIT, UNIT),
    });
    if f.count == 1 && unit_place(f) < n {
        let accepted = [-UNIT, UNIT, 0, random.between(-UNIT / 2, UNIT / 2)];
        point[unit_place(f)] = *random.pick(&accepted);
    }
    point
}

/// Of every size alike.
fn any_width(random: &mut Random) -> i64 {
    let most = 1 << random.below(34);
    random.between(0, most)
}

/// A band that has a number in common with the evaluation: touching at either end,
/// inside, around, or all numbers. Where there is no evaluation it is any.
fn agreeing(random: &mut Random, f: &StoredModel) -> Reading {
    let point = any_point(random, f);
    let Some((low, high)) = ends(f, &point) else {
        return with_band(
            point,
            -random.between(0, 1 << 40),
            random.between(0, 1 << 40),
        );
    };
    let width = any_width(random);
    match random.below(6) {
        0 => with_band(point, high, high + width),
        1 => with_band(point, low - width, low),
        2 => with_band(point, low, high),
        3 => {
            let inside = random.between(low, high);
            with_band(point, inside, inside)
        }
        4 => with_band(point, low - width, high + width),
        _ => with_band(point, i64::MIN, i64::MAX),
    }
}

/// A band next to the evaluation or far from it.
fn contradicting(random: &mut Random, f: &StoredModel) -> Reading {
    let point = any_point(random, f);
    let (low, high) = ends(f, &point).unwrap_or((0, 0));
    let away = match random.below(2) {
        0 => 1,
        _ => random.between(1, 1 << 33),
    };
    let width = any_width(random);
    match random.below(4) {
        0 => with_band(point, high + away, high + away + width),
        1 => with_band(point, low - away - width, low - away),
        2 => with_band(point, high + away, i64::MAX),
        _ => with_band(point, i64::MIN, low - away),
    }
}

fn with_band(point: [i64; MOST_VARIABLES], low: i64, high: i64) -> Reading {
    Reading { point, low, high }
}

/// The evaluation that a band is to be near; what is expected of a kind never comes
/// from it.
fn ends(f: &StoredModel, point: &[i64; MOST_VARIABLES]) -> Option<(i64, i64)> {
    let answer = calls::evaluate(f, point);
    match answer.refusal {
        Some(_) => None,
        None => Some((answer.ends.low as i64, answer.ends.high as i64)),
    }
}

/// What a reading may be other than agreeing.
#[derive(Clone, Copy, Debug, PartialEq, Eq)]
enum Fault {
    Contradicts,
    /// 15.
    Band,
    /// 6, where the model has fewer than eight variables.
    Unused,
    /// 9.
    Outside,
    /// 7, where the model is a unit model.
    Refused,
}

const FAULTS: [Fault; 5] = [
    Fault::Contradicts,
    Fault::Band,
    Fault::Unused,
    Fault::Outside,
    Fault::Refused,
];

/// Gives the reading a fault, beside those that it has.
fn put(random: &mut Random, f: &StoredModel, reading: &mut Reading, fault: Fault) {
    let n = usize::from(f.n);
    match fault {
        Fault::Contradicts => *reading = contradicting(random, f),
        Fault::Band => {
            let high = random.between(-(1 << 40), 1 << 40);
            (reading.low, reading.high) = match random.below(3) {
                0 => (high + 1, high),
                1 => (i64::MAX, i64::MIN),
                _ => (high + random.between(1, 1 << 40), high),
            };
        }
        Fault::Unused => {
            if n < MOST_VARIABLES {
                let place = random.size(n, MOST_VARIABLES - 1);
                reading.point[place] = *random.pick(&[1, -1, UNIT, i64::MIN, i64::MAX]);
            }
        }
        Fault::Outside => {
            let place = random.size(0, n.clamp(1, MOST_VARIABLES) - 1);
            let beyond = [UNIT + 1, -UNIT - 1, i64::MIN, i64::MAX, 1 << 32];
            reading.point[place] = *random.pick(&beyond);
        }
        Fault::Refused => {
            let size = match random.below(3) {
                0 => UNIT / 2 + 1,
                1 => UNIT - 1,
                _ => random.between(UNIT / 2 + 1, UNIT - 1),
            };
            reading.point[unit_place(f).min(MOST_VARIABLES - 1)] = random.sign() * size;
        }
    }
}

/// Puts a fault at any place of the row, if it has one.
fn spoil(random: &mut Random, f: &StoredModel, readings: &mut [Reading], fault: Fault) {
    if !readings.is_empty() {
        let place = random.size(0, readings.len() - 1);
        put(random, f, &mut readings[place], fault);
    }
}

/// Rows without a contradiction, with one, and refused by each number at any place.
pub const KINDS: [CallKind<Call, ReadingsAnswer>; 10] = [
    kind("an empty row", empty),
    kind("bands that touch a constant", touching),
    kind("a band beside a constant", beside),
    kind("a contradiction before 7", contradiction_before_7),
    kind("15 of a row's length", too_long),
    kind("5", broken),
    kind("15 of a band", bad_band),
    kind("6", bad_unused),
    kind("9", bad_outside),
    kind("7 before a contradiction", refused_before_contradiction),
];

const NONE: ReadingsAnswer = ReadingsAnswer::NoneContradicts;

fn refused(refusal: Refusal) -> ReadingsAnswer {
    ReadingsAnswer::Refused(refusal)
}

fn empty(random: &mut Random) -> (Call, ReadingsAnswer) {
    let f = Box::new(sound_model(random));
    let readings = Vec::new();
    (Call { f, readings }, NONE)
}

/// A constant and a radius: the evaluation is the same at every point.
fn constant(random: &mut Random) -> (StoredModel, i64, i64) {
    let n = models::any_n(random);
    let draft = models::of_scale(random, n, 0, 1, Scale::Unit);
    let c = draft.terms.first().map_or(0, |term| i64::from(term.1));
    let radius = i64::from(draft.radius);
    let f = hostile::stored(random, n, &draft);
    (f, c - radius, c + radius)
}

/// Each band touches an end of what a constant has, up to the longest row.
fn touching(random: &mut Random) -> (Call, ReadingsAnswer) {
    let (f, low, high) = constant(random);
    let length = *random.pick(&[1, 2, 17, MOST_READINGS]);
    let touch = |_| {
        let point = any_point(random, &f);
        let width = random.between(0, 9);
        match random.below(2) {
            0 => with_band(point, high, high + width),
            _ => with_band(point, low - width, low),
        }
    };
    let readings = (0..length).map(touch).collect();
    let f = Box::new(f);
    (Call { f, readings }, NONE)
}

/// One band is beside what a constant has, by one unit; later ones may be as well.
fn beside(random: &mut Random) -> (Call, ReadingsAnswer) {
    let (mut call, _) = touching(random);
    let (f, low, high) = constant(random);
    for reading in &mut call.readings {
        *reading = with_band(any_point(random, &f), low, high);
    }
    *call.f = f;
    let length = call.readings.len();
    let place = random.size(0, length - 1);
    let more = random.size(0, length - 1 - place);
    for index in [place, place + more] {
        let reading = &mut call.readings[index];
        (reading.low, reading.high) = match random.below(2) {
            0 => (high + 1, high + 1 + random.between(0, 9)),
            _ => (low - 1 - random.between(0, 9), low - 1),
        };
    }
    (call, ReadingsAnswer::Contradicts(place))
}

/// A unit model and a row that agrees with it.
fn unit_call(random: &mut Random) -> Call {
    let f = Box::new(unit_model(random));
    let length = match random.below(4) {
        0 => MOST_READINGS,
        _ => random.size(2, 60),
    };
    // All numbers are in the band, so that nothing has to be known of the evaluation.
    let agree = |_| with_band(any_point(random, &f), i64::MIN, i64::MAX);
    let readings = (0..length).map(agree).collect();
    Call { f, readings }
}

/// Two places, the first before the second.
fn two_places(random: &mut Random, call: &Call) -> (usize, usize) {
    let last = call.readings.len() - 1;
    let first = random.size(0, last - 1);
    (first, random.size(first + 1, last))
}

/// Far from every evaluation.
fn put_far(random: &mut Random, reading: &mut Reading) {
    (reading.low, reading.high) = match random.below(2) {
        0 => (1 << 31, 1 << 32),
        _ => (-(1 << 32), -(1 << 31)),
    };
}

fn contradiction_before_7(random: &mut Random) -> (Call, ReadingsAnswer) {
    let mut call = unit_call(random);
    let (first, second) = two_places(random, &call);
    put_far(random, &mut call.readings[first]);
    let f = call.f.clone();
    put(random, &f, &mut call.readings[second], Fault::Refused);
    (call, ReadingsAnswer::Contradicts(first))
}

fn refused_before_contradiction(random: &mut Random) -> (Call, ReadingsAnswer) {
    let mut call = unit_call(random);
    let (first, second) = two_places(random, &call);
    let f = call.f.clone();
    put(random, &f, &mut call.readings[first], Fault::Refused);
    put_far(random, &mut call.readings[second]);
    // The refused reading may be far off as well: it is not known to contradict.
    if random.one_in(2) {
        put_far(random, &mut call.readings[first]);
    }
    (call, refused(Refusal::Span(first)))
}

/// Whatever the model is and the readings are.
fn too_long(random: &mut Random) -> (Call, ReadingsAnswer) {
    let mut call = hostile_call(random);
    let length = match random.below(2) {
        0 => MOST_READINGS + 1,
        _ => random.size(MOST_READINGS + 1, 2 * MOST_READINGS),
    };
    call.readings.resize(length, Reading::default());
    (call, refused(Refusal::Reading(0)))
}

/// Whatever the readings are, but for their number.
fn broken(random: &mut Random) -> (Call, ReadingsAnswer) {
    let mut call = hostile_call(random);
    call.readings.truncate(MOST_READINGS);
    match random.below(3) {
        0 => call.f.n = *random.pick(&[0, 9, 255]),
        1 => call.f.radius = (1 << 30) + 1,
        _ => call.f.count = 65,
    }
    (call, refused(Refusal::Model(0)))
}

/// Of fewer than eight variables, so that there is an unused coordinate.
fn narrow_call(random: &mut Random) -> Call {
    loop {
        let call = unit_call(random);
        if usize::from(call.f.n) < MOST_VARIABLES {
            return call;
        }
    }
}

/// Puts the fault at one place and perhaps at a later one, and other faults at up to
/// three places before, after or there.
fn with_faults(random: &mut Random, fault: Fault, others: &[Fault]) -> (Call, usize) {
    let mut call = narrow_call(random);
    let f = call.f.clone();
    for _ in 0..random.below(4) {
        let other = *random.pick(others);
        spoil(random, &f, &mut call.readings, other);
    }
    let (first, second) = two_places(random, &call);
    put(random, &f, &mut call.readings[first], fault);
    if random.one_in(2) {
        put(random, &f, &mut call.readings[second], fault);
    }
    (call, first)
}

fn bad_band(random: &mut Random) -> (Call, ReadingsAnswer) {
    let others = [
        Fault::Unused,
        Fault::Outside,
        Fault::Refused,
        Fault::Contradicts,
    ];
    let (call, place) = with_faults(random, Fault::Band, &others);
    (call, refused(Refusal::Reading(place)))
}

fn bad_unused(random: &mut Random) -> (Call, ReadingsAnswer) {
    let others = [Fault::Outside, Fault::Refused, Fault::Contradicts];
    let (call, place) = with_faults(random, Fault::Unused, &others);
    (call, refused(Refusal::Step(place)))
}

fn bad_outside(random: &mut Random) -> (Call, ReadingsAnswer) {
    let others = [Fault::Refused, Fault::Contradicts];
    let (call, place) = with_faults(random, Fault::Outside, &others);
    (call, refused(Refusal::OutsideBox(place)))
}
