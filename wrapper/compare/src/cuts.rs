//! Ranges of a cut box, fed to both implementations: all that the exported function stores, with slices of any length,
//! what the wrapper hands out, and functions within the model held against it at points of every piece.

use crate::agree::{pair, same, sound, to_ends, to_model, unless, wide, Seen};
use crate::case::{push_model, take_model, Bytes};
use crate::shaped::{borrowed, handed, misused, over, slices, COEFFICIENT, NUMBER};
use hechroung::raw;
use reference::calls::EndsAnswer;
use reference::cuts::{Call, DEEPEST};
use reference::exact::cuts::leaves_at;
use reference::exact::InputFunction;
use reference::generate::cuts::{clear_call, points, KINDS};
use reference::generate::{functions, Random};
use std::collections::BTreeMap;

/// The kind by which calls are counted.
pub const KIND: &str = "range of a cut box";
/// The refusals that calls have to reach, and those of a piece at so many places.
pub const REACHED: [u8; 6] = [3, 5, 6, 7, 8, 14];
const OF_PIECES: [u8; 2] = [7, 8];
const MANY_PIECES: usize = 8;
/// Of each named way to make calls so many are compared whatever the seed, and so many that are accepted.
const NAMED: usize = 30;
const NAMED_CLEAR: usize = 300;

/// How deep accepted calls cut, how many of their answers are narrower than the undivided range, and at how many points
/// functions were held against them.
#[derive(Clone, Copy, Default)]
pub struct Cuts {
    depths: [u64; DEEPEST as usize + 1],
    narrower: u64,
    points: u64,
}

impl Cuts {
    pub fn add(&mut self, other: &Cuts) {
        for (mine, theirs) in self.depths.iter_mut().zip(other.depths) {
            *mine += theirs;
        }
        self.narrower += other.narrower;
        self.points += other.points;
    }

    pub fn print(&self) {
        if self.points > 0 {
            println!(
                "    accepted at depths 0 to {DEEPEST}: {:?}; {} narrower than the range; enclosure tried with exact \
                 fractions: {} points",
                self.depths, self.narrower, self.points
            );
        }
    }

    /// What no call reached, by how often each refusal came at each place.
    pub fn unreached(&self, refused: &BTreeMap<u8, BTreeMap<usize, u64>>) -> Vec<String> {
        let mut missing = Vec::new();
        for (depth, times) in self.depths.iter().enumerate() {
            if *times == 0 {
                missing.push(format!("an accepted call at depth {depth}"));
            }
        }
        for number in OF_PIECES {
            if refused.get(&number).map_or(0, BTreeMap::len) < MANY_PIECES {
                missing.push(format!("refusal {number} at many pieces"));
            }
        }
        if self.narrower == 0 {
            missing.push("an answer narrower than the range".into());
        }
        if self.points == 0 {
            missing.push("enclosure".into());
        }
        missing
    }
}

/// Calls that are compared whatever the seed: of every named way to make them, and such with small radii.
pub fn named() -> Vec<Call> {
    let mut random = Random::new(11);
    let mut made = |_| KINDS.map(|kind| (kind.make)(&mut random).0);
    let mut calls: Vec<Call> = (0..NAMED).flat_map(&mut made).collect();
    calls.extend((0..NAMED_CLEAR).map(|_| clear_call(&mut random)));
    calls
}

/// The lengths of the slices: those of a model's keys and coefficients, of the ends and the numbers.
#[derive(Clone, Copy, Debug, PartialEq)]
pub struct Shape {
    pub inputs: [u8; 2],
    pub outputs: [u8; 2],
}

impl Shape {
    /// Every slice as long as any model needs it.
    pub const ENOUGH: Shape = Shape {
        inputs: [64; 2],
        outputs: [2, 1],
    };

    /// Mostly long enough.
    pub fn random(random: &mut Random) -> Shape {
        let mut length = |least: u8| match random.below(8) {
            0 => random.byte(0, least),
            1 => least.saturating_sub(1),
            2..=4 => random.byte(least, 200),
            _ => least,
        };
        Shape {
            inputs: Shape::ENOUGH.inputs.map(&mut length),
            outputs: Shape::ENOUGH.outputs.map(&mut length),
        }
    }

    pub fn push(&self, bytes: &mut Vec<u8>) {
        bytes.extend(self.inputs);
        bytes.extend(self.outputs);
    }

    pub fn take(bytes: &mut Bytes) -> Option<Shape> {
        Some(Shape {
            inputs: bytes.take()?,
            outputs: bytes.take()?,
        })
    }
}

pub fn push_call(bytes: &mut Vec<u8>, call: &Call) {
    bytes.extend([call.order, call.i, call.depth]);
    push_model(bytes, &call.f);
}

pub fn take_call(bytes: &mut Bytes) -> Option<Call> {
    Some(Call {
        order: bytes.byte()?,
        i: bytes.byte()?,
        depth: bytes.byte()?,
        f: take_model(bytes)?,
    })
}

/// By the exported function, with all that it stores, also beside a refusal; by the wrapper, which hands out ends or a
/// refusal; and functions within the model against the ends.
pub fn compare(call: &Call) -> Result<Seen, String> {
    let expected = call.answer();
    let mut seen = compare_stored(call, &expected, &Shape::ENOUGH)?;
    let model = to_model(&call.f);
    let answer = hechroung::cut_range(call.order, call.i, call.depth, &model);
    same(&answer, &unless(expected.refusal, to_ends(expected.ends)))?;
    if let Ok(ends) = answer {
        let undivided = hechroung::range(&model).map_err(|refusal| refusal.to_string())?;
        if call.depth == 0 {
            same(&ends, &undivided)?;
        }
        if ends.low < undivided.low || ends.high > undivided.high || ends.low > ends.high {
            return Err(format!("{ends:?} is not inside {undivided:?}, or empty"));
        }
        seen.cuts.depths[usize::from(call.depth)] = 1;
        seen.cuts.narrower = u64::from(ends != undivided);
        let proved = EndsAnswer {
            refusal: None,
            ends: wide(ends),
        };
        seen.cuts.points = enclosed(call, &proved)?;
    }
    Ok(seen)
}

/// The exported function with slices of these lengths.
pub fn compare_shaped(call: &Call, shape: &Shape) -> Result<Seen, String> {
    compare_stored(call, &call.answer(), shape)
}

fn compare_stored(call: &Call, expected: &EndsAnswer, shape: &Shape) -> Result<Seen, String> {
    let model = to_model(&call.f);
    let [keys_length, coefficients_length] = shape.inputs.map(usize::from);
    let [ends_length, numbers_length] = shape.outputs.map(usize::from);
    let (keys, coefficients) = slices(&model, keys_length, coefficients_length);
    let mut ends = vec![COEFFICIENT; ends_length];
    let mut numbers = vec![NUMBER; numbers_length];
    let number = raw::cut_range(
        call.order,
        call.i,
        call.depth,
        handed(&model, &keys, &coefficients),
        &mut ends,
        &mut numbers,
    );
    let fits = borrowed(&model, keys_length, coefficients_length)
        && ends_length >= 2
        && numbers_length >= 1;
    let found = (ends, numbers);
    if !fits {
        let before = (vec![COEFFICIENT; ends_length], vec![NUMBER; numbers_length]);
        return misused(number, &found, &before);
    }
    let refusal = expected.refusal.map(pair);
    let (number_of, place) = refusal.unwrap_or_default();
    let expected = to_ends(expected.ends);
    let stored = (
        over(&[expected.low, expected.high], COEFFICIENT, ends_length),
        over(&[place as u64], NUMBER, numbers_length),
    );
    same(&(number, found), &(number_of, stored))?;
    Ok(Seen::of(refusal))
}

/// Functions within the model, a polynomial and one that jumps, at points of every piece: how many points were tried.
/// The call's own bytes are the seed.
fn enclosed(call: &Call, answer: &EndsAnswer) -> Result<u64, String> {
    let mut bytes = Vec::new();
    push_call(&mut bytes, call);
    let seed = bytes.iter().fold(0u64, |seed, &byte| {
        seed.wrapping_mul(0x0100_0000_01B3) ^ u64::from(byte)
    });
    let mut random = Random::new(seed);
    let model = sound(&to_model(&call.f));
    let polynomial = InputFunction::Polynomial(functions::polynomial_within(&mut random, &model));
    let mut tried = 0;
    for function in [polynomial, InputFunction::jumping(&model, seed)] {
        let points = points(&mut random, call);
        if let Some(point) = leaves_at(answer, &function, &points) {
            return Err(format!("{function:?} leaves {answer:?} at {point:?}"));
        }
        tried += points.len() as u64;
    }
    Ok(tried)
}
