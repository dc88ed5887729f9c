//! Calls on Chebyshev curves, fed to both implementations: all that the exported functions store, with slices of any
//! length, what the wrapper hands out, and the exact enclosure of what functions within the curves give.

use crate::agree::{pair, same, to_ends, to_model, unless, wide, Seen};
use crate::case::Bytes;
use crate::shaped::{borrowed, misused, over, COEFFICIENT, KEY, NUMBER};
use hechroung::raw::{self, Handed, HandedCurve};
use hechroung::{curves, Curve, Ends, Model, MOST_TERMS};
use reference::calls::{EndsAnswer, ModelAnswer};
use reference::chebyshev::{Call, CallAnswer, ChebyshevAnswer, StoredChebyshev, PLACES};
use reference::exact::chebyshev::check_call;
use reference::generate::chebyshev::{deviation, KINDS};
use reference::generate::{functions, Random};
use reference::stored::{StoredModel, StoredTerm};

/// The refusals, each with its place, that the calls have to reach.
const FIRST: (u8, usize) = (5, 0);
const SECOND: (u8, usize) = (5, 1);
const OVER: (u8, usize) = (7, 0);
const SEVERAL: (u8, usize) = (13, 0);
pub const REACHED: [(&str, &[(u8, usize)]); 7] = [
    ("curve negated", &[FIRST]),
    ("curves added", &[FIRST, SECOND, OVER]),
    ("curves subtracted", &[FIRST, SECOND, OVER]),
    ("curves multiplied", &[FIRST, SECOND, OVER]),
    ("range of a curve", &[FIRST]),
    ("curve to powers", &[FIRST, OVER]),
    ("curve from powers", &[FIRST, SEVERAL, OVER]),
];
/// Of each named way to make calls so many are compared whatever the seed.
const NAMED: usize = 50;

/// The kind by which calls are counted.
pub fn kind(call: &Call) -> &'static str {
    match call {
        Call::Negate { .. } => "curve negated",
        Call::Add { .. } => "curves added",
        Call::Subtract { .. } => "curves subtracted",
        Call::Multiply { .. } => "curves multiplied",
        Call::Range { .. } => "range of a curve",
        Call::ToPowers { .. } => "curve to powers",
        Call::FromPowers { .. } => "curve from powers",
    }
}

/// Calls that are compared whatever the seed, of every named way to make them.
pub fn named() -> Vec<Call> {
    let mut random = Random::new(10);
    let mut made = |_| KINDS.map(|kind| (kind.make)(&mut random).0);
    (0..NAMED).flat_map(&mut made).collect()
}

/// The lengths of the slices, and the code in the place of the call's own where it is not 0: those of the two curves or
/// of a model's keys and coefficients, those of the answer.
#[derive(Clone, Copy, Debug, PartialEq)]
pub struct Shape {
    pub code: u8,
    pub inputs: [u8; 2],
    pub outputs: [u8; 3],
}

impl Shape {
    /// Every slice as long as any call needs it, and no longer where it holds coefficients of a curve.
    pub fn enough(call: &Call) -> Shape {
        let (inputs, outputs) = match call {
            Call::ToPowers { .. } => (PLACES, [MOST_TERMS, MOST_TERMS, 4]),
            Call::FromPowers { .. } => (MOST_TERMS, [0, PLACES, 2]),
            Call::Range { .. } => (PLACES, [0, 2, 0]),
            _ => (PLACES, [0, PLACES, 2]),
        };
        Shape {
            code: 0,
            inputs: [inputs as u8; 2],
            outputs: outputs.map(|length| length as u8),
        }
    }

    /// Mostly long enough.
    pub fn random(random: &mut Random, call: &Call) -> Shape {
        let code = if random.one_in(12) {
            // 1 and 2 in the place of two that are known.
            match random.byte(5, 255) {
                known @ (5 | 6) => known - 4,
                unknown => unknown,
            }
        } else {
            0
        };
        let mut length = |least: u8| match random.below(16) {
            0 => random.byte(0, least),
            1 => least.saturating_sub(1),
            2..=4 => random.byte(least, 200),
            _ => least,
        };
        let enough = Shape::enough(call);
        Shape {
            code,
            inputs: enough.inputs.map(&mut length),
            outputs: enough.outputs.map(&mut length),
        }
    }

    pub fn push(&self, bytes: &mut Vec<u8>) {
        bytes.push(self.code);
        bytes.extend(self.inputs);
        bytes.extend(self.outputs);
    }

    pub fn take(bytes: &mut Bytes) -> Option<Shape> {
        Some(Shape {
            code: bytes.byte()?,
            inputs: bytes.take()?,
            outputs: bytes.take()?,
        })
    }
}

/// By the exported function, with all that it stores, also beside a refusal; by the wrapper; and what functions within
/// the operands give, held against the answer that the wrapper hands out.
pub fn compare(call: &Call) -> Result<Seen, String> {
    let expected = call.answer();
    let mut seen = compare_stored(call, &expected, &Shape::enough(call))?;
    let answered = answered(call);
    same(&answered, &unless(expected.refusal(), expected.clone()))?;
    if let Ok(answer) = answered {
        seen.tried.points_of_curves = enclosed(call, &answer)? as u64;
    }
    Ok(seen)
}

/// The exported function with slices of these lengths.
pub fn compare_shaped(call: &Call, shape: &Shape) -> Result<Seen, String> {
    compare_stored(call, &call.answer(), shape)
}

/// The points at which the outcome was held against the answer.
fn enclosed(call: &Call, answer: &CallAnswer) -> Result<usize, String> {
    let mut bytes = Vec::new();
    push_call(&mut bytes, call);
    let seed = bytes.iter().fold(0u64, |seed, &byte| {
        seed.wrapping_mul(0x0100_0000_01B3) ^ u64::from(byte)
    });
    let mut random = Random::new(seed);
    let deviations = [deviation(&mut random), deviation(&mut random)];
    let mut points = vec![functions::corner(1, 0), functions::corner(1, 1)];
    points.push(functions::middle());
    points.push(functions::any_point(&mut random, 1));
    points.push(functions::any_point(&mut random, 1));
    let checked = check_call(call, answer, &deviations, &points);
    checked.map_err(|violation| format!("{violation:?} {deviations:?}"))
}

/// What the wrapper hands out, as the second implementation says it.
fn answered(call: &Call) -> Result<CallAnswer, hechroung::Refusal> {
    let chebyshev = |curve: Curve| {
        CallAnswer::Chebyshev(ChebyshevAnswer {
            model: StoredChebyshev {
                coefficients: curve.coefficients,
                radius: curve.radius,
            },
            refusal: None,
        })
    };
    let powers = |model: Model| {
        CallAnswer::Powers(Box::new(ModelAnswer {
            model: to_stored(&model),
            refusal: None,
        }))
    };
    let ends = |ends: Ends| {
        CallAnswer::Ends(EndsAnswer {
            ends: wide(ends),
            refusal: None,
        })
    };
    match call {
        Call::Negate { f } => curves::negate(&to_curve(f)).map(chebyshev),
        Call::Add { f, g } => curves::add(&to_curve(f), &to_curve(g)).map(chebyshev),
        Call::Subtract { f, g } => curves::subtract(&to_curve(f), &to_curve(g)).map(chebyshev),
        Call::Multiply { f, g } => curves::multiply(&to_curve(f), &to_curve(g)).map(chebyshev),
        Call::Range { f } => curves::range(&to_curve(f)).map(ends),
        Call::ToPowers { f } => curves::to_powers(&to_curve(f)).map(powers),
        Call::FromPowers { f } => curves::from_powers(&to_model(f)).map(chebyshev),
    }
}

fn to_curve(stored: &StoredChebyshev) -> Curve {
    Curve {
        coefficients: stored.coefficients,
        radius: stored.radius,
    }
}

fn to_stored(model: &Model) -> StoredModel {
    StoredModel {
        n: model.n,
        count: model.count,
        radius: model.radius,
        terms: std::array::from_fn(|place| StoredTerm {
            key: model.keys[place],
            coefficient: model.coefficients[place],
        }),
    }
}

/// What the slices of an answer hold (one that a call does not have is empty), and the number that the call returned.
#[derive(Debug, PartialEq)]
struct Stored {
    number: u8,
    keys: Vec<u32>,
    signed: Vec<i64>,
    numbers: Vec<u64>,
}

/// All that the exported function stores, held against the second implementation's answer.
fn compare_stored(call: &Call, expected: &CallAnswer, shape: &Shape) -> Result<Seen, String> {
    let inputs = shape.inputs.map(usize::from);
    let outputs = shape.outputs.map(usize::from);
    let untouched = |number| Stored {
        number,
        keys: vec![KEY; outputs[0]],
        signed: vec![COEFFICIENT; outputs[1]],
        numbers: vec![NUMBER; outputs[2]],
    };
    let mut stored = untouched(0);
    let fits = made(call, shape, inputs, &mut stored) && {
        let least = Shape::enough(call).outputs;
        outputs
            .iter()
            .zip(least)
            .all(|(&has, least)| has >= least.into())
    };
    if !fits {
        return misused(stored.number, &stored, &untouched(raw::MISUSED));
    }
    let refusal = expected.refusal().map(pair);
    let (number, place) = refusal.unwrap_or_default();
    let place = place as u64;
    let (keys, signed, numbers) = match expected {
        CallAnswer::Chebyshev(answer) => {
            let model = &answer.model;
            (
                vec![],
                model.coefficients.to_vec(),
                vec![place, model.radius],
            )
        }
        CallAnswer::Powers(answer) => {
            let model = to_model(&answer.model);
            let numbers = [place, model.n.into(), model.count as u64, model.radius];
            (
                model.keys.to_vec(),
                model.coefficients.to_vec(),
                numbers.to_vec(),
            )
        }
        CallAnswer::Ends(answer) => {
            let ends = to_ends(answer.ends);
            (vec![], vec![ends.low, ends.high], vec![])
        }
    };
    let expected = Stored {
        number,
        keys: over(&keys, KEY, outputs[0]),
        signed: over(&signed, COEFFICIENT, outputs[1]),
        numbers: over(&numbers, NUMBER, outputs[2]),
    };
    same(&stored, &expected)?;
    Ok(Seen::of(refusal))
}

/// A slice of a curve's coefficients, cut off or with more after it, and its radius.
struct LentCurve {
    coefficients: Vec<i64>,
    radius: u64,
}

impl LentCurve {
    fn of(curve: &StoredChebyshev, length: usize) -> LentCurve {
        LentCurve {
            coefficients: over(&curve.coefficients, COEFFICIENT, length),
            radius: curve.radius,
        }
    }

    fn handed(&self) -> HandedCurve<'_> {
        HandedCurve {
            coefficients: &self.coefficients,
            radius: self.radius,
        }
    }
}

/// Makes the call; whether its code is known and the slices that it reads are long enough.
fn made(call: &Call, shape: &Shape, inputs: [usize; 2], stored: &mut Stored) -> bool {
    let [first, second] = inputs;
    let mut two = |code: u8, f: &StoredChebyshev, g: &StoredChebyshev| {
        let code = if shape.code == 0 { code } else { shape.code };
        let (f, g) = (LentCurve::of(f, first), LentCurve::of(g, second));
        let Stored {
            signed, numbers, ..
        } = stored;
        stored.number = raw::curve(code, f.handed(), g.handed(), signed, numbers);
        (3..=6).contains(&code) && first.min(second) >= PLACES
    };
    match call {
        // The second curve may be anything.
        Call::Negate { f } => two(
            3,
            f,
            &StoredChebyshev {
                radius: u64::MAX,
                ..*f
            },
        ),
        Call::Add { f, g } => two(4, f, g),
        Call::Subtract { f, g } => two(5, f, g),
        Call::Multiply { f, g } => two(6, f, g),
        Call::Range { f } => {
            let f = LentCurve::of(f, first);
            stored.number = raw::curve_range(f.handed(), &mut stored.signed);
            first >= PLACES
        }
        Call::ToPowers { f } => {
            let f = LentCurve::of(f, first);
            let Stored {
                keys,
                signed,
                numbers,
                ..
            } = stored;
            stored.number = raw::to_powers(f.handed(), keys, signed, numbers);
            first >= PLACES
        }
        Call::FromPowers { f } => {
            let model = to_model(f);
            let handed = Handed {
                n: model.n,
                count: model.count,
                radius: model.radius,
                keys: &over(&model.keys, KEY, first),
                coefficients: &over(&model.coefficients, COEFFICIENT, second),
            };
            stored.number = raw::from_powers(handed, &mut stored.signed, &mut stored.numbers);
            borrowed(&model, first, second)
        }
    }
}

/// The call's number, then its arguments, little-endian.
pub fn push_call(bytes: &mut Vec<u8>, call: &Call) {
    match call {
        Call::Negate { f } => push_curves(bytes, 1, &[f]),
        Call::Add { f, g } => push_curves(bytes, 2, &[f, g]),
        Call::Subtract { f, g } => push_curves(bytes, 3, &[f, g]),
        Call::Multiply { f, g } => push_curves(bytes, 4, &[f, g]),
        Call::Range { f } => push_curves(bytes, 5, &[f]),
        Call::ToPowers { f } => push_curves(bytes, 6, &[f]),
        Call::FromPowers { f } => {
            bytes.push(7);
            crate::case::push_model(bytes, f);
        }
    }
}

fn push_curves(bytes: &mut Vec<u8>, number: u8, curves: &[&StoredChebyshev]) {
    bytes.push(number);
    for curve in curves {
        bytes.extend(curve.radius.to_le_bytes());
        let coefficients = curve.coefficients.iter();
        bytes.extend(coefficients.flat_map(|c| c.to_le_bytes()));
    }
}

pub fn take_call(bytes: &mut Bytes) -> Option<Call> {
    Some(match bytes.byte()? {
        1 => Call::Negate {
            f: take_curve(bytes)?,
        },
        2 => Call::Add {
            f: take_curve(bytes)?,
            g: take_curve(bytes)?,
        },
        3 => Call::Subtract {
            f: take_curve(bytes)?,
            g: take_curve(bytes)?,
        },
        4 => Call::Multiply {
            f: take_curve(bytes)?,
            g: take_curve(bytes)?,
        },
        5 => Call::Range {
            f: take_curve(bytes)?,
        },
        6 => Call::ToPowers {
            f: take_curve(bytes)?,
        },
        7 => Call::FromPowers {
            f: crate::case::take_model(bytes)?,
        },
        _ => return None,
    })
}

fn take_curve(bytes: &mut Bytes) -> Option<StoredChebyshev> {
    let mut curve = StoredChebyshev {
        radius: bytes.number()?,
        ..StoredChebyshev::ZEROS
    };
    for coefficient in &mut curve.coefficients {
        *coefficient = bytes.number()? as i64;
    }
    Some(curve)
}
