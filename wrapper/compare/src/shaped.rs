//! The exported functions themselves, with slices of any length and any code: what is too short or unknown is answered
//! with 255 and changes nothing, and what lies beyond an answer stays.

use crate::agree::{pair, same, to_ends, to_exact, to_model, Seen};
use crate::case::Bytes;
use hechroung::raw::{self, Handed, HandedModels, MISUSED};
use hechroung::Model;
use reference::calls::{Call, CallAnswer, ModelAnswer};
use reference::generate::Random;
use reference::model::{MOST_TERMS, MOST_VARIABLES};

/// The lengths of the slices, and the code in the place of the call's own where it is not 0. For a quotient, which has
/// no code, `inputs` name the lengths for its fourth model, and `entries` how many models' numbers there are.
#[derive(Clone, Copy, Debug, PartialEq)]
pub struct Shape {
    pub code: u8,
    pub inputs: [u8; 4],
    pub entries: [u8; 3],
    pub outputs: [u8; 3],
    pub point: u8,
}

/// The code of the one call that looks at the point.
const EVALUATE: u8 = 3;

/// What the slices for the answer hold before.
pub const KEY: u32 = 0xABCD_4321;
pub const COEFFICIENT: i64 = -0x0123_4567_89AB_CDEF;
pub const NUMBER: u64 = 0xFEDC_BA98_7654_3210;

impl Shape {
    /// The call's own code, and every slice as long as it has to be.
    pub const ENOUGH: Shape = Shape {
        code: 0,
        inputs: [MOST_TERMS as u8; 4],
        entries: [4; 3],
        outputs: [MOST_TERMS as u8, MOST_TERMS as u8, 4],
        point: MOST_VARIABLES as u8,
    };

    /// Mostly long enough.
    pub fn random(random: &mut Random) -> Shape {
        let code = if random.one_in(12) {
            // 9 in the place of 10: a step's quotient is no call, and an antiderivative is one.
            match random.byte(10, 255) {
                10 => 9,
                unknown => unknown,
            }
        } else {
            0
        };
        let mut length = |least: u8| match random.below(20) {
            0 => random.byte(0, least),
            1 => least - 1,
            2..=4 => random.byte(least, 200),
            _ => least,
        };
        Shape {
            inputs: [length(64), length(64), length(64), length(64)],
            entries: [length(4), length(4), length(4)],
            outputs: [length(64), length(64), length(4)],
            point: length(MOST_VARIABLES as u8),
            code,
        }
    }

    pub fn push(&self, bytes: &mut Vec<u8>) {
        bytes.push(self.code);
        bytes.extend(self.inputs);
        bytes.extend(self.entries);
        bytes.extend(self.outputs);
        bytes.push(self.point);
    }

    pub fn take(bytes: &mut Bytes) -> Option<Shape> {
        Some(Shape {
            code: bytes.byte()?,
            inputs: bytes.take()?,
            entries: bytes.take()?,
            outputs: bytes.take()?,
            point: bytes.byte()?,
        })
    }
}

/// A call's code, arguments and models, as the exported functions take them.
struct Arguments {
    code: u8,
    d: u8,
    i: u8,
    value: i64,
    f: Model,
    g: Model,
    point: [i64; MOST_VARIABLES],
}

/// All that the exported function stores, held against the second implementation's answer.
pub fn compare(call: &Call, expected: &CallAnswer, shape: &Shape) -> Result<Seen, String> {
    if let Call::Quotient { f, g, h, w, order } = call {
        let models = [f, g, h, w].map(|model| to_model(model));
        return compare_quotient(&models, *order, shape, expected);
    }
    let mut arguments = arguments(call);
    if shape.code != 0 {
        arguments.code = shape.code;
    }
    match expected {
        CallAnswer::Model(answer) => {
            let numbers = [
                answer.refusal.map_or(0, |refusal| refusal.place() as u64),
                u64::from(answer.model.n),
                answer.model.count as u64,
                answer.model.radius,
            ];
            let model = to_model(&answer.model);
            compare_model(
                &arguments,
                shape,
                answer.refusal.map(pair),
                &model,
                &numbers,
            )
        }
        CallAnswer::Ends(answer) => {
            let ends = to_ends(answer.ends);
            let stored = [ends.low, ends.high, 0, 0];
            compare_ends(&arguments, shape, answer.refusal.map(pair), &stored)
        }
        CallAnswer::Integral(answer) => {
            let ends = to_ends(answer.integral.ends);
            let exact = to_exact(answer.integral.exact);
            let stored = [ends.low, ends.high, exact.quotient, exact.remainder];
            compare_ends(&arguments, shape, answer.refusal.map(pair), &stored)
        }
    }
}

fn compare_model(
    arguments: &Arguments,
    shape: &Shape,
    refusal: Option<(u8, usize)>,
    model: &Model,
    numbers: &[u64; 4],
) -> Result<Seen, String> {
    let [keys1, coefficients1, keys2, coefficients2] = shape.inputs.map(usize::from);
    let outputs = shape.outputs.map(usize::from);
    let (keys_f, coefficients_f) = slices(&arguments.f, keys1, coefficients1);
    let (keys_g, coefficients_g) = slices(&arguments.g, keys2, coefficients2);
    let mut keys = vec![KEY; outputs[0]];
    let mut coefficients = vec![COEFFICIENT; outputs[1]];
    let mut stored = vec![NUMBER; outputs[2]];
    let number = raw::call(
        arguments.code,
        arguments.d,
        arguments.i,
        arguments.value,
        handed(&arguments.f, &keys_f, &coefficients_f),
        handed(&arguments.g, &keys_g, &coefficients_g),
        &mut keys,
        &mut coefficients,
        &mut stored,
    );
    let fits = matches!(arguments.code, 1..=8 | 10)
        && borrowed(&arguments.f, keys1, coefficients1)
        && borrowed(&arguments.g, keys2, coefficients2)
        && outputs[0] >= MOST_TERMS
        && outputs[1] >= MOST_TERMS
        && outputs[2] >= 4;
    if !fits {
        return misused(
            number,
            &(keys, coefficients, stored),
            &(
                vec![KEY; outputs[0]],
                vec![COEFFICIENT; outputs[1]],
                vec![NUMBER; outputs[2]],
            ),
        );
    }
    let expected = (
        refusal.map_or(0, |(number, _)| number),
        over(&model.keys, KEY, outputs[0]),
        over(&model.coefficients, COEFFICIENT, outputs[1]),
        over(numbers, NUMBER, outputs[2]),
    );
    same(&(number, keys, coefficients, stored), &expected)?;
    Ok(Seen::of(refusal))
}

/// What the slices for an answer hold after a call.
type Stored = (Vec<u32>, Vec<i64>, Vec<u64>);

fn compare_quotient(
    models: &[Model; 4],
    order: u8,
    shape: &Shape,
    answer: &CallAnswer,
) -> Result<Seen, String> {
    let CallAnswer::Model(answer) = answer else {
        unreachable!("a quotient answers with a model");
    };
    let [ns_length, counts_length, radii_length] = shape.entries.map(usize::from);
    let [keys_length, coefficients_length, _, _] = shape
        .inputs
        .map(|length| 3 * MOST_TERMS + usize::from(length));
    // What is after four models may be anything.
    let ns = over(&models.map(|model| model.n), 0xAB, ns_length);
    let counts = over(&models.map(|model| model.count), usize::MAX, counts_length);
    let radii = over(&models.map(|model| model.radius), NUMBER, radii_length);
    let keys = models.map(|model| model.keys).concat();
    let coefficients = models.map(|model| model.coefficients).concat();
    let handed = HandedModels {
        ns: &ns,
        counts: &counts,
        radii: &radii,
        keys: &over(&keys, KEY, keys_length),
        coefficients: &over(&coefficients, COEFFICIENT, coefficients_length),
    };
    let entries = ns_length.min(counts_length).min(radii_length);
    let borrowed = entries >= 4 && keys_length.min(coefficients_length) >= 4 * MOST_TERMS;
    compare_answer(
        answer,
        borrowed,
        shape.outputs,
        |keys, coefficients, numbers| raw::quotient(order, handed, keys, coefficients, numbers),
    )
}

/// All that a call stores whose answer is a model, in slices of these lengths; `borrowed` says whether those that it
/// reads are long enough.
pub fn compare_answer(
    answer: &ModelAnswer,
    borrowed: bool,
    outputs: [u8; 3],
    call: impl FnOnce(&mut [u32], &mut [i64], &mut [u64]) -> u8,
) -> Result<Seen, String> {
    let outputs = outputs.map(usize::from);
    let (mut keys, mut coefficients, mut numbers) = untouched(outputs);
    let number = call(&mut keys, &mut coefficients, &mut numbers);
    let found = (keys, coefficients, numbers);
    if !borrowed || outputs[0].min(outputs[1]) < MOST_TERMS || outputs[2] < 4 {
        return misused(number, &found, &untouched(outputs));
    }
    let refusal = answer.refusal.map(pair);
    let model = to_model(&answer.model);
    let expected_numbers = [
        refusal.map_or(0, |(_, place)| place as u64),
        u64::from(model.n),
        model.count as u64,
        model.radius,
    ];
    let expected = (
        over(&model.keys, KEY, outputs[0]),
        over(&model.coefficients, COEFFICIENT, outputs[1]),
        over(&expected_numbers, NUMBER, outputs[2]),
    );
    same(
        &(number, found),
        &(refusal.map_or(0, |(number, _)| number), expected),
    )?;
    Ok(Seen::of(refusal))
}

/// Slices of these lengths for an answer, before a call.
fn untouched([keys, coefficients, numbers]: [usize; 3]) -> Stored {
    (
        vec![KEY; keys],
        vec![COEFFICIENT; coefficients],
        vec![NUMBER; numbers],
    )
}

fn compare_ends(
    arguments: &Arguments,
    shape: &Shape,
    refusal: Option<(u8, usize)>,
    ends: &[i64; 4],
) -> Result<Seen, String> {
    let [length_keys, length_coefficients, _, _] = shape.inputs.map(usize::from);
    let length_ends = usize::from(shape.outputs[2]);
    let (keys, coefficients) = slices(&arguments.f, length_keys, length_coefficients);
    let mut stored = vec![COEFFICIENT; length_ends];
    let handed = handed(&arguments.f, &keys, &coefficients);
    // What is after eight coordinates may be anything.
    let point = over(&arguments.point, COEFFICIENT, shape.point.into());
    let number = raw::ends(arguments.code, handed, &point, &mut stored);
    let fits = (1..=3).contains(&arguments.code)
        && borrowed(&arguments.f, length_keys, length_coefficients)
        && (arguments.code != EVALUATE || point.len() >= MOST_VARIABLES)
        && length_ends >= 4;
    if !fits {
        return misused(number, &stored, &vec![COEFFICIENT; length_ends]);
    }
    let expected = (
        refusal.map_or(0, |(number, _)| number),
        over(ends, COEFFICIENT, length_ends),
    );
    same(&(number, stored), &expected)?;
    Ok(Seen::of(refusal))
}

/// Whether slices have every place that a count names.
pub fn borrowed(model: &Model, keys: usize, coefficients: usize) -> bool {
    keys.min(coefficients) >= model.count.min(MOST_TERMS)
}

/// Slices of these lengths: cut off, or with more after it.
pub fn slices(model: &Model, keys: usize, coefficients: usize) -> (Vec<u32>, Vec<i64>) {
    let longer = |length: usize| length.max(MOST_TERMS);
    let mut lent_keys = over(&model.keys, KEY, longer(keys));
    let mut lent_coefficients = over(&model.coefficients, COEFFICIENT, longer(coefficients));
    lent_keys.truncate(keys);
    lent_coefficients.truncate(coefficients);
    (lent_keys, lent_coefficients)
}

pub fn handed<'a>(model: &Model, keys: &'a [u32], coefficients: &'a [i64]) -> Handed<'a> {
    Handed {
        n: model.n,
        count: model.count,
        radius: model.radius,
        keys,
        coefficients,
    }
}

/// The first places hold these, the others what they held; cut off where the length is smaller.
pub fn over<T: Copy>(first: &[T], held: T, length: usize) -> Vec<T> {
    let mut all = first.to_vec();
    all.resize(length, held);
    all
}

pub fn misused<T: PartialEq + std::fmt::Debug>(
    number: u8,
    held: &T,
    before: &T,
) -> Result<Seen, String> {
    same(&(number, held), &(MISUSED, before))?;
    Ok(Seen {
        misused: true,
        text: "misused".into(),
        ..Seen::of(None)
    })
}

fn arguments(call: &Call) -> Arguments {
    let none = Arguments {
        code: 0,
        d: 0,
        i: 0,
        value: 0,
        f: Model::ZERO,
        g: Model::ZERO,
        point: [0; MOST_VARIABLES],
    };
    match call {
        Call::Constant { n, value } => Arguments {
            code: 1,
            value: *value,
            f: Model {
                n: *n,
                ..Model::ZERO
            },
            ..none
        },
        Call::Variable { n, i } => Arguments {
            code: 2,
            i: *i,
            f: Model {
                n: *n,
                ..Model::ZERO
            },
            ..none
        },
        Call::Negate { f } => Arguments {
            code: 3,
            f: to_model(f),
            ..none
        },
        Call::Add { f, g } => Arguments {
            code: 4,
            f: to_model(f),
            g: to_model(g),
            ..none
        },
        Call::Subtract { f, g } => Arguments {
            code: 5,
            f: to_model(f),
            g: to_model(g),
            ..none
        },
        Call::Multiply { f, g, order } => Arguments {
            code: 6,
            d: *order,
            f: to_model(f),
            g: to_model(g),
            ..none
        },
        Call::Substitute { f, g, i, order } => Arguments {
            code: 7,
            d: *order,
            i: *i,
            f: to_model(f),
            g: to_model(g),
            ..none
        },
        Call::Sweep { f, threshold } => Arguments {
            code: 8,
            value: *threshold,
            f: to_model(f),
            ..none
        },
        Call::Antiderivative { f, i, order } => Arguments {
            code: 10,
            d: *order,
            i: *i,
            f: to_model(f),
            ..none
        },
        Call::Quotient { .. } => unreachable!("a quotient is an exported function of its own"),
        Call::Range { f } => Arguments {
            code: 1,
            f: to_model(f),
            ..none
        },
        Call::Integral { f } => Arguments {
            code: 2,
            f: to_model(f),
            ..none
        },
        Call::Evaluate { f, point } => Arguments {
            code: EVALUATE,
            point: *point,
            f: to_model(f),
            ..none
        },
    }
}
