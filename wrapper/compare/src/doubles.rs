//! Curves in doubles: the exported function and the wrapper against the second implementation, which goes by bits and
//! 128-bit numbers, against the machine's own doubles, and against exact fractions.

use crate::agree::{pair, same, sound, to_model, unless, Seen, Tried};
use crate::case::Case;
use crate::shaped::{compare_answer, Shape};
use hechroung::{raw, Doubles, Model, UNIT};
use reference::doubles::Record;
use reference::exact::doubles::{check_model, Delivered};
use reference::generate::{doubles, functions, Expected, Random};

/// The kind by which these cases are counted.
pub const NAME: &str = "curve in doubles";
/// What the gate runs.
pub const RECORDS: u64 = 200_000;
/// Records of each kind that the second implementation names with what they must answer.
const OF_EACH_KIND: u64 = 200;
/// The first ties, in halves of units; beyond them those next to each power of two.
const FIRST_TIES: u64 = 512;

/// The case of a number: at times a slice is too short, or longer than it has to be.
pub fn case(seed: u64, number: u64) -> Case {
    let mut random = Random::new(seed ^ number.wrapping_mul(0xD6E8_FEB8_6659_FD93));
    let record = match random.below(3) {
        0 => any_bits(&mut random),
        _ => doubles::record(seed, number),
    };
    Case::Doubles(record, Shape::random(&mut random).outputs)
}

/// Every pattern of bits alike in each of the four places.
fn any_bits(random: &mut Random) -> Record {
    Record {
        coefficients: std::array::from_fn(|_| random.next_u64()),
        radius: random.next_u64(),
    }
}

/// Cases that are compared whatever the seed: of each kind, and ties with the doubles below and above them.
pub fn named() -> Vec<Case> {
    let mut records = Vec::new();
    for kind in doubles::KINDS {
        let mut random = Random::new(1);
        for _ in 0..OF_EACH_KIND {
            let (record, expected) = (kind.make)(&mut random);
            let found = record.answer().refusal.map(pair);
            let owed = match expected {
                Expected::Refused(number, place) => Some((number, place)),
                Expected::Accepted | Expected::Unknown => None,
            };
            assert_eq!(found, owed, "{}", kind.name);
            records.push(record);
        }
    }
    records.extend(ties().flat_map(around));
    let cases = records.into_iter();
    cases
        .map(|record| Case::Doubles(record, Shape::ENOUGH.outputs))
        .collect()
}

/// Odd numbers of halves of a unit: the first ones, and those next to each power of two up to the span.
fn ties() -> impl Iterator<Item = u64> {
    let near_powers = (10..31).flat_map(|power| [(1 << power) - 1, (1 << power) + 1]);
    (0..FIRST_TIES).map(|i| 2 * i + 1).chain(near_powers)
}

/// So many halves of a unit, the double below and the one above, with either sign, in each of the four places.
fn around(halves: u64) -> Vec<Record> {
    let tie = (halves as f64 / (2 * UNIT) as f64).to_bits();
    let mut records = Vec::new();
    for bits in [tie - 1, tie, tie + 1] {
        for signed in [bits, bits | 1 << 63] {
            for place in 0..3 {
                let mut coefficients = [0; 3];
                coefficients[place] = signed;
                let radius = 0;
                records.push(Record {
                    coefficients,
                    radius,
                });
            }
            let coefficients = [0; 3];
            let radius = signed;
            records.push(Record {
                coefficients,
                radius,
            });
        }
    }
    records
}

/// By the exported function, with all that it stores; by the wrapper; and held against the machine and against exact
/// fractions.
pub fn compare(record: &Record, outputs: [u8; 3]) -> Result<Seen, String> {
    let expected = record.answer();
    let values = record.coefficients.map(f64::from_bits);
    let radius = f64::from_bits(record.radius);
    let mut seen = compare_answer(&expected, true, outputs, |keys, coefficients, numbers| {
        raw::doubles(values, radius, keys, coefficients, numbers)
    })?;
    if seen.misused {
        return Ok(seen);
    }
    let [c0, c1, c2] = values;
    let handed = hechroung::from_doubles(&Doubles { c0, c1, c2, radius });
    same(
        &handed,
        &unless(expected.refusal, to_model(&expected.model)),
    )?;
    let answer = handed.map_err(|refusal| refusal.number);
    let machine = by_the_machine(values, radius);
    if answer.map(|model| described(&model)) != machine {
        return Err(format!("proved {answer:?}, by the machine {machine:?}"));
    }
    if let Ok(model) = answer {
        seen.tried = tried(record, &model)?;
    }
    Ok(seen)
}

/// Coefficients of the powers 0, 1 and 2, and the radius.
type Described = ([i64; 3], u64);

fn described(model: &Model) -> Described {
    let coefficient = |power: u32| {
        let mut terms = model.terms().filter(|(key, _)| *key == power << 28);
        terms.next().map_or(0, |(_, c)| c)
    };
    ([0, 1, 2].map(coefficient), model.radius)
}

/// What the machine's doubles give, or the number of a refusal. U is a power of two, so that U times a double is that
/// double's exact multiple, unless it is beyond the largest; then it is an infinity, whose span is over the limit too.
/// Rounding to a whole number is exact. Of sums that are above 2^53 only their being above the limit is used.
fn by_the_machine(values: [f64; 3], radius: f64) -> Result<Described, u8> {
    if !values.iter().all(|value| value.is_finite()) || !radius.is_finite() || radius < 0.0 {
        return Err(16);
    }
    let scale = UNIT as f64;
    let units = values.map(|value| value * scale);
    let whole = units.map(f64::round_ties_even);
    let inexact = units.iter().zip(&whole).filter(|(u, w)| u != w).count();
    let radius = (radius * scale).ceil() + inexact as f64;
    let span: f64 = whole.iter().map(|c| c.abs()).sum::<f64>() + radius;
    if span > (1_u64 << 30) as f64 {
        return Err(7);
    }
    Ok((whole.map(|c| c as i64), radius as u64))
}

/// Functions within theirs, at points of the box, are within ours; coefficients are the nearest and the radius no larger
/// than it has to be.
fn tried(record: &Record, model: &Model) -> Result<Tried, String> {
    let delivered = Delivered::of(record).ok_or("accepted, but not finite")?;
    let mut random = Random::new(record.radius ^ record.coefficients[0].rotate_left(32));
    let points = functions::points(&mut random, 1);
    check_model(&delivered, &sound(model), &points, random.next_u64())
        .map_err(|violation| format!("{violation:?}"))?;
    Ok(Tried {
        points: points.len() as u64,
        ..Tried::default()
    })
}
