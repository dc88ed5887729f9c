//! Sound sheets with one fault each (or two, where their order matters): the
//! refusals 1 to 6.

use super::draft::{Draft, DraftModel};
use super::models::{self, LARGEST_SPAN};
use super::random::Random;
use super::sound::{self, Shape};
use super::{Expected, Kind};
use crate::book::{
    Step, ADD, ANTIDERIVATIVE, CONSTANT, INPUT, MULTIPLY, NEGATE, QUOTIENT, SUBSTITUTE, SUBTRACT,
    SWEEP,
};
use crate::sheet::{Mark, LONGEST_SHEET, SHORTEST_SHEET, TRAILER_LENGTH};

pub const KINDS: [Kind; 41] = [
    kind("1: too short", too_short),
    kind("1: too long", too_long),
    kind("2: another mark", other_mark),
    kind("2 and 3 together", mark_and_limits),
    kind("3: n", wrong_n),
    kind("3: an n that fits the other mark", n_of_other_mark),
    kind("3: the other mark", other_known_mark),
    kind("3: order", wrong_order),
    kind("3: model count", wrong_model_count),
    kind("3: step count", wrong_step_count),
    kind("3 and 4 together", limits_and_offset),
    kind("4: another offset", other_offset),
    kind("4: an offset that would wrap", wrapping_offset),
    kind("4: a byte more", byte_more),
    kind("4 and 5 together", offset_and_model),
    kind("4: longer than keys of 2 bytes allow", padded_few),
    kind("5: longer than keys of 2 bytes allow", records_too_long),
    kind("5: a digit below the n-th", hidden_digit),
    kind("5: keys out of order", unsorted_keys),
    kind("5: equal keys", equal_keys),
    kind("5: a zero coefficient", zero_coefficient),
    kind("5: a degree above the order", degree_above_order),
    kind("5: a degree above 15", degree_above_fifteen),
    kind("5: more than 64 terms", count_above_64),
    kind("5: another count byte", count_byte),
    kind("5: a large radius", large_radius),
    kind("5: the lowest coefficient", lowest_coefficient),
    kind("5: a span one above", span_one_above),
    kind("5: a record that does not fit", record_cut),
    kind("5: bytes left over", bytes_left_over),
    kind("5: fewer models named", fewer_models),
    kind("5: more models named", more_models),
    kind("5 and 6 together", model_and_step),
    kind("6: a field that is not named", unnamed_field),
    kind("6: an operand not earlier", operand_not_earlier),
    kind("6: a quotient's operand not earlier", quotient_not_earlier),
    kind("6: a model number not below the count", model_number),
    kind("6: a constant beyond", constant_beyond),
    kind("6: a threshold beyond", threshold_beyond),
    kind("6: an unknown code", unknown_code),
    kind("6: a wrong variable", wrong_variable),
];

type Made = (Vec<u8>, Expected);

const fn kind(name: &'static str, make: fn(&mut Random) -> Made) -> Kind {
    Kind { name, make }
}

/// Few or many records; at most 15 models, so that one more can be named.
const BASES: [Shape; 2] = [
    Shape {
        models: 4,
        steps: 10,
        terms: 8,
    },
    Shape {
        models: 15,
        steps: 64,
        terms: 4,
    },
];

fn base(random: &mut Random) -> Draft {
    let shape = *random.pick(&BASES);
    sound::accepted(random, shape)
}

/// Where a byte of the trailer stands: n, d, model count, step count, offset.
fn trailer_place(bytes: &[u8], field: usize) -> usize {
    bytes.len() - TRAILER_LENGTH + field
}

fn set_trailer(bytes: &mut [u8], field: usize, value: u8) {
    let place = trailer_place(bytes, field);
    bytes[place] = value;
}

fn set_offset(bytes: &mut [u8], offset: u16) {
    let place = trailer_place(bytes, 4);
    bytes[place..place + 2].copy_from_slice(&offset.to_le_bytes());
}

// Refusals 1 to 4.

fn too_short(random: &mut Random) -> Made {
    let whole = base(random).bytes();
    let length = random.size(0, SHORTEST_SHEET - 1);
    // The end stays, so that the mark and the trailer are as they should be.
    let bytes = whole[whole.len() - length..].to_vec();
    (bytes, Expected::Refused(1, 0))
}

fn too_long(random: &mut Random) -> Made {
    let whole = base(random).bytes();
    let beyond = if random.one_in(3) {
        1
    } else {
        random.size(1, 70_000)
    };
    let mut bytes = random.bytes(LONGEST_SHEET + beyond - whole.len());
    bytes.extend(whole);
    (bytes, Expected::Refused(1, 0))
}

/// Neither mark: changing one byte of a mark may give the other one.
fn spoil_mark(random: &mut Random, bytes: &mut [u8]) {
    let field = random.size(6, 7);
    let place = trailer_place(bytes, field);
    let old = bytes[place];
    while bytes[place] == old || mark_of(bytes).is_some() {
        bytes[place] = random.byte(0, 255);
    }
}

fn mark_of(bytes: &[u8]) -> Option<Mark> {
    let place = trailer_place(bytes, 6);
    Mark::of_bytes([bytes[place], bytes[place + 1]])
}

fn set_mark(bytes: &mut [u8], mark: Mark) {
    let place = trailer_place(bytes, 6);
    bytes[place..].copy_from_slice(&mark.bytes());
}

/// The numbers of variables that fit the mark of a sound sheet.
fn fitting_n(bytes: &[u8]) -> (u8, u8) {
    let fitting = mark_of(bytes).expect("a mark").variables();
    (*fitting.start() as u8, *fitting.end() as u8)
}

fn other(mark: Mark) -> Mark {
    match mark {
        Mark::Few => Mark::Many,
        Mark::Many => Mark::Few,
    }
}

fn other_mark(random: &mut Random) -> Made {
    let mut bytes = base(random).bytes();
    if random.one_in(4) {
        // The two bytes in the other order.
        let length = bytes.len();
        bytes.swap(length - 2, length - 1);
    } else {
        spoil_mark(random, &mut bytes);
    }
    (bytes, Expected::Refused(2, 0))
}

fn mark_and_limits(random: &mut Random) -> Made {
    let mut bytes = base(random).bytes();
    spoil_limits(random, &mut bytes);
    spoil_mark(random, &mut bytes);
    (bytes, Expected::Refused(2, 0))
}

/// A byte outside the limits, often just outside.
fn outside(random: &mut Random, low: u8, high: u8) -> u8 {
    match random.below(3) {
        0 if low > 0 => low - 1,
        1 => high + 1,
        _ => random.byte(high + 1, 255),
    }
}

fn spoil_limits(random: &mut Random, bytes: &mut [u8]) {
    let (least, most) = fitting_n(bytes);
    let limits = [(0, least, most), (1, 1, 15), (2, 0, 16), (3, 1, 64)];
    let (field, low, high) = *random.pick(&limits);
    let value = outside(random, low, high);
    set_trailer(bytes, field, value);
}

fn limits_spoiled(random: &mut Random, field: usize, low: u8, high: u8) -> Made {
    let mut bytes = base(random).bytes();
    let value = outside(random, low, high);
    set_trailer(&mut bytes, field, value);
    (bytes, Expected::Refused(3, 0))
}

fn wrong_n(random: &mut Random) -> Made {
    let mut bytes = base(random).bytes();
    let (least, most) = fitting_n(&bytes);
    let value = match random.below(3) {
        0 => 0,
        _ => outside(random, least, most),
    };
    set_trailer(&mut bytes, 0, value);
    (bytes, Expected::Refused(3, 0))
}

fn n_of_other_mark(random: &mut Random) -> Made {
    let mut bytes = base(random).bytes();
    let mark = mark_of(&bytes).expect("a mark");
    let fitting: Vec<usize> = other(mark).variables().collect();
    set_trailer(&mut bytes, 0, *random.pick(&fitting) as u8);
    (bytes, Expected::Refused(3, 0))
}

fn other_known_mark(random: &mut Random) -> Made {
    let mut bytes = base(random).bytes();
    let mark = mark_of(&bytes).expect("a mark");
    set_mark(&mut bytes, other(mark));
    (bytes, Expected::Refused(3, 0))
}

fn wrong_order(random: &mut Random) -> Made {
    limits_spoiled(random, 1, 1, 15)
}

fn wrong_model_count(random: &mut Random) -> Made {
    limits_spoiled(random, 2, 0, 16)
}

/// The offset no longer fits either, but 3 comes before 4.
fn wrong_step_count(random: &mut Random) -> Made {
    limits_spoiled(random, 3, 1, 64)
}

fn limits_and_offset(random: &mut Random) -> Made {
    let (mut bytes, _) = other_offset(random);
    spoil_limits(random, &mut bytes);
    (bytes, Expected::Refused(3, 0))
}

fn other_offset(random: &mut Random) -> Made {
    let draft = base(random);
    let mut bytes = draft.bytes();
    let offset = draft.model_bytes().len() as u16;
    let change = *random.pick(&[1, 8, 256, 0x8000]);
    let other = match random.below(3) {
        0 => offset.wrapping_add(change),
        1 => offset.wrapping_sub(change),
        _ => offset ^ (1 + random.below(0xFFFF) as u16),
    };
    set_offset(&mut bytes, other);
    (bytes, Expected::Refused(4, 0))
}

/// The sum is the length plus 2^16, which would pass if it were kept in 16 bits.
fn wrapping_offset(random: &mut Random) -> Made {
    let steps = random.size(2, 64);
    let sum = 8 * steps + 8;
    // The offset takes the length below the steps' own size, as it must.
    let length = random.size(SHORTEST_SHEET, sum - 1);
    let mut draft = base(random);
    draft.steps = vec![Step::variable(1); steps];
    let whole = draft.bytes();
    let mut bytes = whole[whole.len() - length..].to_vec();
    set_offset(&mut bytes, (length + (1 << 16) - sum) as u16);
    (bytes, Expected::Refused(4, 0))
}

fn byte_more(random: &mut Random) -> Made {
    let mut bytes = base(random).bytes();
    let place = random.size(0, bytes.len() - TRAILER_LENGTH);
    bytes.insert(place, 0);
    (bytes, Expected::Refused(4, 0))
}

fn offset_and_model(random: &mut Random) -> Made {
    let (mut bytes, _) = zero_coefficient(random);
    let place = trailer_place(&bytes, 4);
    bytes[place] ^= 4;
    (bytes, Expected::Refused(4, 0))
}

/// The longest sheet with keys of 2 bytes.
const LONGEST_OF_FEW: usize = 6_744;

/// A length that passes test 1, and that no accepted sheet with keys of 2 bytes has.
fn length_above_few(random: &mut Random) -> usize {
    match random.below(3) {
        0 => LONGEST_OF_FEW + 1,
        1 => LONGEST_SHEET,
        _ => random.size(LONGEST_OF_FEW + 1, LONGEST_SHEET),
    }
}

fn base_of_few(random: &mut Random) -> Draft {
    let (n, d) = (random.byte(1, 4), random.byte(1, 15));
    let shape = *random.pick(&BASES);
    sound::accepted_of(random, n, d, shape)
}

/// The offset is as it was before.
fn padded_few(random: &mut Random) -> Made {
    let whole = base_of_few(random).bytes();
    let length = length_above_few(random);
    let mut bytes = random.bytes(length - whole.len());
    bytes.extend(whole);
    (bytes, Expected::Refused(4, 0))
}

// Refusal 5.

/// The bytes that make the sheet too long stand after its models.
fn records_too_long(random: &mut Random) -> Made {
    let draft = base_of_few(random);
    let length = length_above_few(random);
    let mut records = draft.model_bytes();
    let beyond = length - draft.bytes().len();
    records.extend(random.bytes(beyond));
    let bytes = draft.bytes_with_records(&records);
    (bytes, Expected::Refused(5, draft.models.len()))
}

/// A base with at least one model, and the number of one of them.
fn base_with_model(random: &mut Random, n: u8, d: u8) -> (Draft, usize) {
    let shape = *random.pick(&BASES);
    let mut draft = sound::accepted_of(random, n, d, shape);
    if draft.models.is_empty() {
        draft.models.push(DraftModel::default());
    }
    let number = random.size(0, draft.models.len() - 1);
    (draft, number)
}

/// A base whose model of the given number has two terms or more.
fn base_with_terms(random: &mut Random, n: u8, d: u8) -> (Draft, usize) {
    let (mut draft, number) = base_with_model(random, n, d);
    while draft.models[number].terms.len() < 2 {
        let scale = *random.pick(&models::SCALES);
        let count = random.size(2, 12);
        draft.models[number] = models::of_scale(random, n, d, count, scale);
    }
    (draft, number)
}

fn any_n_and_order(random: &mut Random) -> (u8, u8) {
    (models::any_n(random), random.byte(1, 15))
}

fn broken_model(draft: &Draft, number: usize) -> Made {
    (draft.bytes(), Expected::Refused(5, number))
}

fn hidden_digit(random: &mut Random) -> Made {
    let n = *random.pick(&[1, 2, 3, 5, 6, 7]);
    let d = random.byte(2, 15);
    let (mut draft, number) = base_with_model(random, n, d);
    // A key has digits for 4 or for 8 variables.
    let last = if n < 4 { 4 } else { 8 };
    let hidden = random.byte(n + 1, last);
    let mut keys = models::keys(random, n, d - 1, 3);
    let place = random.size(0, keys.len() - 1);
    keys[place] |= models::variable_key(hidden);
    let terms: Vec<(u32, i32)> = keys.iter().map(|&key| (key, 1)).collect();
    draft.models[number] = DraftModel::wide(0, &terms);
    broken_model(&draft, number)
}

fn unsorted_keys(random: &mut Random) -> Made {
    let (n, d) = any_n_and_order(random);
    let (mut draft, number) = base_with_terms(random, n, d);
    let terms = &mut draft.models[number].terms;
    let place = random.size(1, terms.len() - 1);
    terms.swap(place - 1, place);
    broken_model(&draft, number)
}

fn equal_keys(random: &mut Random) -> Made {
    let (n, d) = any_n_and_order(random);
    let (mut draft, number) = base_with_model(random, n, d);
    let scale = models::Scale::Tiny;
    let mut model = models::of_scale(random, n, d, 6, scale);
    let place = random.size(1, model.terms.len() - 1);
    model.terms[place].0 = model.terms[place - 1].0;
    draft.models[number] = model;
    broken_model(&draft, number)
}

fn zero_coefficient(random: &mut Random) -> Made {
    let (n, d) = any_n_and_order(random);
    let (mut draft, number) = base_with_terms(random, n, d);
    let terms = &mut draft.models[number].terms;
    let place = random.size(0, terms.len() - 1);
    terms[place].1 = 0;
    broken_model(&draft, number)
}

/// The highest power of variable 1 has the largest key, so that keys still rise.
fn degree_above_order(random: &mut Random) -> Made {
    let n = models::any_n(random);
    let d = random.byte(1, 14);
    let (mut draft, number) = base_with_terms(random, n, d);
    let degree = if random.one_in(2) {
        d + 1
    } else {
        random.byte(d + 1, 15)
    };
    let terms = &mut draft.models[number].terms;
    let last = terms.len() - 1;
    terms[last].0 = u32::from(degree) << 28;
    broken_model(&draft, number)
}

fn degree_above_fifteen(random: &mut Random) -> Made {
    let n = random.byte(2, 8);
    let (mut draft, number) = base_with_terms(random, n, 15);
    let terms = &mut draft.models[number].terms;
    let last = terms.len() - 1;
    let second = u32::from(random.byte(1, 15));
    terms[last].0 = 0xF000_0000 + second * models::variable_key(random.byte(2, n));
    broken_model(&draft, number)
}

/// The whole record is there, and every other rule is kept.
fn count_above_64(random: &mut Random) -> Made {
    let n = random.byte(4, 8);
    let (mut draft, number) = base_with_model(random, n, 15);
    let count = if random.one_in(2) {
        65
    } else {
        random.size(65, 255)
    };
    let keys = models::keys(random, n, 15, count);
    let terms: Vec<(u32, i32)> = keys.iter().map(|&key| (key, 1)).collect();
    draft.models[number] = DraftModel::wide(0, &terms);
    broken_model(&draft, number)
}

/// Any other count. The last record then runs past the first step, or leaves
/// bytes over; after another one the next record is read from a wrong place.
fn count_byte(random: &mut Random) -> Made {
    let (n, d) = any_n_and_order(random);
    let (draft, number) = base_with_model(random, n, d);
    let mut bytes = draft.bytes();
    let before = draft.models[..number].iter();
    let place = before.map(|model| model.record(n).len()).sum::<usize>() + 4;
    let old = bytes[place];
    bytes[place] ^= random.byte(1, 255);
    let is_last = number + 1 == draft.models.len();
    let expected = match bytes[place] > old {
        _ if !is_last => Expected::Unknown,
        true => Expected::Refused(5, number),
        false => Expected::Refused(5, number + 1),
    };
    (bytes, expected)
}

fn large_radius(random: &mut Random) -> Made {
    let (n, d) = any_n_and_order(random);
    let (mut draft, number) = base_with_model(random, n, d);
    let just_above = LARGEST_SPAN as u32 + 1;
    draft.models[number].radius = match random.below(4) {
        0 => just_above,
        1 => 1 << 31,
        2 => u32::MAX,
        _ => random.between(i64::from(just_above), i64::from(u32::MAX)) as u32,
    };
    broken_model(&draft, number)
}

fn lowest_coefficient(random: &mut Random) -> Made {
    let (n, d) = any_n_and_order(random);
    let (mut draft, number) = base_with_terms(random, n, d);
    let terms = &mut draft.models[number].terms;
    let place = random.size(0, terms.len() - 1);
    terms[place].1 = *random.pick(&[i32::MIN, i32::MIN + 1, i32::MAX]);
    broken_model(&draft, number)
}

fn span_one_above(random: &mut Random) -> Made {
    let (n, d) = any_n_and_order(random);
    let (mut draft, number) = base_with_model(random, n, d);
    let count = random.size(0, 10);
    let mut model = models::of_scale(random, n, d, count, models::Scale::Full);
    model.radius += 1;
    draft.models[number] = model;
    broken_model(&draft, number)
}

/// The last record loses bytes at its end, or runs past the first step.
fn record_cut(random: &mut Random) -> Made {
    let (n, d) = any_n_and_order(random);
    let (draft, _) = base_with_model(random, n, d);
    let last = draft.models.len() - 1;
    let records = draft.model_bytes();
    let cut = random.size(1, draft.models[last].record(n).len());
    let bytes = draft.bytes_with_records(&records[..records.len() - cut]);
    (bytes, Expected::Refused(5, last))
}

fn bytes_left_over(random: &mut Random) -> Made {
    let mut draft = base(random);
    if random.one_in(4) {
        draft.models.clear();
        draft.steps = vec![Step::variable(1)];
    }
    let mut records = draft.model_bytes();
    for _ in 0..random.size(1, 20) {
        records.push(random.byte(0, 255));
    }
    let bytes = draft.bytes_with_records(&records);
    (bytes, Expected::Refused(5, draft.models.len()))
}

/// The last record is not counted; steps that name it come later than 5.
fn fewer_models(random: &mut Random) -> Made {
    let (n, d) = any_n_and_order(random);
    let (draft, _) = base_with_model(random, n, d);
    let mut bytes = draft.bytes();
    let count = draft.models.len() - 1;
    set_trailer(&mut bytes, 2, count as u8);
    (bytes, Expected::Refused(5, count))
}

fn more_models(random: &mut Random) -> Made {
    let draft = base(random);
    let mut bytes = draft.bytes();
    let count = random.size(draft.models.len() + 1, 16);
    set_trailer(&mut bytes, 2, count as u8);
    (bytes, Expected::Refused(5, draft.models.len()))
}

fn model_and_step(random: &mut Random) -> Made {
    let (n, d) = any_n_and_order(random);
    let (mut draft, number) = base_with_terms(random, n, d);
    draft.models[number].terms[0].1 = 0;
    let step = random.size(0, draft.steps.len() - 1);
    draft.steps[step].code = random.byte(ANTIDERIVATIVE + 1, 255);
    broken_model(&draft, number)
}

// Refusal 6.

/// Puts a broken step at a random place.
fn broken_step(random: &mut Random, make: fn(&mut Random, &Draft, usize) -> Step) -> Made {
    let mut draft = base(random);
    let number = random.size(0, draft.steps.len() - 1);
    let step = make(random, &draft, number);
    draft.steps[number] = step;
    (draft.bytes(), Expected::Refused(6, number))
}

/// A step that keeps its form at this place, of any code that can stand there.
fn kept_step(random: &mut Random, draft: &Draft, number: usize) -> Step {
    let mut front = draft.clone();
    front.steps.truncate(number);
    sound::well_formed_step(random, &front)
}

fn unnamed_field(random: &mut Random) -> Made {
    broken_step(random, |random, draft, number| {
        let mut step = kept_step(random, draft, number);
        while step.code == QUOTIENT {
            // A quotient names every field.
            step = kept_step(random, draft, number);
        }
        let fields: &[u8] = match step.code {
            INPUT | NEGATE => b"bvw",
            CONSTANT => b"abv",
            ADD | SUBTRACT | MULTIPLY => b"vw",
            SUBSTITUTE => b"w",
            SWEEP => b"bv",
            ANTIDERIVATIVE => b"bw",
            _ => b"abw",
        };
        let small = if random.one_in(2) {
            1
        } else {
            random.byte(1, 255)
        };
        match *random.pick(fields) {
            b'a' => step.a = small,
            b'b' => step.b = small,
            b'v' => step.v = small,
            _ => step.value = (i32::from(small) << random.below(24)).into(),
        }
        step
    })
}

fn operand_not_earlier(random: &mut Random) -> Made {
    broken_step(random, |random, draft, number| {
        let own = number as u8;
        let late = match random.below(3) {
            0 => own,
            1 => own + 1,
            _ => random.byte(own, 255),
        };
        let v = random.byte(1, draft.n);
        let early = random.byte(0, own.saturating_sub(1));
        let (a, b) = if random.one_in(2) {
            (late, early)
        } else {
            (early, late)
        };
        let codes = [
            NEGATE,
            ADD,
            SUBTRACT,
            MULTIPLY,
            SUBSTITUTE,
            SWEEP,
            ANTIDERIVATIVE,
        ];
        match *random.pick(&codes) {
            ANTIDERIVATIVE => Step::antiderivative(late, v),
            NEGATE => Step::one(NEGATE, late),
            SUBSTITUTE => Step::substitute(a, b, v),
            SWEEP => Step::sweep(late, 1),
            code => Step::two(code, a, b),
        }
    })
}

/// One of the four operands is the step itself or a later one. The fourth is a
/// whole number, of which the lowest byte alone may name an earlier step.
fn quotient_not_earlier(random: &mut Random) -> Made {
    broken_step(random, |random, _, number| {
        let own = number as u8;
        let late = random.byte(own, 255);
        let late = *random.pick(&[own, late]);
        let early = random.byte(0, own.saturating_sub(1));
        let mut step = Step::quotient(early, early, early, early);
        match random.below(4) {
            0 => step.a = late,
            1 => step.b = late,
            2 => step.v = late,
            _ => {
                let wrapped = i64::from(early) + (1 << random.size(8, 30));
                let beyond = i64::from(early) - (1 << random.size(8, 30));
                let below = -1 - i64::from(early);
                let least = i64::from(i32::MIN);
                step.value = *random.pick(&[late.into(), wrapped, beyond, below, least]);
            }
        }
        step
    })
}

fn model_number(random: &mut Random) -> Made {
    broken_step(random, |random, draft, _| {
        let count = draft.models.len() as u8;
        let number = if random.one_in(2) {
            count
        } else {
            random.byte(count, 255)
        };
        Step::one(INPUT, number)
    })
}

fn constant_beyond(random: &mut Random) -> Made {
    broken_step(random, |random, _, _| {
        let beyond = LARGEST_SPAN as i32 + 1;
        let value = match random.below(4) {
            0 => beyond,
            1 => -beyond,
            2 => i32::MIN,
            _ => random.between(i64::from(beyond), i64::from(i32::MAX)) as i32,
        };
        Step::constant(value)
    })
}

fn threshold_beyond(random: &mut Random) -> Made {
    broken_step(random, |random, _, number| {
        let value = *random.pick(&[-1, i32::MIN, LARGEST_SPAN as i32 + 1, i32::MAX]);
        Step::sweep((number as u8).saturating_sub(1), value)
    })
}

fn unknown_code(random: &mut Random) -> Made {
    broken_step(random, |random, draft, number| {
        let mut step = kept_step(random, draft, number);
        step.code = if random.one_in(3) {
            ANTIDERIVATIVE + 1
        } else {
            random.byte(ANTIDERIVATIVE + 1, 255)
        };
        step
    })
}

fn wrong_variable(random: &mut Random) -> Made {
    broken_step(random, |random, draft, number| {
        let v = match random.below(3) {
            0 => 0,
            1 => draft.n + 1,
            _ => random.byte(draft.n + 1, 255),
        };
        match random.below(3) {
            0 if number > 0 => Step::substitute(0, 0, v),
            1 if number > 0 => Step::antiderivative(0, v),
            _ => Step::variable(v),
        }
    })
}
