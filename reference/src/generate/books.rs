//! Books in memory for the writer and for running a book.

use super::damage;
use super::hostile;
use super::models;
use super::random::Random;
use super::sound;
use crate::book::{Book, Step};
use crate::sheet;
use crate::stored::StoredModel;

/// A book of any kind, one for each number from 0; numbers are independent of
/// each other.
pub fn book(seed: u64, number: u64) -> Book {
    let mut random = Random::new(seed ^ number.wrapping_mul(0xA24B_AED4_963E_E407));
    let mut book = sound_book(&mut random);
    if random.one_in(3) {
        spoil(&mut random, &mut book);
        if random.one_in(4) {
            spoil(&mut random, &mut book);
        }
    }
    book
}

/// A sound book. What stands beyond its counts is anything.
pub fn sound_book(random: &mut Random) -> Book {
    let shape = *random.pick(&sound::SHAPES);
    let bytes = sound::sheet(random, shape).bytes();
    let mut book = sheet::read(&bytes).book;
    let (models, steps) = (book.model_count, book.step_count);
    for place in &mut book.models[models..] {
        *place = hostile::noise(random);
    }
    for place in &mut book.models[..models] {
        let junk = hostile::noise(random);
        let count = place.count;
        place.terms[count..].copy_from_slice(&junk.terms[count..]);
    }
    for place in &mut book.steps[steps..] {
        *place = any_step(random);
    }
    book
}

fn any_step(random: &mut Random) -> Step {
    let bytes = random.next_u64().to_le_bytes();
    let mut step = Step::from_bytes(bytes);
    if random.one_in(2) {
        step.value = random.next_u64() as i64;
    }
    step
}

/// A value that is another one in 64 bits, and mostly the same in 32: what cuts
/// it off would take it for the step's own.
fn beyond_a_sheet(random: &mut Random, value: i64) -> i64 {
    match random.below(4) {
        0 => value ^ 1 << random.below(64),
        1 => *random.pick(&[
            i64::MIN,
            i64::MAX,
            1 << 32,
            -(1 << 32),
            1 << 31,
            u32::MAX.into(),
        ]),
        _ => value.wrapping_add(random.sign() << random.size(32, 63)),
    }
}

/// Breaks something, or changes it so that it may be broken.
fn spoil(random: &mut Random, book: &mut Book) {
    let order = book.d;
    let model = random.size(0, book.model_count.clamp(1, 16) - 1);
    let step = random.size(0, book.step_count.clamp(1, 64) - 1);
    match random.below(11) {
        0 => book.n = *random.pick(&[0, 1, 2, 3, 4, 5, 6, 7, 8, 9, 255]),
        1 => book.d = *random.pick(&[0, 1, 16, 255]),
        2 => book.model_count = *random.pick(&[0, 16, 17, 1 << 32, usize::MAX]),
        3 => book.step_count = *random.pick(&[0, 64, 65, 1 << 32, usize::MAX]),
        4 => book.models[model].n = random.byte(0, 9),
        5 => book.models[model] = StoredModel::ZEROS,
        6 => {
            let n = models::any_n(random);
            book.models[model] = hostile::model(random, n, order);
        }
        7 => book.steps[step] = any_step(random),
        8 => *book = damaged_book(random),
        9 => book.steps[step].value ^= 1 << random.below(31),
        _ => book.steps[step].value = beyond_a_sheet(random, book.steps[step].value),
    }
}

/// What a reader without tests would have made of a damaged sheet: its trailer
/// over another sheet's matter.
fn damaged_book(random: &mut Random) -> Book {
    let mut book = sound_book(random);
    let bytes = random.pick(&damage::KINDS).sample(random).bytes;
    if let [.., n, d, models, steps, _, _, _, _] = bytes[..] {
        book.n = n;
        book.d = d;
        book.model_count = usize::from(models);
        book.step_count = usize::from(steps);
    }
    book
}
