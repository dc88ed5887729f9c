//! Helpers that several test files share.
#![allow(dead_code)]

use reference::book::{SoundBook, Step, INPUT};
use reference::chebyshev::StoredChebyshev;
use reference::generate::{Draft, DraftModel};
use reference::model::{key_of_half, MOST_VARIABLES};
use reference::refusal::Refusal;
use reference::run::{run, RunResult};
use reference::sheet::sound_book;
use reference::stored::{StoredModel, StoredTerm};
use reference::text;

pub const UNIT: i32 = 1 << 20;
pub const HALF: i32 = 1 << 19;
pub const LARGEST: i32 = 1 << 30;

/// The program's lines for a sheet of one variable.
pub fn lines(d: u8, models: &[DraftModel], steps: &[Step]) -> String {
    lines_of(1, d, models, steps)
}

pub fn lines_of(n: u8, d: u8, models: &[DraftModel], steps: &[Step]) -> String {
    let draft = Draft::new(n, d, models.to_vec(), steps.to_vec());
    text::lines_of_sheet(&draft.bytes())
}

pub fn model(radius: u32, terms: &[(u16, i32)]) -> DraftModel {
    DraftModel::new(radius, terms)
}

pub fn input(number: u8) -> Step {
    Step::one(INPUT, number)
}

/// A model in memory, by keys of 16 bits.
pub fn stored(n: u8, radius: u64, terms: &[(u16, i64)]) -> StoredModel {
    let mut model = StoredModel {
        n,
        count: terms.len(),
        radius,
        ..StoredModel::ZEROS
    };
    for (place, &(half, coefficient)) in model.terms.iter_mut().zip(terms) {
        let key = key_of_half(half);
        *place = StoredTerm { key, coefficient };
    }
    model
}

/// A Chebyshev model by its radius, and its coefficients as pairs of degree and number.
pub fn curve(radius: u64, coefficients: &[(usize, i64)]) -> StoredChebyshev {
    let mut model = StoredChebyshev {
        radius,
        ..StoredChebyshev::ZEROS
    };
    for &(degree, coefficient) in coefficients {
        model.coefficients[degree] += coefficient;
    }
    model
}

/// A point by its first four coordinates; the others are 0.
pub fn point(first: [i64; 4]) -> [i64; MOST_VARIABLES] {
    std::array::from_fn(|place| first.get(place).copied().unwrap_or(0))
}

pub fn pair(refusal: Option<Refusal>) -> Option<(u8, usize)> {
    refusal.map(|refusal| (refusal.number(), refusal.place()))
}

/// The book of an accepted sheet, with its result.
pub fn ran(draft: &Draft) -> (SoundBook, RunResult) {
    let book = sound_book(&draft.bytes()).expect("a sound sheet");
    let result = run(&book).expect("an accepted sheet");
    (book, result)
}
