//! Reading a sheet: tests 1 to 6 in their order.

use crate::book::{Book, Limits, SoundBook, Step};
use crate::model::{key_of_half, Model, FEW_VARIABLES, MOST_TERMS, MOST_VARIABLES};
use crate::refusal::Refusal;
use crate::stored::{StoredModel, StoredTerm};
use std::ops::RangeInclusive;

pub const SHORTEST_SHEET: usize = 16;
pub const LONGEST_SHEET: usize = 8_792;
pub const TRAILER_LENGTH: usize = 8;
pub const STEP_LENGTH: usize = 8;
/// Radius and term count, before the terms.
pub const MODEL_HEAD_LENGTH: usize = 5;
pub const COEFFICIENT_LENGTH: usize = 4;

/// The last two bytes of a sheet: they say how many variables it may have, and
/// how long the keys of its terms are.
#[derive(Clone, Copy, Debug, PartialEq, Eq, PartialOrd, Ord)]
pub enum Mark {
    /// 1 to 4 variables, keys of 2 bytes.
    Few,
    /// 5 to 8 variables, keys of 4 bytes.
    Many,
}

impl Mark {
    pub const ALL: [Mark; 2] = [Mark::Few, Mark::Many];

    pub fn bytes(self) -> [u8; 2] {
        match self {
            Mark::Few => [0x4D, 0x4B],
            Mark::Many => [0x4D, 0x57],
        }
    }

    /// The mark with these bytes, if there is one.
    pub fn of_bytes(bytes: [u8; 2]) -> Option<Mark> {
        Mark::ALL.into_iter().find(|mark| mark.bytes() == bytes)
    }

    /// The mark of a sound book.
    pub fn of_variables(n: usize) -> Mark {
        if n <= FEW_VARIABLES {
            Mark::Few
        } else {
            Mark::Many
        }
    }

    /// The numbers of variables that fit the mark.
    pub fn variables(self) -> RangeInclusive<usize> {
        match self {
            Mark::Few => 1..=FEW_VARIABLES,
            Mark::Many => FEW_VARIABLES + 1..=MOST_VARIABLES,
        }
    }

    pub fn key_length(self) -> usize {
        match self {
            Mark::Few => 2,
            Mark::Many => 4,
        }
    }

    pub fn term_length(self) -> usize {
        self.key_length() + COEFFICIENT_LENGTH
    }

    /// The key at the front of a term.
    fn key(self, term: &[u8]) -> u32 {
        match self {
            Mark::Few => key_of_half(u16::from_le_bytes(array_at(term, 0))),
            Mark::Many => u32::from_le_bytes(array_at(term, 0)),
        }
    }

    /// The bytes of a key whose exponents fit the mark.
    pub fn key_bytes(self, key: u32) -> Vec<u8> {
        match self {
            Mark::Few => ((key >> 16) as u16).to_le_bytes().to_vec(),
            Mark::Many => key.to_le_bytes().to_vec(),
        }
    }
}

/// The answer of a read: a refused one gives a book of zeros.
#[derive(Clone, Debug, PartialEq, Eq)]
pub struct ReadAnswer {
    pub book: Book,
    pub refusal: Option<Refusal>,
}

/// Reads a sheet into a book.
pub fn read(sheet: &[u8]) -> ReadAnswer {
    match sound_book(sheet) {
        Ok(book) => ReadAnswer {
            book: Book::store(&book),
            refusal: None,
        },
        Err(refusal) => ReadAnswer {
            book: Book::ZEROS,
            refusal: Some(refusal),
        },
    }
}

/// Makes tests 1 to 6.
pub fn sound_book(sheet: &[u8]) -> Result<SoundBook, Refusal> {
    let trailer = tested_trailer(sheet)?;
    let (model_bytes, rest) = sheet.split_at(trailer.offset);
    let models = read_models(model_bytes, &trailer)?;
    let steps = read_steps(&rest[..trailer.limits.step_count * STEP_LENGTH]);
    trailer.limits.test_steps(&steps)?;
    Ok(SoundBook {
        n: trailer.limits.n,
        order: trailer.limits.order,
        models,
        steps,
    })
}

/// A trailer that passed tests 1 to 4.
#[derive(Clone, Copy, Debug)]
pub struct Trailer {
    pub mark: Mark,
    pub limits: Limits,
    /// Where the first step stands.
    pub offset: usize,
}

/// Makes tests 1 to 4.
pub fn tested_trailer(sheet: &[u8]) -> Result<Trailer, Refusal> {
    let length = sheet.len();
    if !(SHORTEST_SHEET..=LONGEST_SHEET).contains(&length) {
        return Err(Refusal::Length);
    }
    let last: [u8; TRAILER_LENGTH] = array_at(sheet, length - TRAILER_LENGTH);
    let [n, d, model_count, step_count, low, high, mark @ ..] = last;
    let mark = Mark::of_bytes(mark).ok_or(Refusal::Mark)?;
    let limits = Limits {
        n: usize::from(n),
        order: u32::from(d),
        model_count: usize::from(model_count),
        step_count: usize::from(step_count),
    };
    limits.test()?;
    if !mark.variables().contains(&limits.n) {
        return Err(Refusal::Limits);
    }
    // Whole numbers wider than the field, so that the sum cannot wrap.
    let offset = usize::from(u16::from_le_bytes([low, high]));
    if offset + STEP_LENGTH * limits.step_count + TRAILER_LENGTH != length {
        return Err(Refusal::Offset);
    }
    Ok(Trailer {
        mark,
        limits,
        offset,
    })
}

/// Walks the records forward up to the first step: test 5.
fn read_models(bytes: &[u8], trailer: &Trailer) -> Result<Vec<Model>, Refusal> {
    let mut models = Vec::new();
    let mut rest = bytes;
    let model_count = trailer.limits.model_count;
    for number in 0..model_count {
        let (model, after) = read_model(rest, trailer).ok_or(Refusal::Model(number))?;
        models.push(model);
        rest = after;
    }
    if rest.is_empty() {
        Ok(models)
    } else {
        Err(Refusal::Model(model_count))
    }
}

/// The sound model at the front, and the bytes after its record.
fn read_model<'a>(bytes: &'a [u8], trailer: &Trailer) -> Option<(Model, &'a [u8])> {
    let Trailer { mark, limits, .. } = trailer;
    let length = record_length(bytes, *mark)?;
    let (record, after) = bytes.split_at_checked(length)?;
    let stored = stored_model(record, limits.n, *mark)?;
    Some((limits.sound_model(&stored)?, after))
}

/// The length of the record at the front, by its term count; none if its head
/// does not fit.
pub fn record_length(bytes: &[u8], mark: Mark) -> Option<usize> {
    let head = bytes.get(..MODEL_HEAD_LENGTH)?;
    let count = usize::from(head[MODEL_HEAD_LENGTH - 1]);
    Some(MODEL_HEAD_LENGTH + count * mark.term_length())
}

/// A whole record, taken as it stands; none if it has more terms than places.
fn stored_model(record: &[u8], n: usize, mark: Mark) -> Option<StoredModel> {
    let (head, terms) = record.split_at(MODEL_HEAD_LENGTH);
    let count = usize::from(head[MODEL_HEAD_LENGTH - 1]);
    if count > MOST_TERMS {
        return None;
    }
    let mut stored = StoredModel {
        n: n as u8,
        count,
        radius: u64::from(u32::from_le_bytes(array_at(head, 0))),
        ..StoredModel::ZEROS
    };
    let terms = terms.chunks(mark.term_length());
    for (place, term) in stored.terms.iter_mut().zip(terms) {
        let coefficient = array_at(term, mark.key_length());
        *place = StoredTerm {
            key: mark.key(term),
            coefficient: i64::from(i32::from_le_bytes(coefficient)),
        };
    }
    Some(stored)
}

fn read_steps(bytes: &[u8]) -> Vec<Step> {
    let step = |chunk: &[u8]| Step::from_bytes(array_at(chunk, 0));
    bytes.chunks(STEP_LENGTH).map(step).collect()
}

/// The bytes at an offset where they are known to stand.
fn array_at<const LENGTH: usize>(bytes: &[u8], offset: usize) -> [u8; LENGTH] {
    std::array::from_fn(|index| bytes[offset + index])
}
