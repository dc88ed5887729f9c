//! Stepping through a sheet record by record without copying it.

use crate::refusal::Refusal;
use crate::sheet::{self, Mark, STEP_LENGTH, TRAILER_LENGTH};

/// A record, as a part of the sheet.
#[derive(Clone, Copy, Debug, PartialEq, Eq)]
pub enum Record<'sheet> {
    Model(&'sheet [u8]),
    Step(&'sheet [u8]),
}

impl<'sheet> Record<'sheet> {
    pub fn bytes(self) -> &'sheet [u8] {
        match self {
            Record::Model(bytes) | Record::Step(bytes) => bytes,
        }
    }
}

/// Hands out records. What is left of the sheet shrinks from the front, so that
/// an empty rest hands out none as often as it is asked.
#[derive(Clone, Debug)]
pub struct RecordReader<'sheet> {
    mark: Mark,
    models: &'sheet [u8],
    steps: &'sheet [u8],
}

/// The answer of an opening: a refused one hands out none.
#[derive(Clone, Debug)]
pub struct Opening<'sheet> {
    pub reader: RecordReader<'sheet>,
    pub refusal: Option<Refusal>,
}

/// Opens a sheet, which makes tests 1 to 6 and no others.
pub fn open(bytes: &[u8]) -> Opening<'_> {
    match tested_parts(bytes) {
        Ok(reader) => Opening {
            reader,
            refusal: None,
        },
        Err(refusal) => Opening {
            reader: RecordReader {
                mark: Mark::Few,
                models: &[],
                steps: &[],
            },
            refusal: Some(refusal),
        },
    }
}

fn tested_parts(bytes: &[u8]) -> Result<RecordReader<'_>, Refusal> {
    sheet::sound_book(bytes)?;
    let trailer = sheet::tested_trailer(bytes)?;
    let (models, rest) = bytes.split_at(trailer.offset);
    let steps = &rest[..rest.len() - TRAILER_LENGTH];
    Ok(RecordReader {
        mark: trailer.mark,
        models,
        steps,
    })
}

impl<'sheet> Iterator for RecordReader<'sheet> {
    type Item = Record<'sheet>;

    fn next(&mut self) -> Option<Record<'sheet>> {
        if let Some(length) = sheet::record_length(self.models, self.mark) {
            let (record, after) = self.models.split_at(length);
            self.models = after;
            return Some(Record::Model(record));
        }
        let (record, after) = self.steps.split_at_checked(STEP_LENGTH)?;
        self.steps = after;
        Some(Record::Step(record))
    }
}
