//! Writing a book into a borrowed buffer: tests 3, 5, 6 and 11.

use crate::book::{Book, SoundBook};
use crate::model::{key_of_monomial, Model};
use crate::refusal::Refusal;
use crate::sheet::Mark;

/// The answer of a write: a refused one gives the length 0.
#[derive(Clone, Copy, Debug, PartialEq, Eq)]
pub struct WriteAnswer {
    pub length: usize,
    pub refusal: Option<Refusal>,
}

/// Writes the book to the front of the buffer. Bytes beyond the length stay,
/// and a refused write changes none.
pub fn write(book: &Book, buffer: &mut [u8]) -> WriteAnswer {
    match try_write(book, buffer) {
        Ok(length) => WriteAnswer {
            length,
            refusal: None,
        },
        Err(refusal) => WriteAnswer {
            length: 0,
            refusal: Some(refusal),
        },
    }
}

fn try_write(book: &Book, buffer: &mut [u8]) -> Result<usize, Refusal> {
    let sheet = sheet_bytes(&book.sound()?);
    let front = buffer.get_mut(..sheet.len()).ok_or(Refusal::Buffer)?;
    front.copy_from_slice(&sheet);
    Ok(sheet.len())
}

/// The sheet of a sound book.
pub fn sheet_bytes(book: &SoundBook) -> Vec<u8> {
    let mark = Mark::of_variables(book.n);
    let mut sheet = Vec::new();
    for model in &book.models {
        push_model(&mut sheet, model, mark);
    }
    // At most 16 models of 517 bytes each, which two bytes can name.
    let offset = sheet.len() as u16;
    for step in &book.steps {
        sheet.extend(step.to_bytes());
    }
    sheet.push(book.n as u8);
    sheet.push(book.order as u8);
    sheet.push(book.models.len() as u8);
    sheet.push(book.steps.len() as u8);
    sheet.extend(offset.to_le_bytes());
    sheet.extend(mark.bytes());
    sheet
}

/// The span bounds the radius and every coefficient, so that four bytes hold them.
fn push_model(sheet: &mut Vec<u8>, model: &Model, mark: Mark) {
    sheet.extend((model.radius as u32).to_le_bytes());
    sheet.push(model.polynomial.len() as u8);
    for (monomial, &coefficient) in &model.polynomial {
        sheet.extend(mark.key_bytes(key_of_monomial(monomial)));
        sheet.extend((coefficient as i32).to_le_bytes());
    }
}
