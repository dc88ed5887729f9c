//! The cases, one for each number from 0 and independent of each other.

use crate::case::Case;
use crate::shaped::Shape;
use crate::{curves, cuts, limits};
use hechroung::LONGEST_RECORD;
use reference::book::Book;
use reference::generate::{self, books, hostile, Random};
use reference::sheet::{self, Mark, LONGEST_SHEET};

/// The case of a number.
pub fn case(seed: u64, number: u64) -> Case {
    let mut random = Random::new(seed ^ number.wrapping_mul(0x2545_F491_4F6C_DD1D));
    match random.below(27) {
        0..=4 => Case::Call(hostile::call(seed, number)),
        5..=7 => Case::Call(limits::call(&mut random)),
        8 => Case::Shaped(hostile::call(seed, number), Shape::random(&mut random)),
        9..=15 => Case::Sheet(generate::sheet(seed, number).bytes),
        16 | 17 => {
            let sheet = generate::sheet(seed, number).bytes;
            let length = buffer_length(&mut random, sheet.len());
            Case::Rewrite(sheet, length)
        }
        18 | 19 => {
            let book = books::book(seed, number);
            let length = buffer_length(&mut random, length_of(&book));
            Case::Book(Box::new(book), length)
        }
        20 => Case::RunBook(Box::new(books::book(seed, number))),
        21 => Case::RunBook(Box::new(sheet_book(seed, number))),
        22 | 23 => {
            let sheet = generate::sheet(seed, number).bytes;
            let room = *random.pick(&[0, 1, 7, 8, 100, LONGEST_RECORD, LONGEST_RECORD + 9]);
            Case::Stepped(sheet, room)
        }
        24 | 25 => {
            // Another number, as the kind of call goes by it.
            let call = generate::chebyshev::call(seed, random.next_u64());
            if random.one_in(6) {
                let shape = curves::Shape::random(&mut random, &call);
                return Case::ShapedCurve(call, shape);
            }
            Case::Curve(call)
        }
        _ => {
            let call = generate::cuts::call(seed, number);
            if random.one_in(6) {
                return Case::ShapedCut(call, cuts::Shape::random(&mut random));
            }
            Case::Cut(call)
        }
    }
}

/// Cases that are compared whatever the seed.
pub fn named() -> Vec<Case> {
    let sheets = generate::named_sheets()
        .into_iter()
        .map(|sample| sample.bytes);
    let both = sheets.flat_map(|sheet| {
        let length = sheet.len();
        [
            Case::Sheet(sheet.clone()),
            Case::RunBook(Box::new(sheet::read(&sheet).book)),
            Case::Stepped(sheet.clone(), LONGEST_RECORD),
            Case::Rewrite(sheet, length),
        ]
    });
    both.chain(curves::named().into_iter().map(Case::Curve))
        .chain(cuts::named().into_iter().map(Case::Cut))
        .collect()
}

/// The book of a generated sheet, for runs that a limit ends; any book where the sheet is refused before.
fn sheet_book(seed: u64, number: u64) -> Book {
    let read = sheet::read(&generate::sheet(seed, number).bytes);
    if read.refusal.is_some() {
        return books::book(seed, number);
    }
    read.book
}

/// Mostly enough; at times exactly so, one short, or anything.
fn buffer_length(random: &mut Random, needed: usize) -> usize {
    match random.below(8) {
        0 => needed.saturating_sub(1),
        1 => random.size(0, needed.max(1)),
        2 => LONGEST_SHEET + random.size(0, 40),
        3 => 0,
        4 => needed + random.size(1, 40),
        _ => needed,
    }
}

/// The length that a book's counts name, if they name one.
fn length_of(book: &Book) -> usize {
    let models = book.models.iter().take(book.model_count);
    let term = Mark::of_variables(book.n.into()).term_length();
    let terms: usize = models.map(|model| 5 + term * model.count.min(64)).sum();
    terms + 8 * book.step_count.min(64) + 8
}
