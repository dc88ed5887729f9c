//! Sheets and books.

use crate::raw::{self, HandedBook};
use crate::{accepted, narrowed, Ends, Exact, Model, Refusal};
use crate::{MOST_MODELS, MOST_STEPS, MOST_TERMS};
#[cfg(feature = "alloc")]
use {
    crate::LONGEST_RECORD,
    alloc::{boxed::Box, string::String, vec, vec::Vec},
    core::fmt,
};

/// What a run gives: the last step's model, its range, its integral and the exact integral of its polynomial, without
/// its radius. Point 3 at the beginning of the repository's README.md says what is promised of it, with the exceptions
/// for sheets with a quotient or an antiderivative. Variables that are renamed among themselves throughout a sheet,
/// with terms put back in key order, rename the keys of the answer and change nothing else.
#[derive(Clone, Copy, Debug, PartialEq, Eq)]
pub struct Summary {
    /// The last step's model.
    pub model: Model,
    /// What its values lie between.
    pub range: Ends,
    /// What its integral over the box lies between.
    pub integral: Ends,
    /// The integral of its polynomial, in up to four variables.
    pub exact: Exact,
}

/// Where the radius of a step came from: four whole numbers that sum to [`UNIT`](crate::UNIT) times the radius. A
/// product, a sweep and an antiderivative have what they carried and, beside it, what they made themselves; a
/// substitution has the shares of its last product (zeros if it made none), which carries the radii of the earlier
/// ones, and the radius of its first step as carried; any other step, a sum or a quotient for instance, is all carried.
#[derive(Clone, Copy, Debug, Default, PartialEq, Eq)]
pub struct Shares {
    /// From the radii of the operands.
    pub carried: u64,
    /// From coefficients that were rounded.
    pub rounding: u64,
    /// From terms above the order, or dropped by a sweep.
    pub swept: u64,
    /// What rounding the radius up added.
    pub slack: u64,
}

/// What a run gives, and the shares of each of its steps; zeros for steps that there are none of.
#[derive(Clone, Copy, Debug, PartialEq, Eq)]
pub struct Report {
    /// What a plain run gives.
    pub summary: Summary,
    /// Those of each step, from step 0 on.
    pub shares: [Shares; MOST_STEPS],
}

/// Why a run with shares is refused, and the shares of the steps before the refused one: zeros for that and those after
/// it, and for all steps where the sheet or the book is refused before it runs. `?` makes it a [`Refusal`].
#[cfg(feature = "alloc")]
#[derive(Clone, Debug, PartialEq, Eq)]
pub struct RefusedRun {
    /// The refusal of a plain run.
    pub refusal: Refusal,
    /// Those of each step, from step 0 on.
    pub shares: Box<[Shares; MOST_STEPS]>,
}

/// A step: its code and its fields. A quotient, code 9, has f in a, g in b, step h in v and step w in value; an
/// antiderivative, code 10, has its step in a and its variable, from 1, in v.
#[derive(Clone, Copy, Debug, Default, PartialEq, Eq)]
pub struct Step {
    /// 0 input, 1 constant, 2 variable, 3 negate, 4 add, 5 subtract, 6 multiply, 7 substitute, 8 sweep, 9 quotient,
    /// 10 antiderivative.
    pub code: u8,
    /// The first operand, an earlier step; of an input the number of a model.
    pub a: u8,
    /// The second operand, an earlier step.
    pub b: u8,
    /// A variable, from 1.
    pub v: u8,
    /// A constant or a threshold, in units.
    pub value: i64,
}

/// A sheet's matter in memory. Any field may hold anything.
#[derive(Clone, Debug, PartialEq, Eq)]
pub struct Book {
    /// How many variables there are.
    pub n: u8,
    /// The order.
    pub d: u8,
    /// How many models there are.
    pub model_count: usize,
    /// How many steps there are.
    pub step_count: usize,
    /// The models; those beyond the count are not looked at.
    pub models: [Model; MOST_MODELS],
    /// The steps; those beyond the count are not looked at.
    pub steps: [Step; MOST_STEPS],
}

#[cfg(feature = "alloc")]
impl From<RefusedRun> for Refusal {
    fn from(run: RefusedRun) -> Refusal {
        run.refusal
    }
}

#[cfg(feature = "alloc")]
impl fmt::Display for RefusedRun {
    fn fmt(&self, out: &mut fmt::Formatter<'_>) -> fmt::Result {
        self.refusal.fmt(out)
    }
}

#[cfg(all(feature = "alloc", core_error))]
impl core::error::Error for RefusedRun {}

#[cfg(all(feature = "std", not(core_error)))]
impl std::error::Error for RefusedRun {}

impl Book {
    /// A book of these models and steps. What does not fit 16 and 64 places is left out, and its count refused.
    pub fn new(n: u8, d: u8, models: &[Model], steps: &[Step]) -> Book {
        let mut book = Book {
            n,
            d,
            model_count: models.len(),
            step_count: steps.len(),
            models: [Model::ZERO; MOST_MODELS],
            steps: [Step::default(); MOST_STEPS],
        };
        for (place, model) in book.models.iter_mut().zip(models) {
            *place = *model;
        }
        for (place, step) in book.steps.iter_mut().zip(steps) {
            *place = *step;
        }
        book
    }
}

/// Runs a sheet. Refusals 1 to 9, 12.
pub fn run(sheet: &[u8]) -> Result<Summary, Refusal> {
    summary(|model, numbers, ends| {
        raw::run(
            sheet,
            &mut model.keys,
            &mut model.coefficients,
            numbers,
            ends,
        )
    })
}

/// Runs a book in memory. Refusals 3, 5 to 9, 12.
pub fn run_book(book: &Book) -> Result<Summary, Refusal> {
    let flat = Flat::of(book);
    summary(|model, numbers, ends| {
        raw::run_book(
            flat.handed(),
            &mut model.keys,
            &mut model.coefficients,
            numbers,
            ends,
        )
    })
}

/// Runs a sheet, and tells where the radius of each of its steps came from. Refusals 1 to 9, 12.
///
/// ```
/// // x, and x times x, of order 1: there is no room for a square.
/// let sheet = [2, 0, 0, 1, 0, 0, 0, 0, 6, 0, 0, 0, 0, 0, 0, 0, 1, 1, 0, 2, 0, 0, 0x4D, 0x4B];
/// let report = hechroung::shares(&sheet)?;
/// assert_eq!(report.summary.model.radius, 1 << 20);
/// assert_eq!((report.shares[1].swept, report.shares[1].slack), (1 << 40, 0));
/// # Ok::<(), hechroung::Refusal>(())
/// ```
#[cfg(feature = "alloc")]
pub fn shares(sheet: &[u8]) -> Result<Report, RefusedRun> {
    reported(|model, numbers, ends, shares| {
        raw::shares(
            sheet,
            &mut model.keys,
            &mut model.coefficients,
            numbers,
            ends,
            shares,
        )
    })
}

/// Runs a book in memory, and tells where the radius of each of its steps came from. Refusals 3, 5 to 9, 12.
#[cfg(feature = "alloc")]
pub fn shares_book(book: &Book) -> Result<Report, RefusedRun> {
    let flat = Flat::of(book);
    reported(|model, numbers, ends, shares| {
        raw::shares_book(
            flat.handed(),
            &mut model.keys,
            &mut model.coefficients,
            numbers,
            ends,
            shares,
        )
    })
}

/// What a run with shares stored.
#[cfg(feature = "alloc")]
fn reported(
    run: impl FnOnce(&mut Model, &mut [u64], &mut [i64], &mut [u64]) -> u8,
) -> Result<Report, RefusedRun> {
    let mut stored = [0; 4 * MOST_STEPS];
    let summary = summary(|model, numbers, ends| run(model, numbers, ends, &mut stored));
    let mut shares = [Shares::default(); MOST_STEPS];
    for (row, stored) in shares.iter_mut().zip(stored.chunks(4)) {
        *row = Shares {
            carried: stored[0],
            rounding: stored[1],
            swept: stored[2],
            slack: stored[3],
        };
    }
    match summary {
        Ok(summary) => Ok(Report { summary, shares }),
        Err(refusal) => Err(RefusedRun {
            refusal,
            shares: Box::new(shares),
        }),
    }
}

/// What a run stored.
fn summary(run: impl FnOnce(&mut Model, &mut [u64], &mut [i64]) -> u8) -> Result<Summary, Refusal> {
    let mut model = Model::ZERO;
    let mut numbers = [0; 4];
    let mut ends = [0; 6];
    let number = run(&mut model, &mut numbers, &mut ends);
    let [place, n, count, radius] = numbers;
    accepted(number, place)?;
    model.n = narrowed(n);
    model.count = narrowed(count);
    model.radius = radius;
    let [low, high, integral_low, integral_high, quotient, remainder] = ends;
    Ok(Summary {
        model,
        range: Ends { low, high },
        integral: Ends {
            low: integral_low,
            high: integral_high,
        },
        exact: Exact {
            quotient,
            remainder,
        },
    })
}

/// The lines that the program prints for a sheet; of a refused one that is the line of its refusal.
#[cfg(feature = "alloc")]
#[must_use]
pub fn lines(sheet: &[u8]) -> String {
    let mut text = vec![0; raw::print(sheet, &mut [])];
    raw::print(sheet, &mut text);
    String::from_utf8(text).expect("the lines are ASCII")
}

/// The records of a sheet in order, each model's bytes and then each step's 8. Refusals 1 to 6.
#[cfg(feature = "alloc")]
pub fn records(sheet: &[u8]) -> Result<impl Iterator<Item = Vec<u8>> + '_, Refusal> {
    open(sheet)?;
    Ok((0..).map_while(|i| {
        let mut bytes = vec![0; raw::record(sheet, i, &mut [])];
        raw::record(sheet, i, &mut bytes);
        (!bytes.is_empty()).then_some(bytes)
    }))
}

/// What a record is.
#[derive(Clone, Copy, Debug, PartialEq, Eq)]
pub enum Kind {
    /// The bytes of a model.
    Model,
    /// The 8 bytes of a step.
    Step,
}

/// A record of a sheet.
#[cfg(feature = "alloc")]
#[derive(Clone, Debug, PartialEq, Eq)]
pub struct Record {
    /// What it is.
    pub kind: Kind,
    /// Its bytes, as they stand in the sheet.
    pub bytes: Vec<u8>,
}

/// A sheet that is stepped through, at a place.
#[derive(Clone, Debug)]
pub struct Records<'sheet> {
    sheet: &'sheet [u8],
    at: usize,
}

/// Opens a sheet for stepping through it. Refusals 1 to 6.
pub fn open(sheet: &[u8]) -> Result<Records<'_>, Refusal> {
    let mut numbers = [0; 2];
    let number = raw::open(sheet, &mut numbers);
    let [place, at] = numbers;
    accepted(number, place)?;
    let at = narrowed(at);
    Ok(Records { sheet, at })
}

impl Records<'_> {
    /// The place of the record at hand; after the last one it stays where it is.
    pub fn place(&self) -> usize {
        self.at
    }

    /// The record at hand, and on to the next: what it is and its length. As much of it as there is room for goes into
    /// the buffer; [`LONGEST_RECORD`](crate::LONGEST_RECORD) bytes are enough. None after the last, as often as it is
    /// asked for.
    ///
    /// ```
    /// let sheet = [1, 0, 0, 0, 9, 0, 0, 0, 1, 1, 0, 1, 0, 0, 0x4D, 0x4B];
    /// let mut records = hechroung::open(&sheet)?;
    /// let mut buffer = [0; hechroung::LONGEST_RECORD];
    /// assert_eq!(records.next_into(&mut buffer), Some((hechroung::Kind::Step, 8)));
    /// assert_eq!((buffer[0], buffer[4]), (1, 9));
    /// assert_eq!(records.next_into(&mut buffer), None);
    /// # Ok::<(), hechroung::Refusal>(())
    /// ```
    pub fn next_into(&mut self, buffer: &mut [u8]) -> Option<(Kind, usize)> {
        let mut numbers = [0; 2];
        let number = raw::next(self.sheet, self.at, buffer, &mut numbers);
        let [length, next] = numbers;
        self.at = narrowed(next);
        let kind = match number {
            0 => return None,
            1 => Kind::Model,
            2 => Kind::Step,
            _ => unreachable!("every slice is long enough"),
        };
        Some((kind, narrowed(length)))
    }
}

#[cfg(feature = "alloc")]
impl Iterator for Records<'_> {
    type Item = Record;

    /// The record at hand, and on to the next; none after the last, as often as it is asked for.
    fn next(&mut self) -> Option<Record> {
        let mut bytes = [0; LONGEST_RECORD];
        let (kind, length) = self.next_into(&mut bytes)?;
        let bytes = bytes[..length].to_vec();
        Some(Record { kind, bytes })
    }
}

/// Reads a sheet and writes what was read into the buffer: its length. Refusals 1 to 6, 11; a refused call changes no
/// byte.
pub fn rewrite(sheet: &[u8], buffer: &mut [u8]) -> Result<usize, Refusal> {
    let mut numbers = [0; 2];
    let number = raw::rewrite(sheet, buffer, &mut numbers);
    written(number, numbers)
}

/// Writes a book as a sheet into the buffer: its length. Refusals 3, 5, 6, 11; a refused write changes no byte, and
/// bytes beyond the length stay.
pub fn write(book: &Book, buffer: &mut [u8]) -> Result<usize, Refusal> {
    let mut numbers = [0; 2];
    let number = raw::write(Flat::of(book).handed(), buffer, &mut numbers);
    written(number, numbers)
}

fn written(number: u8, numbers: [u64; 2]) -> Result<usize, Refusal> {
    let [place, length] = numbers;
    accepted(number, place)?;
    Ok(narrowed(length))
}

/// A book's numbers and arrays, one after the other, for the functions of [`raw`](crate::raw) that take a book.
pub struct Flat {
    n: u8,
    d: u8,
    model_count: usize,
    step_count: usize,
    ns: [u8; MOST_MODELS],
    counts: [usize; MOST_MODELS],
    radii: [u64; MOST_MODELS],
    keys: [u32; MOST_MODELS * MOST_TERMS],
    coefficients: [i64; MOST_MODELS * MOST_TERMS],
    fields: [u8; 4 * MOST_STEPS],
    values: [i64; MOST_STEPS],
}

impl Flat {
    /// The numbers and arrays of a book.
    pub fn of(book: &Book) -> Flat {
        let mut flat = Flat {
            n: book.n,
            d: book.d,
            model_count: book.model_count,
            step_count: book.step_count,
            ns: book.models.map(|model| model.n),
            counts: book.models.map(|model| model.count),
            radii: book.models.map(|model| model.radius),
            keys: [0; MOST_MODELS * MOST_TERMS],
            coefficients: [0; MOST_MODELS * MOST_TERMS],
            fields: [0; 4 * MOST_STEPS],
            values: book.steps.map(|step| step.value),
        };
        for (k, model) in book.models.iter().enumerate() {
            let places = k * MOST_TERMS..(k + 1) * MOST_TERMS;
            flat.keys[places.clone()].copy_from_slice(&model.keys);
            flat.coefficients[places].copy_from_slice(&model.coefficients);
        }
        for (fields, step) in flat.fields.chunks_mut(4).zip(&book.steps) {
            fields.copy_from_slice(&[step.code, step.a, step.b, step.v]);
        }
        flat
    }

    /// The same as slices.
    pub fn handed(&self) -> HandedBook<'_> {
        HandedBook {
            n: self.n,
            d: self.d,
            model_count: self.model_count,
            step_count: self.step_count,
            ns: &self.ns,
            counts: &self.counts,
            radii: &self.radii,
            keys: &self.keys,
            coefficients: &self.coefficients,
            fields: &self.fields,
            values: &self.values,
        }
    }
}
