//! What the exported functions store for a run, with room enough: the answer, and beside a refusal its number, its
//! place and the zero model and zeros, which the wrapper does not hand out.

use crate::agree::{pair, same, to_ends, to_exact, to_model};
use crate::rows;
use hechroung::raw;
use hechroung::{Book, Flat, MOST_STEPS, MOST_TERMS};
use reference::run::{ReportAnswer, RunAnswer};

/// The slices of a run's answer, and the number that the call returned.
#[derive(Debug, PartialEq)]
struct Stored {
    number: u8,
    keys: [u32; MOST_TERMS],
    coefficients: [i64; MOST_TERMS],
    /// The place of the refusal, n, the count and the radius.
    numbers: [u64; 4],
    /// The ends of the range and of the integral, and the exact integral.
    ends: [i64; 6],
}

/// Four numbers for each step.
type Rows = [u64; 4 * MOST_STEPS];

/// What the slices hold before, so that a place that is not stored shows.
const BEFORE: Stored = Stored {
    number: 0,
    keys: [0xABCD_4321; MOST_TERMS],
    coefficients: [-0x0123_4567_89AB_CDEF; MOST_TERMS],
    numbers: [u64::MAX; 4],
    ends: [i64::MIN; 6],
};
const ROWS_BEFORE: Rows = [u64::MAX; 4 * MOST_STEPS];

/// The run of a sheet, without its shares and with them.
pub fn compare_sheet(sheet: &[u8], expected: &ReportAnswer) -> Result<(), String> {
    let run = stored(|to| {
        raw::run(
            sheet,
            &mut to.keys,
            &mut to.coefficients,
            &mut to.numbers,
            &mut to.ends,
        )
    });
    let mut rows = ROWS_BEFORE;
    let shares = stored(|to| {
        raw::shares(
            sheet,
            &mut to.keys,
            &mut to.coefficients,
            &mut to.numbers,
            &mut to.ends,
            &mut rows,
        )
    });
    compare(run, shares, rows, expected)
}

/// The run of a book, without its shares and with them.
pub fn compare_book(book: &Book, expected: &ReportAnswer) -> Result<(), String> {
    let flat = Flat::of(book);
    let book = flat.handed();
    let run = stored(|to| {
        raw::run_book(
            book,
            &mut to.keys,
            &mut to.coefficients,
            &mut to.numbers,
            &mut to.ends,
        )
    });
    let mut rows = ROWS_BEFORE;
    let shares = stored(|to| {
        raw::shares_book(
            book,
            &mut to.keys,
            &mut to.coefficients,
            &mut to.numbers,
            &mut to.ends,
            &mut rows,
        )
    });
    compare(run, shares, rows, expected)
}

fn stored(run: impl FnOnce(&mut Stored) -> u8) -> Stored {
    let mut stored = BEFORE;
    stored.number = run(&mut stored);
    stored
}

fn compare(run: Stored, shares: Stored, rows: Rows, expected: &ReportAnswer) -> Result<(), String> {
    let answer = translated(&expected.answer);
    same(&run, &answer)?;
    same(&shares, &answer)?;
    let expected = rows::translated(expected);
    same(
        &rows.to_vec(),
        &expected.iter().flat_map(rows::four).collect(),
    )
}

/// The second implementation's answer as it has to be stored.
fn translated(expected: &RunAnswer) -> Stored {
    let (number, place) = expected.refusal.map(pair).unwrap_or_default();
    let model = to_model(&expected.model);
    let (range, integral) = (to_ends(expected.range), to_ends(expected.integral.ends));
    let exact = to_exact(expected.integral.exact);
    Stored {
        number,
        keys: model.keys,
        coefficients: model.coefficients,
        numbers: [
            place as u64,
            model.n.into(),
            model.count as u64,
            model.radius,
        ],
        ends: [
            range.low,
            range.high,
            integral.low,
            integral.high,
            exact.quotient,
            exact.remainder,
        ],
    }
}
