//! Polynomial models in 1 to 8 variables on the box [-1, 1]^n, with an error radius: a safe wrapper over the proved
//! library of this repository. Every call takes anything whatever; what is unfit gets the refusal that documents 01
//! and 02 list for it, as the error of a [`Result`], so that no answer of a refused call can be taken for a model. What
//! the exported functions store beside a refusal, the zero model and zeros, is there in [`raw`] alone.
//!
//! Coefficients, radii and ends are whole numbers in units of 1/[`UNIT`].
//!
//! ```
//! use hechroung::{range, Model, UNIT};
//!
//! let x = Model::variable(1, 1)?;
//! let half = Model::constant(1, UNIT / 2)?;
//! let sum = hechroung::add(&x, &half)?;
//! let square = hechroung::multiply(2, &sum, &sum)?;
//! let ends = range(&square)?;
//! assert_eq!((ends.low, ends.high), (-786_432, 2_359_296));
//!
//! // There is no second variable: `?` ends here with number 6.
//! let refusal = Model::variable(1, 2).unwrap_err();
//! assert_eq!((refusal.number, refusal.place), (6, 0));
//! # Ok::<(), hechroung::Refusal>(())
//! ```
//!
//! The crate needs no standard library. Without the feature `alloc` it needs no memory but the stack either, and lacks
//! [`lines`], [`records`], [`shares`] and what belongs to them; [`raw`] has all of these. From Rust 1.81 on a
//! [`Refusal`] has the trait `Error` of `core`, before that the one of the standard library, with the feature `std`.
//! Both features are on by default.
//!
//! A call needs up to 160 KB of stack, the run of a sheet or a book up to 320 KB.

#![no_std]
#![deny(missing_docs)]
#![deny(unsafe_op_in_unsafe_fn)]
#![deny(unsafe_code)]

// The examples of README.md are tested with the others.
#[cfg(doctest)]
#[doc = include_str!("../README.md")]
struct Readme;

#[cfg(feature = "alloc")]
extern crate alloc;
#[cfg(feature = "std")]
extern crate std;

mod archive;
pub mod curves;
mod cuts;
mod doubles;
#[allow(unsafe_code)]
pub mod raw;
mod readings;
mod refusals;
mod sheets;

pub use archive::{restore, store, LONGEST_ARCHIVED};
pub use curves::Curve;
pub use cuts::cut_range;
pub use doubles::{from_doubles, Doubles};
pub use readings::{first_contradicting, Reading, MOST_READINGS};
pub use refusals::Refusal;
#[cfg(feature = "alloc")]
pub use sheets::{lines, records, shares, shares_book, Record, RefusedRun};
pub use sheets::{open, rewrite, run, run_book, write};
pub use sheets::{Book, Flat, Kind, Records, Report, Shares, Step, Summary};

use core::fmt;
use raw::{code, ends_code, Handed, HandedModels, MISUSED};

/// The version of this crate, which is that of include/hechroung.h.
pub const VERSION: &str = env!("CARGO_PKG_VERSION");
/// U: a coefficient c stands for c / U.
pub const UNIT: i64 = 1 << 20;
/// D: an exact integral is so many units and so many parts of D of a unit.
pub const DENOMINATOR: i64 = 212_837_625;
/// The variables of a model, at most, and the coordinates of a point.
pub const MOST_VARS: usize = 8;
/// The places of a model's terms.
pub const MOST_TERMS: usize = 64;
/// The coefficients of a curve: those of T_0 to T_15.
pub const CURVE_PLACES: usize = 16;
/// The places of a book's models.
pub const MOST_MODELS: usize = 16;
/// The places of a book's steps.
pub const MOST_STEPS: usize = 64;
/// The length of the longest sheet.
pub const LONGEST_SHEET: usize = 8_792;
/// No text that [`raw::print`] puts together is longer.
pub const LONGEST_TEXT: usize = 4_096;
/// The length of the longest record, that of a model with 64 terms in more than four variables.
pub const LONGEST_RECORD: usize = 5 + 8 * MOST_TERMS;

/// A model: the first `count` of its terms, with keys strictly rising, and a radius. Any field may hold anything; a
/// call refuses what is no model. A key has eight exponents of four bits each, that of variable 1 in the highest bits,
/// so that in up to four variables the lower 16 bits are 0.
#[derive(Clone, Copy, Debug, PartialEq, Eq)]
pub struct Model {
    /// How many variables there are.
    pub n: u8,
    /// How many terms there are.
    pub count: usize,
    /// How far a function within the model may lie from the polynomial, in units.
    pub radius: u64,
    /// The exponents of each term.
    pub keys: [u32; MOST_TERMS],
    /// The coefficient of each term, in units.
    pub coefficients: [i64; MOST_TERMS],
}

/// Two ends.
#[derive(Clone, Copy, Debug, Default, PartialEq, Eq)]
pub struct Ends {
    /// The low end, in units.
    pub low: i64,
    /// The high end, in units.
    pub high: i64,
}

/// The integral of a polynomial over the box without any rounding: quotient + remainder / [`DENOMINATOR`] units, with a
/// remainder from 0 to [`DENOMINATOR`] - 1; the quotient is rounded down, also below 0. Above four variables both are 0
/// and say nothing.
#[derive(Clone, Copy, Debug, Default, PartialEq, Eq)]
pub struct Exact {
    /// Whole units.
    pub quotient: i64,
    /// Parts of a unit, of which [`DENOMINATOR`] are one.
    pub remainder: i64,
}

/// The ends of an integral and the exact one of the model's polynomial.
#[derive(Clone, Copy, Debug, PartialEq, Eq)]
pub struct Integral {
    /// What the integral of a function within the model lies between.
    pub ends: Ends,
    /// The integral of the polynomial.
    pub exact: Exact,
}

impl Model {
    /// No terms and radius 0, in one variable.
    pub const ZERO: Model = Model {
        n: 1,
        count: 0,
        radius: 0,
        keys: [0; MOST_TERMS],
        coefficients: [0; MOST_TERMS],
    };

    /// The constant `value`, in units. Refusals 3, 6.
    pub fn constant(n: u8, value: i64) -> Result<Model, Refusal> {
        called(
            code::CONSTANT,
            0,
            0,
            value,
            Handed { n, ..Handed::NONE },
            Handed::NONE,
        )
    }

    /// Variable i, from 1. Refusals 3, 6.
    pub fn variable(n: u8, i: u8) -> Result<Model, Refusal> {
        called(
            code::VARIABLE,
            0,
            i,
            0,
            Handed { n, ..Handed::NONE },
            Handed::NONE,
        )
    }

    /// The terms in use, each a key and a coefficient; a count above 64 has no more than 64.
    pub fn terms(&self) -> impl Iterator<Item = (u32, i64)> + '_ {
        let terms = self.keys.iter().zip(&self.coefficients).take(self.count);
        terms.map(|(&key, &coefficient)| (key, coefficient))
    }

    fn handed(&self) -> Handed<'_> {
        Handed {
            n: self.n,
            count: self.count,
            radius: self.radius,
            keys: &self.keys,
            coefficients: &self.coefficients,
        }
    }
}

/// All signs turned. Refusal 5.
pub fn negate(f: &Model) -> Result<Model, Refusal> {
    called(code::NEGATE, 0, 0, 0, f.handed(), Handed::NONE)
}

/// The sum. Refusals 5 at place 0 or 1, 10, 8, 7.
pub fn add(f: &Model, g: &Model) -> Result<Model, Refusal> {
    called(code::ADD, 0, 0, 0, f.handed(), g.handed())
}

/// The difference. Refusals 5 at place 0 or 1, 10, 8, 7.
pub fn subtract(f: &Model, g: &Model) -> Result<Model, Refusal> {
    called(code::SUBTRACT, 0, 0, 0, f.handed(), g.handed())
}

/// The product; what is above degree d goes into the radius. Refusals 3, 5 at place 0 or 1, 10, 8, 7.
pub fn multiply(d: u8, f: &Model, g: &Model) -> Result<Model, Refusal> {
    called(code::MULTIPLY, d, 0, 0, f.handed(), g.handed())
}

/// g put in for variable i of f. Refusals 3, 5 at place 0 or 1, 10, 6, 9, then the first 8 or 7 inside.
pub fn substitute(d: u8, i: u8, f: &Model, g: &Model) -> Result<Model, Refusal> {
    called(code::SUBSTITUTE, d, i, 0, f.handed(), g.handed())
}

/// f / g with order d, from a proposal: h should be near f / g and w near 1 / g. The answer is h's polynomial with a
/// radius that the call works out; the radii of h and w are not used. Refusals 3, 5 at place 0 to 3 (f, g, h, w), 10,
/// then the first 8 or 7 inside, 12 where this w does not show that g is nowhere zero, 7.
///
/// ```
/// use hechroung::{quotient, Model, UNIT};
///
/// let (one, three) = (Model::constant(1, UNIT)?, Model::constant(1, 3 * UNIT)?);
/// let third = Model::constant(1, UNIT / 3)?;
/// let answer = quotient(1, &one, &three, &third, &third)?;
/// assert_eq!((answer.coefficients[0], answer.radius), (349_525, 2));
/// # Ok::<(), hechroung::Refusal>(())
/// ```
pub fn quotient(d: u8, f: &Model, g: &Model, h: &Model, w: &Model) -> Result<Model, Refusal> {
    let models = [f, g, h, w];
    let mut keys = [0; 4 * MOST_TERMS];
    let mut coefficients = [0; 4 * MOST_TERMS];
    for (k, model) in models.iter().enumerate() {
        let places = k * MOST_TERMS..(k + 1) * MOST_TERMS;
        keys[places.clone()].copy_from_slice(&model.keys);
        coefficients[places].copy_from_slice(&model.coefficients);
    }
    let handed = HandedModels {
        ns: &models.map(|model| model.n),
        counts: &models.map(|model| model.count),
        radii: &models.map(|model| model.radius),
        keys: &keys,
        coefficients: &coefficients,
    };
    answered(|model, numbers| {
        raw::quotient(d, handed, &mut model.keys, &mut model.coefficients, numbers)
    })
}

/// Terms but the constant one with |c| at most the threshold moved into the radius. Refusals 5, 6.
pub fn sweep(f: &Model, threshold: i64) -> Result<Model, Refusal> {
    called(code::SWEEP, 0, 0, threshold, f.handed(), Handed::NONE)
}

/// The antiderivative of f in variable i that is 0 wherever that variable is 0; what is above degree d goes into the
/// radius. Refusals 3, 5, 6.
///
/// ```
/// use hechroung::{antiderivative, Model, UNIT};
///
/// let x = Model::variable(1, 1)?;
/// let half_square = antiderivative(2, 1, &x)?;
/// assert_eq!((half_square.keys[0], half_square.coefficients[0]), (0x2000_0000, UNIT / 2));
/// # Ok::<(), hechroung::Refusal>(())
/// ```
pub fn antiderivative(d: u8, i: u8, f: &Model) -> Result<Model, Refusal> {
    called(code::ANTIDERIVATIVE, d, i, 0, f.handed(), Handed::NONE)
}

/// The range over the box. Refusal 5.
pub fn range(f: &Model) -> Result<Ends, Refusal> {
    bounds(ends_code::RANGE, f, &[])
}

/// The integral over the box, with the exact one of the model's polynomial. Refusal 5.
///
/// ```
/// use hechroung::{integral, Model, DENOMINATOR};
///
/// // 2/3 of a unit.
/// let mut square = Model::ZERO;
/// (square.count, square.keys[0], square.coefficients[0]) = (1, 0x2000_0000, 1);
/// let found = integral(&square)?;
/// assert_eq!((found.ends.low, found.ends.high), (0, 1));
/// assert_eq!((found.exact.quotient, found.exact.remainder), (0, DENOMINATOR / 3 * 2));
/// # Ok::<(), hechroung::Refusal>(())
/// ```
pub fn integral(f: &Model) -> Result<Integral, Refusal> {
    let [low, high, quotient, remainder] = ended(ends_code::INTEGRAL, f, &[])?;
    Ok(Integral {
        ends: Ends { low, high },
        exact: Exact {
            quotient,
            remainder,
        },
    })
}

/// The values at the point X_1/U, .., X_n/U; coordinates above n are 0. Refusals 5, 6, 9, 7.
pub fn evaluate(f: &Model, point: [i64; MOST_VARS]) -> Result<Ends, Refusal> {
    bounds(ends_code::EVALUATE, f, &point)
}

fn called(
    code: u8,
    d: u8,
    i: u8,
    value: i64,
    f: Handed<'_>,
    g: Handed<'_>,
) -> Result<Model, Refusal> {
    answered(|model, numbers| {
        raw::call(
            code,
            d,
            i,
            value,
            f,
            g,
            &mut model.keys,
            &mut model.coefficients,
            numbers,
        )
    })
}

/// The model that a call stored.
fn answered(call: impl FnOnce(&mut Model, &mut [u64]) -> u8) -> Result<Model, Refusal> {
    let mut model = Model::ZERO;
    let mut numbers = [0; 4];
    let number = call(&mut model, &mut numbers);
    let [place, n, count, radius] = numbers;
    accepted(number, place)?;
    model.n = narrowed(n);
    model.count = narrowed(count);
    model.radius = radius;
    Ok(model)
}

fn bounds(code: u8, f: &Model, point: &[i64]) -> Result<Ends, Refusal> {
    let [low, high, _, _] = ended(code, f, point)?;
    Ok(Ends { low, high })
}

/// What a call of one model stored: both ends, and the exact integral. The place of its refusal is 0.
fn ended(code: u8, f: &Model, point: &[i64]) -> Result<[i64; 4], Refusal> {
    let mut ends = [0; 4];
    let number = raw::ends(code, f.handed(), point, &mut ends);
    accepted(number, 0)?;
    Ok(ends)
}

/// Whether a call was accepted, by the number that it returned and the place that it stored.
fn accepted(number: u8, place: u64) -> Result<(), Refusal> {
    assert!(
        number != MISUSED,
        "every slice is long enough, and every code is known"
    );
    if number != 0 {
        let place = narrowed(place);
        return Err(Refusal { number, place });
    }
    Ok(())
}

/// A number that was a byte or a size before it was stored.
fn narrowed<T>(number: u64) -> T
where
    T: TryFrom<u64>,
    T::Error: fmt::Debug,
{
    T::try_from(number).expect("the library stores what fits")
}
