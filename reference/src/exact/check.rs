//! The check of demand 3: one claim about a whole accepted sheet.

use super::fraction::Fraction;
use super::function::InputFunction;
use super::outcome::{
    has_quotient, is_promised, outcome_at, outcome_polynomials, NoOutcome, Point,
};
use super::polynomial::{ExactPolynomial, SizeLimit};
use crate::book::SoundBook;
use crate::model::{Model, FEW_VARIABLES, UNIT};
use crate::operations::{Ends, Exact, DENOMINATOR};
use crate::run::{self, RunResult};
use crate::sheet;

/// How much of the claim could be checked; what passes the size limit could not.
#[derive(Clone, Copy, Debug, Default, PartialEq, Eq)]
pub struct Checked {
    pub points: usize,
    pub points_too_large: usize,
    /// Points of a sheet for which nothing is promised with these functions.
    pub points_not_promised: usize,
    pub integral: bool,
}

/// Where the claim is false.
#[derive(Clone, Debug, PartialEq, Eq)]
pub enum Violation {
    /// The outcome differs from the result's polynomial by more than its radius.
    Radius(Box<Point>),
    /// The outcome is outside the range.
    Range(Box<Point>),
    /// The substitution of this step left the box.
    LeftBox(usize, Box<Point>),
    /// The divisor of this step's quotient was zero.
    ZeroDivisor(usize, Box<Point>),
    /// The integral is outside its ends.
    Integral,
    /// The result's polynomial has another integral than q + r / D units, or r is
    /// not from 0 to D - 1; above four variables, q or r is not 0.
    Exact,
    /// The outcome at the point and the outcome as a polynomial differ, which
    /// would be a fault of this check and not of a run.
    Disagreement(Box<Point>),
}

/// Runs a sheet and checks what the run claims. None if the sheet is refused.
/// The functions must lie within the sheet's models, one for each.
pub fn check_sheet(
    bytes: &[u8],
    functions: &[InputFunction],
    points: &[Point],
) -> Option<Result<Checked, Violation>> {
    let book = sheet::sound_book(bytes).ok()?;
    let result = run::run(&book).ok()?;
    Some(check_result(&book, &result, functions, points))
}

/// Checks a claimed result, wherever it came from: that its exact integral is that
/// of its polynomial, and the claim about its outcome. Of a sheet with a quotient the
/// integral is not claimed; of one with an antiderivative nothing is, unless all
/// functions are polynomials and no quotient feeds an antiderivative.
pub fn check_result(
    book: &SoundBook,
    result: &RunResult,
    functions: &[InputFunction],
    points: &[Point],
) -> Result<Checked, Violation> {
    let limit = SizeLimit::default();
    let mut checked = Checked::default();
    if !is_exact(&result.model, result.integral.exact) {
        return Err(Violation::Exact);
    }
    if !is_promised(book, functions) {
        checked.points_not_promised = points.len();
        return Ok(checked);
    }
    let polynomials = outcome_polynomials(book, functions, &limit);
    let polynomial = polynomials.last().and_then(Option::as_ref);
    for point in points {
        match outcome_at(book, functions, &polynomials, point, &limit) {
            Ok(outcome) => {
                check_point(result, &outcome, point)?;
                check_agreement(polynomial, &outcome, point)?;
                checked.points += 1;
            }
            Err(NoOutcome::TooLarge) => checked.points_too_large += 1,
            Err(NoOutcome::LeftBox(step)) => {
                return Err(Violation::LeftBox(step, Box::new(point.clone())));
            }
            Err(NoOutcome::ZeroDivisor(step)) => {
                return Err(Violation::ZeroDivisor(step, Box::new(point.clone())));
            }
        }
    }
    let all_polynomials = functions.iter().all(|f| f.as_polynomial().is_some());
    let with_integral = polynomial.filter(|_| all_polynomials && !has_quotient(book));
    if let Some(polynomial) = with_integral {
        check_integral(book.n, result, polynomial)?;
        checked.integral = true;
    }
    Ok(checked)
}

fn check_point(result: &RunResult, outcome: &Fraction, point: &Point) -> Result<(), Violation> {
    let value = ExactPolynomial::of_model(&result.model).at(point);
    let deviation = (outcome - &value).abs();
    if deviation > Fraction::of(result.model.radius, UNIT) {
        return Err(Violation::Radius(Box::new(point.clone())));
    }
    if !encloses(result.range, outcome) {
        return Err(Violation::Range(Box::new(point.clone())));
    }
    Ok(())
}

fn check_agreement(
    polynomial: Option<&ExactPolynomial>,
    outcome: &Fraction,
    point: &Point,
) -> Result<(), Violation> {
    if polynomial.is_some_and(|polynomial| polynomial.at(point) != *outcome) {
        return Err(Violation::Disagreement(Box::new(point.clone())));
    }
    Ok(())
}

fn check_integral(
    n: usize,
    result: &RunResult,
    polynomial: &ExactPolynomial,
) -> Result<(), Violation> {
    if encloses(result.integral.ends, &polynomial.integral(n)) {
        Ok(())
    } else {
        Err(Violation::Integral)
    }
}

/// Whether q + r / D units are the integral of the model's polynomial, as fractions;
/// above four variables, whether both are 0.
pub fn is_exact(model: &Model, exact: Exact) -> bool {
    let Exact {
        quotient,
        remainder,
    } = exact;
    if model.n > FEW_VARIABLES {
        return exact == Exact::default();
    }
    let integral = ExactPolynomial::of_model(model).integral(model.n);
    let claimed = Fraction::of(quotient * DENOMINATOR + remainder, DENOMINATOR * UNIT);
    (0..DENOMINATOR).contains(&remainder) && claimed == integral
}

/// Whether the fraction times U lies between the ends.
pub fn encloses(ends: Ends, fraction: &Fraction) -> bool {
    let scaled = fraction * &Fraction::of(UNIT, 1);
    Fraction::of(ends.low, 1) <= scaled && scaled <= Fraction::of(ends.high, 1)
}
