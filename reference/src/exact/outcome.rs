//! The exact outcome of a sheet: at a point, and as a polynomial where it is one.

use super::fraction::Fraction;
use super::function::InputFunction;
use super::polynomial::{ExactPolynomial, SizeLimit};
use crate::book::{
    SoundBook, Step, ADD, ANTIDERIVATIVE, CONSTANT, INPUT, MULTIPLY, NEGATE, QUOTIENT, SUBSTITUTE,
    SUBTRACT, SWEEP, VARIABLE,
};
use crate::model::{MOST_VARIABLES, UNIT};

/// A point of the box; coordinates above n are 0.
pub type Point = [Fraction; MOST_VARIABLES];

/// Why there is no outcome.
#[derive(Clone, Copy, Debug, PartialEq, Eq)]
pub enum NoOutcome {
    /// The numbers pass the limit, or an antiderivative has no polynomial to be
    /// taken of; nothing is known.
    TooLarge,
    /// The substitution of this step left the box, which an accepted sheet
    /// must not do.
    LeftBox(usize),
    /// The divisor of this step is zero, which an accepted sheet's never is.
    ZeroDivisor(usize),
}

/// The outcome of the last step at a point. Quotients that it does not use must
/// have one as well: their divisors are never zero either. An antiderivative's
/// outcome comes from the outcomes as polynomials, one for each step.
pub fn outcome_at(
    book: &SoundBook,
    functions: &[InputFunction],
    polynomials: &[Option<ExactPolynomial>],
    point: &Point,
    limit: &SizeLimit,
) -> Result<Fraction, NoOutcome> {
    let mut outcomes = Outcomes {
        book,
        functions,
        polynomials,
        limit,
        visited: Vec::new(),
    };
    let here = outcomes.visit(point)?;
    let outcome = outcomes.of_step(book.steps.len() - 1, here)?;
    for number in quotients(book) {
        match outcomes.of_step(number, here) {
            Ok(_) | Err(NoOutcome::TooLarge) => {}
            Err(no_outcome) => return Err(no_outcome),
        }
    }
    Ok(outcome)
}

/// The numbers of the quotient steps.
fn quotients(book: &SoundBook) -> Vec<usize> {
    let steps = book.steps.iter().enumerate();
    steps
        .filter(|(_, step)| step.code == QUOTIENT)
        .map(|(number, _)| number)
        .collect()
}

/// Whether the sheet has a quotient, so that nothing is said of its integral.
pub fn has_quotient(book: &SoundBook) -> bool {
    !quotients(book).is_empty()
}

/// Whether anything is promised for these functions. With an antiderivative in the
/// sheet that takes polynomials as inputs, and no quotient that feeds one.
pub fn is_promised(book: &SoundBook, functions: &[InputFunction]) -> bool {
    let polynomials = functions.iter().all(|f| f.as_polynomial().is_some());
    !has_antiderivative(book) || polynomials && !quotient_feeds_antiderivative(book)
}

/// Whether the sheet has an antiderivative.
pub fn has_antiderivative(book: &SoundBook) -> bool {
    book.steps.iter().any(|step| step.code == ANTIDERIVATIVE)
}

/// Whether a quotient feeds an antiderivative, directly or through other steps.
pub fn quotient_feeds_antiderivative(book: &SoundBook) -> bool {
    let fed = fed_by_quotient(&book.steps);
    let steps = book.steps.iter();
    steps
        .zip(fed)
        .any(|(step, fed)| step.code == ANTIDERIVATIVE && fed)
}

/// For each step whether it is a quotient or takes one in, directly or through
/// other steps.
pub fn fed_by_quotient(steps: &[Step]) -> Vec<bool> {
    let mut fed: Vec<bool> = Vec::new();
    for step in steps {
        let (a, b, _) = operands(step);
        let takes_one = match step.code {
            INPUT | CONSTANT | VARIABLE => false,
            NEGATE | SWEEP | ANTIDERIVATIVE => fed[a],
            ADD | SUBTRACT | MULTIPLY | SUBSTITUTE => fed[a] || fed[b],
            QUOTIENT => true,
            _ => unreachable!("test 6 leaves only the codes above"),
        };
        fed.push(takes_one);
    }
    fed
}

/// Outcomes by point and step. Each point is visited once, however often
/// substitutions lead there.
struct Outcomes<'a> {
    book: &'a SoundBook,
    functions: &'a [InputFunction],
    polynomials: &'a [Option<ExactPolynomial>],
    limit: &'a SizeLimit,
    visited: Vec<(Point, Vec<Option<Fraction>>)>,
}

impl Outcomes<'_> {
    /// The number of a point among those visited.
    fn visit(&mut self, point: &Point) -> Result<usize, NoOutcome> {
        let known = self.visited.iter().position(|(other, _)| other == point);
        if let Some(number) = known {
            return Ok(number);
        }
        if self.visited.len() == self.limit.points {
            return Err(NoOutcome::TooLarge);
        }
        let unknown = vec![None; self.book.steps.len()];
        self.visited.push((point.clone(), unknown));
        Ok(self.visited.len() - 1)
    }

    /// The point where coordinate v is another and the rest are as here.
    fn visit_moved(&mut self, here: usize, v: usize, other: Fraction) -> Result<usize, NoOutcome> {
        let mut point = self.visited[here].0.clone();
        point[v - 1] = other;
        self.visit(&point)
    }

    fn of_input(&self, model: usize, here: usize) -> Result<Fraction, NoOutcome> {
        let function = &self.functions[model];
        let point = &self.visited[here].0;
        if function.bits_at(point) > self.limit.bits {
            return Err(NoOutcome::TooLarge);
        }
        Ok(function.at(point))
    }

    fn of_polynomial(&self, number: usize, here: usize) -> Result<Fraction, NoOutcome> {
        let point = &self.visited[here].0;
        let polynomial = self.polynomials[number].as_ref();
        polynomial
            .filter(|polynomial| polynomial.bits_at(point) <= self.limit.bits)
            .map(|polynomial| polynomial.at(point))
            .ok_or(NoOutcome::TooLarge)
    }

    fn of_step(&mut self, number: usize, here: usize) -> Result<Fraction, NoOutcome> {
        if let Some(outcome) = &self.visited[here].1[number] {
            return Ok(outcome.clone());
        }
        let outcome = self.computed(number, here)?;
        if outcome.bits() > self.limit.bits {
            return Err(NoOutcome::TooLarge);
        }
        self.visited[here].1[number] = Some(outcome.clone());
        Ok(outcome)
    }

    fn computed(&mut self, number: usize, here: usize) -> Result<Fraction, NoOutcome> {
        let step = self.book.steps[number];
        let (a, b, v) = operands(&step);
        match step.code {
            INPUT => self.of_input(a, here),
            CONSTANT => Ok(constant_value(&step)),
            VARIABLE => Ok(self.visited[here].0[v - 1].clone()),
            NEGATE => Ok(-&self.of_step(a, here)?),
            ADD => Ok(&self.of_step(a, here)? + &self.of_step(b, here)?),
            SUBTRACT => Ok(&self.of_step(a, here)? - &self.of_step(b, here)?),
            MULTIPLY => Ok(&self.of_step(a, here)? * &self.of_step(b, here)?),
            SUBSTITUTE => {
                let coordinate = self.of_step(b, here)?;
                if !coordinate.is_in_box() {
                    return Err(NoOutcome::LeftBox(number));
                }
                let there = self.visit_moved(here, v, coordinate)?;
                self.of_step(a, there)
            }
            SWEEP => self.of_step(a, here),
            QUOTIENT => {
                let dividend = self.of_step(a, here)?;
                let divisor = self.of_step(b, here)?;
                let quotient = dividend.divided_by(&divisor);
                quotient.ok_or(NoOutcome::ZeroDivisor(number))
            }
            ANTIDERIVATIVE => self.of_polynomial(number, here),
            _ => unreachable!("test 6 leaves only the codes above"),
        }
    }
}

/// The outcome of each step as a polynomial, or none if it is above the limit or
/// comes from a quotient or from a function that is no polynomial.
pub fn outcome_polynomials(
    book: &SoundBook,
    functions: &[InputFunction],
    limit: &SizeLimit,
) -> Vec<Option<ExactPolynomial>> {
    let mut outcomes: Vec<Option<ExactPolynomial>> = Vec::new();
    for step in &book.steps {
        let outcome = polynomial_of_step(step, functions, &outcomes, limit);
        outcomes.push(outcome);
    }
    outcomes
}

/// A step too large to write down is none, and so is what depends on it; the
/// last step may do without it.
fn polynomial_of_step(
    step: &Step,
    functions: &[InputFunction],
    earlier: &[Option<ExactPolynomial>],
    limit: &SizeLimit,
) -> Option<ExactPolynomial> {
    let (a, b, v) = operands(step);
    let outcome = |number: usize| earlier[number].as_ref();
    match step.code {
        INPUT => functions[a].as_polynomial().cloned(),
        CONSTANT => Some(ExactPolynomial::constant(&constant_value(step))),
        VARIABLE => Some(ExactPolynomial::variable(v)),
        NEGATE => Some(outcome(a)?.negated()),
        ADD => Some(outcome(a)?.plus(outcome(b)?)),
        SUBTRACT => Some(outcome(a)?.plus(&outcome(b)?.negated())),
        MULTIPLY => outcome(a)?.times(outcome(b)?, limit),
        SUBSTITUTE => outcome(a)?.substituted(v, outcome(b)?, limit),
        SWEEP => outcome(a).cloned(),
        QUOTIENT => None,
        ANTIDERIVATIVE => outcome(a)?.antiderivative(v, limit),
        _ => unreachable!("test 6 leaves only the codes above"),
    }
}

fn operands(step: &Step) -> (usize, usize, usize) {
    let [a, b, v] = [step.a, step.b, step.v].map(usize::from);
    (a, b, v)
}

fn constant_value(step: &Step) -> Fraction {
    Fraction::of(i128::from(step.value), UNIT)
}
