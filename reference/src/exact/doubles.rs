//! The check of what a delivered record promises: any function within theirs is
//! within ours, and the model is the nearest one.

use super::fraction::Fraction;
use super::function::jump_at;
use super::integer::Integer;
use super::outcome::Point;
use super::polynomial::ExactPolynomial;
use crate::doubles::Record;
use crate::model::{Model, MOST_VARIABLES, UNIT};

/// The exact value of a double, by its bits; none if it is not finite. With s the
/// sign, f the 52 low bits and E the 11 between: (-1)^s × (1 + f / 2^52) × 2^(E - 1023),
/// and (-1)^s × f / 2^52 × 2^-1022 where E is 0.
pub fn value_of(bits: u64) -> Option<Fraction> {
    let (sign, exponent) = (bits >> 63, (bits >> 52) as usize % 2_048);
    let fraction = i128::from(bits % (1 << 52));
    if exponent == 2_047 {
        return None;
    }
    let whole = i128::from(exponent > 0) << 52;
    let size = Fraction::of(whole + fraction, 1 << 52);
    let above = Integer::power_of_two(exponent.max(1));
    let below = Integer::power_of_two(1_023);
    let size = &size * &Fraction::new(above, below);
    Some(if sign == 1 { -&size } else { size })
}

/// What the supplier says, exactly.
#[derive(Clone, Debug, PartialEq, Eq)]
pub struct Delivered {
    pub coefficients: [Fraction; 3],
    pub radius: Fraction,
}

impl Delivered {
    /// The values of a record, if all are finite and the radius is not negative.
    pub fn of(record: &Record) -> Option<Delivered> {
        let [c0, c1, c2] = record.coefficients.map(value_of);
        let radius = value_of(record.radius)?;
        if radius < Fraction::zero() {
            return None;
        }
        Some(Delivered {
            coefficients: [c0?, c1?, c2?],
            radius,
        })
    }

    /// A function within theirs: the polynomial plus a part of the radius, which
    /// jumps from point to point.
    pub fn function_at(&self, point: &Point, seed: u64) -> Fraction {
        let [c0, c1, c2] = &self.coefficients;
        let x = &point[0];
        let slope = &(c2 * x) + c1;
        let value = &(&slope * x) + c0;
        &value + &(&self.radius * &jump_at(point, seed))
    }
}

/// Where a promise is false.
#[derive(Clone, Debug, PartialEq, Eq)]
pub enum Violation {
    /// A function within theirs is not within ours.
    Radius(Box<Point>),
    /// A coefficient is not the nearest whole number of units, or a tie is not even.
    NotNearest(usize),
    /// The radius is not U times theirs rounded up, plus 1 for each inexact one.
    NotRoundedUp,
    /// The model has another number of variables, or other terms.
    Terms,
}

/// Checks a model that was claimed of a record, wherever it came from.
pub fn check_model(
    delivered: &Delivered,
    model: &Model,
    points: &[Point],
    seed: u64,
) -> Result<(), Violation> {
    check_rounding(delivered, model)?;
    let polynomial = ExactPolynomial::of_model(model);
    let radius = Fraction::of(model.radius, UNIT);
    for point in points {
        let value = delivered.function_at(point, seed);
        if (&value - &polynomial.at(point)).abs() > radius {
            return Err(Violation::Radius(Box::new(point.clone())));
        }
    }
    Ok(())
}

fn check_rounding(delivered: &Delivered, model: &Model) -> Result<(), Violation> {
    let unit = Fraction::of(UNIT, 1);
    let half = Fraction::of(1, 2);
    let mut terms = 0;
    let mut inexact = 0;
    for (power, coefficient) in delivered.coefficients.iter().enumerate() {
        let mut monomial = [0; MOST_VARIABLES];
        monomial[0] = power as u8;
        let c = model.polynomial.get(&monomial).copied().unwrap_or(0);
        let rest = (&(coefficient * &unit) - &Fraction::of(c, 1)).abs();
        if rest > half || rest == half && c % 2 != 0 {
            return Err(Violation::NotNearest(power));
        }
        terms += usize::from(c != 0);
        inexact += i128::from(rest != Fraction::zero());
    }
    if model.n != 1 || model.polynomial.len() != terms {
        return Err(Violation::Terms);
    }
    let added = &Fraction::of(model.radius - inexact, 1) - &(&delivered.radius * &unit);
    if added < Fraction::zero() || added >= Fraction::one() {
        return Err(Violation::NotRoundedUp);
    }
    Ok(())
}
