//! The check of what a contradicting reading promises: no function within the model
//! passes through it.

use super::fraction::Fraction;
use super::outcome::Point;
use super::polynomial::ExactPolynomial;
use crate::model::{Model, UNIT};
use crate::readings::Reading;

/// The point of a reading.
pub fn point_of(reading: &Reading) -> Point {
    reading.point.map(|x| Fraction::of(x.into(), UNIT))
}

/// Whether some function within the model passes through the reading. At its point
/// they have every value that differs from the polynomial's by at most the radius,
/// and no other.
pub fn is_passed_through(model: &Model, reading: &Reading) -> bool {
    let value = ExactPolynomial::of_model(model).at(&point_of(reading));
    let units = &value * &Fraction::of(UNIT, 1);
    let radius = Fraction::of(model.radius, 1);
    let low = Fraction::of(reading.low.into(), 1);
    let high = Fraction::of(reading.high.into(), 1);
    &units - &radius <= high && low <= &units + &radius
}
