//! Models and curves of what was measured in decimals.
//!
//! A decimal number is rarely a whole number of units. Each coefficient goes to the nearest unit; by what that leaves
//! the polynomial is off, so it all goes into the radius, beside the error of the measurement. That sum is rounded up,
//! and once: rounded down, a curve at the edge of the error would not be within the model, and its band would not be
//! promised.

#![forbid(unsafe_code)]

use hechroung::{Curve, Model, UNIT};

/// The model of a polynomial in n variables with up to 64 terms that is known to an error; the error and the
/// coefficients are whole numbers of parts, so many to 1. Everything is exact, in parts of a unit, up to the radius.
pub fn measured(n: u8, parts: i64, error: i64, terms: &[(u32, i64)]) -> Model {
    let mut model = Model { n, ..Model::ZERO };
    let mut left = UNIT * error;
    for &(key, value) in terms {
        let (coefficient, off) = nearest(parts, value);
        left += off;
        // A model has no terms of 0; what was rounded away is paid for.
        if coefficient != 0 {
            model.keys[model.count] = key;
            model.coefficients[model.count] = coefficient;
            model.count += 1;
        }
    }
    model.radius = rounded_up(parts, left);
    model
}

/// The same for a curve, by up to 16 coefficients of T_0, T_1 and on: no |T_k| is above 1, so that what a coefficient
/// is off by is again the most that the curve is.
pub fn measured_curve(parts: i64, error: i64, values: &[i64]) -> Curve {
    let mut curve = Curve::ZERO;
    let mut left = UNIT * error;
    for (place, &value) in curve.coefficients.iter_mut().zip(values) {
        let (coefficient, off) = nearest(parts, value);
        *place = coefficient;
        left += off;
    }
    curve.radius = rounded_up(parts, left);
    curve
}

/// The nearest coefficient of a value, which is a whole number of parts, so many to 1; and by how much it is off, in
/// parts of a unit.
fn nearest(parts: i64, value: i64) -> (i64, i64) {
    let coefficient = (2 * UNIT * value + parts).div_euclid(2 * parts);
    (coefficient, (UNIT * value - parts * coefficient).abs())
}

fn rounded_up(parts: i64, left: i64) -> u64 {
    let radius = (left + parts - 1) / parts;
    radius.try_into().expect("an error is not negative")
}
