//! Functions within a model, as inputs of the exact outcome.

use super::fraction::Fraction;
use super::outcome::Point;
use super::polynomial::ExactPolynomial;
use crate::model::{Model, UNIT};

/// A function for the place of a sheet's model.
#[derive(Clone, Debug)]
pub enum InputFunction {
    Polynomial(ExactPolynomial),
    /// The polynomial plus a deviation that jumps from point to point: the
    /// claim holds for any function within the model, not for smooth ones only.
    Jumping {
        polynomial: ExactPolynomial,
        radius: Fraction,
        seed: u64,
    },
}

impl InputFunction {
    pub fn jumping(model: &Model, seed: u64) -> InputFunction {
        InputFunction::Jumping {
            polynomial: ExactPolynomial::of_model(model),
            radius: Fraction::of(model.radius, UNIT),
            seed,
        }
    }

    pub fn as_polynomial(&self) -> Option<&ExactPolynomial> {
        match self {
            InputFunction::Polynomial(polynomial) => Some(polynomial),
            InputFunction::Jumping { .. } => None,
        }
    }

    /// The value at a point.
    pub fn at(&self, point: &Point) -> Fraction {
        match self {
            InputFunction::Polynomial(polynomial) => polynomial.at(point),
            InputFunction::Jumping {
                polynomial,
                radius,
                seed,
            } => &polynomial.at(point) + &(radius * &jump_at(point, *seed)),
        }
    }

    /// An upper bound of the bits of the denominator at a point, but for the
    /// few of a jump.
    pub fn bits_at(&self, point: &Point) -> usize {
        match self {
            InputFunction::Polynomial(polynomial) | InputFunction::Jumping { polynomial, .. } => {
                polynomial.bits_at(point)
            }
        }
    }
}

/// A share of the radius from -1 to 1 that depends on the point and not on how
/// its fractions are written. The ends come most often, as they test most.
pub(super) fn jump_at(point: &Point, seed: u64) -> Fraction {
    let mixed = point.iter().fold(seed, |mixed, coordinate| {
        (mixed ^ coordinate.fingerprint())
            .wrapping_mul(0x9E37_79B9_7F4A_7C15)
            .rotate_left(29)
    });
    match mixed >> 61 {
        0..=2 => Fraction::of(-1, 1),
        3..=5 => Fraction::of(1, 1),
        6 => Fraction::of(-1, 3),
        _ => Fraction::zero(),
    }
}
