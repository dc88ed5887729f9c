//! Chebyshev curves: models of one variable by their coefficients of the Chebyshev polynomials T_0 to T_15 (T_0 = 1,
//! T_1 = x, T_(k+1) = 2 x T_k - T_(k-1)). Functions within the operands of a call give a function within its answer.
//!
//! ```
//! use hechroung::{curves, Curve, UNIT};
//!
//! // T_1 × T_1 = (T_2 + T_0) / 2, which is x².
//! let mut x = Curve::ZERO;
//! x.coefficients[1] = UNIT;
//! let square = curves::multiply(&x, &x)?;
//! assert_eq!(square.coefficients[..3], [UNIT / 2, 0, UNIT / 2]);
//! let powers = curves::to_powers(&square)?;
//! assert_eq!(powers.terms().collect::<Vec<_>>(), [(0x2000_0000, UNIT)]);
//! # Ok::<(), hechroung::Refusal>(())
//! ```

use crate::raw::{self, code, HandedCurve};
use crate::{accepted, answered, Ends, Model, Refusal, CURVE_PLACES};

/// A curve: the coefficients of T_0 to T_15, any of which may be 0, and a radius. Any field may hold anything; a call
/// refuses with 5 what is above the span of 2^30.
#[derive(Clone, Copy, Debug, PartialEq, Eq)]
pub struct Curve {
    /// That of T_0 first, in units.
    pub coefficients: [i64; CURVE_PLACES],
    /// How far a function within the curve may lie from the polynomial, in units.
    pub radius: u64,
}

impl Curve {
    /// All zeros.
    pub const ZERO: Curve = Curve {
        coefficients: [0; CURVE_PLACES],
        radius: 0,
    };

    fn handed(&self) -> HandedCurve<'_> {
        HandedCurve {
            coefficients: &self.coefficients,
            radius: self.radius,
        }
    }
}

/// All signs turned. Refusal 5.
pub fn negate(f: &Curve) -> Result<Curve, Refusal> {
    called(code::NEGATE, f, f)
}

/// The sum. Refusals 5 at place 0 or 1, 7.
pub fn add(f: &Curve, g: &Curve) -> Result<Curve, Refusal> {
    called(code::ADD, f, g)
}

/// The difference. Refusals 5 at place 0 or 1, 7.
pub fn subtract(f: &Curve, g: &Curve) -> Result<Curve, Refusal> {
    called(code::SUBTRACT, f, g)
}

/// The product by T_i × T_j = (T_(i+j) + T_|i-j|) / 2; what is above T_15, and what rounding leaves, goes into the
/// radius. Refusals 5 at place 0 or 1, 7.
pub fn multiply(f: &Curve, g: &Curve) -> Result<Curve, Refusal> {
    called(code::MULTIPLY, f, g)
}

/// The range over [-1, 1]. Refusal 5.
pub fn range(f: &Curve) -> Result<Ends, Refusal> {
    let mut ends = [0; 2];
    accepted(raw::curve_range(f.handed(), &mut ends), 0)?;
    let [low, high] = ends;
    Ok(Ends { low, high })
}

/// The model of one variable with the same polynomial, exactly, and the same radius. Refusals 5, 7.
pub fn to_powers(f: &Curve) -> Result<Model, Refusal> {
    answered(|model, numbers| {
        raw::to_powers(
            f.handed(),
            &mut model.keys,
            &mut model.coefficients,
            numbers,
        )
    })
}

/// The curve of a model of one variable; what rounding leaves goes into the radius. Refusals 5, 13 where n is not 1, 7.
pub fn from_powers(f: &Model) -> Result<Curve, Refusal> {
    stored(|curve, numbers| raw::from_powers(f.handed(), &mut curve.coefficients, numbers))
}

fn called(code: u8, f: &Curve, g: &Curve) -> Result<Curve, Refusal> {
    stored(|curve, numbers| {
        raw::curve(
            code,
            f.handed(),
            g.handed(),
            &mut curve.coefficients,
            numbers,
        )
    })
}

/// The curve that a call stored.
fn stored(call: impl FnOnce(&mut Curve, &mut [u64]) -> u8) -> Result<Curve, Refusal> {
    let mut curve = Curve::ZERO;
    let mut numbers = [0; 2];
    let number = call(&mut curve, &mut numbers);
    let [place, radius] = numbers;
    accepted(number, place)?;
    curve.radius = radius;
    Ok(curve)
}
