//! Curves that are delivered in doubles.

use crate::{answered, raw, Model, Refusal};

/// A curve in one variable as it is delivered: c0 + c1 x + c2 x², and how far from it the true values may lie.
#[derive(Clone, Copy, Debug, PartialEq)]
pub struct Doubles {
    /// The constant.
    pub c0: f64,
    /// The coefficient of x.
    pub c1: f64,
    /// The coefficient of x².
    pub c2: f64,
    /// How far the true values may lie from the curve.
    pub radius: f64,
}

/// The model of a curve in doubles: every function within the curve is within the model. Each coefficient times
/// [`UNIT`](crate::UNIT) goes to the nearest whole number, ties to even; the radius is rounded up, and is larger by 1
/// for each coefficient that is inexact. Refusals 16 where a value is not finite or the radius is negative, 7.
///
/// ```
/// use hechroung::{from_doubles, Doubles, UNIT};
///
/// let theirs = Doubles { c0: 1.5, c1: 0.1, c2: 0.0, radius: 1e-6 };
/// let model = from_doubles(&theirs)?;
/// assert_eq!(model.coefficients[..2], [UNIT * 3 / 2, 104_858]);
/// // 1.05 units rounded up, and 1 since a tenth is no whole number of units.
/// assert_eq!((model.count, model.radius), (2, 3));
///
/// let refusal = from_doubles(&Doubles { radius: -1.0, ..theirs }).unwrap_err();
/// assert_eq!((refusal.number, refusal.place), (16, 0));
/// # Ok::<(), hechroung::Refusal>(())
/// ```
pub fn from_doubles(curve: &Doubles) -> Result<Model, Refusal> {
    answered(|model, numbers| {
        raw::doubles(
            [curve.c0, curve.c1, curve.c2],
            curve.radius,
            &mut model.keys,
            &mut model.coefficients,
            numbers,
        )
    })
}
