//! Exact fractions, and the check of demand 3 (document 01, "The exact outcome").
//!
//! Nothing here uses [`crate::operations`]: the outcome is made from a sheet's
//! models and steps alone, and only then compared with what a run claims.
//! [`chebyshev`] does this for the calls on Chebyshev curves, [`cuts`] for ranges of
//! a cut box, [`doubles`] for records of doubles, [`readings`] for readings.

pub mod chebyshev;
pub mod check;
pub mod cuts;
pub mod doubles;
pub mod fraction;
pub mod function;
pub mod integer;
pub mod outcome;
pub mod polynomial;
pub mod readings;

pub use check::{check_result, check_sheet, Checked, Violation};
pub use fraction::Fraction;
pub use function::InputFunction;
pub use integer::Integer;
pub use outcome::Point;
pub use polynomial::{ExactPolynomial, SizeLimit};
