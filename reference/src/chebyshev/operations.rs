//! The operations of CR 10 on sound models.
//!
//! Coefficients are collected exactly, as whole numbers over a common divisor,
//! and each is rounded once after that. The one refusal left is 7.

use super::model::{ChebyshevModel, PLACES};
use super::table;
use crate::model::{Model, Polynomial, LARGEST_SPAN, ONE, UNIT};
use crate::operations::{divided_up, nearest, Cause, Ends};

/// All signs turned.
pub fn negate(f: &ChebyshevModel) -> ChebyshevModel {
    ChebyshevModel {
        coefficients: f.coefficients.map(|c| -c),
        radius: f.radius,
    }
}

/// Coefficients added place by place, radii added.
pub fn add(f: &ChebyshevModel, g: &ChebyshevModel) -> Result<ChebyshevModel, Cause> {
    tested(ChebyshevModel {
        coefficients: std::array::from_fn(|k| f.coefficients[k] + g.coefficients[k]),
        radius: f.radius + g.radius,
    })
}

/// Adds the negated second.
pub fn subtract(f: &ChebyshevModel, g: &ChebyshevModel) -> Result<ChebyshevModel, Cause> {
    add(f, &negate(g))
}

/// The product by T_i × T_j = (T_(i+j) + T_|i-j|) / 2. What is collected stands
/// for units over 2 U: U as a product of two coefficients has it, 2 by the rule.
pub fn multiply(f: &ChebyshevModel, g: &ChebyshevModel) -> Result<ChebyshevModel, Cause> {
    let carried =
        f.coefficient_sum() * g.radius + g.coefficient_sum() * f.radius + f.radius * g.radius;
    rounded(&doubled_products(f, g), 2 * UNIT, 2 * carried)
}

/// Twice the coefficients of T_0 to T_30 that the product has.
fn doubled_products(f: &ChebyshevModel, g: &ChebyshevModel) -> [i128; 2 * PLACES - 1] {
    let mut collected = [0; 2 * PLACES - 1];
    for (i, a) in f.coefficients.iter().enumerate() {
        for (j, b) in g.coefficients.iter().enumerate() {
            collected[i + j] += a * b;
            collected[i.abs_diff(j)] += a * b;
        }
    }
    collected
}

/// The constant coefficient, minus and plus the sum of the other |c| and e. CR 3
/// does not change it: T_2 runs from -1 to 1 as all others do.
pub fn range(f: &ChebyshevModel) -> Ends {
    let constant = f.coefficients[0];
    let others: i128 = f.coefficients[1..].iter().map(|c| c.abs()).sum();
    Ends {
        low: constant - others - f.radius,
        high: constant + others + f.radius,
    }
}

/// The same polynomial in powers; nothing is rounded, and the radius stays.
pub fn to_powers(f: &ChebyshevModel) -> Result<Model, Cause> {
    let coefficients = combined(&f.coefficients, &table::polynomials_in_powers());
    let mut polynomial = Polynomial::new();
    for (power, c) in coefficients.into_iter().enumerate() {
        if c != 0 {
            let mut monomial = ONE;
            monomial[0] = power as u8;
            polynomial.insert(monomial, c);
        }
    }
    let model = Model {
        n: 1,
        polynomial,
        radius: f.radius,
    };
    if model.span() > LARGEST_SPAN {
        return Err(Cause::Span);
    }
    Ok(model)
}

/// A power model of one variable in Chebyshev polynomials.
pub fn from_powers(f: &Model) -> Result<ChebyshevModel, Cause> {
    assert_eq!(f.n, 1, "13 is tested before");
    let mut powers = [0; PLACES];
    for (monomial, &c) in &f.polynomial {
        powers[usize::from(monomial[0])] = c;
    }
    let collected = combined(&powers, &table::powers_in_polynomials());
    rounded(&collected, table::DIVISOR, table::DIVISOR * f.radius)
}

/// The sum of the rows, each times its coefficient.
fn combined(coefficients: &table::Row, rows: &[table::Row; PLACES]) -> table::Row {
    std::array::from_fn(|place| {
        let shares = coefficients.iter().zip(rows);
        shares.map(|(c, row)| c * row[place]).sum()
    })
}

/// Each collected coefficient up to T_15, over the divisor, to nearest with ties
/// to even. The residuals and the sizes of those above T_15 come to the excess;
/// the radius is all of it over the divisor, rounded up once.
fn rounded(collected: &[i128], divisor: i128, mut excess: i128) -> Result<ChebyshevModel, Cause> {
    let mut coefficients = [0; PLACES];
    for (k, &z) in collected.iter().enumerate() {
        match coefficients.get_mut(k) {
            Some(coefficient) => {
                *coefficient = nearest(z, divisor);
                excess += (z - *coefficient * divisor).abs();
            }
            None => excess += z.abs(),
        }
    }
    tested(ChebyshevModel {
        coefficients,
        radius: divided_up(excess, divisor),
    })
}

fn tested(model: ChebyshevModel) -> Result<ChebyshevModel, Cause> {
    if model.span() > LARGEST_SPAN {
        Err(Cause::Span)
    } else {
        Ok(model)
    }
}
