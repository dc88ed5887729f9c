//! The operations of documents 01 and 02 on sound models with equal n.
//!
//! Arguments are already tested here; what can still happen is a [`Cause`].

use crate::model::{
    degree, Model, Monomial, Polynomial, FEW_VARIABLES, LARGEST_DEGREE, LARGEST_SPAN, MOST_TERMS,
    MOST_VARIABLES, ONE, UNIT,
};
use crate::refusal::Refusal;
use crate::shares::{Reported, Shares};
use std::cmp::Ordering;
use std::collections::BTreeMap;

/// Why an operation on sound models is refused. The place is not known here:
/// it is a step number on a sheet and 0 in a single call.
#[derive(Clone, Copy, Debug, PartialEq, Eq)]
pub enum Cause {
    Span,
    Terms,
    OutsideBox,
    Uncertified,
}

impl Cause {
    pub fn at(self, place: usize) -> Refusal {
        match self {
            Cause::Span => Refusal::Span(place),
            Cause::Terms => Refusal::Terms(place),
            Cause::OutsideBox => Refusal::OutsideBox(place),
            Cause::Uncertified => Refusal::Uncertified(place),
        }
    }
}

/// A low and a high end, both in units of 1 / U.
#[derive(Clone, Copy, Debug, Default, PartialEq, Eq)]
pub struct Ends {
    pub low: i128,
    pub high: i128,
}

/// D: the product of (exponent + 1) of every monomial of degree at most 15 in
/// four variables whose exponents are all even divides it.
pub const DENOMINATOR: i128 = 212_837_625;

/// A whole number of units and a rest: q + r / D, with r from 0 to D - 1.
#[derive(Clone, Copy, Debug, Default, PartialEq, Eq)]
pub struct Exact {
    pub quotient: i128,
    pub remainder: i128,
}

/// The integral over the box: its ends, and up to four variables that of the
/// polynomial part without any rounding; above, this is 0.
#[derive(Clone, Copy, Debug, Default, PartialEq, Eq)]
pub struct Integral {
    pub ends: Ends,
    pub exact: Exact,
}

/// One term of key 0, or none if the value is 0.
pub fn constant(n: usize, value: i128) -> Model {
    let mut model = Model::zero(n);
    if value != 0 {
        model.polynomial.insert(ONE, value);
    }
    model
}

/// One term, coefficient U. Variables are counted from 1.
pub fn variable(n: usize, i: usize) -> Model {
    let mut monomial = ONE;
    monomial[i - 1] = 1;
    let mut model = Model::zero(n);
    model.polynomial.insert(monomial, UNIT);
    model
}

/// All signs turned.
pub fn negate(f: &Model) -> Model {
    let turned = f.polynomial.iter().map(|(&monomial, &c)| (monomial, -c));
    Model {
        n: f.n,
        polynomial: turned.collect(),
        radius: f.radius,
    }
}

/// Coefficients of equal keys added, zeros dropped, radii added.
pub fn add(f: &Model, g: &Model) -> Result<Model, Cause> {
    let mut polynomial = f.polynomial.clone();
    for (&monomial, &c) in &g.polynomial {
        *polynomial.entry(monomial).or_insert(0) += c;
    }
    polynomial.retain(|_, c| *c != 0);
    tested(Model {
        n: f.n,
        polynomial,
        radius: f.radius + g.radius,
    })
}

/// Adds the negated second.
pub fn subtract(f: &Model, g: &Model) -> Result<Model, Cause> {
    add(f, &negate(g))
}

/// The product with the given order.
pub fn multiply(f: &Model, g: &Model, order: u32) -> Result<Model, Cause> {
    multiply_reported(f, g, order).map(|product| product.model)
}

/// The product with the given order, and where its radius came from.
pub fn multiply_reported(f: &Model, g: &Model, order: u32) -> Result<Reported, Cause> {
    let mut shares = Shares {
        carried: f.coefficient_sum() * g.radius
            + g.coefficient_sum() * f.radius
            + f.radius * g.radius,
        ..Shares::default()
    };
    let mut polynomial = Polynomial::new();
    for (monomial, z) in collected_products(&f.polynomial, &g.polynomial) {
        if degree(&monomial) > order {
            shares.swept += z.abs();
            continue;
        }
        let c = nearest(z, UNIT);
        shares.rounding += (z - c * UNIT).abs();
        if c != 0 {
            polynomial.insert(monomial, c);
        }
    }
    let excess = shares.sum();
    let radius = divided_up(excess, UNIT);
    shares.slack = radius * UNIT - excess;
    let model = tested(Model {
        n: f.n,
        polynomial,
        radius,
    })?;
    Ok(Reported { model, shares })
}

/// For each monomial the sum z of all products that meet there.
fn collected_products(f: &Polynomial, g: &Polynomial) -> Polynomial {
    let mut products = Polynomial::new();
    for (left, a) in f {
        for (right, b) in g {
            *products.entry(monomial_product(left, right)).or_insert(0) += a * b;
        }
    }
    products
}

fn monomial_product(left: &Monomial, right: &Monomial) -> Monomial {
    std::array::from_fn(|i| left[i] + right[i])
}

/// Rounded to the nearest whole number; halfway cases go to the even one. The
/// divisor is positive.
pub(crate) fn nearest(number: i128, divisor: i128) -> i128 {
    let below = divided_down(number, divisor);
    let rest = number - below * divisor;
    match (2 * rest).cmp(&divisor) {
        Ordering::Less => below,
        Ordering::Greater => below + 1,
        Ordering::Equal => below + below.rem_euclid(2),
    }
}

/// Rounded toward minus infinity; the divisor is positive.
fn divided_down(number: i128, divisor: i128) -> i128 {
    number.div_euclid(divisor)
}

/// Rounded toward plus infinity; the divisor is positive.
pub(crate) fn divided_up(number: i128, divisor: i128) -> i128 {
    -divided_down(-number, divisor)
}

/// Puts g for variable i (from 1) into f, by Horner's rule.
pub fn substitute(f: &Model, g: &Model, i: usize, order: u32) -> Result<Model, Cause> {
    substitute_reported(f, g, i, order).map(|substituted| substituted.model)
}

/// The same, and where the radius came from: the shares of the last product, if
/// one was made, and the radius of f as carried. Those of earlier products are
/// in the radius of a factor of the last one, and carried by it.
pub fn substitute_reported(f: &Model, g: &Model, i: usize, order: u32) -> Result<Reported, Cause> {
    let Ends { low, high } = range(g);
    if low < -UNIT || high > UNIT {
        return Err(Cause::OutsideBox);
    }
    let parts = split(f, i);
    let part = |k: u8| Model {
        n: f.n,
        polynomial: parts.get(&k).cloned().unwrap_or_default(),
        radius: 0,
    };
    let largest = parts.keys().next_back().copied().unwrap_or(0);
    let mut result = part(largest);
    let mut shares = Shares::default();
    for k in (0..largest).rev() {
        let product = multiply_reported(&result, g, order)?;
        shares = product.shares;
        result = add(&product.model, &part(k))?;
    }
    let radius_of_f = Model {
        radius: f.radius,
        ..Model::zero(f.n)
    };
    let model = add(&result, &radius_of_f)?;
    shares.carried += UNIT * f.radius;
    Ok(Reported { model, shares })
}

/// The parts f_k: what multiplies the k-th power of variable i (from 1).
fn split(f: &Model, i: usize) -> BTreeMap<u8, Polynomial> {
    let mut parts: BTreeMap<u8, Polynomial> = BTreeMap::new();
    for (monomial, &c) in &f.polynomial {
        let mut rest = *monomial;
        let k = std::mem::take(&mut rest[i - 1]);
        parts.entry(k).or_default().insert(rest, c);
    }
    parts
}

/// f / g, from a proposal: h should be near f / g, and w near 1 / g. Both are
/// taken without their radii.
///
/// Where |1 - w × g| is at most mu / U, which is below 1, neither w nor g is
/// zero, and h differs from f / g by |w × (g × h - f)| over |w × g|, which is
/// at most beta / (U - mu).
pub fn quotient(f: &Model, g: &Model, h: &Model, w: &Model, order: u32) -> Result<Model, Cause> {
    let h = without_radius(h);
    let w = without_radius(w);
    let defect = subtract(&multiply(g, &h, order)?, f)?;
    let weighted_defect = multiply(&w, &defect, order)?;
    let weighted_divisor = multiply(&w, g, order)?;
    let distance_from_one = subtract(&constant(f.n, UNIT), &weighted_divisor)?;
    let beta = largest_size(range(&weighted_defect));
    let mu = largest_size(range(&distance_from_one));
    if mu >= UNIT {
        return Err(Cause::Uncertified);
    }
    tested(Model {
        radius: divided_up(beta * UNIT, UNIT - mu),
        ..h
    })
}

fn without_radius(f: &Model) -> Model {
    Model {
        radius: 0,
        ..f.clone()
    }
}

/// The largest size of the two ends.
fn largest_size(ends: Ends) -> i128 {
    ends.low.abs().max(ends.high.abs())
}

/// Drops every term but the constant one with |c| at most the threshold and
/// adds |c| to the radius.
pub fn sweep(f: &Model, threshold: i128) -> Model {
    sweep_reported(f, threshold).model
}

/// The same, and where the radius came from: the old one is carried.
pub fn sweep_reported(f: &Model, threshold: i128) -> Reported {
    let mut shares = Shares::all_carried(f);
    let mut swept = Model::zero(f.n);
    swept.radius = f.radius;
    for (&monomial, &c) in &f.polynomial {
        if monomial != ONE && c.abs() <= threshold {
            swept.radius += c.abs();
            shares.swept += UNIT * c.abs();
        } else {
            swept.polynomial.insert(monomial, c);
        }
    }
    Reported {
        model: swept,
        shares,
    }
}

/// The antiderivative in variable i (from 1) that is zero wherever that variable
/// is 0. Neither more terms nor a larger span can come of it: a term's rounded
/// share and what it adds to the radius are together at most |c|.
pub fn antiderivative(f: &Model, i: usize, order: u32) -> Model {
    antiderivative_reported(f, i, order).model
}

/// The same, and where the radius came from: the old one is carried.
pub fn antiderivative_reported(f: &Model, i: usize, order: u32) -> Reported {
    let mut shares = Shares::all_carried(f);
    let mut gathered = Model::zero(f.n);
    gathered.radius = f.radius;
    for (monomial, &c) in &f.polynomial {
        let mut raised = *monomial;
        raised[i - 1] += 1;
        let k = i128::from(raised[i - 1]);
        if degree(&raised) > order {
            let growth = divided_up(c.abs(), k);
            gathered.radius += growth;
            shares.swept += UNIT * growth;
            continue;
        }
        let share = nearest(c, k);
        if share * k != c {
            // Counted also where the share is 0 and dropped.
            gathered.radius += 1;
            shares.rounding += UNIT;
        }
        if share != 0 {
            gathered.polynomial.insert(raised, share);
        }
    }
    Reported {
        model: gathered,
        shares,
    }
}

/// The constant coefficient, minus and plus e and what the other terms count:
/// between 0 and c where all exponents are even, otherwise between -|c| and |c|.
pub fn range(f: &Model) -> Ends {
    let mut ends = Ends {
        low: -f.radius,
        high: f.radius,
    };
    for (monomial, &c) in &f.polynomial {
        let (low, high) = if *monomial == ONE {
            (c, c)
        } else if monomial.iter().all(|exponent| exponent % 2 == 0) {
            (c.min(0), c.max(0))
        } else {
            (-c.abs(), c.abs())
        };
        ends.low += low;
        ends.high += high;
    }
    ends
}

/// The integral over the box: with its remainder up to four variables, term by
/// term above.
pub fn integral(f: &Model) -> Integral {
    if f.n <= FEW_VARIABLES {
        return integral_with_remainder(f);
    }
    Integral {
        ends: integral_by_terms(f),
        exact: Exact::default(),
    }
}

/// All terms are summed over one denominator, and rounded once. There are at most
/// four variables.
fn integral_with_remainder(f: &Model) -> Integral {
    let volume = 1_i128 << f.n;
    let total: i128 = even_terms(f)
        .map(|(divisor, c)| {
            assert_eq!(DENOMINATOR % divisor, 0, "D serves every even term");
            c * volume * (DENOMINATOR / divisor)
        })
        .sum();
    let quotient = divided_down(total, DENOMINATOR);
    let remainder = total - quotient * DENOMINATOR;
    let above = i128::from(remainder != 0);
    Integral {
        ends: Ends {
            low: quotient - volume * f.radius,
            high: quotient + volume * f.radius + above,
        },
        exact: Exact {
            quotient,
            remainder,
        },
    }
}

/// The ends of document 01, where each term is rounded by itself.
pub fn integral_by_terms(f: &Model) -> Ends {
    let volume = 1_i128 << f.n;
    let mut ends = Ends {
        low: -volume * f.radius,
        high: volume * f.radius,
    };
    for (divisor, c) in even_terms(f) {
        ends.low += divided_down(c * volume, divisor);
        ends.high += divided_up(c * volume, divisor);
    }
    ends
}

/// Of each term whose exponents are all even the product of (exponent + 1), to
/// which the variables above n give 1, and the coefficient. The other terms have
/// the integral 0.
fn even_terms(f: &Model) -> impl Iterator<Item = (i128, i128)> + '_ {
    let is_even = |monomial: &Monomial| monomial.iter().all(|k| k % 2 == 0);
    let even = f.polynomial.iter().filter(move |(m, _)| is_even(m));
    even.map(|(monomial, &c)| (monomial.iter().map(|&k| i128::from(k) + 1).product(), c))
}

/// The range of what is left once the constants are put in, one after another.
pub fn evaluate(f: &Model, point: &[i128; MOST_VARIABLES]) -> Result<Ends, Cause> {
    let mut rest = f.clone();
    for (index, &coordinate) in point.iter().enumerate().take(f.n) {
        let value = constant(f.n, coordinate);
        rest = substitute(&rest, &value, index + 1, LARGEST_DEGREE)?;
    }
    Ok(range(&rest))
}

/// Tests a product or sum: 8 comes before 7.
fn tested(model: Model) -> Result<Model, Cause> {
    if model.polynomial.len() > MOST_TERMS {
        Err(Cause::Terms)
    } else if model.span() > LARGEST_SPAN {
        Err(Cause::Span)
    } else {
        Ok(model)
    }
}
