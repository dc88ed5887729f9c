//! Proposals for quotients: a polynomial h near f / g and a polynomial w near
//! 1 / g. Nothing vouches for them; a run tests what they are worth.

use super::random::Random;
use crate::model::{degree, Model, LARGEST_SPAN, UNIT};
use crate::operations::{add, constant, multiply, range, subtract, sweep, Cause, Ends};

/// A proposal for one quotient.
#[derive(Clone, Debug, PartialEq, Eq)]
pub struct Proposal {
    pub h: Model,
    pub w: Model,
}

/// A proposal by Newton's rule, or none where g's middle has no inverse. It
/// may be bad, so that a run can still refuse it.
pub fn proposal(random: &mut Random, f: &Model, g: &Model, order: u32) -> Option<Proposal> {
    let (f, g) = (polynomial_of(f), polynomial_of(g));
    let mut w = middle_inverse(&g)?;
    for _ in 0..random.below(3) {
        w = closer_inverse(random, &w, &g, order).unwrap_or(w);
    }
    match random.below(6) {
        0 => w.polynomial.retain(|monomial, _| degree(monomial) <= 1),
        1 => w = scaled(random, &w),
        _ => {}
    }
    let mut h = multiply(&f, &w, order).ok().map(|h| polynomial_of(&h))?;
    if random.one_in(2) {
        h = closer_quotient(random, &f, &g, &h, &w, order).unwrap_or(h);
    }
    Some(Proposal { h, w })
}

/// The model without its radius.
fn polynomial_of(f: &Model) -> Model {
    Model {
        radius: 0,
        ..f.clone()
    }
}

/// The constant 1 / c, with c the middle of g's range.
pub fn middle_inverse(g: &Model) -> Option<Model> {
    let Ends { low, high } = range(g);
    let inverse = (UNIT * UNIT).checked_div((low + high) / 2)?;
    let fits = inverse != 0 && inverse.abs() <= LARGEST_SPAN;
    fits.then(|| constant(g.n, inverse))
}

/// One Newton step: w × (2 - g × w).
fn closer_inverse(random: &mut Random, w: &Model, g: &Model, order: u32) -> Option<Model> {
    let next = || -> Result<Model, Cause> {
        let two = constant(w.n, 2 * UNIT);
        let factor = subtract(&two, &multiply(g, w, order)?)?;
        multiply(w, &factor, order)
    };
    next().ok().map(|next| thinned(random, &next))
}

/// One Newton step: h + w × (f - g × h).
fn closer_quotient(
    random: &mut Random,
    f: &Model,
    g: &Model,
    h: &Model,
    w: &Model,
    order: u32,
) -> Option<Model> {
    let next = || -> Result<Model, Cause> {
        let rest = subtract(f, &multiply(g, h, order)?)?;
        add(h, &multiply(w, &rest, order)?)
    };
    next().ok().map(|next| thinned(random, &next))
}

/// Without its small terms, as many terms soon leave no room for a product.
fn thinned(random: &mut Random, f: &Model) -> Model {
    let threshold = *random.pick(&[0, 16, 1_000, 20_000]);
    polynomial_of(&sweep(f, threshold))
}

/// Off by up to a half of itself, so that mu takes every size below U.
fn scaled(random: &mut Random, w: &Model) -> Model {
    let parts = random.between(512, 1536);
    let mut scaled = w.clone();
    for c in scaled.polynomial.values_mut() {
        *c = *c * i128::from(parts) / 1024;
    }
    scaled.polynomial.retain(|_, c| *c != 0);
    if scaled.span() > LARGEST_SPAN {
        return w.clone();
    }
    scaled
}
