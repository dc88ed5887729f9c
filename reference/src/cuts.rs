//! Narrower ranges by cutting the box (document 02, CR 11).
//!
//! One variable is cut into 2^k equal pieces. On each the model is substituted
//! for, so that the piece becomes the whole box, and its range is taken.

use crate::calls::{handed_order, handed_variable, require, EndsAnswer};
use crate::model::{Model, UNIT};
use crate::operations::{self, range, substitute, Ends};
use crate::refusal::Refusal;
use crate::stored::StoredModel;

/// The largest depth: 64 pieces.
pub const DEEPEST: u8 = 6;

/// A call with its arguments: a model, the variable to cut (from 1), the depth k
/// and the order of the substitutions.
#[derive(Clone, Debug, PartialEq, Eq)]
pub struct Call {
    pub f: Box<StoredModel>,
    pub i: u8,
    pub depth: u8,
    pub order: u8,
}

impl Call {
    /// Makes the call.
    pub fn answer(&self) -> EndsAnswer {
        cut_range(&self.f, self.i, self.depth, self.order)
    }
}

/// The range of f with the box cut in variable i (from 1). Tests 3 (the order), 5,
/// 6 (the variable), 14 (the depth), and then what the substitutions of the pieces
/// give, from the first on: theirs have the piece as place.
pub fn cut_range(f: &StoredModel, i: u8, depth: u8, order: u8) -> EndsAnswer {
    EndsAnswer::from(try_cut_range(f, i, depth, order))
}

fn try_cut_range(f: &StoredModel, i: u8, depth: u8, order: u8) -> Result<Ends, Refusal> {
    let order = handed_order(order)?;
    let f = f.sound(order).ok_or(Refusal::Model(0))?;
    let i = handed_variable(i, f.n)?;
    require(depth <= DEEPEST, Refusal::CutTooDeep)?;
    let ends = ends_of_pieces(&f, i, depth, order)?;
    Ok(overlap(range(&f), hull(&ends)))
}

/// The range of every piece, or the first refusal with its piece as place.
fn ends_of_pieces(f: &Model, i: usize, depth: u8, order: u32) -> Result<Vec<Ends>, Refusal> {
    let mut ends = Vec::new();
    for j in 0..1 << depth {
        let rest = substitute(f, &piece(f.n, i, depth, j), i, order);
        ends.push(range(&rest.map_err(|cause| cause.at(j))?));
    }
    Ok(ends)
}

/// What is put in for variable i on piece j, from 0: the constant
/// -U + (2j + 1) × 2^(20-k) plus 2^(20-k) times the variable.
pub fn piece(n: usize, i: usize, depth: u8, j: usize) -> Model {
    let half_width = UNIT >> depth;
    let middle = -UNIT + (2 * j as i128 + 1) * half_width;
    let mut model = operations::variable(n, i);
    for coefficient in model.polynomial.values_mut() {
        *coefficient = half_width;
    }
    model
        .polynomial
        .extend(operations::constant(n, middle).polynomial);
    model
}

/// From the smallest low end to the largest high end. There is at least one piece.
fn hull(ends: &[Ends]) -> Ends {
    let bounds = "a cut has a first piece";
    Ends {
        low: ends.iter().map(|ends| ends.low).min().expect(bounds),
        high: ends.iter().map(|ends| ends.high).max().expect(bounds),
    }
}

fn overlap(one: Ends, other: Ends) -> Ends {
    Ends {
        low: one.low.max(other.low),
        high: one.high.min(other.high),
    }
}
