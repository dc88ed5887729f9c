//! Readings held against a curve (document 02, CR 12).

use crate::calls::{only_model, require};
use crate::model::{MOST_VARIABLES, UNIT};
use crate::operations::{evaluate, Ends};
use crate::refusal::Refusal;
use crate::stored::StoredModel;

/// The longest row.
pub const MOST_READINGS: usize = 256;

/// A reading: a point, as an evaluation takes it, and a low and a high value in
/// units. Every number may be anything.
#[derive(Clone, Copy, Debug, Default, PartialEq, Eq)]
pub struct Reading {
    pub point: [i64; MOST_VARIABLES],
    pub low: i64,
    pub high: i64,
}

impl Reading {
    /// Whether the band and the ends have no number in common; ends that touch do.
    fn contradicts(&self, ends: Ends) -> bool {
        i128::from(self.high) < ends.low || ends.high < i128::from(self.low)
    }
}

/// What holding a row against a model answers.
#[derive(Clone, Copy, Debug, PartialEq, Eq)]
pub enum ReadingsAnswer {
    /// No reading contradicts the model.
    NoneContradicts,
    /// The number, from 0, of the first reading that contradicts it.
    Contradicts(usize),
    Refused(Refusal),
}

/// A call with its arguments.
#[derive(Clone, Debug, PartialEq, Eq)]
pub struct Call {
    pub f: Box<StoredModel>,
    pub readings: Vec<Reading>,
}

impl Call {
    /// Makes the call.
    pub fn answer(&self) -> ReadingsAnswer {
        hold(&self.f, &self.readings)
    }
}

/// Holds the readings against f. Tests 15 (the row's length), 5, then all readings
/// for 15 (the band), all for 6 (coordinates above n) and all for 9 (the first n).
/// Then they are evaluated in order, up to the first that contradicts or gets 7.
pub fn hold(f: &StoredModel, readings: &[Reading]) -> ReadingsAnswer {
    match first_contradicting(f, readings) {
        Ok(None) => ReadingsAnswer::NoneContradicts,
        Ok(Some(number)) => ReadingsAnswer::Contradicts(number),
        Err(refusal) => ReadingsAnswer::Refused(refusal),
    }
}

fn first_contradicting(f: &StoredModel, readings: &[Reading]) -> Result<Option<usize>, Refusal> {
    require(readings.len() <= MOST_READINGS, Refusal::Reading(0))?;
    let f = only_model(f)?;
    require_all(readings, |r| r.low <= r.high, Refusal::Reading)?;
    let unused = |r: &Reading| r.point[f.n..].iter().all(|&x| x == 0);
    require_all(readings, unused, Refusal::Step)?;
    let inside = |x: &i64| i128::from(*x).abs() <= UNIT;
    let used = |r: &Reading| r.point[..f.n].iter().all(inside);
    require_all(readings, used, Refusal::OutsideBox)?;
    for (number, reading) in readings.iter().enumerate() {
        let ends = evaluate(&f, &reading.point.map(i128::from));
        if reading.contradicts(ends.map_err(|cause| cause.at(number))?) {
            return Ok(Some(number));
        }
    }
    Ok(None)
}

/// One test over the whole row: the first reading that fails is the place.
fn require_all(
    readings: &[Reading],
    holds: impl Fn(&Reading) -> bool,
    refusal: fn(usize) -> Refusal,
) -> Result<(), Refusal> {
    match readings.iter().position(|reading| !holds(reading)) {
        Some(number) => Err(refusal(number)),
        None => Ok(()),
    }
}
