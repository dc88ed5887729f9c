//! A list of named sheets, and the small sheets that lists are made of.

use super::draft::{Draft, DraftModel};
use super::{Expected, Sample};
use crate::book::{Step, INPUT};

pub const UNIT: i32 = 1 << 20;
pub const HALF: i32 = 1 << 19;
pub const LARGEST: i32 = 1 << 30;

/// A growing list of named sheets.
#[derive(Default)]
pub struct Samples(Vec<Sample>);

impl Samples {
    pub fn accept(&mut self, name: &str, draft: &Draft) {
        self.accept_bytes(name, draft.bytes());
    }

    pub fn accept_bytes(&mut self, name: &str, bytes: Vec<u8>) {
        self.0.push(Sample::new(name, bytes, Expected::Accepted));
    }

    /// Refused with a number and a place.
    pub fn refuse(&mut self, name: &str, draft: &Draft, refusal: (u8, usize)) {
        self.refuse_bytes(name, draft.bytes(), refusal);
    }

    pub fn refuse_bytes(&mut self, name: &str, bytes: Vec<u8>, refusal: (u8, usize)) {
        let expected = Expected::Refused(refusal.0, refusal.1);
        self.0.push(Sample::new(name, bytes, expected));
    }

    pub fn into_vec(self) -> Vec<Sample> {
        self.0
    }
}

pub fn input(model: u8) -> Step {
    Step::one(INPUT, model)
}

/// One variable, given models, given steps.
pub fn one_variable(d: u8, models: &[DraftModel], steps: &[Step]) -> Draft {
    Draft::new(1, d, models.to_vec(), steps.to_vec())
}

/// A constant for each value, and then a step.
pub fn constants(values: &[i32], last: Step) -> Draft {
    let mut steps: Vec<Step> = values.iter().map(|&value| Step::constant(value)).collect();
    steps.push(last);
    one_variable(1, &[], &steps)
}

/// An input for each model, and then a step.
pub fn with_inputs(n: u8, d: u8, models: &[DraftModel], last: Step) -> Draft {
    let mut steps: Vec<Step> = (0..models.len())
        .map(|number| input(number as u8))
        .collect();
    steps.push(last);
    Draft::new(n, d, models.to_vec(), steps)
}
