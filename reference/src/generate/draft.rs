//! Sheets before they are bytes. A draft may break any rule: nothing is tested.

use crate::book::Step;
use crate::model::{key_of_half, key_of_monomial, monomial_of_key, Model};

/// A model as its record will say it. The count byte follows the terms.
#[derive(Clone, Debug, Default, PartialEq, Eq)]
pub struct DraftModel {
    pub radius: u32,
    pub terms: Vec<(u32, i32)>,
}

impl DraftModel {
    /// By keys of 16 bits, for the exponents of variables 1 to 4.
    pub fn new(radius: u32, terms: &[(u16, i32)]) -> DraftModel {
        let terms = terms.iter().map(|&(half, c)| (key_of_half(half), c));
        DraftModel {
            radius,
            terms: terms.collect(),
        }
    }

    /// By keys of 32 bits, for the exponents of variables 1 to 8.
    pub fn wide(radius: u32, terms: &[(u32, i32)]) -> DraftModel {
        DraftModel {
            radius,
            terms: terms.to_vec(),
        }
    }

    /// The record on a sheet of n variables: above four, keys have 4 bytes.
    pub fn record(&self, n: u8) -> Vec<u8> {
        let mut record = self.radius.to_le_bytes().to_vec();
        record.push(self.terms.len() as u8);
        for (key, coefficient) in &self.terms {
            let [lowest, low, high, highest] = key.to_le_bytes();
            if has_wide_keys(n) {
                record.extend([lowest, low]);
            }
            record.extend([high, highest]);
            record.extend(coefficient.to_le_bytes());
        }
        record
    }

    /// The record of a sound model.
    pub fn of(model: &Model) -> DraftModel {
        let terms = model.polynomial.iter();
        DraftModel {
            radius: model.radius as u32,
            terms: terms
                .map(|(monomial, &c)| (key_of_monomial(monomial), c as i32))
                .collect(),
        }
    }

    /// The sound model in n variables that the record stands for.
    pub fn model(&self, n: u8) -> Model {
        let terms = self.terms.iter();
        Model {
            n: usize::from(n),
            polynomial: terms
                .map(|&(key, c)| (monomial_of_key(key), i128::from(c)))
                .collect(),
            radius: i128::from(self.radius),
        }
    }

    /// The sum of all |c| plus the radius.
    pub fn span(&self) -> u64 {
        let sizes = self.terms.iter().map(|(_, c)| u64::from(c.unsigned_abs()));
        sizes.sum::<u64>() + u64::from(self.radius)
    }
}

/// Whether a sheet of n variables has keys of 4 bytes.
fn has_wide_keys(n: u8) -> bool {
    (5..=8).contains(&n)
}

/// A sheet before it is bytes.
#[derive(Clone, Debug, PartialEq, Eq)]
pub struct Draft {
    pub n: u8,
    pub d: u8,
    pub models: Vec<DraftModel>,
    pub steps: Vec<Step>,
}

impl Draft {
    pub fn new(n: u8, d: u8, models: Vec<DraftModel>, steps: Vec<Step>) -> Draft {
        Draft {
            n,
            d,
            models,
            steps,
        }
    }

    /// The sheet, assembled apart from the writer so that the two can be
    /// compared.
    pub fn bytes(&self) -> Vec<u8> {
        let records = self.model_bytes();
        self.bytes_with_records(&records)
    }

    pub fn model_bytes(&self) -> Vec<u8> {
        let records = self.models.iter();
        records.flat_map(|model| model.record(self.n)).collect()
    }

    /// The sheet with other bytes in place of its model records; the offset
    /// follows them.
    pub fn bytes_with_records(&self, records: &[u8]) -> Vec<u8> {
        let mut bytes = records.to_vec();
        bytes.extend(self.steps.iter().flat_map(|step| step.to_bytes()));
        bytes.extend([self.n, self.d]);
        bytes.extend([self.models.len() as u8, self.steps.len() as u8]);
        bytes.extend((records.len() as u16).to_le_bytes());
        let last = if has_wide_keys(self.n) { 0x57 } else { 0x4B };
        bytes.extend([0x4D, last]);
        bytes
    }

    /// Adds a step and gives its number.
    pub fn push(&mut self, step: Step) -> u8 {
        self.steps.push(step);
        (self.steps.len() - 1) as u8
    }

    /// Adds a model and a step that names it, and gives the step's number.
    pub fn push_input(&mut self, model: DraftModel) -> u8 {
        self.models.push(model);
        let number = (self.models.len() - 1) as u8;
        self.push(Step::one(crate::book::INPUT, number))
    }
}
