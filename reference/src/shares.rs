//! Where a step's radius came from (document 02, CR 6).

use crate::model::{Model, UNIT};

/// Four whole numbers that sum to U times the radius of a step.
#[derive(Clone, Copy, Debug, Default, PartialEq, Eq)]
pub struct Shares {
    /// From the radii of the operands.
    pub carried: i128,
    /// From coefficients that were rounded.
    pub rounding: i128,
    /// From terms above the order, or dropped by a sweep.
    pub swept: i128,
    /// What rounding the radius up added.
    pub slack: i128,
}

impl Shares {
    /// Those of a step that is not named by the request.
    pub fn all_carried(model: &Model) -> Shares {
        Shares {
            carried: UNIT * model.radius,
            ..Shares::default()
        }
    }

    pub fn sum(&self) -> i128 {
        self.carried + self.rounding + self.swept + self.slack
    }
}

/// A model, and where its radius came from.
#[derive(Clone, Debug, PartialEq, Eq)]
pub struct Reported {
    pub model: Model,
    pub shares: Shares,
}

impl Reported {
    /// All of the radius is carried.
    pub fn carried(model: Model) -> Reported {
        Reported {
            shares: Shares::all_carried(&model),
            model,
        }
    }
}
