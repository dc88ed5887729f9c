//! The calls: models in memory that may hold anything.
//!
//! The order of tests is 5 at place 0, 5 at place 1, 13, and 7 last.

use super::model::{ChebyshevModel, StoredChebyshev};
use super::operations;
use crate::calls::{EndsAnswer, ModelAnswer};
use crate::model::{Model, LARGEST_DEGREE};
use crate::operations::Cause;
use crate::refusal::Refusal;
use crate::stored::StoredModel;

/// The answer of a call that gives a Chebyshev model.
#[derive(Clone, Debug, PartialEq, Eq)]
pub struct ChebyshevAnswer {
    pub model: StoredChebyshev,
    pub refusal: Option<Refusal>,
}

impl From<Result<ChebyshevModel, Refusal>> for ChebyshevAnswer {
    fn from(result: Result<ChebyshevModel, Refusal>) -> Self {
        match result {
            Ok(model) => ChebyshevAnswer {
                model: StoredChebyshev::store(&model),
                refusal: None,
            },
            Err(refusal) => ChebyshevAnswer {
                model: StoredChebyshev::ZEROS,
                refusal: Some(refusal),
            },
        }
    }
}

/// Tests 5.
pub fn negate(f: &StoredChebyshev) -> ChebyshevAnswer {
    ChebyshevAnswer::from(only_model(f).map(|f| operations::negate(&f)))
}

/// Tests 5, 5, and then 7 of the sum.
pub fn add(f: &StoredChebyshev, g: &StoredChebyshev) -> ChebyshevAnswer {
    ChebyshevAnswer::from(try_two(f, g, operations::add))
}

/// Tests 5, 5, and then 7 of the difference.
pub fn subtract(f: &StoredChebyshev, g: &StoredChebyshev) -> ChebyshevAnswer {
    ChebyshevAnswer::from(try_two(f, g, operations::subtract))
}

/// Tests 5, 5, and then 7 of the product.
pub fn multiply(f: &StoredChebyshev, g: &StoredChebyshev) -> ChebyshevAnswer {
    ChebyshevAnswer::from(try_two(f, g, operations::multiply))
}

/// Tests 5.
pub fn range(f: &StoredChebyshev) -> EndsAnswer {
    EndsAnswer::from(only_model(f).map(|f| operations::range(&f)))
}

/// Tests 5, and then 7 of the power model.
pub fn to_powers(f: &StoredChebyshev) -> ModelAnswer {
    ModelAnswer::from(try_to_powers(f))
}

/// Tests 5, 13 (n), and then 7 of the Chebyshev model.
pub fn from_powers(f: &StoredModel) -> ChebyshevAnswer {
    ChebyshevAnswer::from(try_from_powers(f))
}

fn try_two(
    f: &StoredChebyshev,
    g: &StoredChebyshev,
    operation: fn(&ChebyshevModel, &ChebyshevModel) -> Result<ChebyshevModel, Cause>,
) -> Result<ChebyshevModel, Refusal> {
    let f = f.sound().ok_or(Refusal::Model(0))?;
    let g = g.sound().ok_or(Refusal::Model(1))?;
    operation(&f, &g).map_err(|cause| cause.at(0))
}

fn try_to_powers(f: &StoredChebyshev) -> Result<Model, Refusal> {
    operations::to_powers(&only_model(f)?).map_err(|cause| cause.at(0))
}

fn try_from_powers(f: &StoredModel) -> Result<ChebyshevModel, Refusal> {
    let f = f.sound(LARGEST_DEGREE).ok_or(Refusal::Model(0))?;
    if f.n != 1 {
        return Err(Refusal::NotOneVariable);
    }
    operations::from_powers(&f).map_err(|cause| cause.at(0))
}

fn only_model(f: &StoredChebyshev) -> Result<ChebyshevModel, Refusal> {
    f.sound().ok_or(Refusal::Model(0))
}

/// A call with its arguments, so that calls can be generated and compared as
/// values.
#[derive(Clone, Debug, PartialEq, Eq)]
pub enum Call {
    Negate {
        f: StoredChebyshev,
    },
    Add {
        f: StoredChebyshev,
        g: StoredChebyshev,
    },
    Subtract {
        f: StoredChebyshev,
        g: StoredChebyshev,
    },
    Multiply {
        f: StoredChebyshev,
        g: StoredChebyshev,
    },
    Range {
        f: StoredChebyshev,
    },
    ToPowers {
        f: StoredChebyshev,
    },
    FromPowers {
        f: Box<StoredModel>,
    },
}

/// What any of the calls answers.
#[derive(Clone, Debug, PartialEq, Eq)]
pub enum CallAnswer {
    Chebyshev(ChebyshevAnswer),
    Powers(Box<ModelAnswer>),
    Ends(EndsAnswer),
}

impl CallAnswer {
    pub fn refusal(&self) -> Option<Refusal> {
        match self {
            CallAnswer::Chebyshev(answer) => answer.refusal,
            CallAnswer::Powers(answer) => answer.refusal,
            CallAnswer::Ends(answer) => answer.refusal,
        }
    }
}

impl Call {
    /// The call's name, for counts and messages.
    pub fn name(&self) -> &'static str {
        match self {
            Call::Negate { .. } => "negate",
            Call::Add { .. } => "add",
            Call::Subtract { .. } => "subtract",
            Call::Multiply { .. } => "multiply",
            Call::Range { .. } => "range",
            Call::ToPowers { .. } => "to powers",
            Call::FromPowers { .. } => "from powers",
        }
    }

    /// Makes the call.
    pub fn answer(&self) -> CallAnswer {
        match self {
            Call::Negate { f } => CallAnswer::Chebyshev(negate(f)),
            Call::Add { f, g } => CallAnswer::Chebyshev(add(f, g)),
            Call::Subtract { f, g } => CallAnswer::Chebyshev(subtract(f, g)),
            Call::Multiply { f, g } => CallAnswer::Chebyshev(multiply(f, g)),
            Call::Range { f } => CallAnswer::Ends(range(f)),
            Call::ToPowers { f } => CallAnswer::Powers(Box::new(to_powers(f))),
            Call::FromPowers { f } => CallAnswer::Chebyshev(from_powers(f)),
        }
    }
}
