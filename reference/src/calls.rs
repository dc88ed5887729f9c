//! The single calls: models in memory and arguments that may be anything.
//!
//! The order of tests is the paper's: 3, 5 at place 0, 5 at place 1 (a quotient
//! has places up to 3), 10, 6, 9, and then what the operation itself gives.

use crate::model::{Model, LARGEST_DEGREE, LARGEST_SPAN, MOST_VARIABLES, UNIT};
use crate::operations::{self, Ends, Integral};
use crate::refusal::Refusal;
use crate::stored::StoredModel;

/// The answer of a call that gives a model.
#[derive(Clone, Debug, PartialEq, Eq)]
pub struct ModelAnswer {
    pub model: StoredModel,
    pub refusal: Option<Refusal>,
}

/// The answer of a call that gives two ends.
#[derive(Clone, Copy, Debug, PartialEq, Eq)]
pub struct EndsAnswer {
    pub ends: Ends,
    pub refusal: Option<Refusal>,
}

/// The answer of the call that gives an integral.
#[derive(Clone, Copy, Debug, PartialEq, Eq)]
pub struct IntegralAnswer {
    pub integral: Integral,
    pub refusal: Option<Refusal>,
}

impl From<Result<Model, Refusal>> for ModelAnswer {
    fn from(result: Result<Model, Refusal>) -> Self {
        match result {
            Ok(model) => ModelAnswer {
                model: StoredModel::store(&model),
                refusal: None,
            },
            Err(refusal) => ModelAnswer {
                model: StoredModel::REFUSED,
                refusal: Some(refusal),
            },
        }
    }
}

impl From<Result<Ends, Refusal>> for EndsAnswer {
    fn from(result: Result<Ends, Refusal>) -> Self {
        EndsAnswer {
            ends: result.unwrap_or_default(),
            refusal: result.err(),
        }
    }
}

impl From<Result<Integral, Refusal>> for IntegralAnswer {
    fn from(result: Result<Integral, Refusal>) -> Self {
        IntegralAnswer {
            integral: result.unwrap_or_default(),
            refusal: result.err(),
        }
    }
}

/// Tests 3 (n) and 6 (the value).
pub fn constant(n: u8, value: i64) -> ModelAnswer {
    ModelAnswer::from(try_constant(n, value))
}

/// Variable i, from 1. Tests 3 (n) and 6 (the variable).
pub fn variable(n: u8, i: u8) -> ModelAnswer {
    ModelAnswer::from(try_variable(n, i))
}

/// Tests 5.
pub fn negate(f: &StoredModel) -> ModelAnswer {
    ModelAnswer::from(only_model(f).map(|f| operations::negate(&f)))
}

/// Tests 5, 5, 10, and then 8 and 7 of the sum.
pub fn add(f: &StoredModel, g: &StoredModel) -> ModelAnswer {
    ModelAnswer::from(try_add(f, g))
}

/// Tests 5, 5, 10, and then 8 and 7 of the difference.
pub fn subtract(f: &StoredModel, g: &StoredModel) -> ModelAnswer {
    ModelAnswer::from(try_subtract(f, g))
}

/// Tests 3 (the order), 5, 5, 10, and then 8 and 7 of the product.
pub fn multiply(f: &StoredModel, g: &StoredModel, order: u8) -> ModelAnswer {
    ModelAnswer::from(try_multiply(f, g, order))
}

/// Puts g for variable i (from 1) into f. Tests 3 (the order), 5, 5, 10, 6 (the
/// variable), 9, and then 8 and 7 of each inner product and sum in turn.
pub fn substitute(f: &StoredModel, g: &StoredModel, i: u8, order: u8) -> ModelAnswer {
    ModelAnswer::from(try_substitute(f, g, i, order))
}

/// Tests 5 and 6 (the threshold).
pub fn sweep(f: &StoredModel, threshold: i64) -> ModelAnswer {
    ModelAnswer::from(try_sweep(f, threshold))
}

/// f / g, from a proposal h for it and w for 1 / g. Tests 3 (the order), 5 of f,
/// g, h and w in this order, 10, then 8 and 7 of each inner product and
/// difference in turn, 12, and 7 of the result.
pub fn quotient(
    f: &StoredModel,
    g: &StoredModel,
    h: &StoredModel,
    w: &StoredModel,
    order: u8,
) -> ModelAnswer {
    ModelAnswer::from(try_quotient([f, g, h, w], order))
}

/// The antiderivative of f in variable i (from 1) that is zero wherever that
/// variable is 0. Tests 3 (the order), 5 and 6 (the variable); nothing else can
/// be refused.
pub fn antiderivative(f: &StoredModel, i: u8, order: u8) -> ModelAnswer {
    ModelAnswer::from(try_antiderivative(f, i, order))
}

/// Tests 5.
pub fn range(f: &StoredModel) -> EndsAnswer {
    EndsAnswer::from(only_model(f).map(|f| operations::range(&f)))
}

/// Tests 5.
pub fn integral(f: &StoredModel) -> IntegralAnswer {
    IntegralAnswer::from(only_model(f).map(|f| operations::integral(&f)))
}

/// Tests 5, 6 (coordinates above n), 9 (the first n), and then what the inner
/// substitutions give.
pub fn evaluate(f: &StoredModel, point: &[i64; MOST_VARIABLES]) -> EndsAnswer {
    EndsAnswer::from(try_evaluate(f, point))
}

fn try_constant(n: u8, value: i64) -> Result<Model, Refusal> {
    let n = handed_n(n)?;
    let value = i128::from(value);
    require(value.abs() <= LARGEST_SPAN, Refusal::Step(0))?;
    Ok(operations::constant(n, value))
}

fn try_variable(n: u8, i: u8) -> Result<Model, Refusal> {
    let n = handed_n(n)?;
    let i = handed_variable(i, n)?;
    Ok(operations::variable(n, i))
}

fn try_add(f: &StoredModel, g: &StoredModel) -> Result<Model, Refusal> {
    let (f, g) = two_models(f, g, LARGEST_DEGREE)?;
    operations::add(&f, &g).map_err(|cause| cause.at(0))
}

fn try_subtract(f: &StoredModel, g: &StoredModel) -> Result<Model, Refusal> {
    let (f, g) = two_models(f, g, LARGEST_DEGREE)?;
    operations::subtract(&f, &g).map_err(|cause| cause.at(0))
}

fn try_multiply(f: &StoredModel, g: &StoredModel, order: u8) -> Result<Model, Refusal> {
    let order = handed_order(order)?;
    let (f, g) = two_models(f, g, order)?;
    operations::multiply(&f, &g, order).map_err(|cause| cause.at(0))
}

fn try_substitute(f: &StoredModel, g: &StoredModel, i: u8, order: u8) -> Result<Model, Refusal> {
    let order = handed_order(order)?;
    let (f, g) = two_models(f, g, order)?;
    let i = handed_variable(i, f.n)?;
    operations::substitute(&f, &g, i, order).map_err(|cause| cause.at(0))
}

fn try_quotient(models: [&StoredModel; 4], order: u8) -> Result<Model, Refusal> {
    let order = handed_order(order)?;
    let mut sound = Vec::new();
    for (place, model) in models.into_iter().enumerate() {
        sound.push(model.sound(order).ok_or(Refusal::Model(place))?);
    }
    let same_n = sound.iter().all(|model| model.n == sound[0].n);
    require(same_n, Refusal::Variables)?;
    let [f, g, h, w] = &sound[..] else {
        unreachable!("four models were handed over");
    };
    operations::quotient(f, g, h, w, order).map_err(|cause| cause.at(0))
}

fn try_sweep(f: &StoredModel, threshold: i64) -> Result<Model, Refusal> {
    let f = only_model(f)?;
    let threshold = i128::from(threshold);
    require((0..=LARGEST_SPAN).contains(&threshold), Refusal::Step(0))?;
    Ok(operations::sweep(&f, threshold))
}

fn try_antiderivative(f: &StoredModel, i: u8, order: u8) -> Result<Model, Refusal> {
    let order = handed_order(order)?;
    let f = f.sound(order).ok_or(Refusal::Model(0))?;
    let i = handed_variable(i, f.n)?;
    Ok(operations::antiderivative(&f, i, order))
}

fn try_evaluate(f: &StoredModel, point: &[i64; MOST_VARIABLES]) -> Result<Ends, Refusal> {
    let f = only_model(f)?;
    let (used, unused) = point.split_at(f.n);
    require(unused.iter().all(|&x| x == 0), Refusal::Step(0))?;
    require(
        used.iter().all(|&x| i128::from(x).abs() <= UNIT),
        Refusal::OutsideBox(0),
    )?;
    operations::evaluate(&f, &point.map(i128::from)).map_err(|cause| cause.at(0))
}

pub(crate) fn require(holds: bool, refusal: Refusal) -> Result<(), Refusal> {
    if holds {
        Ok(())
    } else {
        Err(refusal)
    }
}

/// An n that is handed over by itself; a model's own n counts under 5.
fn handed_n(n: u8) -> Result<usize, Refusal> {
    let n = usize::from(n);
    require((1..=MOST_VARIABLES).contains(&n), Refusal::Limits)?;
    Ok(n)
}

pub(crate) fn handed_order(order: u8) -> Result<u32, Refusal> {
    let order = u32::from(order);
    require((1..=LARGEST_DEGREE).contains(&order), Refusal::Limits)?;
    Ok(order)
}

pub(crate) fn handed_variable(i: u8, n: usize) -> Result<usize, Refusal> {
    let i = usize::from(i);
    require((1..=n).contains(&i), Refusal::Step(0))?;
    Ok(i)
}

/// The model of a call without an order.
pub(crate) fn only_model(f: &StoredModel) -> Result<Model, Refusal> {
    f.sound(LARGEST_DEGREE).ok_or(Refusal::Model(0))
}

fn two_models(
    f: &StoredModel,
    g: &StoredModel,
    largest_degree: u32,
) -> Result<(Model, Model), Refusal> {
    let f = f.sound(largest_degree).ok_or(Refusal::Model(0))?;
    let g = g.sound(largest_degree).ok_or(Refusal::Model(1))?;
    require(f.n == g.n, Refusal::Variables)?;
    Ok((f, g))
}

/// A single call with its arguments, so that calls can be generated and
/// compared as values.
#[derive(Clone, Debug, PartialEq, Eq)]
pub enum Call {
    Constant {
        n: u8,
        value: i64,
    },
    Variable {
        n: u8,
        i: u8,
    },
    Negate {
        f: Box<StoredModel>,
    },
    Add {
        f: Box<StoredModel>,
        g: Box<StoredModel>,
    },
    Subtract {
        f: Box<StoredModel>,
        g: Box<StoredModel>,
    },
    Multiply {
        f: Box<StoredModel>,
        g: Box<StoredModel>,
        order: u8,
    },
    Substitute {
        f: Box<StoredModel>,
        g: Box<StoredModel>,
        i: u8,
        order: u8,
    },
    Sweep {
        f: Box<StoredModel>,
        threshold: i64,
    },
    Quotient {
        f: Box<StoredModel>,
        g: Box<StoredModel>,
        h: Box<StoredModel>,
        w: Box<StoredModel>,
        order: u8,
    },
    Antiderivative {
        f: Box<StoredModel>,
        i: u8,
        order: u8,
    },
    Range {
        f: Box<StoredModel>,
    },
    Integral {
        f: Box<StoredModel>,
    },
    Evaluate {
        f: Box<StoredModel>,
        point: [i64; MOST_VARIABLES],
    },
}

/// What any single call answers.
#[derive(Clone, Debug, PartialEq, Eq)]
pub enum CallAnswer {
    Model(Box<ModelAnswer>),
    Ends(EndsAnswer),
    Integral(IntegralAnswer),
}

impl CallAnswer {
    pub fn refusal(&self) -> Option<Refusal> {
        match self {
            CallAnswer::Model(answer) => answer.refusal,
            CallAnswer::Ends(answer) => answer.refusal,
            CallAnswer::Integral(answer) => answer.refusal,
        }
    }
}

impl From<ModelAnswer> for CallAnswer {
    fn from(answer: ModelAnswer) -> Self {
        CallAnswer::Model(Box::new(answer))
    }
}

impl From<EndsAnswer> for CallAnswer {
    fn from(answer: EndsAnswer) -> Self {
        CallAnswer::Ends(answer)
    }
}

impl From<IntegralAnswer> for CallAnswer {
    fn from(answer: IntegralAnswer) -> Self {
        CallAnswer::Integral(answer)
    }
}

impl Call {
    pub fn name(&self) -> &'static str {
        match self {
            Call::Constant { .. } => "constant",
            Call::Variable { .. } => "variable",
            Call::Negate { .. } => "negate",
            Call::Add { .. } => "add",
            Call::Subtract { .. } => "subtract",
            Call::Multiply { .. } => "multiply",
            Call::Substitute { .. } => "substitute",
            Call::Sweep { .. } => "sweep",
            Call::Quotient { .. } => "quotient",
            Call::Antiderivative { .. } => "antiderivative",
            Call::Range { .. } => "range",
            Call::Integral { .. } => "integral",
            Call::Evaluate { .. } => "evaluate",
        }
    }

    /// The n that the call is handed, or that of its first model.
    pub fn variables(&self) -> u8 {
        match self {
            Call::Constant { n, .. } | Call::Variable { n, .. } => *n,
            Call::Negate { f }
            | Call::Add { f, .. }
            | Call::Subtract { f, .. }
            | Call::Multiply { f, .. }
            | Call::Substitute { f, .. }
            | Call::Sweep { f, .. }
            | Call::Quotient { f, .. }
            | Call::Antiderivative { f, .. }
            | Call::Range { f }
            | Call::Integral { f }
            | Call::Evaluate { f, .. } => f.n,
        }
    }

    /// Makes the call.
    pub fn answer(&self) -> CallAnswer {
        match self {
            Call::Constant { n, value } => constant(*n, *value).into(),
            Call::Variable { n, i } => variable(*n, *i).into(),
            Call::Negate { f } => negate(f).into(),
            Call::Add { f, g } => add(f, g).into(),
            Call::Subtract { f, g } => subtract(f, g).into(),
            Call::Multiply { f, g, order } => multiply(f, g, *order).into(),
            Call::Substitute { f, g, i, order } => substitute(f, g, *i, *order).into(),
            Call::Sweep { f, threshold } => sweep(f, *threshold).into(),
            Call::Quotient { f, g, h, w, order } => quotient(f, g, h, w, *order).into(),
            Call::Antiderivative { f, i, order } => antiderivative(f, *i, *order).into(),
            Call::Range { f } => range(f).into(),
            Call::Integral { f } => integral(f).into(),
            Call::Evaluate { f, point } => evaluate(f, point).into(),
        }
    }
}
