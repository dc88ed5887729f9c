//! One case fed to both implementations.

use crate::case::{Case, Variables};
use crate::cuts::Cuts;
use crate::integrals::Integrals;
use crate::renamed::Renamed;
use crate::rows::Rows;
use crate::shaped::{self, Shape};
use crate::{archive, curves, cuts, doubles, readings, renamed, sheets, stepping};
use hechroung::{Ends, Exact, Integral, Model};
use reference::calls::{Call, CallAnswer};
use reference::model::monomial_of_key;
use reference::refusal::Refusal;
use reference::stored::StoredModel;

/// What both implementations answered.
pub struct Seen {
    /// The number and place of the refusal.
    pub refusal: Option<(u8, usize)>,
    /// How many variables the case has.
    pub variables: Variables,
    /// Whether the case was no call at all.
    pub misused: bool,
    /// How much of the enclosure was tried.
    pub tried: Tried,
    /// The shares of a run's steps.
    pub rows: Rows,
    /// The exact integral of an accepted answer.
    pub integrals: Integrals,
    /// What was renamed.
    pub renamed: Renamed,
    /// What was cut.
    pub cuts: Cuts,
    pub text: String,
}

/// Points and integrals of the exact outcome that were held against the answer of an accepted sheet.
#[derive(Clone, Copy, Default)]
pub struct Tried {
    pub points: u64,
    /// Those of sheets with a quotient; of such a sheet no integral is tried.
    pub points_of_quotients: u64,
    /// Those of sheets with an antiderivative.
    pub points_of_antiderivatives: u64,
    /// Those of sheets of which nothing is promised: a quotient feeds an antiderivative, or one is taken of functions
    /// that are no polynomials.
    pub points_not_promised: u64,
    pub points_too_large: u64,
    pub integrals: u64,
    /// Those of accepted calls on curves.
    pub points_of_curves: u64,
}

impl Seen {
    pub fn of(refusal: Option<(u8, usize)>) -> Seen {
        Seen {
            refusal,
            variables: Variables::default(),
            misused: false,
            tried: Tried::default(),
            rows: Rows::default(),
            integrals: Integrals::default(),
            renamed: Renamed::default(),
            cuts: Cuts::default(),
            text: refusal.map_or("accepted".into(), |(number, place)| {
                format!("refused {number} {place}")
            }),
        }
    }
}

/// The difference names the case by the line that `compare --cases` takes.
pub fn compare(case: &Case) -> Result<Seen, String> {
    let found = match case {
        Case::Call(call) => compare_call(call),
        Case::Shaped(call, shape) => shaped::compare(call, &call.answer(), shape),
        Case::Sheet(sheet) => sheets::compare(sheet),
        Case::Rewrite(sheet, length) => sheets::compare_rewrite(sheet, *length),
        Case::Book(book, length) => sheets::compare_write(book, *length),
        Case::RunBook(book) => sheets::compare_run_book(book),
        Case::Stepped(sheet, room) => stepping::compare(sheet, *room),
        Case::Renamed(sheet, other) => renamed::compare(sheet, other),
        Case::Curve(call) => curves::compare(call),
        Case::ShapedCurve(call, shape) => curves::compare_shaped(call, shape),
        Case::Cut(call) => cuts::compare(call),
        Case::ShapedCut(call, shape) => cuts::compare_shaped(call, shape),
        Case::Doubles(record, outputs) => doubles::compare(record, *outputs),
        Case::Readings(row) => readings::compare_alone(row),
        Case::Archive(call, lengths) => archive::compare(call, *lengths),
    };
    let counted = found.map(|seen| Seen {
        variables: case.variables(),
        ..seen
    });
    counted.map_err(|difference| format!("{}: {difference}\n{}", case.kind(), case.line()))
}

/// What the wrapper hands out for a single call that is accepted.
#[derive(Debug, PartialEq)]
enum Handed {
    Model(Box<Model>),
    Ends(Ends),
    Integral(Integral),
}

/// By the exported function, with all that it stores, also beside a refusal; and by the wrapper, which hands out an
/// answer or a refusal.
fn compare_call(call: &Call) -> Result<Seen, String> {
    let expected = call.answer();
    let mut seen = shaped::compare(call, &expected, &Shape::ENOUGH)?;
    let handed = handed(call);
    same(&handed, &translated(&expected))?;
    if let (Call::Integral { f }, Ok(Handed::Integral(answer))) = (call, handed) {
        seen.integrals = Integrals::checked(&to_model(f), answer.exact)?;
    }
    Ok(seen)
}

pub fn same<T: PartialEq + std::fmt::Debug>(proved: &T, expected: &T) -> Result<(), String> {
    if proved == expected {
        return Ok(());
    }
    Err(format!(
        "proved {proved:?}, second implementation {expected:?}"
    ))
}

pub fn pair(refusal: Refusal) -> (u8, usize) {
    (refusal.number(), refusal.place())
}

fn handed(call: &Call) -> Result<Handed, hechroung::Refusal> {
    let model = |answer: Model| Handed::Model(Box::new(answer));
    match call {
        Call::Constant { n, value } => Model::constant(*n, *value).map(model),
        Call::Variable { n, i } => Model::variable(*n, *i).map(model),
        Call::Negate { f } => hechroung::negate(&to_model(f)).map(model),
        Call::Add { f, g } => hechroung::add(&to_model(f), &to_model(g)).map(model),
        Call::Subtract { f, g } => hechroung::subtract(&to_model(f), &to_model(g)).map(model),
        Call::Multiply { f, g, order } => {
            hechroung::multiply(*order, &to_model(f), &to_model(g)).map(model)
        }
        Call::Substitute { f, g, i, order } => {
            hechroung::substitute(*order, *i, &to_model(f), &to_model(g)).map(model)
        }
        Call::Sweep { f, threshold } => hechroung::sweep(&to_model(f), *threshold).map(model),
        Call::Quotient { f, g, h, w, order } => {
            let [f, g, h, w] = [f, g, h, w].map(|operand| to_model(operand));
            hechroung::quotient(*order, &f, &g, &h, &w).map(model)
        }
        Call::Antiderivative { f, i, order } => {
            hechroung::antiderivative(*order, *i, &to_model(f)).map(model)
        }
        Call::Range { f } => hechroung::range(&to_model(f)).map(Handed::Ends),
        Call::Integral { f } => hechroung::integral(&to_model(f)).map(Handed::Integral),
        Call::Evaluate { f, point } => hechroung::evaluate(&to_model(f), *point).map(Handed::Ends),
    }
}

/// The second implementation's answer as the wrapper hands it out.
fn translated(answer: &CallAnswer) -> Result<Handed, hechroung::Refusal> {
    let handed = match answer {
        CallAnswer::Model(answer) => Handed::Model(Box::new(to_model(&answer.model))),
        CallAnswer::Ends(answer) => Handed::Ends(to_ends(answer.ends)),
        CallAnswer::Integral(answer) => Handed::Integral(Integral {
            ends: to_ends(answer.integral.ends),
            exact: to_exact(answer.integral.exact),
        }),
    };
    unless(answer.refusal(), handed)
}

/// What the wrapper hands out where the second implementation refuses or does not.
pub fn unless<T>(refusal: Option<Refusal>, answer: T) -> Result<T, hechroung::Refusal> {
    refusal.map_or(Ok(answer), |refusal| Err(to_refusal(refusal)))
}

pub fn to_model(stored: &StoredModel) -> Model {
    Model {
        n: stored.n,
        count: stored.count,
        radius: stored.radius,
        keys: stored.terms.map(|term| term.key),
        coefficients: stored.terms.map(|term| term.coefficient),
    }
}

pub fn to_refusal(refusal: Refusal) -> hechroung::Refusal {
    hechroung::Refusal {
        number: refusal.number(),
        place: refusal.place(),
    }
}

pub fn to_ends(ends: reference::operations::Ends) -> Ends {
    let narrowed = |end| i64::try_from(end).expect("ends are below 2^63");
    Ends {
        low: narrowed(ends.low),
        high: narrowed(ends.high),
    }
}

pub fn to_exact(exact: reference::operations::Exact) -> Exact {
    let narrowed = |part| i64::try_from(part).expect("both parts are below 2^63");
    Exact {
        quotient: narrowed(exact.quotient),
        remainder: narrowed(exact.remainder),
    }
}

/// The model of an accepted answer.
pub fn sound(model: &Model) -> reference::model::Model {
    let terms = model
        .terms()
        .map(|(key, c)| (monomial_of_key(key), i128::from(c)));
    reference::model::Model {
        n: usize::from(model.n),
        polynomial: terms.collect(),
        radius: i128::from(model.radius),
    }
}

pub fn wide(ends: Ends) -> reference::operations::Ends {
    reference::operations::Ends {
        low: i128::from(ends.low),
        high: i128::from(ends.high),
    }
}

pub fn wide_exact(exact: Exact) -> reference::operations::Exact {
    reference::operations::Exact {
        quotient: i128::from(exact.quotient),
        remainder: i128::from(exact.remainder),
    }
}
