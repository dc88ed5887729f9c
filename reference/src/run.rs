//! Running a sheet or a book.

use crate::book::{
    Book, SoundBook, Step, ADD, ANTIDERIVATIVE, CONSTANT, INPUT, MOST_STEPS, MULTIPLY, NEGATE,
    QUOTIENT, SUBSTITUTE, SUBTRACT, SWEEP, VARIABLE,
};
use crate::model::Model;
use crate::operations::{self, Cause, Ends, Integral};
use crate::refusal::Refusal;
use crate::shares::{Reported, Shares};
use crate::sheet;
use crate::stored::StoredModel;

/// The complete answer of a run: a refused one has the zero model, ends 0 and the
/// exact integral 0.
#[derive(Clone, Debug, PartialEq, Eq)]
pub struct RunAnswer {
    pub model: StoredModel,
    pub range: Ends,
    pub integral: Integral,
    pub refusal: Option<Refusal>,
}

/// What an accepted run gives.
#[derive(Clone, Debug, PartialEq, Eq)]
pub struct RunResult {
    pub model: Model,
    pub range: Ends,
    pub integral: Integral,
}

impl RunResult {
    fn of(model: Model) -> RunResult {
        RunResult {
            range: operations::range(&model),
            integral: operations::integral(&model),
            model,
        }
    }
}

impl From<Result<RunResult, Refusal>> for RunAnswer {
    fn from(result: Result<RunResult, Refusal>) -> Self {
        match result {
            Ok(result) => RunAnswer {
                model: StoredModel::store(&result.model),
                range: result.range,
                integral: result.integral,
                refusal: None,
            },
            Err(refusal) => RunAnswer {
                model: StoredModel::REFUSED,
                range: Ends::default(),
                integral: Integral::default(),
                refusal: Some(refusal),
            },
        }
    }
}

/// The answer of a run, and where the radius of each of its steps came from: a
/// row for each of 64 steps. A refused step and those after it have zeros, and so
/// have those that there are none of, and all of a book that is not sound.
#[derive(Clone, Debug, PartialEq, Eq)]
pub struct ReportAnswer {
    pub answer: RunAnswer,
    pub shares: [Shares; MOST_STEPS],
}

/// Runs a sheet: tests 1 to 6 over the whole sheet, then its steps.
pub fn run_sheet(bytes: &[u8]) -> RunAnswer {
    report_sheet(bytes).answer
}

/// Runs a book: tests 3, 5 and 6 over the whole book, then its steps.
pub fn run_book(book: &Book) -> RunAnswer {
    report_book(book).answer
}

/// Runs a sheet, with the shares of its steps.
pub fn report_sheet(bytes: &[u8]) -> ReportAnswer {
    let run = sheet::sound_book(bytes).map(|book| trace(&book));
    ReportAnswer::of(run.as_ref())
}

/// Runs a book, with the shares of its steps.
pub fn report_book(book: &Book) -> ReportAnswer {
    let run = book.sound().map(|book| trace(&book));
    ReportAnswer::of(run.as_ref())
}

impl ReportAnswer {
    /// What the steps of a book gave, or the refusal of one that is not sound.
    pub fn of(run: Result<&Trace, &Refusal>) -> ReportAnswer {
        let steps = run.map_or(&[][..], |trace| &trace.steps);
        let mut shares = [Shares::default(); MOST_STEPS];
        for (row, step) in shares.iter_mut().zip(steps) {
            *row = step.shares;
        }
        let run = run.map_err(|refusal| *refusal);
        ReportAnswer {
            answer: RunAnswer::from(run.and_then(Trace::result)),
            shares,
        }
    }
}

/// Runs the steps of a sound book. The result is the last step's.
pub fn run(book: &SoundBook) -> Result<RunResult, Refusal> {
    trace(book).result()
}

/// What each step gave, up to the first that is refused.
#[derive(Clone, Debug)]
pub struct Trace {
    pub steps: Vec<Reported>,
    pub refusal: Option<Refusal>,
}

impl Trace {
    fn result(&self) -> Result<RunResult, Refusal> {
        if let Some(refusal) = self.refusal {
            return Err(refusal);
        }
        let last = self.steps.last().expect("test 3 leaves at least one step");
        Ok(RunResult::of(last.model.clone()))
    }
}

/// Runs the steps of a sound book and keeps what each one gave.
pub fn trace(book: &SoundBook) -> Trace {
    let mut trace = Trace {
        steps: Vec::new(),
        refusal: None,
    };
    for (number, step) in book.steps.iter().enumerate() {
        match perform_reported(step, book, |earlier| &trace.steps[earlier].model) {
            Ok(reported) => trace.steps.push(reported),
            Err(cause) => {
                trace.refusal = Some(cause.at(number));
                break;
            }
        }
    }
    trace
}

/// One well-formed step, after the results of the earlier ones.
pub fn perform(step: &Step, book: &SoundBook, earlier: &[Model]) -> Result<Model, Cause> {
    perform_reported(step, book, |number| &earlier[number]).map(|reported| reported.model)
}

/// The same with the step's shares; the results of earlier steps by their numbers.
fn perform_reported<'a>(
    step: &Step,
    book: &SoundBook,
    earlier: impl Fn(usize) -> &'a Model,
) -> Result<Reported, Cause> {
    let a = usize::from(step.a);
    let b = usize::from(step.b);
    let v = usize::from(step.v);
    let value = i128::from(step.value);
    let order = book.order;
    let carried = Reported::carried;
    Ok(match step.code {
        INPUT => carried(book.models[a].clone()),
        CONSTANT => carried(operations::constant(book.n, value)),
        VARIABLE => carried(operations::variable(book.n, v)),
        NEGATE => carried(operations::negate(earlier(a))),
        ADD => carried(operations::add(earlier(a), earlier(b))?),
        SUBTRACT => carried(operations::subtract(earlier(a), earlier(b))?),
        MULTIPLY => operations::multiply_reported(earlier(a), earlier(b), order)?,
        SUBSTITUTE => operations::substitute_reported(earlier(a), earlier(b), v, order)?,
        SWEEP => operations::sweep_reported(earlier(a), value),
        QUOTIENT => {
            let w = usize::try_from(step.value).expect("test 6 leaves only earlier steps");
            let (f, g) = (earlier(a), earlier(b));
            carried(operations::quotient(f, g, earlier(v), earlier(w), order)?)
        }
        ANTIDERIVATIVE => operations::antiderivative_reported(earlier(a), v, order),
        _ => unreachable!("test 6 leaves only the codes above"),
    })
}
