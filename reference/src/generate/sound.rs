//! Sheets that pass tests 1 to 6, and mostly run to their end.

use super::draft::{Draft, DraftModel};
use super::models::{self, LARGEST_SPAN, UNIT};
use super::proposals::{self, Proposal};
use super::quotients;
use super::random::Random;
use crate::book::{
    SoundBook, Step, ADD, ANTIDERIVATIVE, INPUT, MOST_MODELS, MOST_STEPS, MULTIPLY, NEGATE,
    SUBTRACT,
};
use crate::exact::outcome::fed_by_quotient;
use crate::model::Model;
use crate::operations::{self, Cause, Ends};
use crate::{run, sheet};

/// How large sheets may become.
#[derive(Clone, Copy, Debug, PartialEq, Eq)]
pub struct Shape {
    pub models: usize,
    pub steps: usize,
    pub terms: usize,
}

pub const SMALL: Shape = Shape {
    models: 3,
    steps: 8,
    terms: 4,
};
pub const MIDDLE: Shape = Shape {
    models: 6,
    steps: 20,
    terms: 12,
};
pub const LARGE: Shape = Shape {
    models: MOST_MODELS,
    steps: MOST_STEPS,
    terms: 64,
};
pub const SHAPES: [Shape; 3] = [SMALL, MIDDLE, LARGE];

/// A random sheet. Steps that would be refused are mostly replaced, so that
/// runs get far; now and then one stays.
pub fn sheet(random: &mut Random, shape: Shape) -> Draft {
    let draft = start(random, shape);
    grown(random, draft, shape, Some(40))
}

/// A random sheet that runs to its end.
pub fn accepted(random: &mut Random, shape: Shape) -> Draft {
    let draft = start(random, shape);
    grown(random, draft, shape, None)
}

/// A random sheet of a given n and order that runs to its end.
pub fn accepted_of(random: &mut Random, n: u8, d: u8, shape: Shape) -> Draft {
    let draft = start_of(random, n, d, shape);
    grown(random, draft, shape, None)
}

/// Adds steps up to a number that the shape allows, and models for proposals.
/// A step that would be refused stays once in `refused_one_in` tries, or never.
fn grown(
    random: &mut Random,
    mut draft: Draft,
    shape: Shape,
    refused_one_in: Option<u64>,
) -> Draft {
    let mut runner = Runner::new(&draft);
    // Of most sheets with antiderivatives something is promised.
    runner.apart = !random.one_in(4);
    let steps = random.size(1, shape.steps);
    // Some sheets have many quotients, and some have none.
    let quotient_one_in = *random.pick(&[2, 6, 15, u64::MAX]);
    while draft.steps.len() < steps {
        if random.one_in(quotient_one_in) {
            let room = Room {
                models: shape.models.saturating_sub(draft.models.len()),
                steps: steps - draft.steps.len(),
            };
            runner.add_quotient(random, &mut draft, room);
            if draft.steps.len() == steps {
                break;
            }
        }
        let keep_refused = refused_one_in.is_some_and(|times| random.one_in(times));
        let step = runner.next_step(random, &draft, keep_refused);
        draft.push(step);
    }
    draft
}

/// n, order and models, without steps.
fn start(random: &mut Random, shape: Shape) -> Draft {
    let n = models::any_n(random);
    let d = random.byte(1, 15);
    start_of(random, n, d, shape)
}

fn start_of(random: &mut Random, n: u8, d: u8, shape: Shape) -> Draft {
    let count = random.size(0, shape.models);
    let models = (0..count)
        .map(|_| models::model(random, n, d, shape.terms))
        .collect();
    Draft::new(n, d, models, Vec::new())
}

/// A step that keeps its form, whatever its run gives.
pub fn well_formed_step(random: &mut Random, draft: &Draft) -> Step {
    let number = draft.steps.len();
    let code = match (number, draft.models.len()) {
        (0, 0) => random.byte(1, 2),
        (0, _) => random.byte(0, 2),
        // Operations come more often than the steps that feed them.
        (_, 0) => random.byte(1, 14),
        (_, _) => random.byte(0, 14),
    };
    let earlier = |random: &mut Random| random.size(0, number - 1) as u8;
    let v = random.byte(1, draft.n);
    match code {
        0 => Step::one(INPUT, random.size(0, draft.models.len() - 1) as u8),
        1 => Step::constant(constant(random)),
        2 => Step::variable(v),
        3 => Step::one(NEGATE, earlier(random)),
        4 => Step::two(ADD, recent(random, number), earlier(random)),
        5 => Step::two(SUBTRACT, recent(random, number), earlier(random)),
        6 | 9 => Step::two(MULTIPLY, recent(random, number), earlier(random)),
        7 | 10 | 11 => Step::substitute(recent(random, number), earlier(random), v),
        13 | 14 => Step::antiderivative(recent(random, number), v),
        // Without a proposal, mostly refused.
        12 => {
            let (a, b) = (recent(random, number), earlier(random));
            Step::quotient(a, b, earlier(random), earlier(random))
        }
        _ => Step::sweep(recent(random, number), threshold(random)),
    }
}

/// An earlier step, mostly one of the last, so that most steps matter for the
/// result.
fn recent(random: &mut Random, number: usize) -> u8 {
    let nearest = number.saturating_sub(3);
    let low = if random.one_in(4) { 0 } else { nearest };
    random.size(low, number - 1) as u8
}

fn constant(random: &mut Random) -> i32 {
    let size = match random.below(6) {
        0 => random.between(0, 3),
        1 => UNIT / 2 * random.between(0, 4),
        2 => random.between(0, UNIT),
        3 => UNIT + random.between(-1, 1),
        4 => random.between(0, LARGEST_SPAN),
        _ => LARGEST_SPAN - random.between(0, 1),
    };
    (size * random.sign()) as i32
}

fn threshold(random: &mut Random) -> i32 {
    let threshold = match random.below(4) {
        0 => random.between(0, 4),
        1 => random.between(0, UNIT),
        2 => random.between(0, LARGEST_SPAN),
        _ => LARGEST_SPAN - random.between(0, 1),
    };
    threshold as i32
}

/// What may still be added to a draft.
#[derive(Clone, Copy, Debug)]
struct Room {
    models: usize,
    steps: usize,
}

/// Runs a draft along, to see which steps would be refused.
struct Runner {
    book: SoundBook,
    results: Vec<Model>,
    /// Set once a refused step stays: the run ends there.
    ended: bool,
    /// Whether no quotient may feed an antiderivative.
    apart: bool,
}

impl Runner {
    fn new(draft: &Draft) -> Runner {
        // A sheet needs a step; any will do, as only the models are taken.
        let mut whole = draft.clone();
        whole.push(Step::constant(0));
        let mut book = sheet::sound_book(&whole.bytes()).expect("the models are sound");
        book.steps.clear();
        Runner {
            book,
            results: Vec::new(),
            ended: false,
            apart: false,
        }
    }

    fn next_step(&mut self, random: &mut Random, draft: &Draft, keep_refused: bool) -> Step {
        for _ in 0..12 {
            let step = well_formed_step(random, draft);
            if self.ended {
                return step;
            }
            if step.code == ANTIDERIVATIVE && self.keeps_apart(draft, step.a) {
                continue;
            }
            match run::perform(&step, &self.book, &self.results) {
                Ok(result) => {
                    self.results.push(result);
                    return step;
                }
                Err(_) if keep_refused => {
                    self.ended = true;
                    return step;
                }
                Err(_) => {}
            }
        }
        self.plain_step(random, draft)
    }

    /// Whether the step takes in a quotient that must not feed an antiderivative.
    fn keeps_apart(&self, draft: &Draft, number: u8) -> bool {
        self.apart && fed_by_quotient(&draft.steps)[usize::from(number)]
    }

    /// Adds a quotient that is accepted, with its divisor and its proposal, if
    /// one is found that fits the room. The proposal comes from input models, or
    /// from a constant for w and a product of f and w for h.
    fn add_quotient(&mut self, random: &mut Random, draft: &mut Draft, room: Room) {
        let mut room = room;
        if self.ended || self.results.is_empty() || room.steps < 4 {
            return;
        }
        let a = recent(random, self.results.len());
        let Some(b) = self.divisor(random, draft, &mut room) else {
            return;
        };
        if room.models >= 2 && !random.one_in(4) {
            self.add_quotient_of_inputs(random, draft, a, b);
        } else {
            self.add_quotient_of_steps(draft, a, b);
        }
    }

    /// An earlier step that is nowhere zero, or a new one.
    fn divisor(&mut self, random: &mut Random, draft: &mut Draft, room: &mut Room) -> Option<u8> {
        let order = self.book.order;
        let nonzero = |f: &Model| {
            let Ends { low, high } = operations::range(f);
            low > 0 || high < 0
        };
        let earlier: Vec<usize> = (0..self.results.len())
            .filter(|&number| nonzero(&self.results[number]))
            .collect();
        if !earlier.is_empty() && random.one_in(2) {
            return Some(*random.pick(&earlier) as u8);
        }
        if room.steps >= 7 && random.one_in(3) {
            if let Some(gathered) = self.gathered_divisor(random, draft) {
                return Some(gathered);
            }
        }
        if room.models == 0 || random.one_in(8) {
            let size = random.between(1 << 16, 1 << 24);
            let constant = Step::constant((random.sign() * size) as i32);
            return self.add(draft, constant).ok();
        }
        room.models -= 1;
        let model = quotients::divisor(random, draft.n, order as u8, 5);
        Some(self.add_input(draft, model))
    }

    /// An antiderivative plus a constant that outweighs it.
    fn gathered_divisor(&mut self, random: &mut Random, draft: &mut Draft) -> Option<u8> {
        let a = recent(random, self.results.len());
        if self.keeps_apart(draft, a) {
            return None;
        }
        let v = random.byte(1, draft.n);
        let span = operations::antiderivative(self.result(a), v.into(), self.book.order).span();
        // The sum has room where both are at most half the largest span.
        let most = LARGEST_SPAN / 2;
        let least = i64::try_from(span).ok().filter(|&span| span < most)?;
        let size = random.between(least + 1, (2 * least + UNIT).min(most));
        let gathered = self.add(draft, Step::antiderivative(a, v)).ok()?;
        let constant = Step::constant((random.sign() * size) as i32);
        let constant = self.add(draft, constant).ok()?;
        self.add(draft, Step::two(ADD, gathered, constant)).ok()
    }

    fn add_quotient_of_inputs(&mut self, random: &mut Random, draft: &mut Draft, a: u8, b: u8) {
        let order = self.book.order;
        let (f, g) = (self.result(a).clone(), self.result(b).clone());
        let Some(Proposal { h, w }) = proposals::proposal(random, &f, &g, order) else {
            return;
        };
        if operations::quotient(&f, &g, &h, &w, order).is_ok() {
            let h = self.add_input(draft, DraftModel::of(&h));
            let w = self.add_input(draft, DraftModel::of(&w));
            self.add(draft, Step::quotient(a, b, h, w))
                .expect("it was tried before");
        }
    }

    fn add_quotient_of_steps(&mut self, draft: &mut Draft, a: u8, b: u8) {
        let order = self.book.order;
        let (f, g) = (self.result(a).clone(), self.result(b).clone());
        let Some(w) = proposals::middle_inverse(&g) else {
            return;
        };
        let h = operations::multiply(&f, &w, order);
        let found = h.and_then(|h| operations::quotient(&f, &g, &h, &w, order));
        if found.is_ok() {
            let constant = Step::constant(w.constant_coefficient() as i32);
            let w = self.add(draft, constant).expect("a constant");
            let h = self.add(draft, Step::two(MULTIPLY, a, w));
            let h = h.expect("it was tried before");
            self.add(draft, Step::quotient(a, b, h, w))
                .expect("it was tried before");
        }
    }

    fn result(&self, number: u8) -> &Model {
        &self.results[usize::from(number)]
    }

    /// Adds a step to the draft if it is not refused, and gives its number.
    fn add(&mut self, draft: &mut Draft, step: Step) -> Result<u8, Cause> {
        let result = run::perform(&step, &self.book, &self.results)?;
        self.results.push(result);
        Ok(draft.push(step))
    }

    /// Adds a sound model and a step that names it, and gives the step's number.
    fn add_input(&mut self, draft: &mut Draft, model: DraftModel) -> u8 {
        let sound = model.model(draft.n);
        self.book.models.push(sound.clone());
        self.results.push(sound);
        draft.push_input(model)
    }

    /// A step that is never refused.
    fn plain_step(&mut self, random: &mut Random, draft: &Draft) -> Step {
        let step = Step::variable(random.byte(1, draft.n));
        let result = run::perform(&step, &self.book, &self.results);
        self.results
            .push(result.expect("a variable is never refused"));
        step
    }
}
