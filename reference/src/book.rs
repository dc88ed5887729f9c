//! Books: a sheet's matter in memory, and the tests that books and sheets share.

use crate::model::{Model, LARGEST_DEGREE, LARGEST_SPAN, MOST_VARIABLES};
use crate::refusal::Refusal;
use crate::stored::StoredModel;

/// The largest number of models in a book.
pub const MOST_MODELS: usize = 16;
/// The largest number of steps in a book.
pub const MOST_STEPS: usize = 64;

/// One step. In a book its value may be any number of 64 bits; a sheet holds 32.
#[derive(Clone, Copy, Debug, Default, PartialEq, Eq)]
pub struct Step {
    pub code: u8,
    pub a: u8,
    pub b: u8,
    pub v: u8,
    pub value: i64,
}

pub const INPUT: u8 = 0;
pub const CONSTANT: u8 = 1;
pub const VARIABLE: u8 = 2;
pub const NEGATE: u8 = 3;
pub const ADD: u8 = 4;
pub const SUBTRACT: u8 = 5;
pub const MULTIPLY: u8 = 6;
pub const SUBSTITUTE: u8 = 7;
pub const SWEEP: u8 = 8;
pub const QUOTIENT: u8 = 9;
pub const ANTIDERIVATIVE: u8 = 10;

impl Step {
    const ZEROS: Step = Step {
        code: 0,
        a: 0,
        b: 0,
        v: 0,
        value: 0,
    };

    /// A step that names one model or step.
    pub fn one(code: u8, a: u8) -> Step {
        Step {
            code,
            a,
            ..Step::ZEROS
        }
    }

    /// A step that names two steps.
    pub fn two(code: u8, a: u8, b: u8) -> Step {
        Step {
            code,
            a,
            b,
            ..Step::ZEROS
        }
    }

    pub fn constant(value: i32) -> Step {
        Step {
            code: CONSTANT,
            value: i64::from(value),
            ..Step::ZEROS
        }
    }

    pub fn variable(v: u8) -> Step {
        Step {
            code: VARIABLE,
            v,
            ..Step::ZEROS
        }
    }

    /// Puts step b for variable v into step a.
    pub fn substitute(a: u8, b: u8, v: u8) -> Step {
        Step {
            v,
            ..Step::two(SUBSTITUTE, a, b)
        }
    }

    pub fn sweep(a: u8, value: i32) -> Step {
        Step {
            value: i64::from(value),
            ..Step::one(SWEEP, a)
        }
    }

    /// Step a over step b, from the proposal of steps h and w, which stand in
    /// the fields v and value.
    pub fn quotient(a: u8, b: u8, h: u8, w: u8) -> Step {
        Step {
            v: h,
            value: i64::from(w),
            ..Step::two(QUOTIENT, a, b)
        }
    }

    /// The antiderivative of step a in variable v.
    pub fn antiderivative(a: u8, v: u8) -> Step {
        Step {
            v,
            ..Step::one(ANTIDERIVATIVE, a)
        }
    }

    /// The step as a sheet holds it. Every value that keeps a form fits, and so
    /// do those of drafts.
    pub fn to_bytes(self) -> [u8; 8] {
        let value = i32::try_from(self.value).expect("a sheet's value has 32 bits");
        let [v0, v1, v2, v3] = value.to_le_bytes();
        [self.code, self.a, self.b, self.v, v0, v1, v2, v3]
    }

    pub fn from_bytes(bytes: [u8; 8]) -> Step {
        let [code, a, b, v, v0, v1, v2, v3] = bytes;
        Step {
            code,
            a,
            b,
            v,
            value: i64::from(i32::from_le_bytes([v0, v1, v2, v3])),
        }
    }

    /// Whether the step keeps its form as step `number`. A field that the code
    /// does not name must be 0.
    fn keeps_form(&self, number: usize, n: usize, model_count: usize) -> bool {
        let earlier = |operand: u8| usize::from(operand) < number;
        let variable = (1..=n).contains(&usize::from(self.v));
        let no_a = self.a == 0;
        let no_b = self.b == 0;
        let no_v = self.v == 0;
        let no_value = self.value == 0;
        let value = i128::from(self.value);
        match self.code {
            INPUT => usize::from(self.a) < model_count && no_b && no_v && no_value,
            CONSTANT => value.abs() <= LARGEST_SPAN && no_a && no_b && no_v,
            VARIABLE => variable && no_a && no_b && no_value,
            NEGATE => earlier(self.a) && no_b && no_v && no_value,
            ADD | SUBTRACT | MULTIPLY => earlier(self.a) && earlier(self.b) && no_v && no_value,
            SUBSTITUTE => earlier(self.a) && earlier(self.b) && variable && no_value,
            QUOTIENT => {
                // All four operands are steps; a value is one only from 0.
                let step_w = usize::try_from(self.value).is_ok_and(|w| w < number);
                earlier(self.a) && earlier(self.b) && earlier(self.v) && step_w
            }
            ANTIDERIVATIVE => earlier(self.a) && variable && no_b && no_value,
            SWEEP => earlier(self.a) && (0..=LARGEST_SPAN).contains(&value) && no_b && no_v,
            _ => false,
        }
    }
}

/// A book in memory. Every field may hold anything.
#[derive(Clone, Debug, PartialEq, Eq)]
pub struct Book {
    pub n: u8,
    pub d: u8,
    pub model_count: usize,
    pub step_count: usize,
    pub models: [StoredModel; MOST_MODELS],
    pub steps: [Step; MOST_STEPS],
}

impl Book {
    /// Every field 0: what a refused read gives.
    pub const ZEROS: Book = Book {
        n: 0,
        d: 0,
        model_count: 0,
        step_count: 0,
        models: [StoredModel::ZEROS; MOST_MODELS],
        steps: [Step::ZEROS; MOST_STEPS],
    };

    /// Puts a sound book into memory, with zeros beyond its counts.
    pub fn store(book: &SoundBook) -> Book {
        let mut stored = Book {
            n: book.n as u8,
            d: book.order as u8,
            model_count: book.models.len(),
            step_count: book.steps.len(),
            ..Book::ZEROS
        };
        for (place, model) in stored.models.iter_mut().zip(&book.models) {
            *place = StoredModel::store(model);
        }
        stored.steps[..book.steps.len()].copy_from_slice(&book.steps);
        stored
    }

    /// Makes tests 3, 5 and 6, in this order.
    pub fn sound(&self) -> Result<SoundBook, Refusal> {
        let limits = Limits {
            n: usize::from(self.n),
            order: u32::from(self.d),
            model_count: self.model_count,
            step_count: self.step_count,
        };
        limits.test()?;
        let models = sound_models(&self.models[..self.model_count], &limits)?;
        let steps = self.steps[..self.step_count].to_vec();
        limits.test_steps(&steps)?;
        Ok(SoundBook {
            n: limits.n,
            order: limits.order,
            models,
            steps,
        })
    }
}

fn sound_models(stored: &[StoredModel], limits: &Limits) -> Result<Vec<Model>, Refusal> {
    let mut models = Vec::new();
    for (number, place) in stored.iter().enumerate() {
        let model = limits.sound_model(place).ok_or(Refusal::Model(number))?;
        models.push(model);
    }
    Ok(models)
}

/// A book that passed tests 3, 5 and 6.
#[derive(Clone, Debug, PartialEq, Eq)]
pub struct SoundBook {
    pub n: usize,
    pub order: u32,
    pub models: Vec<Model>,
    pub steps: Vec<Step>,
}

/// The numbers that a sheet's trailer and a book both name.
#[derive(Clone, Copy, Debug)]
pub struct Limits {
    pub n: usize,
    pub order: u32,
    pub model_count: usize,
    pub step_count: usize,
}

impl Limits {
    /// Test 3.
    pub fn test(&self) -> Result<(), Refusal> {
        let kept = (1..=MOST_VARIABLES).contains(&self.n)
            && (1..=LARGEST_DEGREE).contains(&self.order)
            && self.model_count <= MOST_MODELS
            && (1..=MOST_STEPS).contains(&self.step_count);
        if kept {
            Ok(())
        } else {
            Err(Refusal::Limits)
        }
    }

    /// A model that keeps the rules, the order and the book's n: test 5.
    pub fn sound_model(&self, stored: &StoredModel) -> Option<Model> {
        stored.sound(self.order).filter(|model| model.n == self.n)
    }

    /// Test 6.
    pub fn test_steps(&self, steps: &[Step]) -> Result<(), Refusal> {
        let broken = steps
            .iter()
            .enumerate()
            .find(|(number, step)| !step.keeps_form(*number, self.n, self.model_count));
        match broken {
            Some((number, _)) => Err(Refusal::Step(number)),
            None => Ok(()),
        }
    }
}
