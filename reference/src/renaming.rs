//! Sheets whose variables are renamed throughout (document 02, CR 8): by any
//! reordering of the n variables among themselves, with terms put back in key
//! order.

use crate::book::{SoundBook, Step, ANTIDERIVATIVE, SUBSTITUTE, VARIABLE};
use crate::model::{Model, Monomial, LARGEST_DEGREE};
use crate::run::RunAnswer;
use crate::sheet;
use crate::stored::StoredModel;
use crate::write::sheet_bytes;

/// A reordering of n variables: each one, from 0, has another's place.
#[derive(Clone, Debug, PartialEq, Eq)]
pub struct Reordering {
    to: Vec<usize>,
}

impl Reordering {
    /// Variable i becomes variable `to[i]`, both from 0; none if two of them
    /// would become one.
    pub fn new(to: &[usize]) -> Option<Reordering> {
        let reached = (0..to.len()).all(|place| to.contains(&place));
        reached.then(|| Reordering { to: to.to_vec() })
    }

    /// Each variable stays.
    pub fn unchanged(n: usize) -> Reordering {
        Reordering {
            to: (0..n).collect(),
        }
    }

    /// The reordering that leads back.
    pub fn inverse(&self) -> Reordering {
        let mut back = vec![0; self.to.len()];
        for (from, &to) in self.to.iter().enumerate() {
            back[to] = from;
        }
        Reordering { to: back }
    }

    /// How many variables there are.
    pub fn variables(&self) -> usize {
        self.to.len()
    }

    /// The places that the variables get, from 0.
    pub fn places(&self) -> &[usize] {
        &self.to
    }

    /// The new name of a variable, from 1.
    pub fn variable(&self, v: u8) -> u8 {
        self.to[usize::from(v) - 1] as u8 + 1
    }

    /// A row of one entry for each variable, such as exponents or coordinates;
    /// what stands after the n variables stays.
    pub fn row<T: Copy>(&self, row: &[T]) -> Vec<T> {
        let mut renamed = row.to_vec();
        for (from, &to) in self.to.iter().enumerate() {
            renamed[to] = row[from];
        }
        renamed
    }

    pub fn monomial(&self, monomial: &Monomial) -> Monomial {
        let renamed = self.row(monomial);
        std::array::from_fn(|place| renamed[place])
    }

    /// The map of monomials puts the terms in key order again.
    pub fn model(&self, model: &Model) -> Model {
        let terms = model.polynomial.iter();
        Model {
            polynomial: terms.map(|(m, &c)| (self.monomial(m), c)).collect(),
            ..*model
        }
    }

    /// v is a variable in these three codes; in a quotient it is a step's number.
    pub fn step(&self, step: &Step) -> Step {
        let v = match step.code {
            VARIABLE | SUBSTITUTE | ANTIDERIVATIVE => self.variable(step.v),
            _ => step.v,
        };
        Step { v, ..*step }
    }

    pub fn book(&self, book: &SoundBook) -> SoundBook {
        SoundBook {
            models: book.models.iter().map(|model| self.model(model)).collect(),
            steps: book.steps.iter().map(|step| self.step(step)).collect(),
            ..*book
        }
    }

    /// The renamed sheet; none of one that the reader refuses, or that has
    /// another n.
    pub fn sheet(&self, bytes: &[u8]) -> Option<Vec<u8>> {
        let book = sheet::sound_book(bytes).ok()?;
        (book.n == self.variables()).then(|| sheet_bytes(&self.book(&book)))
    }

    /// The same answer renamed: coefficients at other keys, and the same radius,
    /// range and integral. A refusal stays as it is.
    pub fn answer(&self, answer: &RunAnswer) -> RunAnswer {
        if answer.refusal.is_some() {
            return answer.clone();
        }
        let model = answer.model.sound(LARGEST_DEGREE);
        let model = model.expect("the result of an accepted sheet is sound");
        RunAnswer {
            model: StoredModel::store(&self.model(&model)),
            ..answer.clone()
        }
    }

    /// The program's lines renamed: exponents reordered, and the lines of terms
    /// sorted by them.
    pub fn lines(&self, lines: &str) -> String {
        let (terms, others): (Vec<&str>, Vec<&str>) =
            lines.lines().partition(|line| line.starts_with("term "));
        let mut terms: Vec<(Vec<u32>, &str)> = terms
            .into_iter()
            .map(|line| {
                let words: Vec<&str> = line.split(' ').skip(1).collect();
                let (coefficient, exponents) = words.split_last().expect("a coefficient");
                let exponents = exponents.iter().map(|word| word.parse().expect("a number"));
                (self.row(&exponents.collect::<Vec<u32>>()), *coefficient)
            })
            .collect();
        terms.sort();
        let mut text = String::new();
        for (place, line) in others.into_iter().enumerate() {
            text += &format!("{line}\n");
            // The terms stand after the radius, which comes first.
            for (exponents, coefficient) in terms.iter().filter(|_| place == 0) {
                let exponents: String = exponents.iter().map(|k| format!(" {k}")).collect();
                text += &format!("term{exponents} {coefficient}\n");
            }
        }
        text
    }
}
