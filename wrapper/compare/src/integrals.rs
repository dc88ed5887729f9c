//! The integrals of accepted answers: up to four variables the exact one is held against the polynomial's integral as a
//! fraction, above it is 0; and all are counted.

use crate::agree::{sound, wide_exact};
use hechroung::{Exact, Model, DENOMINATOR};
use reference::exact::check::is_exact;
use reference::model::{Monomial, FEW_VARIABLES, MOST_VARIABLES};
use reference::operations::integral_by_terms;

/// What of an exact integral is counted.
const NAMES: [&str; 4] = [
    "below 0",
    "without a rest",
    "with a rest",
    "with a rest above 9/10",
];
/// What is counted where terms are rounded by themselves.
const NAMES_BY_TERMS: [&str; 3] = ["below 0", "not rounded", "rounded"];
const BY_TERMS: usize = MOST_VARIABLES - FEW_VARIABLES;

/// How often an accepted answer had which integral, by n from 1, and from 5 where terms are rounded by themselves.
/// Those of polynomials without even terms, which are 0, are counted apart.
#[derive(Clone, Copy, Default)]
pub struct Integrals {
    of_zero: u64,
    /// Polynomials that are not constant, and without variables 1 to 4.
    of_the_last: u64,
    by_n: [[u64; NAMES.len()]; FEW_VARIABLES],
    by_terms: [[u64; NAMES_BY_TERMS.len()]; BY_TERMS],
}

impl Integrals {
    /// Checks that the model's polynomial has this integral, as an equation of fractions; above four variables, that
    /// both parts are 0.
    pub fn checked(model: &Model, exact: Exact) -> Result<Integrals, String> {
        if !is_exact(&sound(model), wide_exact(exact)) {
            return Err(format!("{exact:?} is not the integral of {model:?}"));
        }
        let mut integrals = Integrals::default();
        if usize::from(model.n) > FEW_VARIABLES {
            integrals.note_terms(model);
            return Ok(integrals);
        }
        if exact == Exact::default() {
            integrals.of_zero = 1;
            return Ok(integrals);
        }
        let Exact {
            quotient,
            remainder,
        } = exact;
        integrals.by_n[usize::from(model.n) - 1] = [
            quotient < 0,
            remainder == 0,
            remainder != 0,
            remainder > DENOMINATOR / 10 * 9,
        ]
        .map(u64::from);
        Ok(integrals)
    }

    /// The ends were compared before: what they are without the radius.
    fn note_terms(&mut self, model: &Model) {
        let mut polynomial = sound(model);
        polynomial.radius = 0;
        let has = |part: fn(&Monomial) -> &[u8]| {
            let mut terms = polynomial.polynomial.keys();
            terms.any(|monomial| part(monomial).iter().any(|&exponent| exponent > 0))
        };
        let of_the_last = has(|m| &m[FEW_VARIABLES..]) && !has(|m| &m[..FEW_VARIABLES]);
        self.of_the_last = u64::from(of_the_last);
        let ends = integral_by_terms(&polynomial);
        if (ends.low, ends.high) == (0, 0) {
            self.of_zero = 1;
            return;
        }
        let rounded = ends.low != ends.high;
        self.by_terms[usize::from(model.n) - FEW_VARIABLES - 1] =
            [ends.high < 0, !rounded, rounded].map(u64::from);
    }

    pub fn add(&mut self, other: &Integrals) {
        self.of_zero += other.of_zero;
        self.of_the_last += other.of_the_last;
        let mine = self.by_n.as_flattened_mut().iter_mut();
        let mine = mine.chain(self.by_terms.as_flattened_mut());
        let theirs = other.by_n.as_flattened().iter();
        let theirs = theirs.chain(other.by_terms.as_flattened());
        for (mine, theirs) in mine.zip(theirs) {
            *mine += theirs;
        }
    }

    /// What is counted, by n from 1: each name with how often it was seen.
    fn rows(&self) -> Vec<Vec<(&'static str, u64)>> {
        let exact = self.by_n.iter().map(|counts| named(&NAMES, counts));
        let by_terms = self.by_terms.iter();
        let by_terms = by_terms.map(|counts| named(&NAMES_BY_TERMS, counts));
        exact.chain(by_terms).collect()
    }

    fn is_empty(&self) -> bool {
        let counts = self.rows().concat();
        self.of_zero == 0 && counts.iter().all(|&(_, times)| times == 0)
    }

    /// What no answer had.
    pub fn unreached(&self) -> Vec<String> {
        let mut missing = Vec::new();
        if self.of_the_last == 0 {
            missing.push("an integral of variables 5 to 8 alone".into());
        }
        for (row, n) in self.rows().into_iter().zip(1..) {
            let absent = row.into_iter().filter(|&(_, times)| times == 0);
            missing.extend(absent.map(|(name, _)| format!("an integral {name}, n = {n}")));
        }
        missing
    }

    pub fn print(&self) {
        if self.is_empty() {
            return;
        }
        println!(
            "    integrals of 0: {}, of variables 5 to 8 alone: {}",
            self.of_zero, self.of_the_last
        );
        for (row, n) in self.rows().into_iter().zip(1..) {
            let each = row
                .into_iter()
                .map(|(name, times)| format!("{name}: {times}"));
            println!(
                "    integrals, n = {n}: {}",
                each.collect::<Vec<_>>().join(", ")
            );
        }
    }
}

fn named(names: &[&'static str], counts: &[u64]) -> Vec<(&'static str, u64)> {
    names.iter().copied().zip(counts.iter().copied()).collect()
}
