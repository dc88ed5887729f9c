//! The shares of a run's steps: compared, summed up, and counted by what they are made of.

use crate::agree::{pair, same};
use hechroung::{Shares, UNIT};
use reference::book::{SoundBook, Step, SUBSTITUTE};
use reference::model::Model;
use reference::refusal::Refusal;
use reference::run::{ReportAnswer, Trace};
use std::collections::BTreeMap;

/// The codes of steps, as they are named in the counts.
const CODES: [&str; 11] = [
    "input",
    "constant",
    "variable",
    "negate",
    "add",
    "subtract",
    "multiply",
    "substitute",
    "sweep",
    "quotient",
    "antiderivative",
];
const NAMES: [&str; 4] = ["carried", "rounding", "swept", "slack"];

/// Which of the four are not 0: bit 0 for carried, up to bit 3 for slack.
type Mix = u8;

/// The mixes that each code has to reach. In a product and a substitution slack comes only beside others; a sweep
/// rounds nothing, an antiderivative has no slack, and what is not named is all carried.
fn owed(code: usize) -> Vec<Mix> {
    match code {
        6 | 7 => (0..16).filter(|&mix| mix != 8).collect(),
        8 => vec![0, 1, 4, 5],
        10 => (0..8).collect(),
        1 | 2 => vec![0],
        _ => vec![0, 1],
    }
}

/// How often a run's steps had which shares.
#[derive(Clone, Default)]
pub struct Rows {
    /// By code and mix.
    steps: BTreeMap<(u8, Mix), u64>,
    /// Substitutions that made no product, one, and several.
    substitutions: [u64; 3],
    /// Runs that a step ended after one with a share that is not 0.
    ended: u64,
    /// What was refused before it ran.
    not_run: u64,
}

impl Rows {
    /// Compares the rows of a run with those of the second implementation, and counts them. The four of each step that
    /// was accepted sum to U times its radius.
    pub fn compared(
        shares: &[Shares],
        expected: &ReportAnswer,
        run: &Result<(SoundBook, Trace), Refusal>,
    ) -> Result<Rows, String> {
        same(&shares.to_vec(), &translated(expected))?;
        let mut rows = Rows::default();
        let Ok((book, trace)) = run else {
            rows.not_run = 1;
            return Ok(rows);
        };
        for (number, step) in trace.steps.iter().enumerate() {
            let row = &shares[number];
            let sum = four(row).into_iter().map(i128::from).sum::<i128>();
            if sum != i128::from(UNIT) * step.model.radius {
                let radius = step.model.radius;
                return Err(format!("step {number} of radius {radius}: {row:?}"));
            }
            rows.note(&book.steps[number], row, |earlier| {
                &trace.steps[earlier].model
            });
        }
        let is_zero = |row: &Shares| *row == Shares::default();
        if let Some((_, place)) = trace.refusal.map(pair) {
            rows.ended = u64::from(!shares[..place].iter().all(is_zero));
        }
        Ok(rows)
    }

    fn note<'a>(&mut self, step: &Step, row: &Shares, earlier: impl Fn(usize) -> &'a Model) {
        let four = four(row).into_iter().enumerate();
        let mix = four.map(|(bit, share)| Mix::from(share != 0) << bit).sum();
        *self.steps.entry((step.code, mix)).or_default() += 1;
        if step.code == SUBSTITUTE {
            let f = earlier(step.a.into());
            let exponents = f.polynomial.keys().map(|m| m[usize::from(step.v) - 1]);
            let products = usize::from(exponents.max().unwrap_or(0));
            self.substitutions[products.min(2)] += 1;
        }
    }

    pub fn add(&mut self, other: &Rows) {
        for (key, times) in &other.steps {
            *self.steps.entry(*key).or_default() += times;
        }
        for (mine, theirs) in self.substitutions.iter_mut().zip(other.substitutions) {
            *mine += theirs;
        }
        self.ended += other.ended;
        self.not_run += other.not_run;
    }

    fn is_empty(&self) -> bool {
        self.steps.is_empty() && self.not_run == 0
    }

    /// What no run reached.
    pub fn unreached(&self) -> Vec<String> {
        let mut missing = Vec::new();
        for (code, name) in CODES.iter().enumerate() {
            let owed = owed(code).into_iter();
            let absent = owed.filter(|&mix| !self.steps.contains_key(&(code as u8, mix)));
            missing.extend(absent.map(|mix| format!("{name} of {}", named(mix))));
        }
        for (made, times) in ["no product", "one product", "several"]
            .iter()
            .zip(self.substitutions)
        {
            if times == 0 {
                missing.push(format!("a substitution of {made}"));
            }
        }
        if self.ended == 0 {
            missing.push("a run that ends after a share".into());
        }
        missing
    }

    /// A line for each code, with how often each mix of shares was seen.
    pub fn print(&self) {
        if self.is_empty() {
            return;
        }
        for (code, name) in CODES.iter().enumerate() {
            let steps = self
                .steps
                .iter()
                .filter(|((other, _), _)| usize::from(*other) == code);
            let each = steps.map(|((_, mix), times)| format!("{}: {times}", named(*mix)));
            println!(
                "    shares of {name}: {}",
                each.collect::<Vec<_>>().join(", ")
            );
        }
        let [none, one, several] = self.substitutions;
        println!("    substitutions of no product: {none}, one: {one}, several: {several}");
        let (ended, not_run) = (self.ended, self.not_run);
        println!(
            "    ended by a step after one with shares: {ended}; refused before it ran: {not_run}"
        );
    }
}

pub fn four(row: &Shares) -> [u64; 4] {
    [row.carried, row.rounding, row.swept, row.slack]
}

fn named(mix: Mix) -> String {
    let names = NAMES.iter().enumerate();
    let named = names.filter(|(bit, _)| mix >> bit & 1 == 1);
    let names: Vec<&str> = named.map(|(_, name)| *name).collect();
    if names.is_empty() {
        return "none".into();
    }
    names.join(" + ")
}

/// The second implementation's rows in the wrapper's type.
pub fn translated(expected: &ReportAnswer) -> Vec<Shares> {
    let narrowed = |share| u64::try_from(share).expect("a share is below 2^64");
    let rows = expected.shares.iter();
    rows.map(|row| Shares {
        carried: narrowed(row.carried),
        rounding: narrowed(row.rounding),
        swept: narrowed(row.swept),
        slack: narrowed(row.slack),
    })
    .collect()
}
