//! Sheets whose variables are renamed throughout: the answer of the renamed sheet is the renamed answer, of the library
//! and of the program, and it is the second implementation's.

use crate::agree::{pair, same, Seen};
use crate::case::{Case, Variables};
use crate::integrals::Integrals;
use crate::program;
use crate::rows::Rows;
use crate::sheets::{parts, to_book, traced, translated};
use crate::stored;
use hechroung::{Model, Summary};
use reference::generate::reorderings;
use reference::model::{key_of_monomial, monomial_of_key, MOST_VARIABLES};
use reference::renaming::Reordering;
use reference::run::ReportAnswer;
use reference::sheet;

/// How many codes of steps there are.
const CODES: usize = 11;

/// What was renamed.
#[derive(Clone, Copy, Default)]
pub struct Renamed {
    /// Reorderings that change nothing, that are their own inverse, and others.
    unchanged: u64,
    own_inverse: u64,
    others: u64,
    /// Answers with other keys than before.
    moved: u64,
    /// Reorderings that change something, by n from 1.
    by_n: [u64; MOST_VARIABLES],
    /// Steps by their code.
    steps: [u64; CODES],
}

impl Renamed {
    fn of(bytes: &[u8], other: &Reordering, moved: bool) -> Renamed {
        let mut renamed = Renamed {
            moved: u64::from(moved),
            ..Renamed::default()
        };
        let counted = if *other == Reordering::unchanged(other.variables()) {
            &mut renamed.unchanged
        } else if *other == other.inverse() {
            &mut renamed.own_inverse
        } else {
            &mut renamed.others
        };
        *counted = 1;
        if renamed.unchanged == 0 {
            renamed.by_n[other.variables() - 1] = 1;
        }
        for step in sheet::sound_book(bytes)
            .into_iter()
            .flat_map(|book| book.steps)
        {
            renamed.steps[usize::from(step.code)] += 1;
        }
        renamed
    }

    pub fn add(&mut self, other: &Renamed) {
        self.unchanged += other.unchanged;
        self.own_inverse += other.own_inverse;
        self.others += other.others;
        self.moved += other.moved;
        for (mine, theirs) in self.steps.iter_mut().zip(other.steps) {
            *mine += theirs;
        }
        for (mine, theirs) in self.by_n.iter_mut().zip(other.by_n) {
            *mine += theirs;
        }
    }

    fn is_empty(&self) -> bool {
        self.unchanged + self.own_inverse + self.others == 0
    }

    /// What no sheet had.
    pub fn unreached(&self) -> Vec<String> {
        let mut missing = Vec::new();
        for (name, times) in [
            ("a reordering that is its own inverse", self.own_inverse),
            ("a reordering that is not its own inverse", self.others),
            ("an answer with other keys", self.moved),
        ] {
            if times == 0 {
                missing.push(name.into());
            }
        }
        // One variable has no other order.
        let others = self.by_n.iter().zip(1..).skip(1);
        let absent = others.filter(|(&times, _)| times == 0);
        missing.extend(absent.map(|(_, n)| format!("a reordering of {n} variables")));
        let codes = self.steps.iter().enumerate();
        let absent = codes.filter(|(_, &times)| times == 0);
        missing.extend(absent.map(|(code, _)| format!("a step of code {code}")));
        missing
    }

    pub fn print(&self) {
        if self.is_empty() {
            return;
        }
        println!(
            "    reorderings that change nothing: {}, their own inverse: {}, others: {}; answers with other keys: {}",
            self.unchanged, self.own_inverse, self.others, self.moved
        );
        let each = self.by_n.iter().zip(1..);
        let each = each.map(|(times, n)| format!("{n}: {times}"));
        println!(
            "    reorderings that change something, by n {}",
            each.collect::<Vec<_>>().join(", ")
        );
        let codes = self.steps.iter().enumerate();
        let each = codes.map(|(code, times)| format!("{code}: {times}"));
        println!("    steps by code {}", each.collect::<Vec<_>>().join(", "));
    }
}

/// The sheet and the reordering of a number.
pub fn case(seed: u64, number: u64) -> (Vec<u8>, Reordering) {
    reorderings::renamed(seed, number)
}

/// By the library, and then by the program at the path.
pub fn compare_both(path: &str, bytes: &[u8], other: &Reordering) -> Result<Seen, String> {
    let found = compare(bytes, other).and_then(|seen| {
        let [before, after] =
            [bytes.to_vec(), renamed(bytes, other)?].map(|sheet| program::written(path, &sheet));
        same(&after?, &other.lines(&before?))?;
        Ok(Seen {
            variables: Variables::of_sheet(bytes),
            ..seen
        })
    });
    found.map_err(|difference| {
        let line = Case::Renamed(bytes.to_vec(), other.clone()).line();
        format!("renamed: {difference}\n{line}")
    })
}

/// By the library: the run with its shares, the plain run, the lines, the book in memory, and the sheet itself, which
/// the reader accepts and which is written back as it is.
pub fn compare(bytes: &[u8], other: &Reordering) -> Result<Seen, String> {
    let sheet = renamed(bytes, other)?;
    let (before, rows_before) = parts(hechroung::shares(bytes));
    let (after, rows) = parts(hechroung::shares(&sheet));
    let expected = before.map(|summary| renamed_summary(&summary, other));
    same(&(after, rows), &(expected, rows_before))?;
    let run = traced(sheet::sound_book(&sheet));
    let second = ReportAnswer::of(run.as_ref().map(|(_, trace)| trace));
    stored::compare_sheet(&sheet, &second)?;
    same(&after, &translated(&second.answer))?;
    same(&hechroung::run(&sheet), &after)?;
    let lines = other.lines(&hechroung::lines(bytes));
    same(&hechroung::lines(&sheet), &lines)?;
    let book = to_book(&sheet::read(&sheet).book);
    stored::compare_book(&book, &second)?;
    same(&parts(hechroung::shares_book(&book)), &(after, rows))?;
    let mut buffer = vec![0; bytes.len()];
    let written = hechroung::rewrite(&sheet, &mut buffer);
    same(&(written, buffer), &(Ok(sheet.len()), sheet))?;

    let mut seen = Seen::of(second.answer.refusal.map(pair));
    seen.rows = Rows::compared(&rows, &second, &run)?;
    if let Ok(summary) = after {
        seen.integrals = Integrals::checked(&summary.model, summary.exact)?;
    }
    seen.renamed = Renamed::of(bytes, other, after != before);
    Ok(seen)
}

fn renamed(bytes: &[u8], other: &Reordering) -> Result<Vec<u8>, String> {
    other
        .sheet(bytes)
        .ok_or_else(|| "the reader refuses the sheet, or it has another n".into())
}

/// Another key for each term, in key order again; everything else stays.
fn renamed_summary(summary: &Summary, other: &Reordering) -> Summary {
    let key = |key| key_of_monomial(&other.monomial(&monomial_of_key(key)));
    let mut terms: Vec<(u32, i64)> = summary.model.terms().map(|(k, c)| (key(k), c)).collect();
    terms.sort_unstable();
    let mut model = Model {
        keys: Model::ZERO.keys,
        coefficients: Model::ZERO.coefficients,
        ..summary.model
    };
    for (place, (key, coefficient)) in terms.into_iter().enumerate() {
        model.keys[place] = key;
        model.coefficients[place] = coefficient;
    }
    Summary { model, ..*summary }
}
