//! The program's lines.

use crate::model::{monomial_of_key, FEW_VARIABLES};
use crate::operations::{Ends, Exact};
use crate::run::{run_sheet, RunAnswer};
use crate::stored::{StoredModel, StoredTerm};

/// The lines that the program prints for a sheet.
pub fn lines_of_sheet(sheet: &[u8]) -> String {
    lines(&run_sheet(sheet))
}

/// The lines of an answer, each with its line feed.
pub fn lines(answer: &RunAnswer) -> String {
    if let Some(refusal) = answer.refusal {
        return format!("refused {} {}\n", refusal.number(), refusal.place());
    }
    let mut text = format!("radius {}\n", answer.model.radius);
    text += &term_lines(&answer.model);
    text += &ends_line("range", answer.range);
    text += &ends_line("integral", answer.integral.ends);
    if usize::from(answer.model.n) <= FEW_VARIABLES {
        text += &exact_line(answer.integral.exact);
    }
    text
}

fn term_lines(model: &StoredModel) -> String {
    let terms = &model.terms[..model.count];
    terms
        .iter()
        .map(|term| term_line(term, usize::from(model.n)))
        .collect()
}

fn term_line(term: &StoredTerm, n: usize) -> String {
    let exponents: String = monomial_of_key(term.key)[..n]
        .iter()
        .map(|exponent| format!(" {exponent}"))
        .collect();
    format!("term{exponents} {}\n", term.coefficient)
}

fn ends_line(name: &str, ends: Ends) -> String {
    format!("{name} {} {}\n", ends.low, ends.high)
}

fn exact_line(exact: Exact) -> String {
    format!("exact {} {}\n", exact.quotient, exact.remainder)
}

/// The bytes of a hex text. White space may stand between bytes.
pub fn bytes_of_hex(text: &str) -> Option<Vec<u8>> {
    let digits: Option<Vec<u8>> = text
        .chars()
        .filter(|c| !c.is_whitespace())
        .map(|c| c.to_digit(16).map(|digit| digit as u8))
        .collect();
    let digits = digits?;
    if digits.len() % 2 != 0 {
        return None;
    }
    Some(
        digits
            .chunks(2)
            .map(|pair| pair[0] << 4 | pair[1])
            .collect(),
    )
}
