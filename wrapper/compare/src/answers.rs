//! Generated sheets with the proved library's answers as lines of text, for the tests of what stands on the library and
//! speaks another language. Both implementations are asked, so that a line is right by both or not written.

use crate::agree::same;
use crate::sheets::{translated, Run};
use hechroung::Summary;
use reference::generate;
use reference::model::FEW_VARIABLES;
use reference::run::run_sheet;
use std::io::Write;

/// What stands where there is no value.
const NONE: &str = "NULL";

/// The lines of the named sheets and of so many generated ones.
pub fn write(sheets: u64, seed: u64, out: &mut impl Write) -> Result<(), String> {
    let named = generate::named_sheets()
        .into_iter()
        .map(|sample| sample.bytes);
    let generated = (0..sheets).map(|number| generate::sheet(seed, number).bytes);
    for sheet in named.chain(generated) {
        let line = line(&sheet)?;
        writeln!(out, "{line}").map_err(|error| error.to_string())?;
    }
    Ok(())
}

/// The sheet in hex, the refusal and its place, the radius, the ends of the range and of the integral, q and r.
fn line(sheet: &[u8]) -> Result<String, String> {
    let run = hechroung::run(sheet);
    same(&run, &translated(&run_sheet(sheet)))?;
    let hex: String = sheet.iter().map(|byte| format!("{byte:02x}")).collect();
    Ok(format!("{hex}|{}", fields(&run).join("|")))
}

fn fields(run: &Run) -> Vec<String> {
    match run {
        Ok(summary) => [vec!["0".to_owned(), NONE.to_owned()], numbers(summary)].concat(),
        Err(refusal) => {
            let mut fields = vec![refusal.number.to_string(), refusal.place.to_string()];
            fields.resize(9, NONE.to_owned());
            fields
        }
    }
}

/// Above four variables there is no exact integral.
fn numbers(summary: &Summary) -> Vec<String> {
    let mut numbers = vec![
        i64::try_from(summary.model.radius).expect("a span is small"),
        summary.range.low,
        summary.range.high,
        summary.integral.low,
        summary.integral.high,
    ];
    if usize::from(summary.model.n) <= FEW_VARIABLES {
        numbers.extend([summary.exact.quotient, summary.exact.remainder]);
    }
    let mut texts: Vec<String> = numbers.iter().map(i64::to_string).collect();
    texts.resize(7, NONE.to_owned());
    texts
}
