//! Sheets and books, fed to both implementations.

use crate::agree::{pair, same, sound, to_ends, to_exact, to_model, unless, wide, wide_exact};
use crate::agree::{Seen, Tried};
use crate::integrals::Integrals;
use crate::rows::Rows;
use crate::stored;
use hechroung::raw;
use hechroung::{Flat, RefusedRun, Report, Shares, Step, Summary, MOST_STEPS};
use reference::book::{Book, SoundBook};
use reference::exact::check_result;
use reference::exact::outcome::{has_antiderivative, has_quotient};
use reference::generate::{functions, Random};
use reference::operations::Integral;
use reference::records;
use reference::refusal::Refusal;
use reference::run::{trace, ReportAnswer, RunAnswer, RunResult, Trace};
use reference::text;
use reference::write::write;
use reference::{sheet, write::WriteAnswer};

/// One accepted sheet in so many is also tried for enclosure, which is slow.
const TRIED: u64 = 16;

/// What a run hands out.
pub type Run = Result<Summary, hechroung::Refusal>;

/// Run, shares, lines and records of a sheet; now and then the exact enclosure.
pub fn compare(bytes: &[u8]) -> Result<Seen, String> {
    let run = traced(sheet::sound_book(bytes));
    let expected = ReportAnswer::of(run.as_ref().map(|(_, trace)| trace));
    stored::compare_sheet(bytes, &expected)?;
    let summary = hechroung::run(bytes);
    same(&summary, &translated(&expected.answer))?;
    same(&hechroung::lines(bytes), &text::lines(&expected.answer))?;
    compare_records(bytes)?;
    let mut seen = Seen::of(expected.answer.refusal.map(pair));
    let (reported, shares) = parts(hechroung::shares(bytes));
    same(&reported, &summary)?;
    seen.rows = Rows::compared(&shares, &expected, &run)?;
    let Ok(summary) = summary else {
        return Ok(seen);
    };
    seen.integrals = Integrals::checked(&summary.model, summary.exact)?;
    let mark = bytes.iter().fold(0u64, |mark, &byte| {
        mark.wrapping_mul(0x0100_0000_01B3) ^ u64::from(byte)
    });
    if (mark >> 20) % TRIED == 0 {
        seen.tried = enclosed(bytes, &summary, mark)?;
    }
    Ok(seen)
}

/// What each step of a sound book gives.
pub fn traced(book: Result<SoundBook, Refusal>) -> Result<(SoundBook, Trace), Refusal> {
    let book = book?;
    let trace = trace(&book);
    Ok((book, trace))
}

/// A book in memory, run, with the shares of its steps.
pub fn compare_run_book(book: &Book) -> Result<Seen, String> {
    let run = traced(book.sound());
    let expected = ReportAnswer::of(run.as_ref().map(|(_, trace)| trace));
    let handed = to_book(book);
    stored::compare_book(&handed, &expected)?;
    let summary = hechroung::run_book(&handed);
    same(&summary, &translated(&expected.answer))?;
    let mut seen = Seen::of(expected.answer.refusal.map(pair));
    let (reported, shares) = parts(hechroung::shares_book(&handed));
    same(&reported, &summary)?;
    seen.rows = Rows::compared(&shares, &expected, &run)?;
    if let Ok(summary) = summary {
        seen.integrals = Integrals::checked(&summary.model, summary.exact)?;
    }
    Ok(seen)
}

/// The second implementation's answer as the wrapper hands it out.
pub fn translated(expected: &RunAnswer) -> Run {
    let summary = Summary {
        model: to_model(&expected.model),
        range: to_ends(expected.range),
        integral: to_ends(expected.integral.ends),
        exact: to_exact(expected.integral.exact),
    };
    unless(expected.refusal, summary)
}

/// What a run with shares hands out of the run itself, and the shares, which a refused one has too.
pub fn parts(report: Result<Report, RefusedRun>) -> (Run, [Shares; MOST_STEPS]) {
    match report {
        Ok(Report { summary, shares }) => (Ok(summary), shares),
        Err(RefusedRun { refusal, shares }) => (Err(refusal), *shares),
    }
}

/// The exported function has no record after the last one, and none of a refused sheet.
fn compare_records(bytes: &[u8]) -> Result<(), String> {
    let opening = records::open(bytes);
    let expected: Vec<Vec<u8>> = opening
        .reader
        .map(|record| record.bytes().to_vec())
        .collect();
    same(&raw::record(bytes, expected.len(), &mut []), &0)?;
    let records = hechroung::records(bytes).map(|records| records.collect());
    same(&records, &unless(opening.refusal, expected))
}

/// Exact outcomes of functions within the sheet's models, held against what the proved library answers.
fn enclosed(bytes: &[u8], summary: &Summary, seed: u64) -> Result<Tried, String> {
    let book = sheet::sound_book(bytes).map_err(|refusal| format!("{refusal:?}"))?;
    let mut random = Random::new(seed);
    let inside = functions::within_models(&mut random, &book);
    let points = functions::points(&mut random, book.n);
    let model = sound(&summary.model);
    let result = RunResult {
        range: wide(summary.range),
        integral: Integral {
            ends: wide(summary.integral),
            exact: wide_exact(summary.exact),
        },
        model,
    };
    let checked = check_result(&book, &result, &inside, &points)
        .map_err(|violation| format!("not enclosed: {violation:?}"))?;
    let points = checked.points as u64;
    let points_if = |holds: bool| if holds { points } else { 0 };
    Ok(Tried {
        points,
        points_of_quotients: points_if(has_quotient(&book)),
        points_of_antiderivatives: points_if(has_antiderivative(&book)),
        points_not_promised: checked.points_not_promised as u64,
        points_too_large: checked.points_too_large as u64,
        integrals: u64::from(checked.integral),
        ..Tried::default()
    })
}

/// A sheet read and written back. What was refused changes no byte.
pub fn compare_rewrite(bytes: &[u8], length: usize) -> Result<Seen, String> {
    let mut expected_buffer = patterned(length);
    let read = sheet::read(bytes);
    let expected = match read.refusal {
        None => write(&read.book, &mut expected_buffer),
        refusal => WriteAnswer { length: 0, refusal },
    };
    compare_written(
        &(expected, expected_buffer),
        |buffer, numbers| raw::rewrite(bytes, buffer, numbers),
        |buffer| hechroung::rewrite(bytes, buffer),
    )
}

/// A book in memory, written.
pub fn compare_write(book: &Book, length: usize) -> Result<Seen, String> {
    let mut expected_buffer = patterned(length);
    let expected = write(book, &mut expected_buffer);
    let book = to_book(book);
    compare_written(
        &(expected, expected_buffer),
        |buffer, numbers| raw::write(Flat::of(&book).handed(), buffer, numbers),
        |buffer| hechroung::write(&book, buffer),
    )
}

/// By the exported function, which stores the length 0 beside a refusal, and by the wrapper.
fn compare_written(
    (expected, expected_buffer): &(WriteAnswer, Vec<u8>),
    exported: impl Fn(&mut [u8], &mut [u64]) -> u8,
    wrapper: impl Fn(&mut [u8]) -> Result<usize, hechroung::Refusal>,
) -> Result<Seen, String> {
    let refusal = expected.refusal.map(pair);
    let (number, place) = refusal.unwrap_or_default();
    let mut buffer = patterned(expected_buffer.len());
    let mut numbers = [u64::MAX; 3];
    let found = exported(&mut buffer, &mut numbers);
    let stored = [place as u64, expected.length as u64, u64::MAX];
    same(
        &(found, numbers, &buffer),
        &(number, stored, expected_buffer),
    )?;
    let mut buffer = patterned(expected_buffer.len());
    let written = wrapper(&mut buffer);
    same(
        &(written, &buffer),
        &(unless(expected.refusal, expected.length), expected_buffer),
    )?;
    Ok(Seen::of(refusal))
}

/// A buffer in which any change is seen.
pub fn patterned(length: usize) -> Vec<u8> {
    (0..length).map(|i| (i * 151 + 7) as u8).collect()
}

pub fn to_book(book: &Book) -> hechroung::Book {
    hechroung::Book {
        n: book.n,
        d: book.d,
        model_count: book.model_count,
        step_count: book.step_count,
        models: book.models.map(|model| to_model(&model)),
        steps: book.steps.map(|step| Step {
            code: step.code,
            a: step.a,
            b: step.b,
            v: step.v,
            value: step.value,
        }),
    }
}
