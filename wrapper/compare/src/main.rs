//! Feeds the proved library and the second implementation with the same input and compares every answer.
//!
//!     compare [CASES [SEED]]    so many generated cases; another seed gives others
//!     compare --cases           the cases that standard input names, one a line, as a failure prints them
//!     compare --program PATH [SHEETS [SEED]]
//!                               so many generated sheets, each handed to the program by its standard input
//!     compare --renamed PATH [SHEETS [SEED]]
//!                               so many generated sheets, each with its variables renamed, by the library and by the
//!                               program at the path
//!     compare --doubles [RECORDS [SEED]]
//!                               so many generated curves in doubles, also by the machine's doubles and exact fractions
//!     compare --readings [ROWS [SEED]]
//!                               so many generated rows of readings, each held against a model
//!     compare --archive [CALLS [SEED]]
//!                               so many generated stores and restores of the archive, and round trips
//!     compare --answers [SHEETS [SEED]]
//!                               prints so many generated sheets and the named ones, each with the library's answer in
//!                               a line; it stops where the second implementation's answer is another one
//!
//! The exit status is 0 only if all answers agree and every refusal, every mix of shares and every kind of integral
//! that can be reached was reached, refusals and enclosures up to four variables and above.

#![forbid(unsafe_code)]

mod agree;
mod answers;
mod archive;
mod case;
mod counts;
mod curves;
mod cuts;
mod doubles;
mod integrals;
mod limits;
mod program;
mod readings;
mod renamed;
mod rows;
mod shaped;
mod sheets;
mod stepping;
mod stored;
mod stream;

use agree::Seen;
use case::Case;
use counts::Counts;
use std::io::{self, BufRead};
use std::process::ExitCode;
use std::thread;
use std::time::Instant;

/// What the gate runs.
const CASES: u64 = 300_000;
const SHEETS: u64 = 10_000;
const RENAMED_SHEETS: u64 = 20_000;
const ROWS: u64 = 20_000;
const SEED: u64 = 1;
/// Failures that are printed; all are counted.
const MOST_PRINTED: usize = 20;
/// A call has some 110 KB of local arrays, a run of a sheet more.
const STACK: usize = 32 << 20;

fn main() -> ExitCode {
    let words: Vec<String> = std::env::args().skip(1).collect();
    match words.iter().map(String::as_str).collect::<Vec<_>>()[..] {
        ["--cases"] => named_cases(),
        ["--program", path] => program_sheets(path, SHEETS, SEED),
        ["--program", path, sheets] => program_numbers(path, sheets, "1"),
        ["--program", path, sheets, seed] => program_numbers(path, sheets, seed),
        ["--renamed", path] => renamed_sheets(path, RENAMED_SHEETS, SEED),
        ["--renamed", path, sheets] => renamed_numbers(path, sheets, "1"),
        ["--renamed", path, sheets, seed] => renamed_numbers(path, sheets, seed),
        ["--doubles"] => doubles_records(doubles::RECORDS, SEED),
        ["--doubles", records] => doubles_numbers(records, "1"),
        ["--doubles", records, seed] => doubles_numbers(records, seed),
        ["--readings"] => rows_of_readings(ROWS, SEED),
        ["--readings", rows] => reading_numbers(rows, "1"),
        ["--readings", rows, seed] => reading_numbers(rows, seed),
        ["--archive"] => archive_calls(archive::CALLS, SEED),
        ["--archive", calls] => archive_numbers(calls, "1"),
        ["--archive", calls, seed] => archive_numbers(calls, seed),
        ["--answers"] => sheet_answers(SHEETS, SEED),
        ["--answers", sheets] => answer_numbers(sheets, "1"),
        ["--answers", sheets, seed] => answer_numbers(sheets, seed),
        [] => generated_cases(CASES, SEED),
        [cases] => numbers(cases, "1"),
        [cases, seed] => numbers(cases, seed),
        _ => usage(),
    }
}

fn usage() -> ExitCode {
    eprintln!("usage: compare [CASES [SEED]] | --cases < LINES | --program PATH [SHEETS [SEED]] |");
    eprintln!("       --renamed PATH [SHEETS [SEED]] | --doubles [RECORDS [SEED]] | --readings [ROWS [SEED]] | --archive [CALLS [SEED]] |");
    eprintln!("       --answers [SHEETS [SEED]]");
    ExitCode::from(2)
}

fn numbers(cases: &str, seed: &str) -> ExitCode {
    match (cases.parse(), seed.parse()) {
        (Ok(cases), Ok(seed)) => generated_cases(cases, seed),
        _ => usage(),
    }
}

fn program_numbers(path: &str, sheets: &str, seed: &str) -> ExitCode {
    match (sheets.parse(), seed.parse()) {
        (Ok(sheets), Ok(seed)) => program_sheets(path, sheets, seed),
        _ => usage(),
    }
}

fn renamed_numbers(path: &str, sheets: &str, seed: &str) -> ExitCode {
    match (sheets.parse(), seed.parse()) {
        (Ok(sheets), Ok(seed)) => renamed_sheets(path, sheets, seed),
        _ => usage(),
    }
}

fn doubles_numbers(records: &str, seed: &str) -> ExitCode {
    match (records.parse(), seed.parse()) {
        (Ok(records), Ok(seed)) => doubles_records(records, seed),
        _ => usage(),
    }
}

fn reading_numbers(rows: &str, seed: &str) -> ExitCode {
    match (rows.parse(), seed.parse()) {
        (Ok(rows), Ok(seed)) => rows_of_readings(rows, seed),
        _ => usage(),
    }
}

fn archive_numbers(calls: &str, seed: &str) -> ExitCode {
    match (calls.parse(), seed.parse()) {
        (Ok(calls), Ok(seed)) => archive_calls(calls, seed),
        _ => usage(),
    }
}

fn answer_numbers(sheets: &str, seed: &str) -> ExitCode {
    match (sheets.parse(), seed.parse()) {
        (Ok(sheets), Ok(seed)) => sheet_answers(sheets, seed),
        _ => usage(),
    }
}

/// Prints generated sheets and the named ones with their answers.
fn sheet_answers(sheets: u64, seed: u64) -> ExitCode {
    let print = move || answers::write(sheets, seed, &mut io::stdout().lock());
    let thread = thread::Builder::new().stack_size(STACK).spawn(print);
    let printed = thread.expect("a thread can be started").join();
    match printed.expect("no comparison panics") {
        Ok(()) => ExitCode::SUCCESS,
        Err(difference) => {
            eprintln!("{difference}");
            ExitCode::FAILURE
        }
    }
}

/// Compares the cases that failures printed.
fn named_cases() -> ExitCode {
    let mut failed = false;
    for line in io::stdin().lock().lines() {
        let line = line.expect("standard input can be read");
        let Some(case) = Case::from_line(&line) else {
            eprintln!("this line names no case: {line}");
            return ExitCode::from(2);
        };
        match agree::compare(&case) {
            Ok(seen) => println!("agree: {}", seen.text),
            Err(difference) => {
                failed = true;
                println!("{difference}");
            }
        }
    }
    ExitCode::from(u8::from(failed))
}

/// Compares generated cases and named ones, on every processor.
fn generated_cases(cases: u64, seed: u64) -> ExitCode {
    let started = Instant::now();
    let compare = |case: Case| {
        let found = agree::compare(&case);
        (case.kind(), found)
    };
    let (counts, failures) = on_every_processor(move |first, step| {
        let named = (first == 0).then(stream::named).unwrap_or_default();
        let generated = (first..cases).step_by(step);
        let generated = generated.map(move |number| stream::case(seed, number));
        noted(named.into_iter().chain(generated).map(compare))
    });
    counts.print();
    println!(
        "{cases} generated cases and {} named ones with seed {seed}: {} differ, {} s",
        counts.cases() - cases,
        failures.len(),
        started.elapsed().as_secs()
    );
    let unreached = counts.unreached();
    if !unreached.is_empty() {
        println!("not reached: {}", unreached.join("; "));
    }
    ended(&failures, unreached.is_empty())
}

/// Compares what the program writes for generated sheets and for the named ones.
fn program_sheets(path: &str, sheets: u64, seed: u64) -> ExitCode {
    let started = Instant::now();
    let owned = path.to_owned();
    let (counts, failures) = on_every_processor(move |first, step| {
        let named = (first == 0).then(program::named).unwrap_or_default();
        let generated = (first..sheets).step_by(step);
        let generated = generated.map(move |number| program::sheet(seed, number));
        let all = named.into_iter().chain(generated);
        noted(all.map(|sheet| ("the program", program::compare(&owned, &sheet))))
    });
    counts.print();
    println!(
        "{sheets} generated sheets and {} named ones with seed {seed} by the program's standard input: {} differ, {} s",
        counts.cases() - sheets,
        failures.len(),
        started.elapsed().as_secs()
    );
    ended(&failures, true)
}

/// Compares the answers of renamed sheets with the renamed answers.
fn renamed_sheets(path: &str, sheets: u64, seed: u64) -> ExitCode {
    const NAME: &str = "renamed sheet";
    let started = Instant::now();
    let owned = path.to_owned();
    let (counts, failures) = on_every_processor(move |first, step| {
        let generated = (first..sheets).step_by(step);
        noted(generated.map(|number| {
            let (sheet, other) = renamed::case(seed, number);
            (NAME, renamed::compare_both(&owned, &sheet, &other))
        }))
    });
    counts.print();
    println!(
        "{sheets} generated sheets with seed {seed}, renamed, by the library and by the program: {} differ, {} s",
        failures.len(),
        started.elapsed().as_secs()
    );
    let unreached = counts.unreached_renamed(NAME);
    if !unreached.is_empty() {
        println!("not reached: {}", unreached.join("; "));
    }
    ended(&failures, unreached.is_empty())
}

/// Compares stores and restores of the archive, generated ones and such of each kind.
fn archive_calls(calls: u64, seed: u64) -> ExitCode {
    let started = Instant::now();
    let compare = |case: Case| (case.kind(), agree::compare(&case));
    let (counts, failures) = on_every_processor(move |first, step| {
        let named = (first == 0).then(archive::named).unwrap_or_default();
        let generated = (first..calls).step_by(step);
        let generated = generated.map(move |number| archive::case(seed, number));
        noted(named.into_iter().chain(generated).map(compare))
    });
    counts.print();
    println!(
        "{calls} generated calls of the archive and {} named ones with seed {seed}: {} differ, {} s",
        counts.cases() - calls,
        failures.len(),
        started.elapsed().as_secs()
    );
    let unreached = counts.unreached_archive();
    if !unreached.is_empty() {
        println!("not reached: {}", unreached.join("; "));
    }
    ended(&failures, unreached.is_empty())
}

/// Compares curves in doubles: generated ones, and those at ties and beside them.
fn doubles_records(records: u64, seed: u64) -> ExitCode {
    let started = Instant::now();
    let compare = |case: Case| (case.kind(), agree::compare(&case));
    let (counts, failures) = on_every_processor(move |first, step| {
        let named = (first == 0).then(doubles::named).unwrap_or_default();
        let generated = (first..records).step_by(step);
        let generated = generated.map(move |number| doubles::case(seed, number));
        noted(named.into_iter().chain(generated).map(compare))
    });
    counts.print();
    println!(
        "{records} generated curves in doubles and {} named ones with seed {seed}: {} differ, {} s",
        counts.cases() - records,
        failures.len(),
        started.elapsed().as_secs()
    );
    let unreached = counts.unreached_doubles(doubles::NAME);
    if !unreached.is_empty() {
        println!("not reached: {}", unreached.join("; "));
    }
    ended(&failures, unreached.is_empty())
}

/// Compares what generated rows of readings and named ones give. A difference names the row by a line of hex.
fn rows_of_readings(rows: u64, seed: u64) -> ExitCode {
    let started = Instant::now();
    let parts = by_processor(move |first, step| {
        let mut seen = readings::Seen::default();
        let mut failures = Vec::new();
        let named = (first == 0).then(readings::named).unwrap_or_default();
        let generated = (first..rows).step_by(step);
        let generated = generated.map(|number| readings::row(seed, number));
        for row in named.into_iter().chain(generated) {
            if let Err(difference) = readings::compare(&row, &mut seen) {
                let line = Case::Readings(row).line();
                failures.push(format!("row of readings: {difference}\n{line}"));
            }
        }
        (seen, failures)
    });
    let mut seen = readings::Seen::default();
    let mut failures = Vec::new();
    for (part, part_failures) in parts {
        seen.add(part);
        failures.extend(part_failures);
    }
    seen.print();
    println!(
        "{rows} generated rows of readings with seed {seed} and the named ones: {} differ, {} s",
        failures.len(),
        started.elapsed().as_secs()
    );
    let unreached = seen.unreached();
    if !unreached.is_empty() {
        println!("not reached: {}", unreached.join("; "));
    }
    ended(&failures, unreached.is_empty())
}

/// What one thread for each processor gives, added up.
fn on_every_processor<F>(work: F) -> (Counts, Vec<String>)
where
    F: Fn(u64, usize) -> (Counts, Vec<String>) + Clone + Send + 'static,
{
    let mut counts = Counts::default();
    let mut failures = Vec::new();
    for (part_counts, part_failures) in by_processor(work) {
        counts.add(part_counts);
        failures.extend(part_failures);
    }
    (counts, failures)
}

/// One thread for each processor: it is told its number and how many there are.
fn by_processor<F, T>(work: F) -> Vec<T>
where
    F: Fn(u64, usize) -> T + Clone + Send + 'static,
    T: Send + 'static,
{
    let workers = thread::available_parallelism().map_or(1, usize::from);
    let parts: Vec<_> = (0..workers as u64)
        .map(|first| {
            let work = work.clone();
            let builder = thread::Builder::new().stack_size(STACK);
            let part = builder.spawn(move || work(first, workers));
            part.expect("a thread can be started")
        })
        .collect();
    parts
        .into_iter()
        .map(|part| part.join().expect("no comparison panics"))
        .collect()
}

/// What was seen, counted by kind, and every difference.
fn noted(
    found: impl Iterator<Item = (&'static str, Result<Seen, String>)>,
) -> (Counts, Vec<String>) {
    let mut counts = Counts::default();
    let mut failures = Vec::new();
    for (kind, seen) in found {
        match seen {
            Ok(seen) => counts.note(kind, &seen),
            Err(difference) => {
                counts.note_failure(kind);
                failures.push(difference);
            }
        }
    }
    (counts, failures)
}

fn ended(failures: &[String], complete: bool) -> ExitCode {
    for failure in failures.iter().take(MOST_PRINTED) {
        println!("{failure}");
    }
    ExitCode::from(u8::from(!failures.is_empty() || !complete))
}
