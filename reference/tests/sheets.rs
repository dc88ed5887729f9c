//! Generated sheets: what is expected of them by how they were made, and how
//! often each refusal is reached.

mod common;

use common::pair;
use reference::book::{Book, Step, ADD, ANTIDERIVATIVE, MULTIPLY, NEGATE};
use reference::book::{QUOTIENT, SUBSTITUTE, SUBTRACT, SWEEP};
use reference::generate::{self, books, damage, faults, hostile, noise, sound};
use reference::generate::{Expected, Random, Sample};
use reference::operations::{Ends, Integral};
use reference::refusal::Refusal;
use reference::run::{run_book, run_sheet, RunAnswer};
use reference::sheet;
use reference::stored::StoredModel;
use reference::text;
use reference::write::write;
use std::collections::{BTreeMap, BTreeSet};

fn assert_expected(sample: &Sample, refusal: Option<Refusal>) {
    let found = pair(refusal);
    let right = match sample.expected {
        Expected::Unknown => true,
        Expected::Accepted => found.is_none(),
        Expected::Refused(number, place) => found == Some((number, place)),
    };
    let (name, expected) = (&sample.name, sample.expected);
    assert!(right, "{name}: {found:?} where {expected:?} is expected");
}

/// A refused run has the zero model and ends 0; an accepted one is sound.
fn assert_form(answer: &RunAnswer) {
    if answer.refusal.is_some() {
        assert_eq!(answer.model, StoredModel::REFUSED);
        assert_eq!(answer.range, Ends::default());
        assert_eq!(answer.integral, Integral::default());
    } else {
        let model = answer.model.sound(15).expect("a sound result");
        assert_eq!(StoredModel::store(&model), answer.model);
        assert!(answer.range.low <= answer.range.high);
        assert!(answer.integral.ends.low <= answer.integral.ends.high);
    }
}

#[test]
fn named_sheets_are_answered_as_expected() {
    let samples = generate::named_sheets();
    assert!(samples.len() > 150);
    for sample in &samples {
        let answer = run_sheet(&sample.bytes);
        assert_form(&answer);
        assert_expected(sample, answer.refusal);
    }
}

#[test]
fn the_largest_sheets_are_6744_and_8792_bytes() {
    let samples = generate::named_sheets();
    let length = |name: &str| {
        let found = samples.iter().find(|sample| sample.name == name);
        found.expect("a named sample").bytes.len()
    };
    assert_eq!(length("the largest sheet of four variables"), 6_744);
    assert_eq!(length("the largest sheet, n = 5"), 8_792);
    assert_eq!(length("the largest sheet, n = 8"), 8_792);
    assert_eq!(length("the smallest sheet"), 16);
}

#[test]
fn damaged_sheets_are_refused_where_they_are_damaged() {
    let mut random = Random::new(21);
    for kind in &damage::KINDS {
        for _ in 0..120 {
            let sample = kind.sample(&mut random);
            let answer = run_sheet(&sample.bytes);
            assert_form(&answer);
            assert_expected(&sample, answer.refusal);
            let read = sheet::read(&sample.bytes);
            assert_expected(&sample, read.refusal);
            if read.refusal.is_some() {
                assert_eq!(read.book, Book::ZEROS);
            }
        }
    }
}

#[test]
fn runs_are_refused_at_the_step_that_is_at_fault() {
    let mut random = Random::new(22);
    for kind in &faults::KINDS {
        for _ in 0..60 {
            let sample = kind.sample(&mut random);
            assert_eq!(sheet::read(&sample.bytes).refusal, None, "{}", kind.name);
            let answer = run_sheet(&sample.bytes);
            assert_form(&answer);
            assert_expected(&sample, answer.refusal);
        }
    }
}

#[test]
fn steered_sheets_are_accepted() {
    let mut random = Random::new(23);
    for shape in sound::SHAPES {
        for _ in 0..150 {
            let bytes = sound::accepted(&mut random, shape).bytes();
            let answer = run_sheet(&bytes);
            assert_form(&answer);
            assert_eq!(answer.refusal, None);
        }
    }
}

#[test]
fn noise_is_answered() {
    let mut random = Random::new(24);
    for kind in &noise::KINDS {
        for _ in 0..400 {
            let sample = kind.sample(&mut random);
            assert_form(&run_sheet(&sample.bytes));
        }
    }
}

/// Running a sheet and running the book that it reads as are the same.
#[test]
fn a_sheet_and_its_book_run_alike() {
    for number in 0..1_500 {
        let sample = generate::sheet(25, number);
        let read = sheet::read(&sample.bytes);
        let answer = run_sheet(&sample.bytes);
        match read.refusal {
            Some(refusal) => assert_eq!(answer.refusal, Some(refusal)),
            None => assert_eq!(run_book(&read.book), answer),
        }
    }
}

#[test]
fn sheets_are_reproducible() {
    for number in 0..50 {
        assert_eq!(generate::sheet(1, number), generate::sheet(1, number));
    }
}

#[test]
fn lines_are_plain() {
    for number in 0..500 {
        let text = text::lines_of_sheet(&generate::sheet(26, number).bytes);
        assert!(text.ends_with('\n') && !text.contains("\n\n"));
        for line in text.lines() {
            let words: Vec<&str> = line.split(' ').collect();
            assert!(words[1..].iter().all(|word| word.parse::<i128>().is_ok()));
            assert!(words.iter().all(|word| !word.starts_with('+')));
        }
    }
}

/// How often a refusal is reached, and at how many places.
#[derive(Default)]
struct Tally {
    counts: BTreeMap<u8, usize>,
    places: BTreeMap<u8, BTreeSet<usize>>,
}

impl Tally {
    fn note(&mut self, refusal: Option<Refusal>) {
        let (number, place) = pair(refusal).unwrap_or((0, 0));
        *self.counts.entry(number).or_default() += 1;
        self.places.entry(number).or_default().insert(place);
    }

    fn print(&self, name: &str) {
        println!("{name} (0 means accepted):");
        for (number, count) in &self.counts {
            let places = self.places[number].len();
            println!("  {number}: {count} times at {places} places");
        }
    }

    fn assert_reached(&self, numbers: impl IntoIterator<Item = u8>, least: usize) {
        for number in numbers {
            let count = self.counts.get(&number).copied().unwrap_or(0);
            assert!(count >= least, "{number} is reached only {count} times");
        }
    }
}

/// What accepted sheets do with their quotients.
#[derive(Debug, Default)]
struct Uses {
    sheets: usize,
    quotients: usize,
    /// The outcome comes from a quotient.
    in_the_result: usize,
    put_in: usize,
    put_into: usize,
    over_a_quotient: usize,
    of_a_quotient: usize,
}

impl Uses {
    fn note(&mut self, steps: &[Step]) {
        let is_quotient = |number: u8| steps[usize::from(number)].code == QUOTIENT;
        self.sheets += 1;
        let mut from_quotient = Vec::new();
        for step in steps {
            let uses = |number: u8| from_quotient[usize::from(number)];
            let comes_from_one = match step.code {
                NEGATE | SWEEP | ANTIDERIVATIVE => uses(step.a),
                ADD | SUBTRACT | MULTIPLY | SUBSTITUTE => uses(step.a) || uses(step.b),
                code => code == QUOTIENT,
            };
            from_quotient.push(comes_from_one);
            match step.code {
                SUBSTITUTE => {
                    self.put_into += usize::from(is_quotient(step.a));
                    self.put_in += usize::from(is_quotient(step.b));
                }
                QUOTIENT => {
                    self.quotients += 1;
                    self.of_a_quotient += usize::from(is_quotient(step.a));
                    self.over_a_quotient += usize::from(is_quotient(step.b));
                }
                _ => {}
            }
        }
        self.in_the_result += usize::from(from_quotient.last() == Some(&true));
    }
}

#[test]
fn quotients_stand_in_the_middle() {
    let mut uses = Uses::default();
    for number in 0..6_000 {
        let bytes = generate::sheet(29, number).bytes;
        if run_sheet(&bytes).refusal.is_none() {
            let book = sheet::sound_book(&bytes).expect("accepted");
            uses.note(&book.steps);
        }
    }
    println!("{uses:?}");
    assert!(uses.quotients > 1_000 && uses.in_the_result > 200);
    assert!(uses.put_in > 50 && uses.put_into > 100);
    assert!(uses.of_a_quotient > 100 && uses.over_a_quotient > 30);
}

/// By the mark that n names: 0 for 1 to 4 variables, 1 for 5 to 8; none of another n.
fn mark_of(n: u8) -> Option<usize> {
    (1..=8).contains(&n).then_some(usize::from(n > 4))
}

/// By the mark of a sheet; none of one that has neither.
fn mark_of_sheet(bytes: &[u8]) -> Option<usize> {
    let last = bytes.last_chunk()?;
    let mark = sheet::Mark::of_bytes(*last)?;
    Some(usize::from(mark == sheet::Mark::Many))
}

const MARKS: [&str; 2] = ["up to four variables", "above four"];

fn write_tallies() -> [Tally; 2] {
    let mut tallies: [Tally; 2] = Default::default();
    for number in 0..8_000 {
        let book = books::book(28, number);
        let room = [16, 500, 9_000][number as usize % 3];
        if let Some(mark) = mark_of(book.n) {
            tallies[mark].note(write(&book, &mut vec![0; room]).refusal);
        }
    }
    tallies
}

/// Each refusal by sheets of each mark, at many places; 2 is that of neither mark.
#[test]
fn every_refusal_is_reached() {
    let mut sheets: [Tally; 2] = Default::default();
    let mut unmarked = Tally::default();
    for number in 0..24_000 {
        let bytes = generate::sheet(27, number).bytes;
        let tally = match mark_of_sheet(&bytes) {
            Some(mark) => &mut sheets[mark],
            None => &mut unmarked,
        };
        tally.note(run_sheet(&bytes).refusal);
    }
    unmarked.print("sheets of neither mark");
    unmarked.assert_reached([1, 2], 100);
    for (tally, name) in sheets.iter().zip(MARKS) {
        tally.print(&format!("sheets, {name}"));
        tally.assert_reached([0, 1, 3, 4, 5, 6, 7, 8, 9, 12], 100);
        assert!(!tally.counts.contains_key(&2));
        for number in (5..=9).chain([12]) {
            let places = tally.places[&number].len();
            assert!(places > 15, "{number} is reached at {places} places only");
        }
    }

    let mut calls: [Tally; 2] = Default::default();
    let mut handed = Tally::default();
    for number in 0..120_000 {
        let call = hostile::call(27, number);
        let tally = match mark_of(call.variables()) {
            Some(mark) => &mut calls[mark],
            None => &mut handed,
        };
        tally.note(call.answer().refusal());
    }
    handed.print("single calls of another n");
    handed.assert_reached([3, 5], 100);
    for (tally, name) in calls.iter().zip(MARKS) {
        tally.print(&format!("single calls, {name}"));
        tally.assert_reached([0, 3, 5, 6, 7, 8, 9, 10, 12], 100);
        assert_eq!(tally.places[&5], BTreeSet::from([0, 1, 2, 3]));
    }

    for (tally, name) in write_tallies().iter().zip(MARKS) {
        tally.print(&format!("writes, {name}"));
        tally.assert_reached([0, 3, 5, 6, 11], 50);
    }
}
