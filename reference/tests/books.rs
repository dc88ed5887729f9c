//! Books: writing, reading, and round trips.

mod common;

use common::*;
use reference::book::{Book, Step, ADD, MULTIPLY, NEGATE, SUBTRACT};
use reference::generate::{self, books, damage, sound, Draft, Random};
use reference::run::{run_book, run_sheet};
use reference::sheet::read;
use reference::stored::StoredModel;
use reference::write::write;

/// A buffer whose every byte differs from its neighbours, so that any change
/// is seen.
fn patterned(length: usize) -> Vec<u8> {
    (0..length).map(|i| (i * 151 + 7) as u8).collect()
}

/// A draft, its bytes and the book they read as agree both ways.
fn assert_round_trip(draft: &Draft) {
    let bytes = draft.bytes();
    let answer = read(&bytes);
    assert_eq!(answer.refusal, None);
    let mut buffer = patterned(bytes.len() + 40);
    let written = write(&answer.book, &mut buffer);
    assert_eq!((written.length, written.refusal), (bytes.len(), None));
    assert_eq!(buffer[..bytes.len()], bytes);
    assert_eq!(
        buffer[bytes.len()..],
        patterned(bytes.len() + 40)[bytes.len()..]
    );
}

#[test]
fn sheets_come_back_from_books() {
    let mut random = Random::new(31);
    for shape in sound::SHAPES {
        for _ in 0..150 {
            assert_round_trip(&sound::sheet(&mut random, shape));
        }
    }
}

#[test]
fn named_sheets_come_back_from_books() {
    for sample in generate::named_sheets() {
        let answer = read(&sample.bytes);
        let mut buffer = patterned(9_000);
        let written = write(&answer.book, &mut buffer);
        if answer.refusal.is_none() {
            assert_eq!(buffer[..written.length], sample.bytes, "{}", sample.name);
        } else {
            // A book of zeros has n = 0.
            assert_eq!(pair(written.refusal), Some((3, 0)));
            assert_eq!(buffer, patterned(9_000));
        }
    }
}

/// A written book reads back as itself, but for the places beyond its counts.
#[test]
fn books_come_back_from_sheets() {
    let mut written_books = 0;
    for number in 0..3_000 {
        let book = books::book(32, number);
        let mut buffer = patterned(9_000);
        let answer = write(&book, &mut buffer);
        assert_eq!(buffer[answer.length..], patterned(9_000)[answer.length..]);
        match answer.refusal {
            Some(_) => assert_eq!(answer.length, 0),
            None => {
                let back = read(&buffer[..answer.length]);
                assert_eq!(back.refusal, None);
                assert_eq!(back.book, without_junk(&book));
                written_books += 1;
            }
        }
    }
    assert!(written_books > 1_500);
}

/// Zeros in every place beyond a count.
fn without_junk(book: &Book) -> Book {
    let mut clean = book.clone();
    clean.models[book.model_count..].fill(StoredModel::ZEROS);
    clean.steps[book.step_count..].fill(Step::default());
    for model in &mut clean.models[..book.model_count] {
        let count = model.count;
        model.terms[count..].fill(Default::default());
    }
    clean
}

/// A book is refused by 3, 5 and 6 alike, whether it is run or written.
#[test]
fn running_and_writing_test_a_book_alike() {
    for number in 0..2_000 {
        let book = books::book(33, number);
        let mut buffer = patterned(9_000);
        let written = write(&book, &mut buffer);
        let run = run_book(&book);
        match written.refusal {
            Some(refusal) => assert_eq!(run.refusal, Some(refusal)),
            None => assert_eq!(run, run_sheet(&buffer[..written.length])),
        }
    }
}

#[test]
fn the_buffer_may_have_exactly_the_length() {
    let mut random = Random::new(34);
    for _ in 0..60 {
        let bytes = sound::sheet(&mut random, sound::MIDDLE).bytes();
        let book = read(&bytes).book;
        let mut exact = patterned(bytes.len());
        assert_eq!(write(&book, &mut exact).length, bytes.len());
        assert_eq!(exact, bytes);
        for length in [0, 1, bytes.len() / 2, bytes.len() - 1] {
            let mut short = patterned(length);
            let answer = write(&book, &mut short);
            assert_eq!((answer.length, pair(answer.refusal)), (0, Some((11, 0))));
            assert_eq!(short, patterned(length));
        }
    }
}

fn small_book() -> Book {
    let models = vec![model(1, &[(0, 5)]), model(2, &[(0x1000, 6)])];
    let steps = vec![input(0), input(1), Step::two(ADD, 0, 1)];
    read(&Draft::new(1, 2, models, steps).bytes()).book
}

fn refusal_of(change: fn(&mut Book)) -> Option<(u8, usize)> {
    let mut book = small_book();
    change(&mut book);
    let mut buffer = patterned(10);
    let answer = write(&book, &mut buffer);
    assert_eq!(buffer, patterned(10), "a refused write changes nothing");
    pair(answer.refusal)
}

#[test]
fn the_writer_tests_3_5_6_11() {
    assert_eq!(refusal_of(|_| ()), Some((11, 0)));
    assert_eq!(refusal_of(|book| book.steps[2].b = 2), Some((6, 2)));
    assert_eq!(refusal_of(|book| book.steps[1].value = 1), Some((6, 1)));
    let broken_step_and_model = |book: &mut Book| {
        book.steps[0].code = 10;
        book.models[1].radius = u64::MAX;
    };
    assert_eq!(refusal_of(broken_step_and_model), Some((5, 1)));
    let both_models = |book: &mut Book| {
        book.models[1].n = 0;
        book.models[0].count = 65;
    };
    assert_eq!(refusal_of(both_models), Some((5, 0)));
    assert_eq!(refusal_of(|book| book.models[1].n = 2), Some((5, 1)));
    assert_eq!(refusal_of(|book| book.n = 2), Some((5, 0)));
    let degree = |book: &mut Book| book.models[1].terms[0].key = 0x3000_0000;
    assert_eq!(refusal_of(degree), Some((5, 1)));
    let limits_and_model = |book: &mut Book| {
        book.d = 16;
        book.models[0].n = 0;
    };
    assert_eq!(refusal_of(limits_and_model), Some((3, 0)));
    assert_eq!(refusal_of(|book| book.model_count = 17), Some((3, 0)));
    assert_eq!(refusal_of(|book| book.step_count = 0), Some((3, 0)));
    assert_eq!(
        refusal_of(|book| book.step_count = usize::MAX),
        Some((3, 0))
    );
}

#[test]
fn places_beyond_the_counts_are_not_looked_at() {
    let ignored = |book: &mut Book| {
        book.models[2].n = 200;
        book.models[0].terms[1].coefficient = i64::MIN;
        book.steps[3].code = 77;
    };
    assert_eq!(refusal_of(ignored), Some((11, 0)));
}

#[test]
fn an_accepted_read_leaves_zeros_beyond_the_counts() {
    let book = small_book();
    assert_eq!(book, without_junk(&book));
    assert_eq!((book.models[0].n, book.models[2].n), (1, 0));
}

#[test]
fn a_refused_read_gives_zeros() {
    let mut random = Random::new(35);
    for kind in &damage::KINDS {
        let answer = read(&kind.sample(&mut random).bytes);
        if answer.refusal.is_some() {
            assert_eq!(answer.book, Book::ZEROS);
            assert_eq!(answer.book.models[0].n, 0);
        }
    }
}

/// A book of 64-bit values is tested by those, and not by what a sheet could hold of them.
#[test]
fn values_beyond_a_sheet_break_the_form() {
    // Each step is well-formed as step 1, after a constant and with one model.
    let steps = [
        input(0),
        Step::constant(5),
        Step::constant(-LARGEST),
        Step::variable(1),
        Step::one(NEGATE, 0),
        Step::two(ADD, 0, 0),
        Step::two(SUBTRACT, 0, 0),
        Step::two(MULTIPLY, 0, 0),
        Step::substitute(0, 0, 1),
        Step::sweep(0, 3),
        Step::quotient(0, 0, 0, 0),
        Step::antiderivative(0, 1),
    ];
    for step in steps {
        let models = vec![model(0, &[])];
        let mut book =
            read(&Draft::new(1, 1, models, vec![Step::constant(UNIT), step]).bytes()).book;
        assert_eq!(run_book(&book).refusal, None, "{step:?}");
        for beyond in [1 << 32, -(1 << 32), 1 << 40, 1 << 62, i64::MIN] {
            book.steps[1].value = step.value.wrapping_add(beyond);
            assert_eq!(
                pair(run_book(&book).refusal),
                Some((6, 1)),
                "{step:?} {beyond}"
            );
            assert_eq!(pair(write(&book, &mut []).refusal), Some((6, 1)));
        }
    }
}

#[test]
fn generated_books_have_values_beyond_a_sheet() {
    // By code: how often such a value stands in use, and how often it alone refuses the book.
    let mut seen = [(0, 0); 11];
    for number in 0..20_000 {
        let mut book = books::book(36, number);
        let steps = book.steps.iter().take(book.step_count);
        let beyond = |step: &&Step| i32::try_from(step.value).is_err();
        let found: Vec<Step> = steps.filter(beyond).copied().collect();
        let refusal = run_book(&book).refusal;
        for step in found.iter().filter(|step| step.code <= 10) {
            seen[usize::from(step.code)].0 += 1;
        }
        if let (Some((6, place)), [step]) = (pair(refusal), &found[..]) {
            book.steps[place].value = i64::from(book.steps[place].value as i32);
            let later = run_book(&book).refusal != refusal;
            if book.steps[place] != *step && later {
                seen[usize::from(step.code)].1 += 1;
            }
        }
    }
    println!("{seen:?}");
    assert!(seen
        .iter()
        .all(|&(used, refused)| used >= 20 && refused >= 5));
}
