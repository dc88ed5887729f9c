//! Renamed variables: hand-made sheets with a 3-cycle, the run of a renamed sheet, and what is not invariant.

mod common;

use common::*;
use reference::book::{Step, ADD, MULTIPLY, NEGATE, SUBTRACT};
use reference::calls;
use reference::generate::{faults, reorderings, Draft, Expected, Random};
use reference::model::LARGEST_DEGREE;
use reference::operations::Ends;
use reference::renaming::Reordering;
use reference::run::{report_book, report_sheet, run_sheet};
use reference::sheet::{read, sound_book};
use reference::stored::StoredModel;
use reference::text;
use std::collections::{BTreeMap, BTreeSet};

fn reordering(to: &[usize]) -> Reordering {
    Reordering::new(to).expect("a reordering")
}

/// x becomes y, y becomes z, z becomes x. A swap would not tell it from its inverse.
fn cycle() -> Reordering {
    reordering(&[1, 2, 0])
}

#[test]
fn a_reordering_keeps_variables_apart() {
    assert_eq!(Reordering::new(&[0, 0]), None);
    assert_eq!(Reordering::new(&[1, 2]), None);
    assert_eq!(cycle().inverse(), reordering(&[2, 0, 1]));
    assert_ne!(cycle().inverse(), cycle());
    assert_eq!(cycle().inverse().inverse(), cycle());
    assert_eq!(Reordering::unchanged(3).inverse(), reordering(&[0, 1, 2]));
    assert_eq!([1, 2, 3].map(|v| cycle().variable(v)), [2, 3, 1]);
}

fn sixteenths((key, c): (u16, i32)) -> (u16, i32) {
    (key, c * UNIT / 16)
}

/// A model with a constant, z, x z² and x² y.
fn before() -> Draft {
    let terms = [(0x0000, 2), (0x0010, 7), (0x1020, 9), (0x2100, -3)].map(sixteenths);
    let steps = vec![
        input(0),
        Step::variable(1),
        Step::constant(UNIT / 4),
        Step::two(MULTIPLY, 1, 2),
        Step::constant(UNIT),
        Step::two(ADD, 4, 3),
        Step::quotient(3, 5, 3, 4),
        Step::substitute(0, 3, 2),
        Step::antiderivative(7, 3),
        Step::sweep(8, UNIT / 32),
        Step::two(SUBTRACT, 9, 6),
        Step::one(NEGATE, 10),
        Step::two(MULTIPLY, 11, 0),
    ];
    Draft::new(3, 4, vec![model(5, &terms)], steps)
}

/// The same by hand: z is x, x z² is y x², x² y is y² z, and terms stand in key order again. v of the variable, the
/// substitution and the antiderivative is another, that of the quotient is step 3 as before.
fn after() -> Draft {
    let terms = [(0x0000, 2), (0x0210, -3), (0x1000, 7), (0x2100, 9)].map(sixteenths);
    let mut draft = before();
    draft.models = vec![model(5, &terms)];
    draft.steps[1] = Step::variable(2);
    draft.steps[7] = Step::substitute(0, 3, 3);
    draft.steps[8] = Step::antiderivative(7, 1);
    draft
}

#[test]
fn a_cycle_by_hand() {
    let renamed = cycle().sheet(&before().bytes());
    assert_eq!(renamed, Some(after().bytes()));
    assert_eq!(
        cycle().inverse().sheet(&after().bytes()),
        Some(before().bytes())
    );
    // The other way round is another sheet: z is y, x z² is z y², x² y is z² x.
    let terms = [(0x0000, 2), (0x0100, 7), (0x0210, 9), (0x1020, -3)].map(sixteenths);
    let back = cycle().inverse().sheet(&before().bytes());
    let back = sound_book(&back.expect("a sheet")).expect("a sound sheet");
    assert_eq!(back.models[0], model(5, &terms).model(3));
    assert_eq!(
        [back.steps[1].v, back.steps[7].v, back.steps[8].v],
        [3, 1, 2]
    );
    assert_eq!(back.steps[6], Step::quotient(3, 5, 3, 4));
}

/// All of it runs, and the run of the renamed sheet is the renamed run.
#[test]
fn a_run_of_a_cycle_by_hand() {
    let (old, new) = (
        report_sheet(&before().bytes()),
        report_sheet(&after().bytes()),
    );
    assert_eq!(old.answer.refusal, None);
    assert!(old.answer.model.count > 8);
    assert_eq!(new.answer, cycle().answer(&old.answer));
    assert_ne!(new.answer.model, old.answer.model, "terms change places");
    assert_eq!(
        (new.answer.range, new.answer.integral),
        (old.answer.range, old.answer.integral)
    );
    assert_eq!(new.shares, old.shares);
    let lines = text::lines(&old.answer);
    assert_eq!(text::lines(&new.answer), cycle().lines(&lines));
    assert_ne!(cycle().lines(&lines), lines);
    // With v of the quotient renamed, or that of the others left, the run is another.
    for (place, v) in [(6, 1), (1, 1), (7, 2), (8, 3)] {
        let mut wrong = after();
        wrong.steps[place].v = v;
        assert_ne!(run_sheet(&wrong.bytes()), new.answer, "step {place}");
    }
}

#[test]
fn lines_by_hand() {
    let lines = "radius 5\nterm 0 0 1 7\nterm 1 0 2 9\nterm 2 1 0 -3\nrange -4 4\nintegral 0 1\nexact 0 9\n";
    let renamed = "radius 5\nterm 0 2 1 -3\nterm 1 0 0 7\nterm 2 1 0 9\nrange -4 4\nintegral 0 1\nexact 0 9\n";
    assert_eq!(cycle().lines(lines), renamed);
    assert_eq!(cycle().inverse().lines(renamed), lines);
    assert_eq!(cycle().lines("refused 7 2\n"), "refused 7 2\n");
    // By their numbers: 10 comes after 9.
    let powers = "radius 0\nterm 9 1\nterm 10 2\nrange 0 0\nintegral 0 0\nexact 0 0\n";
    assert_eq!(Reordering::unchanged(1).lines(powers), powers);
}

#[test]
fn a_sheet_that_is_not_read_has_no_other_names() {
    let mut bytes = before().bytes();
    assert_eq!(reordering(&[1, 0]).sheet(&bytes), None, "another n");
    let last = bytes.len() - 1;
    bytes[last] = 0;
    assert_eq!(cycle().sheet(&bytes), None);
}

/// Every kind of refused run, each at its step.
#[test]
fn refusals_stay() {
    let mut random = Random::new(131);
    let mut numbers = BTreeSet::new();
    for kind in &faults::KINDS {
        for _ in 0..40 {
            let sample = kind.sample(&mut random);
            let Expected::Refused(number, place) = sample.expected else {
                unreachable!("a fault is refused");
            };
            let n = sound_book(&sample.bytes).expect("a sound sheet").n;
            let other = reorderings::reordering(&mut random, n);
            let renamed = run_sheet(&other.sheet(&sample.bytes).expect("a sheet"));
            assert_eq!(
                pair(renamed.refusal),
                Some((number, place)),
                "{}",
                kind.name
            );
            numbers.insert(number);
        }
    }
    assert_eq!(numbers, BTreeSet::from([7, 8, 9, 12]));
}

/// The theorem on generated sheets and books; there and back gives the sheet itself.
#[test]
fn the_run_of_a_renamed_sheet_is_the_renamed_run() {
    let mut seen: BTreeMap<Option<u8>, usize> = BTreeMap::new();
    let mut moved = 0;
    for number in 0..3_000 {
        let (bytes, other) = reorderings::renamed(132, number);
        let renamed = other.sheet(&bytes).expect("a sheet that is read");
        assert_eq!(renamed.len(), bytes.len());
        assert_eq!(other.inverse().sheet(&renamed), Some(bytes.clone()));
        let (old, new) = (report_sheet(&bytes), report_sheet(&renamed));
        assert_eq!(new.answer, other.answer(&old.answer));
        assert_eq!(new.shares, old.shares);
        assert_eq!(
            text::lines(&new.answer),
            other.lines(&text::lines(&old.answer))
        );
        let read = read(&renamed);
        assert_eq!(read.refusal, None);
        assert_eq!(report_book(&read.book), new);
        moved += usize::from(new.answer != old.answer);
        let number = new.answer.refusal.map(|refusal| refusal.number());
        *seen.entry(number).or_default() += 1;
    }
    println!("{seen:?}, {moved} answers with other keys");
    assert!([None, Some(7), Some(8), Some(9), Some(12)]
        .iter()
        .all(|number| seen[number] > 40));
    assert!(moved > 300);
}

/// Both ends of an evaluation: of the model, and of the renamed model at the renamed point.
fn evaluations(other: &Reordering, model: &StoredModel, first: [i64; 4]) -> [Ends; 2] {
    let point = point(first);
    let sound = model.sound(LARGEST_DEGREE).expect("a sound model");
    let renamed = StoredModel::store(&other.model(&sound));
    let moved = other.row(&point);
    let there = calls::evaluate(&renamed, &std::array::from_fn(|i| moved[i]));
    [calls::evaluate(model, &point).ends, there.ends]
}

/// Evaluation is not invariant: variables are put in one after the other, and rounded between. Of one unit of x y at
/// (1/4, 3/4) a quarter is left and rounded away, with a radius of 1; at (3/4, 1/4) three quarters are left, rounded to
/// 1 with a radius of 1, and a quarter of that is rounded away with one more. The value is 3/16 of a unit: both enclose
/// it.
#[test]
fn an_evaluation_can_have_other_ends() {
    let product = stored(2, 0, &[(0x1100, 1)]);
    let swap = reordering(&[1, 0]);
    let quarter = i64::from(UNIT) / 4;
    let [here, there] = evaluations(&swap, &product, [quarter, 3 * quarter, 0, 0]);
    assert_eq!((here.low, here.high), (-1, 1));
    assert_eq!((there.low, there.high), (-2, 2));
    // Where nothing is rounded both are the same.
    let [here, there] = evaluations(
        &swap,
        &stored(2, 0, &[(0x1100, 16)]),
        [quarter, 3 * quarter, 0, 0],
    );
    assert_eq!(here, there);
}
