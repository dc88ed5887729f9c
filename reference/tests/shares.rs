//! Where a radius came from: rows worked out by hand, rows about a refusal, and the law that the four shares of every
//! accepted step sum to U times its radius.

mod common;

use common::*;
use reference::book::{Step, ADD, MOST_STEPS, MULTIPLY, NEGATE, SUBSTITUTE, SUBTRACT};
use reference::generate::{self, books, mixes, Draft, DraftModel, Expected, Random};
use reference::model::UNIT as ONE;
use reference::run::{report_book, report_sheet, run_book, run_sheet, trace};
use reference::shares::Shares;
use reference::sheet::{read, sound_book};
use std::collections::BTreeMap;

/// U/2.
const HALVES: i128 = ONE / 2;

/// Carried, rounding, swept, slack.
type Row = [i128; 4];

fn row(shares: &Shares) -> Row {
    [shares.carried, shares.rounding, shares.swept, shares.slack]
}

/// All 64 rows of a sheet, and its refusal.
fn rows(draft: &Draft) -> (Vec<Row>, Option<(u8, usize)>) {
    let report = report_sheet(&draft.bytes());
    assert_eq!(report.answer, run_sheet(&draft.bytes()));
    let shares = report.shares.iter().map(row).collect();
    (shares, pair(report.answer.refusal))
}

/// The radius and the row of the last step of an accepted sheet: an input for each model, and then a step.
fn last_of(n: u8, d: u8, models: &[DraftModel], step: Step) -> (u64, Row) {
    let mut steps: Vec<Step> = (0..models.len() as u8).map(input).collect();
    steps.push(step);
    let draft = Draft::new(n, d, models.to_vec(), steps);
    let (rows, refusal) = rows(&draft);
    assert_eq!(refusal, None);
    assert_eq!(rows[models.len() + 1..], [[0; 4]; 63][models.len()..]);
    let radius = run_sheet(&draft.bytes()).model.radius;
    assert_eq!(
        rows[models.len()].iter().sum::<i128>(),
        ONE * i128::from(radius)
    );
    (radius, rows[models.len()])
}

/// The product of two models in one variable.
fn product(d: u8, f: (u32, &[(u16, i32)]), g: (u32, &[(u16, i32)])) -> (u64, Row) {
    let models = [model(f.0, f.1), model(g.0, g.1)];
    last_of(1, d, &models, Step::two(MULTIPLY, 0, 1))
}

#[test]
fn a_product_carries_its_radii() {
    // 1 times a radius of 3, either way round.
    assert_eq!(
        product(1, (0, &[(0, UNIT)]), (3, &[])),
        (3, [3 * ONE, 0, 0, 0])
    );
    assert_eq!(
        product(1, (3, &[]), (0, &[(0, UNIT)])),
        (3, [3 * ONE, 0, 0, 0])
    );
    // Sample 8: radii 2 and 3.
    assert_eq!(product(1, (2, &[]), (3, &[])), (1, [6, 0, 0, ONE - 6]));
    // 5 × 3 + 7 × 2 + 2 × 3, and 35 that is rounded to 0.
    let both = product(1, (2, &[(0, 5)]), (3, &[(0, -7)]));
    assert_eq!(both, (1, [35, 35, 0, ONE - 70]));
    // A and B are over all terms, those that end above the order too.
    let high = product(1, (2, &[(0, 5), (0x1000, -1)]), (3, &[(0x1000, 7)]));
    assert_eq!(high, (1, [6 * 3 + 7 * 2 + 6, 35, 7, ONE - 38 - 35 - 7]));
}

#[test]
fn a_product_rounds() {
    // Sample 6: a half. Two halves fill the unit.
    let half: &[(u16, i32)] = &[(0, HALF)];
    assert_eq!(
        product(1, (0, &[(0, 1)]), (0, half)),
        (1, [0, HALVES, 0, HALVES])
    );
    let two: &[(u16, i32)] = &[(0, 1), (0x1000, -1)];
    assert_eq!(product(1, (0, two), (0, half)), (1, [0, ONE, 0, 0]));
    // 3/4 goes up by 1/4, -3/4 down.
    let three_quarters: &[(u16, i32)] = &[(0, 3 * UNIT / 4)];
    for c in [1, -1] {
        let up = product(1, (0, &[(0, c)]), (0, three_quarters));
        assert_eq!(up, (1, [0, ONE / 4, 0, 3 * ONE / 4]));
    }
}

#[test]
fn a_product_sweeps() {
    // x times x.
    let x: &[(u16, i32)] = &[(0x1000, UNIT)];
    assert_eq!(
        product(1, (0, x), (0, x)),
        (UNIT as u64, [0, 0, ONE * ONE, 0])
    );
    assert_eq!(product(2, (0, x), (0, x)), (0, [0; 4]));
    let few = product(1, (0, &[(0x1000, -1)]), (0, &[(0x1000, 3)]));
    assert_eq!(few, (1, [0, 0, 3, ONE - 3]));
    // Collected before its size is taken: (x + y)(x - y) has no xy.
    let models = [
        model(0, &[(0x0100, 1), (0x1000, 1)]),
        model(0, &[(0x0100, -1), (0x1000, 1)]),
    ];
    let squares = last_of(2, 1, &models, Step::two(MULTIPLY, 0, 1));
    assert_eq!(squares, (1, [0, 0, 2, ONE - 2]));
    // All four at once.
    let f: &[(u16, i32)] = &[(0, UNIT), (0x1000, 1)];
    let all = product(1, (1, f), (0, &[(0, HALF), (0x1000, 3)]));
    // z of x is 3 U + U/2, which goes to 4; that of x² is 3; A of g is U/2 + 3.
    assert_eq!(all, (2, [HALVES + 3, HALVES, 3, 2 * ONE - ONE - 6]));
}

#[test]
fn a_product_of_nothing_has_zeros() {
    assert_eq!(product(1, (0, &[]), (0, &[(0, UNIT)])), (0, [0; 4]));
    assert_eq!(product(1, (0, &[]), (7, &[])), (0, [0; 4]));
    assert_eq!(product(1, (0, &[(0, 3)]), (0, &[(0, UNIT)])), (0, [0; 4]));
}

#[test]
fn a_substitution_reports_its_last_product() {
    let put_in = |f: &DraftModel, g: &DraftModel| {
        let step = Step::substitute(0, 1, 1);
        last_of(1, 3, &[f.clone(), g.clone()], step)
    };
    let half = model(0, &[(0, HALF)]);
    // No product: f has no terms, or none with the variable.
    assert_eq!(put_in(&model(7, &[]), &half), (7, [7 * ONE, 0, 0, 0]));
    assert_eq!(put_in(&model(7, &[(0, 5)]), &half), (7, [7 * ONE, 0, 0, 0]));
    assert_eq!(put_in(&model(0, &[(0, 5)]), &half), (0, [0; 4]));
    // One product: 3 times 1/2 is 1.5, which goes to 2.
    let line = model(2, &[(0, 1), (0x1000, 3)]);
    assert_eq!(put_in(&line, &half), (3, [2 * ONE, HALVES, 0, HALVES]));
    // Two: 1 times 1/2 leaves nothing but a radius of 1; that times 1/2 is carried.
    let square = |radius: u32| model(radius, &[(0x2000, 1)]);
    assert_eq!(put_in(&square(0), &half), (1, [HALVES, 0, 0, HALVES]));
    assert_eq!(
        put_in(&square(4), &half),
        (5, [4 * ONE + HALVES, 0, 0, HALVES])
    );
    // Fifteen, as far as the order goes: the last product is of a radius of 1 and 1/2.
    let power = model(0, &[(0xF000, 1)]);
    let last = last_of(1, 15, &[power, half.clone()], Step::substitute(0, 1, 1));
    assert_eq!(last, (1, [HALVES, 0, 0, HALVES]));
    // A radius of what is put in: 3 × 2 units are carried by the product.
    let loose = model(2, &[(0, HALF)]);
    assert_eq!(
        put_in(&model(0, &[(0x1000, 3)]), &loose),
        (1, [6, HALVES, 0, HALVES - 6])
    );
    // What the order sweeps: x² put into x² has x⁴.
    let squared = model(0, &[(0x2000, UNIT)]);
    let swept = last_of(1, 3, &[squared.clone(), squared], Step::substitute(0, 1, 1));
    assert_eq!(swept, (UNIT as u64, [0, 0, ONE * ONE, 0]));
}

#[test]
fn a_sweep_carries_and_sweeps() {
    let at = |t: i32| {
        last_of(
            1,
            1,
            &[model(2, &[(0, 1), (0x1000, -3)])],
            Step::sweep(0, t),
        )
    };
    assert_eq!(at(3), (5, [2 * ONE, 0, 3 * ONE, 0]));
    assert_eq!(at(2), (2, [2 * ONE, 0, 0, 0]));
    assert_eq!(
        at(LARGEST),
        (5, [2 * ONE, 0, 3 * ONE, 0]),
        "the constant stays"
    );
}

#[test]
fn running_litres_carry_round_and_sweep() {
    // One inexact division, one that rounds to zero, one exact, one above the order.
    let terms = [(0x1000, 1), (0x2000, 4), (0x3000, 8), (0x4000, -7)];
    let gathered = last_of(1, 4, &[model(5, &terms)], Step::antiderivative(0, 1));
    assert_eq!(gathered, (9, [5 * ONE, 2 * ONE, 2 * ONE, 0]));
    let exact = last_of(
        1,
        2,
        &[model(0, &[(0x1000, 2)])],
        Step::antiderivative(0, 1),
    );
    assert_eq!(exact, (0, [0; 4]));
}

#[test]
fn other_steps_are_all_carried() {
    let models = [model(7, &[(0, 5)]), model(4, &[(0x1000, UNIT)])];
    let radius = |step: Step| last_of(1, 2, &models, step);
    assert_eq!(radius(input(1)), (4, [4 * ONE, 0, 0, 0]));
    assert_eq!(radius(Step::constant(9)), (0, [0; 4]));
    assert_eq!(radius(Step::variable(1)), (0, [0; 4]));
    assert_eq!(radius(Step::one(NEGATE, 0)), (7, [7 * ONE, 0, 0, 0]));
    assert_eq!(radius(Step::two(ADD, 0, 1)), (11, [11 * ONE, 0, 0, 0]));
    assert_eq!(radius(Step::two(SUBTRACT, 0, 0)), (14, [14 * ONE, 0, 0, 0]));
    // 1 over 3 from a third, whose radius is worked out and not carried by anything.
    let third = [UNIT, 3 * UNIT, UNIT / 3, UNIT / 3].map(|c| model(0, &[(0, c)]));
    assert_eq!(
        last_of(1, 1, &third, Step::quotient(0, 1, 2, 3)),
        (2, [2 * ONE, 0, 0, 0])
    );
}

/// A product, a sum above the span, and a product that would be accepted.
fn refused_in_the_middle() -> Draft {
    let steps = vec![
        input(0),
        Step::two(MULTIPLY, 0, 0),
        Step::constant(LARGEST),
        Step::two(ADD, 2, 0),
        Step::two(MULTIPLY, 0, 0),
    ];
    Draft::new(1, 1, vec![model(2, &[(0, 5)])], steps)
}

#[test]
fn rows_stay_before_a_refused_step() {
    let (rows, refusal) = rows(&refused_in_the_middle());
    assert_eq!(refusal, Some((7, 3)));
    assert_eq!(rows[..2], [[2 * ONE, 0, 0, 0], [24, 25, 0, ONE - 49]]);
    assert_eq!(rows[2..], [[0; 4]; 62]);
    assert_eq!(rows.len(), MOST_STEPS);
}

#[test]
fn a_sheet_that_is_not_read_has_zeros() {
    let draft = Draft::new(1, 1, vec![model(7, &[])], vec![input(0), input(0)]);
    assert_eq!(
        rows(&draft).0[..3],
        [[7 * ONE, 0, 0, 0], [7 * ONE, 0, 0, 0], [0; 4]]
    );
    let zeros = [Shares::default(); MOST_STEPS];
    let refused = |change: fn(&mut Vec<u8>)| {
        let mut bytes = draft.bytes();
        change(&mut bytes);
        let report = report_sheet(&bytes);
        assert_eq!(report.shares, zeros);
        pair(report.answer.refusal)
    };
    // The model has 5 bytes, the steps 16; the trailer begins at 21.
    assert_eq!(refused(Vec::clear), Some((1, 0)));
    assert_eq!(refused(|bytes| bytes[28] = 0), Some((2, 0)));
    assert_eq!(refused(|bytes| bytes[21] = 0), Some((3, 0)));
    assert_eq!(refused(|bytes| bytes[25] = 6), Some((4, 0)));
    assert_eq!(refused(|bytes| bytes[3] = 0x80), Some((5, 0)));
    assert_eq!(refused(|bytes| bytes[13] = 11), Some((6, 1)));
}

#[test]
fn a_book_has_the_rows_of_its_sheet() {
    let draft = refused_in_the_middle();
    let mut book = read(&draft.bytes()).book;
    // What stands after the steps is not looked at.
    book.steps[60] = Step::two(MULTIPLY, 200, 200);
    let report = report_book(&book);
    assert_eq!(report.shares, report_sheet(&draft.bytes()).shares);
    assert_eq!(report.answer, run_book(&book));
    book.models[0].n = 3;
    assert_eq!(report_book(&book).shares, [Shares::default(); MOST_STEPS]);
}

/// The law, and that no share is negative.
#[test]
fn the_shares_sum_to_the_radius() {
    let mut steps = 0;
    let mut refused = 0;
    for number in 0..4_000 {
        let bytes = generate::sheet(111, number).bytes;
        let report = report_sheet(&bytes);
        let Ok(book) = sound_book(&bytes) else {
            assert_eq!(report.shares, [Shares::default(); MOST_STEPS]);
            continue;
        };
        let trace = trace(&book);
        for (shares, step) in report.shares.iter().zip(&trace.steps) {
            assert_eq!(shares, &step.shares);
            assert_eq!(shares.sum(), ONE * step.model.radius);
            assert!(row(shares).iter().all(|&share| share >= 0) && shares.slack < ONE);
            steps += 1;
        }
        refused += usize::from(trace.refusal.is_some() && !trace.steps.is_empty());
        assert_eq!(
            report.shares[trace.steps.len()..],
            [Shares::default(); 64][trace.steps.len()..]
        );
    }
    println!("{steps} steps, {refused} sheets refused after an accepted step");
    assert!(steps > 20_000 && refused > 300);
    for number in 0..2_000 {
        let book = books::book(112, number);
        let report = report_book(&book);
        assert_eq!(report.answer, run_book(&book));
        let steps = book.sound().map_or(Vec::new(), |book| trace(&book).steps);
        for (shares, step) in report.shares.iter().zip(&steps) {
            assert_eq!(shares.sum(), ONE * step.model.radius);
        }
    }
}

/// Which of the four are not 0.
fn mix(shares: &Shares) -> [bool; 4] {
    row(shares).map(|share| share != 0)
}

/// Every mix of shares is made, by a product and by a substitution; slack comes only beside others.
#[test]
fn every_mix_of_shares_is_generated() {
    for (kind, code) in mixes::KINDS.iter().zip([MULTIPLY, SUBSTITUTE]) {
        let mut random = Random::new(113);
        let mut seen: BTreeMap<[bool; 4], usize> = BTreeMap::new();
        for _ in 0..3_000 {
            let sample = kind.sample(&mut random);
            let book = sound_book(&sample.bytes).expect("a sound sheet");
            let trace = trace(&book);
            match sample.expected {
                Expected::Accepted => assert_eq!(trace.refusal, None),
                Expected::Refused(number, place) => {
                    assert_eq!(pair(trace.refusal), Some((number, place)));
                }
                Expected::Unknown => unreachable!("the kind knows"),
            }
            // The prepared step is the last with its code that is accepted.
            let mut steps = book.steps.iter().zip(&trace.steps);
            let last = steps.rfind(|(step, _)| step.code == code);
            *seen
                .entry(mix(&last.expect("it is there").1.shares))
                .or_default() += 1;
        }
        println!("{}: {seen:?}", kind.name);
        assert_eq!(seen.len(), 15);
        assert!(seen.values().all(|&times| times >= 30));
    }
}
