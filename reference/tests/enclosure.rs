//! Demand 3: results enclose the exact outcomes of accepted sheets.

mod common;

use common::*;
use reference::book::{SoundBook, Step, ADD, MULTIPLY, NEGATE, SUBTRACT};
use reference::exact::{check_result, check_sheet, Checked, ExactPolynomial, InputFunction};
use reference::exact::{Fraction, Point, Violation};
use reference::generate::sound::{self, Shape};
use reference::generate::{self, faults, functions, quotients, Draft, DraftModel, Random};
use reference::model::UNIT as ONE;
use reference::operations::{Exact, DENOMINATOR};
use reference::run::run;
use reference::sheet::sound_book;

#[derive(Default)]
struct Total {
    sheets: usize,
    points: usize,
    points_too_large: usize,
    points_not_promised: usize,
    integrals: usize,
}

impl Total {
    fn note(&mut self, checked: Checked) {
        self.sheets += 1;
        self.points += checked.points;
        self.points_too_large += checked.points_too_large;
        self.points_not_promised += checked.points_not_promised;
        self.integrals += usize::from(checked.integral);
    }

    fn print(&self, name: &str) {
        println!(
            "{name}: {} sheets, {} points ({} too large, {} not promised), {} integrals",
            self.sheets,
            self.points,
            self.points_too_large,
            self.points_not_promised,
            self.integrals
        );
    }
}

/// Checks one accepted sheet with random functions and points.
fn check(random: &mut Random, bytes: &[u8], total: &mut Total) {
    let book = sound_book(bytes).expect("an accepted sheet");
    let functions = functions::within_models(random, &book);
    let points = functions::points(random, book.n);
    match check_sheet(bytes, &functions, &points).expect("an accepted sheet") {
        Ok(checked) => total.note(checked),
        Err(violation) => panic!("{violation:?} on {bytes:02x?}"),
    }
}

fn check_shape(seed: u64, shape: Shape, sheets: usize) -> Total {
    let mut random = Random::new(seed);
    let mut total = Total::default();
    for _ in 0..sheets {
        let bytes = sound::accepted(&mut random, shape).bytes();
        check(&mut random, &bytes, &mut total);
    }
    total
}

#[test]
fn small_sheets_are_enclosed() {
    let total = check_shape(51, sound::SMALL, 12_000);
    total.print("small");
    assert!(total.points_too_large * 20 < total.points);
    assert!(total.integrals * 2 > total.sheets);
}

#[test]
fn middle_sheets_are_enclosed() {
    let total = check_shape(52, sound::MIDDLE, 2_500);
    total.print("middle");
    assert!(total.points > 10_000);
}

#[test]
fn large_sheets_are_enclosed() {
    let total = check_shape(53, sound::LARGE, 400);
    total.print("large");
    assert!(total.points > 1_500);
}

#[test]
fn sheets_at_the_limits_are_enclosed() {
    let mut random = Random::new(54);
    let mut total = Total::default();
    for sample in generate::named_sheets() {
        let accepted = sound_book(&sample.bytes).is_ok_and(|book| run(&book).is_ok());
        if accepted {
            check(&mut random, &sample.bytes, &mut total);
        }
    }
    total.print("limits");
    assert!(total.points > 500);
}

/// The models' polynomials plus so many parts of their radii.
fn shifted(book: &SoundBook, part: &Fraction) -> Vec<InputFunction> {
    let shift = |radius: i128| &Fraction::of(radius, ONE) * part;
    let models = book.models.iter();
    models
        .map(|model| {
            let deviation = ExactPolynomial::constant(&shift(model.radius));
            let polynomial = ExactPolynomial::of_model(model).plus(&deviation);
            InputFunction::Polynomial(polynomial)
        })
        .collect()
}

fn corners(n: usize) -> Vec<Point> {
    (0..1 << n)
        .map(|number| functions::corner(n, number))
        .collect()
}

/// A sheet whose radius is reached: x^2 with order 1.
fn tight() -> Draft {
    Draft::new(
        1,
        1,
        Vec::new(),
        vec![Step::variable(1), Step::two(MULTIPLY, 0, 0)],
    )
}

#[test]
fn the_check_finds_a_radius_that_is_too_small() {
    let (book, mut result) = ran(&tight());
    assert!(check_result(&book, &result, &[], &corners(1)).is_ok());
    result.model.radius -= 1;
    let found = check_result(&book, &result, &[], &corners(1));
    assert!(matches!(found, Err(Violation::Radius(_))));
}

#[test]
fn the_check_finds_a_range_that_is_too_narrow() {
    let (book, mut result) = ran(&tight());
    result.range.high -= 1;
    let found = check_result(&book, &result, &[], &corners(1));
    assert!(matches!(found, Err(Violation::Range(_))));
}

#[test]
fn the_check_finds_a_wrong_integral() {
    // 2/3 × U is 699050.67.
    let (book, mut result) = ran(&tight());
    result.integral.ends.high = 699_051;
    assert!(check_result(&book, &result, &[], &[]).is_ok());
    result.integral.ends.high = 699_050;
    let found = check_result(&book, &result, &[], &[]);
    assert_eq!(found, Err(Violation::Integral));
}

/// The exact integral is that of the result's polynomial, and not of the outcome: q + r / D and nothing else.
#[test]
fn the_check_finds_a_wrong_exact_integral() {
    // (x + 1/2)² is kept whole by order 2.
    let steps = vec![
        Step::variable(1),
        Step::constant(UNIT / 2),
        Step::two(ADD, 0, 1),
        Step::two(MULTIPLY, 2, 2),
    ];
    let (book, result) = ran(&Draft::new(1, 2, Vec::new(), steps));
    let found = |quotient: i128, remainder: i128| {
        let mut claimed = result.clone();
        claimed.integral.exact = Exact {
            quotient,
            remainder,
        };
        check_result(&book, &claimed, &[], &[]).map(|checked| checked.integral)
    };
    assert_eq!(found(1_223_338, 141_891_750), Ok(true));
    assert_eq!(found(1_223_338, 141_891_751), Err(Violation::Exact));
    assert_eq!(found(1_223_339, 141_891_750), Err(Violation::Exact));
    // The same number, but with a rest that is not from 0 to D - 1.
    let below = 141_891_750 - DENOMINATOR;
    assert_eq!(found(1_223_339, below), Err(Violation::Exact));
}

/// A plausible error: e1 × e2 dropped as small.
#[test]
fn the_check_needs_the_product_of_the_radii() {
    let models = vec![DraftModel::new(2, &[]), DraftModel::new(3, &[])];
    let steps = vec![input(0), input(1), Step::two(MULTIPLY, 0, 1)];
    let (book, mut result) = ran(&Draft::new(1, 1, models, steps));
    let highest = shifted(&book, &Fraction::one());
    assert!(check_result(&book, &result, &highest, &corners(1)).is_ok());
    result.model.radius = 0;
    let found = check_result(&book, &result, &highest, &corners(1));
    assert!(matches!(found, Err(Violation::Radius(_))));
}

/// A function outside its model breaks the claim: the check does look at it.
#[test]
fn the_check_needs_functions_within_the_models() {
    let models = vec![DraftModel::new(8, &[(0, 5), (0x1000, 9)])];
    let (book, result) = ran(&Draft::new(1, 1, models, vec![input(0)]));
    for (numerator, holds) in [(8, true), (9, false), (-8, true), (-9, false)] {
        let functions = shifted(&book, &Fraction::of(numerator, 8));
        let found = check_result(&book, &result, &functions, &corners(1));
        assert_eq!(found.is_ok(), holds, "{numerator} eighths of the radius");
    }
}

/// A substitution that leaves the box is seen by the outcome itself.
#[test]
fn the_check_sees_a_point_outside_the_box() {
    let mut random = Random::new(55);
    let leaving = faults::KINDS
        .iter()
        .find(|kind| kind.name == "9 by a constant");
    let sample = leaving.expect("a kind").sample(&mut random);
    let mut book = sound_book(&sample.bytes).expect("a sound sheet");
    let place = pair(run(&book).err()).expect("a refused run").1;
    book.steps.truncate(place + 1);
    let result = ran(&tight()).1;
    let functions = shifted(&book, &Fraction::zero());
    let found = check_result(&book, &result, &functions, &[functions::middle()]);
    assert!(matches!(found, Err(Violation::LeftBox(step, _)) if step == place));
}

/// Accepted quotients at every corner and at random points, with functions at
/// the ends of their models too.
#[test]
fn quotients_are_enclosed() {
    let mut random = Random::new(57);
    let mut total = Total::default();
    for number in 0..2_500 {
        let operands = quotients::accepted(&mut random);
        let steps = vec![
            input(0),
            input(1),
            input(2),
            input(3),
            Step::quotient(0, 1, 2, 3),
        ];
        let draft = Draft::new(operands.n, operands.d, operands.models.to_vec(), steps);
        let (book, result) = ran(&draft);
        let part = Fraction::of([-1, 1, 0][number % 3], 1);
        let mut points = corners(book.n);
        points.push(functions::any_point(&mut random, book.n));
        let checked = check_result(&book, &result, &shifted(&book, &part), &points);
        total.note(checked.expect("enclosed"));
        check(&mut random, &draft.bytes(), &mut total);
    }
    total.print("quotients");
    assert!(total.points > 20_000);
    assert_eq!(total.integrals, 0, "no integral is claimed");
}

/// 5 units over 1 unit, with h = 0 and w = 1: the radius 5 U is reached.
fn tight_quotient() -> Draft {
    let constants = [5, 1, 0, UNIT].map(Step::constant);
    let steps = [constants.as_slice(), &[Step::quotient(0, 1, 2, 3)]].concat();
    Draft::new(1, 1, Vec::new(), steps)
}

#[test]
fn the_check_finds_a_quotient_whose_radius_is_too_small() {
    let (book, mut result) = ran(&tight_quotient());
    assert!(check_result(&book, &result, &[], &corners(1)).is_ok());
    result.model.radius -= 1;
    let found = check_result(&book, &result, &[], &corners(1));
    assert!(matches!(found, Err(Violation::Radius(_))));
}

/// Only the bands at points are claimed of a sheet with a quotient, also where
/// its result does not come from the quotient.
#[test]
fn the_check_claims_no_integral_of_a_quotient() {
    let mut draft = tight_quotient();
    for _ in 0..2 {
        let (book, mut result) = ran(&draft);
        result.integral.ends.high = result.integral.ends.low;
        let checked = check_result(&book, &result, &[], &corners(1));
        let checked = checked.expect("points only");
        assert_eq!((checked.points, checked.integral), (2, false));
        draft.push(Step::variable(1));
        draft.push(Step::two(MULTIPLY, 5, 5));
    }
}

/// A divisor of zero is seen by the outcome itself, also of a quotient that the
/// result does not use.
#[test]
fn the_check_sees_a_divisor_of_zero() {
    let (mut book, result) = ran(&tight_quotient());
    book.steps[1] = Step::variable(1);
    let middle = [functions::middle()];
    let found = check_result(&book, &result, &[], &middle);
    assert!(matches!(found, Err(Violation::ZeroDivisor(4, _))));
    book.steps.push(Step::constant(0));
    let found = check_result(&book, &result, &[], &middle);
    assert!(matches!(found, Err(Violation::ZeroDivisor(4, _))));
}

/// A quotient is put in at the point where it leads: x/4 over 1 + x/4, put into
/// itself, is x over 16 + 5 x.
#[test]
fn outcomes_of_quotients_put_in_are_exact() {
    use reference::exact::outcome::outcome_at;
    use reference::exact::SizeLimit;
    let steps = vec![
        Step::variable(1),
        Step::constant(UNIT / 4),
        Step::two(MULTIPLY, 0, 1),
        Step::constant(UNIT),
        Step::two(ADD, 3, 2),
        Step::quotient(2, 4, 2, 3),
        Step::substitute(5, 5, 1),
    ];
    let (book, _) = ran(&Draft::new(1, 2, Vec::new(), steps));
    for (numerator, denominator) in [(1, 1), (-1, 1), (1, 3), (-2, 7), (0, 1)] {
        let x = Fraction::of(numerator, denominator);
        let mut point = functions::middle();
        point[0] = x.clone();
        let found = outcome_at(&book, &[], &[], &point, &SizeLimit::default());
        // q = (x/4) / (1 + x/4) = x / (4 + x), and q / (4 + q) = x / (16 + 5 x).
        let expected = Fraction::of(numerator, 16 * denominator + 5 * numerator);
        assert_eq!(found, Ok(expected));
    }
}

/// Every corner and many fractions, on one sheet with all operations.
#[test]
fn a_sheet_of_all_operations_is_enclosed() {
    let g = DraftModel::new(
        1 << 10,
        &[(0, 1 << 17), (0x0100, -(1 << 18)), (0x1000, 3 << 17)],
    );
    let f = DraftModel::new(77, &[(0x0200, -UNIT), (0x1100, 12_345), (0x2000, 3 * UNIT)]);
    let steps = vec![
        input(0),
        input(1),
        Step::two(MULTIPLY, 0, 1),
        Step::substitute(2, 0, 1),
        Step::substitute(3, 0, 2),
        Step::variable(2),
        Step::two(SUBTRACT, 4, 5),
        Step::constant(-12_345),
        Step::two(ADD, 6, 7),
        Step::sweep(8, 20_000),
        Step::one(NEGATE, 9),
    ];
    let (book, result) = ran(&Draft::new(2, 3, vec![g, f], steps));
    let mut random = Random::new(56);
    for part in [Fraction::of(-1, 1), Fraction::of(1, 3), Fraction::of(1, 1)] {
        let functions = shifted(&book, &part);
        let mut points = corners(2);
        points.extend((0..40).map(|_| functions::any_point(&mut random, 2)));
        let checked = check_result(&book, &result, &functions, &points);
        assert_eq!(checked.map(|checked| checked.points), Ok(44));
    }
}
