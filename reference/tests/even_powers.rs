//! Even powers in the range: rows worked out by hand, and what is accepted since.

mod common;

use common::*;
use reference::book::{Step, QUOTIENT, SUBSTITUTE};
use reference::calls::{self, Call};
use reference::exact::check::encloses;
use reference::exact::{ExactPolynomial, Fraction};
use reference::generate::{self, functions, hostile, DraftModel, Random};
use reference::model::{Model, LARGEST_DEGREE, UNIT as ONE};
use reference::operations::{self, Ends};
use reference::run::{perform, run_sheet};
use reference::sheet::sound_book;

fn range(n: u8, radius: u64, terms: &[(u16, i64)]) -> (i128, i128) {
    let answer = calls::range(&stored(n, radius, terms));
    assert_eq!(answer.refusal, None);
    (answer.ends.low, answer.ends.high)
}

#[test]
fn ranges_by_hand() {
    // x y has both signs, x² y² only one, and so has y² alone: 0 is even.
    assert_eq!(range(2, 0, &[(0x1100, 7)]), (-7, 7));
    assert_eq!(range(2, 0, &[(0x2200, 7)]), (0, 7));
    assert_eq!(range(2, 0, &[(0x0200, 7)]), (0, 7));
    assert_eq!(range(2, 0, &[(0x2100, 7)]), (-7, 7));
    assert_eq!(range(4, 0, &[(0x2222, 7)]), (0, 7));
    assert_eq!(range(4, 0, &[(0x2224, -7)]), (-7, 0));
    assert_eq!(range(4, 0, &[(0x2223, 7)]), (-7, 7));
    assert_eq!(range(1, 0, &[(0xE000, 7)]), (0, 7));
    assert_eq!(range(1, 0, &[(0xF000, 7)]), (-7, 7));
    // -x², 5 + x², 5 - x², x² + x, x² - x.
    assert_eq!(range(1, 0, &[(0x2000, -7)]), (-7, 0));
    assert_eq!(range(1, 0, &[(0, 5), (0x2000, 7)]), (5, 12));
    assert_eq!(range(1, 0, &[(0, 5), (0x2000, -7)]), (-2, 5));
    assert_eq!(range(1, 0, &[(0x1000, 3), (0x2000, 7)]), (-3, 10));
    assert_eq!(range(1, 0, &[(0x1000, -3), (0x2000, 7)]), (-3, 10));
    // Constants count as they are, also below 0; the radius to both sides.
    assert_eq!(range(1, 0, &[(0, 5)]), (5, 5));
    assert_eq!(range(1, 0, &[(0, -5)]), (-5, -5));
    assert_eq!(range(3, 4, &[]), (-4, 4));
    assert_eq!(range(1, 0, &[]), (0, 0));
    assert_eq!(range(1, 2, &[(0x2000, -7)]), (-9, 2));
    assert_eq!(range(1, 1, &[(0, 10), (0x2000, 4), (0x4000, -6)]), (3, 15));
}

/// The ends of an even power are reached: at 0 and at 1.
#[test]
fn the_ends_are_reached() {
    for c in [7_i128, -7] {
        let mut model = Model::zero(2);
        model.polynomial.insert([2, 4, 0, 0, 0, 0, 0, 0], c);
        let ends = operations::range(&model);
        let polynomial = ExactPolynomial::of_model(&model);
        let middle = polynomial.at(&functions::middle());
        let corner = polynomial.at(&functions::corner(2, 1));
        let unit = Fraction::of(ONE, 1);
        let mut values = [&middle * &unit, &corner * &unit];
        values.sort();
        assert_eq!(
            values,
            [Fraction::of(ends.low, 1), Fraction::of(ends.high, 1)]
        );
    }
}

/// Generated models: the values at points, with the radius, are within.
#[test]
fn ranges_enclose_the_exact_values() {
    let mut random = Random::new(91);
    let mut narrower = 0;
    for number in 0..36_000 {
        let Call::Range { f } = hostile::call(92, number) else {
            continue;
        };
        let answer = calls::range(&f);
        if answer.refusal.is_some() {
            continue;
        }
        let model = f.sound(LARGEST_DEGREE).expect("accepted");
        narrower += usize::from(answer.ends != old_range(&model));
        let radius = Fraction::of(model.radius, ONE);
        let polynomial = ExactPolynomial::of_model(&model);
        let mut points = functions::points(&mut random, model.n);
        points.push(functions::corner(model.n, 0));
        for point in points {
            let value = polynomial.at(&point);
            assert!(encloses(answer.ends, &(&value + &radius)));
            assert!(encloses(answer.ends, &(&value - &radius)));
        }
    }
    assert!(narrower > 1_000, "only {narrower} are narrower");
}

/// The range before this request: all terms but the constant one to both sides.
fn old_range(f: &Model) -> Ends {
    let middle = f.constant_coefficient();
    let reach = f.span() - middle.abs();
    Ends {
        low: middle - reach,
        high: middle + reach,
    }
}

#[test]
fn a_curve_that_stays_in_the_box_by_its_even_power() {
    // 1 - 2 x² goes from -1 to 1; before it counted from -1 to 3: refusal 9.
    // Put into x/2: 1/2 - x².
    let models = [
        model(0, &[(0x1000, HALF)]),
        model(0, &[(0, UNIT), (0x2000, -2 * UNIT)]),
    ];
    let steps = [input(0), input(1), Step::substitute(0, 1, 1)];
    let expected = "radius 0\nterm 0 524288\nterm 2 -1048576\n\
        range -524288 524288\nintegral 349525 349526\nexact 349525 70945875\n";
    assert_eq!(lines(2, &models, &steps), expected);
    // One unit more leaves it.
    let beyond = model(0, &[(0, UNIT), (0x2000, -2 * UNIT - 1)]);
    let models = [models[0].clone(), beyond];
    assert_eq!(lines(2, &models, &steps), "refused 9 2\n");
    // The other way, with a radius.
    let put_in = |radius: u32| {
        let g = model(radius, &[(0, 1 - UNIT), (0x2000, 2 * UNIT - 2)]);
        lines(2, &[models[0].clone(), g], &steps)
    };
    assert_eq!(put_in(1).lines().next(), Some("radius 1"));
    assert_eq!(put_in(2), "refused 9 2\n");
}

fn quotient_lines(models: &[DraftModel; 4]) -> String {
    let mut steps: Vec<Step> = (0..4).map(input).collect();
    steps.push(Step::quotient(0, 1, 2, 3));
    lines(2, models, &steps)
}

#[test]
fn a_quotient_that_is_certified_by_its_even_power() {
    // 1 over 1 + 3/2 x², with h = w = 1/2. 1 - w g = 1/2 - 3/4 x² lies from -1/4 to
    // 1/2, so that mu is U/2; before it was 5/4 U: refusal 12.
    // g h - f = -1/2 + 3/4 x²; times w it lies from -1/4 to 1/8: beta is U/4.
    // U/4 × U / (U/2) is U/2.
    let g = model(0, &[(0, UNIT), (0x2000, 3 * HALF)]);
    let one = model(0, &[(0, UNIT)]);
    let half = model(0, &[(0, HALF)]);
    let expected =
        "radius 524288\nterm 0 524288\nrange 0 1048576\nintegral 0 2097152\nexact 1048576 0\n";
    let models = [one.clone(), g, half.clone(), half.clone()];
    assert_eq!(quotient_lines(&models), expected);
    // 0 over 1 + c x² with w = 1/2: 1/2 - c x²/2 reaches -U at c = 3.
    let over = |c: i32| {
        let g = model(0, &[(0, UNIT), (0x2000, c)]);
        let zero = model(0, &[]);
        quotient_lines(&[zero.clone(), g, zero, half.clone()])
    };
    assert_eq!(over(3 * UNIT), "refused 12 4\n");
    let expected = "radius 0\nrange 0 0\nintegral 0 0\nexact 0 0\n";
    assert_eq!(over(3 * UNIT - 2), expected);
    // mu from the upper end: 1 over 1 - c x² with h = w = 1: c x² reaches U at 1,
    // and at 1/2 both beta and mu are U/2.
    let minus = |c: i32| {
        let g = model(0, &[(0, UNIT), (0x2000, -c)]);
        let models = [one.clone(), g, one.clone(), one.clone()];
        quotient_lines(&models)
    };
    assert_eq!(minus(UNIT), "refused 12 4\n");
    assert_eq!(minus(HALF).lines().next(), Some("radius 1048576"));
}

#[test]
fn beta_uses_the_even_powers_too() {
    // f = 0, g = 1, w = 1 and h = -4 + 8 x² units: w (g h - f) = h lies from -4 to 4,
    // so that beta is 4 where it was 12; mu is 0.
    let h = model(0, &[(0, -4), (0x2000, 8)]);
    let one = || model(0, &[(0, UNIT)]);
    let expected = "radius 4\nterm 0 -4\nterm 2 8\nrange -8 8\nintegral -11 6\nexact -3 70945875\n";
    assert_eq!(quotient_lines(&[model(0, &[]), one(), h, one()]), expected);
}

/// What generated sheets that are accepted had been refused with before.
#[derive(Debug, Default)]
struct Before {
    accepted: usize,
    nine: usize,
    twelve: usize,
}

fn leaves_box(ends: Ends) -> bool {
    ends.low < -ONE || ends.high > ONE
}

/// Whether 1 - w × g has mu at U or more, by the range before this request.
fn was_uncertified(g: &Model, w: &Model, order: u32) -> bool {
    let w = Model {
        radius: 0,
        ..w.clone()
    };
    let one = operations::constant(g.n, ONE);
    let product = operations::multiply(&w, g, order).expect("accepted");
    let form = operations::subtract(&one, &product).expect("accepted");
    let Ends { low, high } = old_range(&form);
    low.abs().max(high.abs()) >= ONE
}

#[test]
fn generated_sheets_reach_what_was_refused_before() {
    let mut before = Before::default();
    for number in 0..6_000 {
        let bytes = generate::sheet(93, number).bytes;
        if run_sheet(&bytes).refusal.is_some() {
            continue;
        }
        let book = sound_book(&bytes).expect("accepted");
        let mut results: Vec<Model> = Vec::new();
        let (mut nine, mut twelve) = (false, false);
        for step in &book.steps {
            let b = usize::from(step.b);
            nine |= step.code == SUBSTITUTE && leaves_box(old_range(&results[b]));
            twelve |= step.code == QUOTIENT
                && was_uncertified(&results[b], &results[step.value as usize], book.order);
            results.push(perform(step, &book, &results).expect("accepted"));
        }
        before.accepted += 1;
        before.nine += usize::from(nine);
        before.twelve += usize::from(twelve);
    }
    println!("{before:?}");
    assert!(before.nine > 80 && before.twelve > 80, "{before:?}");
}

#[test]
fn generated_calls_reach_what_was_refused_before() {
    let (mut nine, mut twelve) = (0, 0);
    for number in 0..60_000 {
        let call = hostile::call(94, number);
        if call.answer().refusal().is_some() {
            continue;
        }
        match call {
            Call::Substitute { g, .. } => {
                let g = g.sound(LARGEST_DEGREE).expect("accepted");
                nine += usize::from(leaves_box(old_range(&g)));
            }
            Call::Quotient { g, w, order, .. } => {
                let [g, w] = [g, w].map(|model| model.sound(LARGEST_DEGREE).expect("accepted"));
                twelve += usize::from(was_uncertified(&g, &w, order.into()));
            }
            _ => {}
        }
    }
    println!("formerly refused: 9 {nine} times, 12 {twelve} times");
    assert!(nine > 100 && twelve > 50);
}
