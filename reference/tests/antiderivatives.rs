//! Running litres: rows worked out by hand, the laws of the exact antiderivative, what is promised and what is not,
//! and how often generated inputs reach each case.

mod common;

use common::*;
use reference::book::{
    SoundBook, Step, ADD, ANTIDERIVATIVE, MULTIPLY, QUOTIENT, SUBSTITUTE, SWEEP,
};
use reference::calls::{self, Call};
use reference::exact::outcome::{fed_by_quotient, has_antiderivative, is_promised};
use reference::exact::outcome::{outcome_at, outcome_polynomials, quotient_feeds_antiderivative};
use reference::exact::{
    check_result, ExactPolynomial, Fraction, InputFunction, SizeLimit, Violation,
};
use reference::generate::{self, functions, hostile, Draft, DraftModel, Random};
use reference::model::{degree, Model, Monomial, LARGEST_DEGREE, LARGEST_SPAN, UNIT as ONE};
use reference::operations;
use reference::run::{perform, run_sheet};
use reference::sheet::sound_book;

/// Radius and terms of an accepted call.
fn gathered(n: u8, d: u8, i: u8, radius: u64, terms: &[(u16, i64)]) -> (u64, Vec<(u16, i64)>) {
    let answer = calls::antiderivative(&stored(n, radius, terms), i, d);
    assert_eq!(answer.refusal, None);
    let model = answer.model;
    assert_eq!(model.n, n);
    let terms = model.terms[..model.count].iter();
    let terms = terms
        .map(|term| ((term.key >> 16) as u16, term.coefficient))
        .collect();
    (model.radius, terms)
}

#[test]
fn halves_go_to_the_even_coefficient() {
    // x becomes x²/2: 0.5, 1, 1.5, 2, 2.5, 3.5 of both signs.
    let half = |c: i64| gathered(1, 2, 1, 0, &[(0x1000, c)]);
    assert_eq!(half(1), (1, vec![]));
    assert_eq!(half(-1), (1, vec![]));
    assert_eq!(half(2), (0, vec![(0x2000, 1)]));
    assert_eq!(half(-2), (0, vec![(0x2000, -1)]));
    assert_eq!(half(3), (1, vec![(0x2000, 2)]));
    assert_eq!(half(-3), (1, vec![(0x2000, -2)]));
    assert_eq!(half(4), (0, vec![(0x2000, 2)]));
    assert_eq!(half(5), (1, vec![(0x2000, 2)]));
    assert_eq!(half(-5), (1, vec![(0x2000, -2)]));
    assert_eq!(half(7), (1, vec![(0x2000, 4)]));
    // The tie is at a half of k also where k is even and above 2: 2/4, 6/4, 10/4.
    let quarter = |c: i64| gathered(1, 4, 1, 0, &[(0x3000, c)]);
    assert_eq!(quarter(2), (1, vec![]));
    assert_eq!(quarter(6), (1, vec![(0x4000, 2)]));
    assert_eq!(quarter(-6), (1, vec![(0x4000, -2)]));
    assert_eq!(quarter(10), (1, vec![(0x4000, 2)]));
}

#[test]
fn other_quotients_go_to_the_nearest() {
    let third = |c: i64| gathered(1, 3, 1, 0, &[(0x2000, c)]);
    assert_eq!(third(1), (1, vec![]));
    assert_eq!(third(-1), (1, vec![]));
    assert_eq!(third(2), (1, vec![(0x3000, 1)]));
    assert_eq!(third(-2), (1, vec![(0x3000, -1)]));
    assert_eq!(third(3), (0, vec![(0x3000, 1)]));
    assert_eq!(third(4), (1, vec![(0x3000, 1)]));
    assert_eq!(third(-5), (1, vec![(0x3000, -2)]));
}

#[test]
fn the_degree_is_that_after_raising() {
    // x^14 becomes x^15 / 15, of degree 15; x^15 has degree 16 after, which is above every order.
    assert_eq!(
        gathered(1, 15, 1, 0, &[(0xE000, 15 * ONE as i64)]),
        (0, vec![(0xF000, ONE as i64)])
    );
    let last = |c: i64| gathered(1, 15, 1, 0, &[(0xF000, c)]);
    assert_eq!(last(1), (1, vec![]));
    assert_eq!(last(16), (1, vec![]));
    assert_eq!(last(17), (2, vec![]));
    assert_eq!(last(-17), (2, vec![]));
    assert_eq!(last(-(1 << 30)), (1 << 26, vec![]));
    // Above the order by one: swept with |c| / k rounded up, whichever the sign.
    assert_eq!(gathered(1, 1, 1, 0, &[(0x1000, 3)]), (2, vec![]));
    assert_eq!(gathered(1, 1, 1, 0, &[(0x1000, -3)]), (2, vec![]));
    assert_eq!(gathered(1, 1, 1, 0, &[(0x1000, -4)]), (2, vec![]));
    // The total degree decides, and k is the exponent of the variable alone.
    assert_eq!(gathered(2, 3, 2, 0, &[(0x1100, 6)]), (0, vec![(0x1200, 3)]));
    assert_eq!(gathered(2, 3, 2, 0, &[(0x2100, 6)]), (3, vec![]));
    assert_eq!(gathered(2, 3, 1, 0, &[(0x2100, 6)]), (2, vec![]));
    assert_eq!(gathered(4, 15, 4, 0, &[(0x5550, 9)]), (9, vec![]));
    assert_eq!(
        gathered(4, 15, 4, 0, &[(0x5540, 9)]),
        (0, vec![(0x5541, 9)])
    );
}

#[test]
fn the_old_radius_stays() {
    assert_eq!(gathered(3, 1, 2, 77, &[]), (77, vec![]));
    assert_eq!(gathered(1, 15, 1, 0, &[]), (0, vec![]));
    assert_eq!(gathered(1, 3, 1, 1 << 30, &[]), (1 << 30, vec![]));
    // Without the variable the exponent becomes 1, and nothing is rounded.
    assert_eq!(
        gathered(2, 2, 2, 5, &[(0, 7), (0x1000, -3)]),
        (5, vec![(0x0100, 7), (0x1100, -3)])
    );
    // One inexact division, one that rounds to zero, one exact, one swept: 5 + 1 + 1 + 0 + 2.
    let terms = [(0x1000, 1), (0x2000, 4), (0x3000, 8), (0x4000, -7)];
    assert_eq!(
        gathered(1, 4, 1, 5, &terms),
        (9, vec![(0x3000, 1), (0x4000, 2)])
    );
}

#[test]
fn tests_of_the_call_in_their_order() {
    let sound = stored(2, 0, &[(0x1000, 3)]);
    let broken = stored(2, 0, &[(0x1000, 0)]);
    let high = stored(2, 0, &[(0x2000, 3)]);
    let refusal = |f, i, d| pair(calls::antiderivative(f, i, d).refusal);
    assert_eq!(refusal(&broken, 9, 0), Some((3, 0)));
    assert_eq!(refusal(&sound, 1, 16), Some((3, 0)));
    assert_eq!(refusal(&broken, 9, 1), Some((5, 0)));
    assert_eq!(refusal(&high, 1, 1), Some((5, 0)));
    assert_eq!(refusal(&high, 1, 2), None);
    assert_eq!(refusal(&sound, 0, 1), Some((6, 0)));
    assert_eq!(refusal(&sound, 3, 1), Some((6, 0)));
    assert_eq!(refusal(&sound, 2, 1), None);
}

#[test]
fn a_square_gathered_as_a_sheet() {
    // (x + 1/2)² = x² + x + 1/4 becomes x³/3 + x²/2 + x/4; U/3 is inexact.
    let mut steps = vec![
        Step::variable(1),
        Step::constant(HALF),
        Step::two(ADD, 0, 1),
        Step::two(MULTIPLY, 2, 2),
        Step::antiderivative(3, 1),
    ];
    let expected = "radius 1\nterm 1 262144\nterm 2 524288\nterm 3 349525\n\
        range -611670 1135958\nintegral 349523 349528\nexact 349525 70945875\n";
    assert_eq!(lines(3, &[], &steps), expected);
    // With order 2 the third power is swept: 349526 units; the integral of x²/2 is 349525.33.
    let expected = "radius 349526\nterm 1 262144\nterm 2 524288\n\
        range -611670 1135958\nintegral -349527 1048578\nexact 349525 70945875\n";
    assert_eq!(lines(2, &[], &steps), expected);
    // Broken forms: a later step, a wrong variable, fields that are not named.
    let refused = |step: Step| {
        let steps = [&steps[..4], &[step]].concat();
        lines(3, &[], &steps)
    };
    assert_eq!(refused(Step::antiderivative(4, 1)), "refused 6 4\n");
    assert_eq!(refused(Step::antiderivative(3, 0)), "refused 6 4\n");
    assert_eq!(refused(Step::antiderivative(3, 2)), "refused 6 4\n");
    let kept = Step::antiderivative(3, 1);
    assert_eq!(refused(Step { b: 1, ..kept }), "refused 6 4\n");
    assert_eq!(refused(Step { value: 1, ..kept }), "refused 6 4\n");
    assert_eq!(refused(Step { code: 11, ..kept }), "refused 6 4\n");
    // It is zero where the variable is: put in 0.
    steps.push(Step::constant(0));
    steps.push(Step::substitute(4, 5, 1));
    assert_eq!(
        lines(3, &[], &steps),
        "radius 1\nrange -1 1\nintegral -2 2\nexact 0 0\n"
    );
}

/// Generated calls: a mirrored model gives the mirrored antiderivative, spans never grow, terms never become more.
#[test]
fn antiderivatives_mirror_and_never_grow() {
    let mut accepted = 0;
    for number in 0..39_000 {
        let Call::Antiderivative { f, i, order } = hostile::call(101, number) else {
            continue;
        };
        let answer = calls::antiderivative(&f, i, order);
        let Some(f) = f.sound(LARGEST_DEGREE).filter(|_| answer.refusal.is_none()) else {
            continue;
        };
        accepted += 1;
        let (i, order) = (i.into(), order.into());
        let gathered = operations::antiderivative(&f, i, order);
        let mirrored = operations::antiderivative(&operations::negate(&f), i, order);
        assert_eq!(mirrored, operations::negate(&gathered));
        assert!(gathered.span() <= f.span() && f.span() <= LARGEST_SPAN);
        assert!(gathered.polynomial.len() <= f.polynomial.len());
        assert!(gathered
            .polynomial
            .keys()
            .all(|monomial| monomial[i - 1] > 0));
        assert!(gathered
            .polynomial
            .keys()
            .all(|monomial| degree(monomial) <= order));
    }
    println!("{accepted} calls accepted");
    assert!(accepted > 2_000);
}

/// The exact antiderivative is zero where the variable is, and its difference between the ends, integrated over the
/// other variables, is the integral.
#[test]
fn the_exact_antiderivative_keeps_its_laws() {
    let limit = SizeLimit::default();
    let constant = |value: i128| ExactPolynomial::constant(&Fraction::of(value, 1));
    let mut random = Random::new(102);
    for _ in 0..400 {
        let n = random.byte(1, 4);
        let model = generate::models::model(&mut random, n, 15, 12).model(n);
        let f = functions::polynomial_within(&mut random, &model);
        let i = random.size(1, n.into());
        let gathered = f.antiderivative(i, &limit).expect("small");
        let at = |value: i128| {
            gathered
                .substituted(i, &constant(value), &limit)
                .expect("small")
        };
        let point = functions::any_point(&mut random, n.into());
        assert_eq!(at(0).at(&point), Fraction::zero());
        let between_ends = at(1).plus(&at(-1).negated());
        // The variable is gone, so that the integral over the box counts its two units of length as well.
        let twice = &f.integral(n.into()) * &Fraction::of(2, 1);
        assert_eq!(between_ends.integral(n.into()), twice);
    }
}

fn shifted(model: &Model, parts: i128) -> InputFunction {
    let deviation = ExactPolynomial::constant(&Fraction::of(model.radius * parts, ONE));
    InputFunction::Polynomial(ExactPolynomial::of_model(model).plus(&deviation))
}

/// The outcome follows the function and not the model's own polynomial: at 1 it is off by the whole radius.
#[test]
fn the_outcome_follows_the_input() {
    let models = vec![DraftModel::new(1, &[(0, UNIT)])];
    let steps = vec![input(0), Step::antiderivative(0, 1)];
    let (book, mut result) = ran(&Draft::new(1, 1, models, steps));
    let corner = functions::corner(1, 0);
    let limit = SizeLimit::default();
    for (parts, expected) in [(0, ONE), (1, ONE + 1), (-1, ONE - 1)] {
        let functions = [shifted(&book.models[0], parts)];
        let polynomials = outcome_polynomials(&book, &functions, &limit);
        let outcome = outcome_at(&book, &functions, &polynomials, &corner, &limit);
        assert_eq!(outcome, Ok(Fraction::of(expected, ONE)));
    }
    let highest = [shifted(&book.models[0], 1)];
    let checked =
        check_result(&book, &result, &highest, std::slice::from_ref(&corner)).expect("enclosed");
    assert_eq!((checked.points, checked.integral), (1, true));
    result.model.radius = 0;
    let found = check_result(&book, &result, &highest, std::slice::from_ref(&corner));
    assert!(matches!(found, Err(Violation::Radius(_))));
    // Of a function that is no polynomial nothing is promised.
    let jumping = [InputFunction::jumping(&book.models[0], 7)];
    let checked = check_result(&book, &result, &jumping, &[corner]).expect("nothing promised");
    assert_eq!((checked.points, checked.points_not_promised), (0, 1));
}

/// x/4 over 1 + x/4, with h = x/4 and w = 1, as step 5; x is step 0, 1 + x/4 step 4.
fn quotient_steps() -> Vec<Step> {
    vec![
        Step::variable(1),
        Step::constant(UNIT / 4),
        Step::two(MULTIPLY, 0, 1),
        Step::constant(UNIT),
        Step::two(ADD, 3, 2),
        Step::quotient(2, 4, 2, 3),
    ]
}

#[test]
fn what_is_promised_depends_on_what_feeds_the_step() {
    let promised = |more: &[Step]| {
        let steps = [&quotient_steps()[..], more].concat();
        let (book, result) = ran(&Draft::new(1, 3, Vec::new(), steps));
        assert_eq!(
            is_promised(&book, &[]),
            !quotient_feeds_antiderivative(&book)
        );
        let points = [functions::corner(1, 0), functions::middle()];
        let checked = check_result(&book, &result, &[], &points).expect("enclosed");
        assert!(!checked.integral, "the sheet has a quotient");
        assert_eq!(checked.points + checked.points_not_promised, 2);
        checked.points == 2
    };
    assert!(promised(&[]));
    // Beside the quotient, and before one: 1 + x gathered / 4 as dividend, divisor and proposal.
    assert!(promised(&[Step::antiderivative(4, 1)]));
    let before = [
        Step::antiderivative(2, 1),
        Step::two(ADD, 3, 6),
        Step::quotient(6, 7, 6, 3),
    ];
    assert!(promised(&before));
    // A proposal fed by a quotient leaves no trace in the outcome, but it is a quotient that comes of it.
    assert!(promised(&[
        Step::antiderivative(4, 1),
        Step::quotient(6, 4, 5, 3)
    ]));
    // Fed directly, and through each step that takes one.
    assert!(!promised(&[Step::antiderivative(5, 1)]));
    assert!(!promised(&[Step::one(3, 5), Step::antiderivative(6, 1)]));
    assert!(!promised(&[Step::sweep(5, 9), Step::antiderivative(6, 1)]));
    for code in [4, 5, 6] {
        assert!(!promised(&[
            Step::two(code, 5, 0),
            Step::antiderivative(6, 1)
        ]));
        assert!(!promised(&[
            Step::two(code, 0, 5),
            Step::antiderivative(6, 1)
        ]));
    }
    assert!(!promised(&[
        Step::substitute(5, 2, 1),
        Step::antiderivative(6, 1)
    ]));
    assert!(!promised(&[
        Step::substitute(0, 5, 1),
        Step::antiderivative(6, 1)
    ]));
    assert!(
        !promised(&[Step::antiderivative(5, 1), Step::variable(1)]),
        "also where it is not used"
    );
    let twice = [
        Step::antiderivative(0, 1),
        Step::two(ADD, 6, 5),
        Step::antiderivative(7, 1),
    ];
    assert!(!promised(&twice));
}

/// An antiderivative put in, put into, taken again and divided by, worked out exactly.
#[test]
fn outcomes_of_antiderivatives_are_exact() {
    let steps = vec![
        Step::variable(1),
        Step::antiderivative(0, 1),
        Step::substitute(1, 1, 1),
        Step::antiderivative(2, 1),
        Step::constant(UNIT),
        Step::two(ADD, 3, 4),
        Step::quotient(1, 5, 1, 4),
    ];
    let (book, _) = ran(&Draft::new(1, 15, Vec::new(), steps));
    let limit = SizeLimit::default();
    let polynomials = outcome_polynomials(&book, &[], &limit);
    for (p, q) in [(1, 1), (-1, 1), (1, 3), (-2, 7), (0, 1)] {
        let mut point = functions::middle();
        point[0] = Fraction::of(p, q);
        // x²/2, put into itself x⁴/8, gathered x⁵/40; x²/2 over 1 + x⁵/40 is 20 x² / (40 + x⁵).
        let found = outcome_at(&book, &[], &polynomials, &point, &limit);
        let expected = Fraction::of(20 * p * p * q.pow(3), 40 * q.pow(5) + p.pow(5));
        assert_eq!(found, Ok(expected));
    }
}

#[test]
fn antiderivatives_are_enclosed() {
    let mut random = Random::new(103);
    let (mut points, mut integrals) = (0, 0);
    for number in 0..2_500 {
        let (n, d) = (random.byte(1, 4), random.byte(1, 15));
        let model = generate::models::model(&mut random, n, d, 20);
        let v = random.byte(1, n);
        let mut steps = vec![input(0), Step::antiderivative(0, v)];
        if random.one_in(2) {
            steps.push(Step::antiderivative(1, random.byte(1, n)));
        }
        let (book, result) = ran(&Draft::new(n, d, vec![model], steps));
        let functions = match number % 3 {
            0 => vec![shifted(&book.models[0], 1)],
            1 => vec![shifted(&book.models[0], -1)],
            _ => vec![InputFunction::Polynomial(functions::polynomial_within(
                &mut random,
                &book.models[0],
            ))],
        };
        let mut places: Vec<_> = (0..1 << n)
            .map(|k| functions::corner(n.into(), k))
            .collect();
        places.push(functions::any_point(&mut random, n.into()));
        let checked = check_result(&book, &result, &functions, &places).expect("enclosed");
        points += checked.points;
        integrals += usize::from(checked.integral);
    }
    println!("{points} points, {integrals} integrals");
    assert!(points > 15_000 && integrals == 2_500);
}

/// What generated sheets that are accepted do with antiderivatives.
#[derive(Debug, Default)]
struct Uses {
    sheets: usize,
    antiderivatives: usize,
    in_the_result: usize,
    promised: usize,
    /// Steps that a quotient feeds, and quotients of or over one.
    fed_by_quotient: usize,
    divided: usize,
    divisor: usize,
    put_in: usize,
    put_into: usize,
    taken_again: usize,
    swept_after: usize,
    /// Steps with a term above the order, with an inexact division, with a term that rounds to zero, with a tie.
    above_order: usize,
    inexact: usize,
    to_zero: usize,
    ties: usize,
}

impl Uses {
    fn note(&mut self, book: &SoundBook) {
        let of_one = from_antiderivative(book);
        let fed = fed_by_quotient(&book.steps);
        let mut results: Vec<Model> = Vec::new();
        self.sheets += 1;
        self.in_the_result += usize::from(of_one[of_one.len() - 1]);
        self.promised += usize::from(has_antiderivative(book) && is_promised(book, &[]));
        for step in &book.steps {
            let [a, b] = [step.a, step.b].map(usize::from);
            let is_one = |number: usize| book.steps[number].code == ANTIDERIVATIVE;
            match step.code {
                ANTIDERIVATIVE => {
                    self.antiderivatives += 1;
                    self.fed_by_quotient += usize::from(fed[a]);
                    self.taken_again += usize::from(is_one(a));
                    self.note_terms(&results[a], step.v.into(), book.order);
                }
                QUOTIENT => {
                    self.divided += usize::from(of_one[a]);
                    self.divisor += usize::from(of_one[b]);
                }
                SUBSTITUTE => {
                    self.put_into += usize::from(is_one(a));
                    self.put_in += usize::from(is_one(b));
                }
                SWEEP => self.swept_after += usize::from(is_one(a)),
                _ => {}
            }
            results.push(perform(step, book, &results).expect("accepted"));
        }
    }

    fn note_terms(&mut self, f: &Model, v: usize, order: u32) {
        let k = |monomial: &Monomial| i128::from(monomial[v - 1]) + 1;
        let kept = || f.polynomial.iter().filter(|(m, _)| degree(m) < order);
        self.above_order += usize::from(f.polynomial.keys().any(|m| degree(m) >= order));
        self.inexact += usize::from(kept().any(|(m, c)| c % k(m) != 0));
        self.to_zero += usize::from(kept().any(|(m, c)| 2 * c.abs() <= k(m)));
        self.ties += usize::from(kept().any(|(m, c)| 2 * c.abs() % (2 * k(m)) == k(m)));
    }
}

/// For each step whether it is an antiderivative or takes one in.
fn from_antiderivative(book: &SoundBook) -> Vec<bool> {
    let mut of_one: Vec<bool> = Vec::new();
    for step in &book.steps {
        let [a, b] = [step.a, step.b].map(usize::from);
        of_one.push(match step.code {
            0..=2 => false,
            ANTIDERIVATIVE => true,
            3 | SWEEP => of_one[a],
            _ => of_one[a] || of_one[b],
        });
    }
    of_one
}

#[test]
fn antiderivatives_stand_everywhere() {
    let mut uses = Uses::default();
    for number in 0..6_000 {
        let bytes = generate::sheet(104, number).bytes;
        if run_sheet(&bytes).refusal.is_none() {
            uses.note(&sound_book(&bytes).expect("accepted"));
        }
    }
    println!("{uses:?}");
    assert!(uses.antiderivatives > 2_000 && uses.in_the_result > 500 && uses.promised > 400);
    assert!(uses.fed_by_quotient > 100 && uses.divided > 150 && uses.divisor > 60);
    assert!(uses.put_in > 100 && uses.put_into > 150 && uses.taken_again > 150);
    assert!(uses.swept_after > 50 && uses.above_order > 300 && uses.inexact > 500);
    assert!(uses.to_zero > 50 && uses.ties > 100);
}
