//! The integral with its remainder: rows worked out by hand, the denominator, and the laws of the exact value.

mod common;

use common::*;
use reference::book::{Step, ADD};
use reference::calls::{self, Call, IntegralAnswer};
use reference::exact::check::is_exact;
use reference::exact::{ExactPolynomial, Fraction};
use reference::generate::integrands::LARGEST_REMAINDER;
use reference::generate::{hostile, models, DraftModel, Random};
use reference::model::{degree, key_of_half, monomial_of_key, Model, LARGEST_DEGREE, UNIT as ONE};
use reference::operations::DENOMINATOR;
use reference::operations::{integral, integral_by_terms, negate, Ends, Exact, Integral};
use reference::stored::StoredModel;

/// The ends, and q and r, of an accepted call.
fn of(n: u8, radius: u64, terms: &[(u16, i64)]) -> [i128; 4] {
    let IntegralAnswer { integral, refusal } = calls::integral(&stored(n, radius, terms));
    assert_eq!(refusal, None);
    flat(integral)
}

fn flat(integral: Integral) -> [i128; 4] {
    let Integral { ends, exact } = integral;
    [ends.low, ends.high, exact.quotient, exact.remainder]
}

/// D / 3.
const THIRD: i128 = 70_945_875;

#[test]
fn rows_by_hand() {
    // x²: 2/3 of a unit, one below and none above where it is negative. Sample 12 is the second.
    assert_eq!(of(1, 0, &[(0x2000, 1)]), [0, 1, 0, 2 * THIRD]);
    assert_eq!(of(1, 0, &[(0x2000, -1)]), [-1, 0, -1, THIRD]);
    assert_eq!(of(1, 0, &[(0x2000, -3)]), [-2, -2, -2, 0]);
    // -x² alone: -699050.67.
    assert_eq!(
        of(1, 0, &[(0x2000, -ONE as i64)]),
        [-699_051, -699_050, -699_051, THIRD]
    );
    // Nothing, a radius only, odd terms only.
    assert_eq!(of(1, 0, &[]), [0; 4]);
    assert_eq!(of(3, 5, &[]), [-40, 40, 0, 0]);
    assert_eq!(
        of(2, 1, &[(0x0100, 7), (0x1100, -9), (0x1200, 3)]),
        [-4, 4, 0, 0]
    );
    // Two terms whose thirds cancel: 2/3 - 2/3. By themselves they would be rounded apart.
    assert_eq!(of(2, 0, &[(0x0200, 1), (0x2000, -1)]), [0; 4]);
    let by_terms = Ends { low: -1, high: 1 };
    assert_eq!(
        integral_by_terms(&sound(2, 0, &[(0x0200, 1), (0x2000, -1)])),
        by_terms
    );
    // A variable that does not occur counts 2: 8/3 in three variables.
    assert_eq!(of(3, 1, &[(0x0020, 1)]), [2 - 8, 3 + 8, 2, 2 * THIRD]);
    // Constants: 2^n each.
    for n in 1..=4 {
        let volume = 1 << n;
        assert_eq!(
            of(n, 0, &[(0, -5)]),
            [-5 * volume, -5 * volume, -5 * volume, 0]
        );
    }
}

fn sound(n: u8, radius: u64, terms: &[(u16, i64)]) -> Model {
    let model = stored(n, radius, terms).sound(LARGEST_DEGREE);
    model.expect("a sound model")
}

#[test]
fn the_largest_remainder() {
    let terms = LARGEST_REMAINDER.map(|(key, c)| (key, i64::from(c)));
    assert_eq!(of(4, 0, &terms), [40, 41, 40, DENOMINATOR - 1]);
    // Mirrored: 1 / D above -41.
    let mirrored = terms.map(|(key, c)| (key, -c));
    assert_eq!(of(4, 0, &mirrored), [-41, -40, -41, 1]);
}

/// All monomials in four variables whose exponents are all even, to degree 15.
fn even_keys() -> Vec<u16> {
    let keys = models::all_keys(4, 15).into_iter();
    keys.filter(|&key| monomial_of_key(key).iter().all(|k| k % 2 == 0))
        .map(|key| (key >> 16) as u16)
        .collect()
}

/// D is the least number that every product of (exponent + 1) divides.
#[test]
fn the_denominator_serves_every_even_term() {
    let divide = |key: u16| -> i128 {
        let exponents = monomial_of_key(key_of_half(key)).map(|k| i128::from(k) + 1);
        exponents.iter().product()
    };
    let keys = even_keys();
    assert_eq!(keys.len(), 330);
    assert!(keys.iter().all(|&key| DENOMINATOR % divide(key) == 0));
    for prime in [3, 5, 7, 11, 13] {
        let smaller = DENOMINATOR / prime;
        assert!(
            keys.iter().any(|&key| smaller % divide(key) != 0),
            "without {prime}"
        );
    }
    // In six models, each with its coefficients and its exact value as a fraction.
    for (number, part) in keys.chunks(55).enumerate() {
        let terms: Vec<(u16, i64)> = part
            .iter()
            .zip(1..)
            .map(|(&key, c)| {
                (
                    key,
                    if c % 3 == 0 {
                        -c
                    } else {
                        1_000 * c + number as i64
                    },
                )
            })
            .collect();
        let model = sound(4, 0, &terms);
        assert!(model.polynomial.keys().all(|m| degree(m) <= 15));
        assert!(is_exact(&model, integral(&model).exact));
    }
}

#[test]
fn a_refusal_has_zeros() {
    let broken = StoredModel {
        n: 9,
        ..stored(1, 0, &[(0x2000, 1)])
    };
    let answer = calls::integral(&broken);
    assert_eq!(pair(answer.refusal), Some((5, 0)));
    assert_eq!(answer.integral, Integral::default());
}

/// The program's last line: for every accepted sheet, also as 0 0, and for no refused one.
#[test]
fn the_last_line_is_exact() {
    let line = |model: DraftModel| {
        let lines = lines(15, &[model], &[input(0)]);
        lines.lines().last().map(str::to_owned)
    };
    assert_eq!(line(model(0, &[])), Some("exact 0 0".into()));
    assert_eq!(line(model(9, &[(0x1000, 5)])), Some("exact 0 0".into()));
    assert_eq!(
        line(model(0, &[(0x2000, -1)])),
        Some("exact -1 70945875".into())
    );
    assert_eq!(line(model(0, &[(0x2000, 3)])), Some("exact 2 0".into()));
    let steps = [
        Step::constant(LARGEST),
        Step::constant(1),
        Step::two(ADD, 0, 1),
    ];
    assert_eq!(lines(1, &[], &steps), "refused 7 2\n");
}

/// The exact value as a fraction, the ends by it, inside those of the rule term by term; turned signs turn it.
#[test]
fn the_laws_of_the_exact_value() {
    let mut random = Random::new(121);
    let (mut negative, mut whole, mut narrower) = (0, 0, 0);
    for number in 0..20_000_usize {
        let n = 1 + (number % 4) as u8;
        let most = [3, 12, 64][number % 3];
        let model = models::model(&mut random, n, 15, most).model(n);
        let found = integral(&model);
        let [low, high, q, r] = flat(found);
        assert!(is_exact(&model, found.exact));
        let volume = (1 << n) * model.radius;
        assert_eq!([low, high], [q - volume, q + volume + i128::from(r != 0)]);
        let by_terms = integral_by_terms(&model);
        assert!(by_terms.low <= low && high <= by_terms.high);
        let [_, _, turned_q, turned_r] = flat(integral(&negate(&model)));
        let above = i128::from(r != 0);
        assert_eq!(
            [turned_q, turned_r],
            [-q - above, (DENOMINATOR - r) % DENOMINATOR]
        );
        negative += usize::from(q < 0);
        whole += usize::from(r == 0);
        narrower += usize::from(high - low < by_terms.high - by_terms.low);
    }
    println!("{negative} below 0, {whole} without a rest, {narrower} narrower than term by term");
    assert!(negative > 2_000 && whole > 2_000 && narrower > 2_000);
}

/// What is_exact compares with is the integral of fractions.
#[test]
fn the_exact_value_of_thirds() {
    let model = sound(1, 7, &[(0x2000, 1), (0x4000, 1)]);
    // 2/3 + 2/5 units: 16/15.
    let value = ExactPolynomial::of_model(&model).integral(1);
    assert_eq!(value, Fraction::of(16, 15 * ONE));
    let claimed = |quotient: i128, remainder: i128| {
        is_exact(
            &model,
            Exact {
                quotient,
                remainder,
            },
        )
    };
    assert!(claimed(1, DENOMINATOR / 15));
    assert!(!claimed(1, DENOMINATOR / 15 + 1));
    assert!(!claimed(0, DENOMINATOR + DENOMINATOR / 15));
    assert!(!claimed(2, DENOMINATOR / 15 - DENOMINATOR));
}

#[test]
fn generated_calls_reach_every_remainder() {
    let (mut negative, mut whole, mut large) = ([0; 5], [0; 5], [0; 5]);
    for number in 0..120_000 {
        let Call::Integral { f } = hostile::call(122, number) else {
            continue;
        };
        let answer = calls::integral(&f);
        if answer.refusal.is_none() && f.count > 0 && f.n <= 4 {
            let n = usize::from(f.n);
            let Exact {
                quotient,
                remainder,
            } = answer.integral.exact;
            negative[n] += usize::from(quotient < 0);
            whole[n] += usize::from(remainder == 0);
            large[n] += usize::from(remainder > DENOMINATOR / 10 * 9);
        }
    }
    println!("below 0 {negative:?}, no rest {whole:?}, a rest above 9/10 {large:?}");
    for n in 1..=4 {
        assert!(negative[n] > 50 && whole[n] > 50 && large[n] > 20);
    }
}
