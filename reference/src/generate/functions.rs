//! Functions within models and points of the box, for the enclosure check.

use super::random::Random;
use crate::book::SoundBook;
use crate::exact::outcome::has_antiderivative;
use crate::exact::{ExactPolynomial, Fraction, InputFunction, Point};
use crate::model::{Model, MOST_VARIABLES, UNIT};

/// One function within each model of a book. Where an antiderivative is taken they
/// are mostly polynomials, as nothing is promised of others.
pub fn within_models(random: &mut Random, book: &SoundBook) -> Vec<InputFunction> {
    let jumping = random.one_in(if has_antiderivative(book) { 24 } else { 4 });
    let models = book.models.iter();
    models
        .map(|model| {
            if jumping {
                InputFunction::jumping(model, random.next_u64())
            } else {
                InputFunction::Polynomial(polynomial_within(random, model))
            }
        })
        .collect()
}

/// The model's polynomial plus a deviation of at most its radius on the box.
pub fn polynomial_within(random: &mut Random, model: &Model) -> ExactPolynomial {
    let radius = &Fraction::of(random.sign().into(), 1) * &Fraction::of(model.radius, UNIT);
    let deviation = match random.below(6) {
        0 => ExactPolynomial::zero(),
        1 | 2 => ExactPolynomial::constant(&radius),
        3 => ExactPolynomial::term(exponents(random, model.n), &radius),
        4 => shared_out(random, model.n, &radius),
        _ => chebyshev(random, model.n, &radius),
    };
    ExactPolynomial::of_model(model).plus(&deviation)
}

fn exponents(random: &mut Random, n: usize) -> [u32; MOST_VARIABLES] {
    let mut exponents = [0; MOST_VARIABLES];
    for exponent in &mut exponents[..n] {
        *exponent = random.below(4) as u32;
    }
    exponents
}

/// Monomials whose coefficients have sizes that sum to the radius.
fn shared_out(random: &mut Random, n: usize, radius: &Fraction) -> ExactPolynomial {
    let shares = [(1, 2), (-1, 3), (1, 6)];
    let mut total = ExactPolynomial::zero();
    for (numerator, denominator) in shares {
        let share = radius * &Fraction::of(numerator, denominator);
        total = total.plus(&ExactPolynomial::term(exponents(random, n), &share));
    }
    total
}

/// The radius times a Chebyshev polynomial, which reaches it at many points
/// though its coefficients sum to more.
fn chebyshev(random: &mut Random, n: usize, radius: &Fraction) -> ExactPolynomial {
    let rows: [&[i128]; 4] = [
        &[-1, 0, 2],
        &[0, -3, 0, 4],
        &[1, 0, -8, 0, 8],
        &[0, 5, 0, -20, 0, 16],
    ];
    let row = *random.pick(&rows);
    let place = random.size(0, n - 1);
    let mut total = ExactPolynomial::zero();
    for (power, &c) in row.iter().enumerate() {
        let mut exponents = [0; MOST_VARIABLES];
        exponents[place] = power as u32;
        let coefficient = radius * &Fraction::of(c, 1);
        total = total.plus(&ExactPolynomial::term(exponents, &coefficient));
    }
    total
}

/// A corner of the box: the bits of the number choose the signs.
pub fn corner(n: usize, number: usize) -> Point {
    point(n, |index| {
        let sign = if number >> index & 1 == 1 { -1 } else { 1 };
        Fraction::of(sign, 1)
    })
}

/// The middle of the box.
pub fn middle() -> Point {
    point(0, |_| Fraction::zero())
}

/// A random point, with denominators that are and are not powers of two.
pub fn any_point(random: &mut Random, n: usize) -> Point {
    point(n, |_| {
        let denominator = *random.pick(&[2, 3, 7, 10, 97, 1 << 20]);
        let numerator = random.between(-denominator, denominator);
        Fraction::of(numerator.into(), denominator.into())
    })
}

/// Corners, the middle and random points.
pub fn points(random: &mut Random, n: usize) -> Vec<Point> {
    let corners = 1 << n;
    let first = random.size(0, corners - 1);
    let second = random.size(0, corners - 1);
    vec![
        corner(n, first),
        corner(n, second),
        middle(),
        any_point(random, n),
        any_point(random, n),
    ]
}

fn point(n: usize, mut coordinate: impl FnMut(usize) -> Fraction) -> Point {
    std::array::from_fn(|index| {
        if index < n {
            coordinate(index)
        } else {
            Fraction::zero()
        }
    })
}
