//! Named sheets for the integral with its remainder: below 0, without a rest, with
//! the largest rest, every even monomial, odd terms only, a radius only.

use super::draft::{Draft, DraftModel};
use super::models;
use super::samples::{input, Samples, LARGEST, UNIT};
use super::Sample;

/// All named sheets about integrals.
pub fn samples() -> Vec<Sample> {
    let mut list = Samples::default();
    few_terms(&mut list);
    remainders(&mut list);
    every_even_term(&mut list);
    largest(&mut list);
    list.into_vec()
}

fn of(n: u8, radius: u32, terms: &[(u16, i32)]) -> Draft {
    Draft::new(n, 15, vec![DraftModel::new(radius, terms)], vec![input(0)])
}

fn few_terms(list: &mut Samples) {
    list.accept("the integral of nothing", &of(4, 0, &[]));
    for n in 1..=4 {
        list.accept(
            &format!("the integral of a radius, n = {n}"),
            &of(n, 5, &[]),
        );
        list.accept(
            &format!("the integral of -5, n = {n}"),
            &of(n, 0, &[(0, -5)]),
        );
    }
    let odd = of(2, 1, &[(0x0100, 7), (0x1100, -9), (0x1200, 3)]);
    list.accept("the integral of odd terms", &odd);
    let cancelled = of(2, 0, &[(0x0200, 1), (0x2000, -1)]);
    list.accept("thirds that cancel", &cancelled);
    list.accept("-x²", &of(1, 0, &[(0x2000, -UNIT)]));
    list.accept("a third of three units below 0", &of(1, 0, &[(0x2000, -3)]));
}

/// Terms whose integral has the largest remainder: 1 / D below 41.
pub const LARGEST_REMAINDER: [(u16, i32); 5] = [
    (0x4442, 117),
    (0x6620, 47),
    (0x8222, 431),
    (0xA400, 3),
    (0xC200, 4),
];

fn remainders(list: &mut Samples) {
    let terms = LARGEST_REMAINDER;
    list.accept("the largest remainder", &of(4, 0, &terms));
    let turned = terms.map(|(key, c)| (key, -c));
    list.accept("the smallest remainder, below 0", &of(4, 7, &turned));
}

/// All 330 even monomials in four variables, in six models.
fn every_even_term(list: &mut Samples) {
    let even = |key: &u32| key & 0x1111_1111 == 0;
    let keys: Vec<u32> = models::all_keys(4, 15).into_iter().filter(even).collect();
    for (number, part) in keys.chunks(55).enumerate() {
        let coefficient = |place: i32| {
            if place % 3 == 0 {
                -place - 1
            } else {
                1_000 * place + 1
            }
        };
        let terms: Vec<(u32, i32)> = part.iter().copied().zip((0..).map(coefficient)).collect();
        let model = DraftModel::wide(0, &terms);
        let draft = Draft::new(4, 15, vec![model], vec![input(0)]);
        list.accept(&format!("even monomials, part {number}"), &draft);
    }
}

/// The largest integrals of either sign: 2^34 units.
fn largest(list: &mut Samples) {
    for sign in [1, -1] {
        let whole = of(4, 0, &[(0, sign * LARGEST)]);
        list.accept(&format!("the largest integral, sign {sign}"), &whole);
        let square = of(4, 0, &[(0x0002, sign * LARGEST)]);
        list.accept(
            &format!("the largest integral of a square, sign {sign}"),
            &square,
        );
    }
}
