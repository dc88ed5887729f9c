//! Results worked out by hand, where an error would be plausible.

mod common;

use common::*;
use reference::book::{Step, MULTIPLY, NEGATE, SUBTRACT};
use reference::generate::models::all_keys;
use reference::generate::DraftModel;

fn product_lines(n: u8, d: u8, f: DraftModel, g: DraftModel) -> String {
    let steps = [input(0), input(1), Step::two(MULTIPLY, 0, 1)];
    lines_of(n, d, &[f, g], &steps)
}

/// The lines of a constant with radius 1, or 0 where the product is exact.
fn rounded(coefficient: i64, radius: i64) -> String {
    let term = match coefficient {
        0 => String::new(),
        c => format!("term 0 {c}\n"),
    };
    let (low, high) = (coefficient - radius, coefficient + radius);
    let [twice_low, twice_high, twice] = [low, high, coefficient].map(|end| 2 * end);
    let integral = format!("integral {twice_low} {twice_high}\nexact {twice} 0\n");
    format!("radius {radius}\n{term}range {low} {high}\n{integral}")
}

fn constants_product(f: i32, g: i32) -> String {
    product_lines(1, 1, model(0, &[(0, f)]), model(0, &[(0, g)]))
}

#[test]
fn halves_go_to_the_even_coefficient() {
    // 0.5, 1.5, 2.5, 3.5, 4.5 and their negatives; whole numbers are exact.
    let cases = [(1, 0), (3, 2), (5, 2), (7, 4), (9, 4)];
    for (factor, even) in cases {
        assert_eq!(constants_product(factor, HALF), rounded(even, 1));
        assert_eq!(constants_product(-factor, HALF), rounded(-even, 1));
        assert_eq!(constants_product(factor, -HALF), rounded(-even, 1));
        assert_eq!(constants_product(-factor, -HALF), rounded(even, 1));
    }
    assert_eq!(constants_product(2, HALF), rounded(1, 0));
    assert_eq!(constants_product(-6, HALF), rounded(-3, 0));
}

#[test]
fn next_to_a_half_the_nearest_is_taken() {
    // z at U/2 - 1, U/2 and U/2 + 1, and the same above 1.
    for (z, nearest) in [
        (HALF - 1, 0),
        (HALF, 0),
        (HALF + 1, 1),
        (UNIT + HALF - 1, 1),
        (UNIT + HALF, 2),
        (UNIT + HALF + 1, 2),
    ] {
        assert_eq!(constants_product(1, z), rounded(nearest, 1), "{z}");
        assert_eq!(constants_product(-1, z), rounded(-nearest, 1), "-{z}");
    }
}

#[test]
fn a_half_that_meets_from_two_products_goes_to_the_even_one() {
    // (1 + x) units times (1 + x)/4: 1/4, 1/2, 1/4 units, all to 0; E is U in all.
    let f = model(0, &[(0, 1), (0x1000, 1)]);
    let g = model(0, &[(0, UNIT / 4), (0x1000, UNIT / 4)]);
    assert_eq!(product_lines(1, 2, f, g), rounded(0, 1));
    // (1 + x) units times (3 + 3x)/4: 3/4, 3/2, 3/4 units become 1, 2, 1.
    let f = model(0, &[(0, 1), (0x1000, 1)]);
    let g = model(0, &[(0, 3 * UNIT / 4), (0x1000, 3 * UNIT / 4)]);
    let found = product_lines(1, 2, f, g);
    assert!(found.starts_with("radius 1\nterm 0 1\nterm 1 2\nterm 2 1\n"));
}

#[test]
fn halves_inside_a_substitution() {
    // 5 x/U at 1/2 is 2.5, and at -1/2 -2.5: to 2 and -2, with radius 1.
    let at = |value: i32| {
        let models = [model(0, &[(0x1000, 5)]), model(0, &[(0, value)])];
        let steps = [input(0), input(1), Step::substitute(0, 1, 1)];
        lines(1, &models, &steps)
    };
    assert_eq!(at(HALF), rounded(2, 1));
    assert_eq!(at(-HALF), rounded(-2, 1));
}

#[test]
fn halves_inside_a_quotient() {
    // f = 5 units, g = 1, h = 0 and w = 1/2: w × (-5) is -2.5, which becomes -2
    // with radius 1, so that beta is 3; mu is U/2, and 3 × 2 is 6. Rounded up it
    // would have been the same here, but not for f = -5, where beta would be 4.
    let quotient = |f: i32| {
        let constants = [f, UNIT, 0, HALF].map(Step::constant);
        let steps = [constants.as_slice(), &[Step::quotient(0, 1, 2, 3)]].concat();
        lines(1, &[], &steps)
    };
    assert_eq!(quotient(5), rounded(0, 6));
    assert_eq!(quotient(-5), rounded(0, 6));
}

#[test]
fn what_meets_is_collected_before_its_size_is_taken() {
    // (x + y)(x - y): the two products at xy cancel; x^2 and y^2 are above order 1.
    let f = model(0, &[(0x0100, UNIT), (0x1000, UNIT)]);
    let g = model(0, &[(0x0100, -UNIT), (0x1000, UNIT)]);
    let expected = "radius 2097152\nrange -2097152 2097152\nintegral -8388608 8388608\nexact 0 0\n";
    assert_eq!(product_lines(2, 1, f, g), expected);
}

#[test]
fn high_exponents_do_not_meet() {
    // Four different monomials above the order, also y^17 and x z^16.
    let f = model(0, &[(0x0800, UNIT), (0x1080, UNIT)]);
    let g = model(0, &[(0x0080, -UNIT), (0x0900, UNIT)]);
    let expected =
        "radius 4194304\nrange -4194304 4194304\nintegral -33554432 33554432\nexact 0 0\n";
    assert_eq!(product_lines(3, 15, f, g), expected);
}

#[test]
fn the_radius_of_a_product() {
    // A = 5, B = 7, e1 = 11, e2 = 13: 5 × 13 + 7 × 11 + 11 × 13 = 285 and
    // z = -35 are far below U together, so that the radius is 1.
    let f = model(11, &[(0, 5)]);
    let g = model(13, &[(0x1000, -7)]);
    let expected = "radius 1\nrange -1 1\nintegral -2 2\nexact 0 0\n";
    assert_eq!(product_lines(1, 2, f, g), expected);
    // With e1 = U the sum is U × (7 + 13) + 5 × 13 + 35: one above 20.
    let f = model(1 << 20, &[(0, 5)]);
    let g = model(13, &[(0x1000, -7)]);
    let expected = "radius 21\nrange -21 21\nintegral -42 42\nexact 0 0\n";
    assert_eq!(product_lines(1, 2, f, g), expected);
}

#[test]
fn dropped_terms_count_in_the_sums_of_a_product() {
    // x × x above order 1 goes into the radius, and e2 meets all of A.
    let f = model(0, &[(0x1000, UNIT)]);
    let g = model(3, &[(0x1000, HALF)]);
    let expected = "radius 524291\nrange -524291 524291\nintegral -1048582 1048582\nexact 0 0\n";
    assert_eq!(product_lines(1, 1, f, g), expected);
}

#[test]
fn substitution_goes_by_horner() {
    // f = 3x^2/U with g = x/2: (3 × HALF) / U = 1.5 becomes 2 with radius 1;
    // times g: x^2 by 1, exactly, and the radius 1 × 1/2 rounds up to 1.
    let models = [model(0, &[(0x2000, 3)]), model(0, &[(0x1000, HALF)])];
    let steps = [input(0), input(1), Step::substitute(0, 1, 1)];
    let expected = "radius 1\nterm 2 1\nrange -1 2\nintegral -2 3\nexact 0 141891750\n";
    assert_eq!(lines(2, &models, &steps), expected);
}

#[test]
fn the_radius_of_f_is_added_last() {
    let models = [model(100, &[(0x1000, UNIT)]), model(7, &[(0, 9)])];
    let steps = [input(0), input(1), Step::substitute(0, 1, 1)];
    let expected = "radius 107\nterm 0 9\nrange -98 116\nintegral -196 232\nexact 18 0\n";
    assert_eq!(lines(1, &models, &steps), expected);
}

#[test]
fn substitution_merges_monomials() {
    // x y^2 + 5 y^3 with y for x: 6 y^3, in units of U.
    let f = model(0, &[(0x0300, 5 * UNIT), (0x1200, UNIT)]);
    let g = model(0, &[(0x0100, UNIT)]);
    let steps = [input(0), input(1), Step::substitute(0, 1, 1)];
    let expected = "radius 0\nterm 0 3 6291456\nrange -6291456 6291456\nintegral 0 0\nexact 0 0\n";
    assert_eq!(lines_of(2, 3, &[f, g], &steps), expected);
}

#[test]
fn a_sweep_spares_the_constant() {
    let models = [model(1, &[(0, 2), (0x1000, -2), (0x2000, 3)])];
    let steps = [input(0), Step::sweep(0, 2)];
    let expected = "radius 3\nterm 0 2\nterm 2 3\nrange -1 8\nintegral 0 12\nexact 6 0\n";
    assert_eq!(lines(2, &models, &steps), expected);
}

#[test]
fn an_integral_is_rounded_once() {
    // 4/3 - 8/9 in two variables is 4/9: 0 below, 1 above, and 4 × 1 for the radius.
    let models = [model(1, &[(0x0200, 1), (0x2200, -2)])];
    let expected =
        "radius 1\nterm 0 2 1\nterm 2 2 -2\nrange -3 2\nintegral -4 5\nexact 0 94594500\n";
    assert_eq!(lines_of(2, 4, &models, &[input(0)]), expected);
}

#[test]
fn negation_and_difference() {
    let models = [model(4, &[(0, 7), (0x1000, -3)]), model(5, &[(0, 7)])];
    let negated = [input(0), Step::one(NEGATE, 0)];
    let expected = "radius 4\nterm 0 -7\nterm 1 3\nrange -14 0\nintegral -22 -6\nexact -14 0\n";
    assert_eq!(lines(1, &models, &negated), expected);
    let difference = [input(0), input(1), Step::two(SUBTRACT, 0, 1)];
    let expected = "radius 9\nterm 1 -3\nrange -12 12\nintegral -18 18\nexact 0 0\n";
    assert_eq!(lines(1, &models, &difference), expected);
}

#[test]
fn a_result_without_terms_keeps_its_n() {
    let expected = "radius 1\nrange -1 1\nintegral -16 16\nexact 0 0\n";
    assert_eq!(lines_of(4, 1, &[model(1, &[])], &[input(0)]), expected);
}

#[test]
fn four_exponents_stand_in_a_line() {
    let expected = "radius 0\nterm 1 2 3 4 9\nrange -9 9\nintegral 0 0\nexact 0 0\n";
    let models = [model(0, &[(0x1234, 9)])];
    assert_eq!(lines_of(4, 10, &models, &[input(0)]), expected);
}

#[test]
fn terms_that_round_to_zero_are_not_counted() {
    // 72 products of 700 × 700, each below U/2: none is kept, and
    // 72 × 490000 / 1048576 is 33.6.
    let row: Vec<(u16, i32)> = (0..8).map(|k| (k << 12, 700)).collect();
    let column: Vec<(u16, i32)> = (0..9).map(|k| (k << 8, 700)).collect();
    let expected = "radius 34\nrange -34 34\nintegral -136 136\nexact 0 0\n";
    let found = product_lines(2, 15, model(0, &row), model(0, &column));
    assert_eq!(found, expected);
}

#[test]
fn there_are_3876_keys() {
    assert_eq!(all_keys(4, 15).len(), 3876);
    assert_eq!(all_keys(1, 15).len(), 16);
}

#[test]
fn a_full_exponent_is_not_a_neighbour() {
    // (1/2 + z^15)(y - z): y/2 and z/2 are kept; y z^15 and z^16 are above the
    // order, and z^16 is not y.
    let f = model(0, &[(0x0000, HALF), (0x00F0, UNIT)]);
    let g = model(0, &[(0x0010, -UNIT), (0x0100, UNIT)]);
    let expected = "radius 2097152\nterm 0 0 1 -524288\nterm 0 1 0 524288\n\
        range -3145728 3145728\nintegral -16777216 16777216\nexact 0 0\n";
    assert_eq!(product_lines(3, 15, f, g), expected);
}

#[test]
fn the_fifteenth_power_is_put_in() {
    let models = [model(0, &[(0xF000, UNIT)]), model(0, &[(0, -UNIT)])];
    let steps = [input(0), input(1), Step::substitute(0, 1, 1)];
    let expected =
        "radius 0\nterm 0 -1048576\nrange -1048576 -1048576\nintegral -2097152 -2097152\nexact -2097152 0\n";
    assert_eq!(lines(15, &models, &steps), expected);
}
