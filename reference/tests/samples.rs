//! The 13 samples of document 01, as the requests of document 02 change them.

mod common;

use common::*;
use reference::book::{Step, ADD, MULTIPLY};
use reference::text::{bytes_of_hex, lines_of_sheet};

const SHEET: &str = "02 00 00 01 00 00 00 00  01 00 00 00 00 00 08 00  \
    04 00 01 00 00 00 00 00  06 02 02 00 00 00 00 00  01 02 00 04 00 00 4D 4B";

fn sheet() -> Vec<u8> {
    bytes_of_hex(SHEET).expect("the paper's digits")
}

/// As CR 3 has it.
#[test]
fn sample_1_a_square() {
    let expected = "radius 0\nterm 0 262144\nterm 1 1048576\nterm 2 1048576\n\
        range -786432 2359296\nintegral 1223338 1223339\nexact 1223338 141891750\n";
    assert_eq!(lines_of_sheet(&sheet()), expected);
}

#[test]
fn sample_2_the_same_with_order_1() {
    let mut sheet = sheet();
    let order = sheet.len() - 7;
    sheet[order] = 1;
    let expected = "radius 1048576\nterm 0 262144\nterm 1 1048576\n\
        range -1835008 2359296\nintegral -1572864 2621440\nexact 524288 0\n";
    assert_eq!(lines_of_sheet(&sheet), expected);
}

#[test]
fn sample_3_constant_0() {
    let expected = "radius 0\nrange 0 0\nintegral 0 0\nexact 0 0\n";
    assert_eq!(lines(1, &[], &[Step::constant(0)]), expected);
}

#[test]
fn sample_4_the_largest_constant() {
    let expected = "radius 0\nterm 0 1073741824\nrange 1073741824 1073741824\n\
        integral 2147483648 2147483648\nexact 2147483648 0\n";
    assert_eq!(lines(1, &[], &[Step::constant(LARGEST)]), expected);
    let beyond = [Step::constant(LARGEST + 1)];
    assert_eq!(lines(1, &[], &beyond), "refused 6 0\n");
}

#[test]
fn sample_5_a_sum_above_the_span() {
    let steps = [
        Step::constant(LARGEST),
        Step::constant(1),
        Step::two(ADD, 0, 1),
    ];
    assert_eq!(lines(1, &[], &steps), "refused 7 2\n");
}

fn product_of_constants(a: i32, b: i32) -> String {
    let steps = [
        Step::constant(a),
        Step::constant(b),
        Step::two(MULTIPLY, 0, 1),
    ];
    lines(1, &[], &steps)
}

/// As CR 2 has it.
#[test]
fn sample_6_a_half_goes_to_the_even_coefficient() {
    let expected = "radius 1\nrange -1 1\nintegral -2 2\nexact 0 0\n";
    assert_eq!(product_of_constants(1, HALF), expected);
}

#[test]
fn sample_7_and_so_does_a_negative_half() {
    let expected = "radius 1\nrange -1 1\nintegral -2 2\nexact 0 0\n";
    assert_eq!(product_of_constants(-1, HALF), expected);
}

#[test]
fn sample_8_radii_multiply() {
    let models = [model(2, &[]), model(3, &[])];
    let steps = [input(0), input(1), Step::two(MULTIPLY, 0, 1)];
    let expected = "radius 1\nrange -1 1\nintegral -2 2\nexact 0 0\n";
    assert_eq!(lines(1, &models, &steps), expected);
}

fn square_at(value: i32) -> String {
    let steps = [
        Step::variable(1),
        Step::two(MULTIPLY, 0, 0),
        Step::constant(value),
        Step::substitute(1, 2, 1),
    ];
    lines(2, &[], &steps)
}

#[test]
fn sample_9_a_constant_put_in() {
    let expected =
        "radius 0\nterm 0 262144\nrange 262144 262144\nintegral 524288 524288\nexact 524288 0\n";
    assert_eq!(square_at(HALF), expected);
}

#[test]
fn sample_10_the_end_of_the_box() {
    let expected = "radius 0\nterm 0 1048576\nrange 1048576 1048576\nintegral 2097152 2097152\nexact 2097152 0\n";
    assert_eq!(square_at(UNIT), expected);
    assert_eq!(square_at(UNIT + 1), "refused 9 3\n");
}

#[test]
fn sample_11_a_sweep() {
    let models = [model(0, &[(0, 5), (0x1000, 3)])];
    let swept = |threshold| lines(1, &models, &[input(0), Step::sweep(0, threshold)]);
    assert_eq!(
        swept(3),
        "radius 3\nterm 0 5\nrange 2 8\nintegral 4 16\nexact 10 0\n"
    );
    let unchanged = "radius 0\nterm 0 5\nterm 1 3\nrange 2 8\nintegral 10 10\nexact 10 0\n";
    assert_eq!(swept(2), unchanged);
}

#[test]
fn sample_12_an_integral_of_minus_two_thirds() {
    let models = [model(0, &[(0x2000, -1)])];
    let expected = "radius 0\nterm 2 -1\nrange -1 0\nintegral -1 0\nexact -1 70945875\n";
    assert_eq!(lines(2, &models, &[input(0)]), expected);
}

#[test]
fn sample_13_the_mark_comes_before_n() {
    let mut sheet = sheet();
    let length = sheet.len();
    sheet[length - 8] = 0;
    assert_eq!(lines_of_sheet(&sheet), "refused 3 0\n");
    sheet[length - 1] = 0x4C;
    assert_eq!(lines_of_sheet(&sheet), "refused 2 0\n");
}
