//! Named sheets at the limits: the last that is accepted, the first that is not.

use super::draft::{Draft, DraftModel};
use super::models;
use super::samples::{constants, input, one_variable, with_inputs, Samples, HALF, LARGEST, UNIT};
use super::Sample;
use crate::book::{Step, ADD, MULTIPLY, SUBTRACT};

/// All named sheets at the limits.
pub fn samples() -> Vec<Sample> {
    let mut list = Samples::default();
    lengths(&mut list);
    counts(&mut list);
    model_spans(&mut list);
    sums(&mut list);
    products(&mut list);
    degrees(&mut list);
    orders_of_products(&mut list);
    term_counts(&mut list);
    constants_and_thresholds(&mut list);
    variables(&mut list);
    list.into_vec()
}

/// 16 models of 64 terms and 64 steps.
pub fn largest(n: u8) -> Draft {
    let keys = &models::all_keys(n, 4)[..64];
    let terms: Vec<(u32, i32)> = keys.iter().map(|&key| (key, 1)).collect();
    let models = vec![DraftModel::wide(3, &terms); 16];
    let steps = (0..64).map(|number| input(number % 16)).collect();
    Draft::new(n, 15, models, steps)
}

fn lengths(list: &mut Samples) {
    let smallest = one_variable(1, &[], &[Step::constant(0)]);
    list.accept("the smallest sheet", &smallest);
    list.accept("the largest sheet of four variables", &largest(4));
    for n in 5..=8 {
        list.accept(&format!("the largest sheet, n = {n}"), &largest(n));
    }
    list.refuse_bytes("no bytes", Vec::new(), (1, 0));
    list.refuse_bytes("15 bytes", smallest.bytes()[1..].to_vec(), (1, 0));
    let mut longer = vec![0];
    longer.extend(largest(8).bytes());
    list.refuse_bytes("one byte above the largest", longer, (1, 0));
}

fn counts(list: &mut Samples) {
    let steps = |count: usize| one_variable(1, &[], &vec![Step::variable(1); count]);
    list.accept("64 steps", &steps(64));
    list.refuse("65 steps", &steps(65), (3, 0));
    let models = |count: usize| vec![DraftModel::new(1, &[]); count];
    let with_models = |count: usize| one_variable(1, &models(count), &[Step::variable(1)]);
    list.accept("16 models", &with_models(16));
    list.refuse("17 models", &with_models(17), (3, 0));
    // Without steps, models must make up the length.
    list.refuse("no steps", &one_variable(1, &models(2), &[]), (3, 0));
}

fn model_spans(list: &mut Samples) {
    let largest = LARGEST as u32;
    let of = |radius: u32, terms: &[(u16, i32)]| {
        let model = DraftModel::new(radius, terms);
        one_variable(1, &[model], &[input(0)])
    };
    list.accept("radius 2^30", &of(largest, &[]));
    list.accept("coefficient 2^30", &of(0, &[(0, LARGEST)]));
    list.accept("coefficient -2^30", &of(0, &[(0x1000, -LARGEST)]));
    list.accept("a full span", &of(1, &[(0, 1 - LARGEST)]));
    list.refuse("radius 2^30 + 1", &of(largest + 1, &[]), (5, 0));
    list.refuse("radius 2^32 - 1", &of(u32::MAX, &[]), (5, 0));
    list.refuse(
        "coefficient -2^30 - 1",
        &of(0, &[(0, -LARGEST - 1)]),
        (5, 0),
    );
    list.refuse("coefficient -2^31", &of(0, &[(0, i32::MIN)]), (5, 0));
    list.refuse("a full span and 1", &of(1, &[(0, LARGEST)]), (5, 0));
    // In 32 bits these sums would wrap to 0.
    list.refuse("a span that wraps", &of(u32::MAX, &[(0, 1)]), (5, 0));
    let halves = [(0, i32::MIN), (0x1000, i32::MIN)];
    list.refuse("coefficients that wrap", &of(0, &halves), (5, 0));
}

fn sums(list: &mut Samples) {
    let add = |a: i32, b: i32| constants(&[a, b], Step::two(ADD, 0, 1));
    let subtract = |a: i32, b: i32| constants(&[a, b], Step::two(SUBTRACT, 0, 1));
    list.accept("2^30 - 1 plus 1", &add(LARGEST - 1, 1));
    list.accept("-2^30 plus 1", &add(-LARGEST, 1));
    list.accept("2^30 minus 2^30", &subtract(LARGEST, LARGEST));
    list.refuse("2^30 plus 1", &add(LARGEST, 1), (7, 2));
    list.refuse("-2^30 minus 1", &subtract(-LARGEST, 1), (7, 2));
    let radii = |a: u32, b: u32, code: u8| {
        let models = [DraftModel::new(a, &[]), DraftModel::new(b, &[])];
        with_inputs(1, 1, &models, Step::two(code, 0, 1))
    };
    list.accept("radius 2^30 plus none", &radii(LARGEST as u32, 0, ADD));
    list.refuse("radius 2^30 plus 1", &radii(LARGEST as u32, 1, ADD), (7, 2));
    let minus = radii(LARGEST as u32, 1, SUBTRACT);
    list.refuse("radius 2^30 minus 1", &minus, (7, 2));
}

fn products(list: &mut Samples) {
    let multiply = |a: i32, b: i32| constants(&[a, b], Step::two(MULTIPLY, 0, 1));
    list.accept("2^25 times 2^25", &multiply(1 << 25, 1 << 25));
    list.accept("2^30 times U", &multiply(LARGEST, UNIT));
    list.refuse("2^30 times U + 1", &multiply(LARGEST, UNIT + 1), (7, 2));
    // The coefficient is 2^30, and the rest of 1 costs a radius of 1.
    let above = multiply((1 << 25) + (1 << 13) + 1, (1 << 25) - (1 << 13) + 1);
    list.refuse("a product of 2^50 + 1", &above, (7, 2));
    let radii = |a: u32, b: u32| {
        let models = [DraftModel::new(a, &[]), DraftModel::new(b, &[])];
        with_inputs(1, 1, &models, Step::two(MULTIPLY, 0, 1))
    };
    list.accept("radii 2^25 and 2^25", &radii(1 << 25, 1 << 25));
    list.accept("radii 2 and 3", &radii(2, 3));
    list.accept("radii 1 and 0", &radii(1, 0));
    let above = radii(1 << 25, (1 << 25) + 1);
    list.refuse("radii 2^25 and 2^25 + 1", &above, (7, 2));
}

/// Models of degree d and d + 1 on sheets of each order.
fn degrees(list: &mut Samples) {
    let of_key = |n: u8, d: u8, key: u16| {
        let model = DraftModel::new(0, &[(key, 5)]);
        Draft::new(n, d, vec![model], vec![input(0)])
    };
    for d in 1..=15 {
        let key = u16::from(d) << 12;
        list.accept(&format!("degree {d}, order {d}"), &of_key(1, d, key));
        // For order 15 the degree above must come from a second variable.
        let above = if d < 15 { key + 0x1000 } else { 0xF001 };
        let name = format!("degree {}, order {d}", d + 1);
        list.refuse(&name, &of_key(4, d, above), (5, 0));
    }
    list.accept("key 0010 with n = 3", &of_key(3, 15, 0x10));
    list.refuse("key 0001 with n = 3", &of_key(3, 15, 1), (5, 0));
    list.refuse("key FFFF", &of_key(4, 15, 0xFFFF), (5, 0));
}

/// x^a × x^b with a + b = d, which is kept, and d + 1, which is not.
fn orders_of_products(list: &mut Samples) {
    for d in 1..=15_u16 {
        let a = d.div_ceil(2);
        for b in [d - a, d - a + 1] {
            let f = DraftModel::new(0, &[(a << 12, 3 * HALF)]);
            let g = DraftModel::new(1, &[(b << 12, -HALF)]);
            let draft = with_inputs(1, d as u8, &[f, g], Step::two(MULTIPLY, 0, 1));
            list.accept(&format!("x^{a} x^{b}, order {d}"), &draft);
        }
    }
}

fn term_counts(list: &mut Samples) {
    let keys = models::all_keys(2, 10);
    let terms: Vec<(u32, i32)> = keys.iter().map(|&key| (key, 7)).collect();
    let model = |from: usize, to: usize| DraftModel::wide(0, &terms[from..to]);
    let one = |f: DraftModel| Draft::new(2, 10, vec![f], vec![input(0)]);
    let two =
        |f: DraftModel, g: DraftModel, code: u8| with_inputs(2, 10, &[f, g], Step::two(code, 0, 1));
    list.accept("a model of 64 terms", &one(model(0, 64)));
    list.refuse("a model of 65 terms", &one(model(0, 65)), (5, 0));
    let sum = |middle: usize, end: usize, code: u8| two(model(0, middle), model(middle, end), code);
    list.accept("32 and 32 terms", &sum(32, 64, ADD));
    list.refuse("32 and 33 terms", &sum(32, 65, ADD), (8, 2));
    list.refuse("33 less 32 terms", &sum(33, 65, SUBTRACT), (8, 2));
    let mut cancelling = model(64, 65);
    cancelling.terms.insert(0, (terms[0].0, -7));
    let cancelled = two(model(0, 64), cancelling, ADD);
    list.accept("65 keys of which one cancels", &cancelled);
    list.refuse("8 before 7 in a sum", &many_and_large(), (8, 2));
    list.accept("a product of 64 terms", &row_by_column(8, 8, HALF));
    list.refuse("a product of 72 terms", &row_by_column(8, 9, HALF), (8, 2));
    list.accept("72 products that round to 0", &row_by_column(8, 9, 700));
    let large = row_by_column(8, 9, 1 << 26);
    list.refuse("8 before 7 in a product", &large, (8, 2));
}

/// (1 + ... + x^(rows - 1)) × (1 + ... + y^(columns - 1)), order 15.
fn row_by_column(rows: u16, columns: u16, coefficient: i32) -> Draft {
    let row: Vec<(u16, i32)> = (0..rows).map(|k| (k << 12, coefficient)).collect();
    let column: Vec<(u16, i32)> = (0..columns).map(|k| (k << 8, coefficient)).collect();
    let models = [DraftModel::new(0, &row), DraftModel::new(0, &column)];
    with_inputs(2, 15, &models, Step::two(MULTIPLY, 0, 1))
}

/// A sum of 65 terms with a span above the limit.
fn many_and_large() -> Draft {
    let keys = models::all_keys(2, 10);
    let terms: Vec<(u32, i32)> = keys[..64].iter().map(|&key| (key, 1 << 24)).collect();
    let last = DraftModel::wide(9, &[(keys[64], 5)]);
    let models = [DraftModel::wide(0, &terms), last];
    with_inputs(2, 10, &models, Step::two(ADD, 0, 1))
}

fn constants_and_thresholds(list: &mut Samples) {
    let constant = |value: i32| one_variable(1, &[], &[Step::constant(value)]);
    list.accept("constant 2^30", &constant(LARGEST));
    list.accept("constant -2^30", &constant(-LARGEST));
    list.refuse("constant 2^30 + 1", &constant(LARGEST + 1), (6, 0));
    list.refuse("constant -2^30 - 1", &constant(-LARGEST - 1), (6, 0));
    let sweep = |value: i32| one_variable(1, &[], &[Step::variable(1), Step::sweep(0, value)]);
    list.accept("threshold 0", &sweep(0));
    list.accept("threshold U - 1", &sweep(UNIT - 1));
    list.accept("threshold U", &sweep(UNIT));
    list.accept("threshold 2^30", &sweep(LARGEST));
    list.refuse("threshold -1", &sweep(-1), (6, 1));
    list.refuse("threshold 2^30 + 1", &sweep(LARGEST + 1), (6, 1));
}

fn variables(list: &mut Samples) {
    let variable = |n: u8, v: u8| Draft::new(n, 1, Vec::new(), vec![Step::variable(v)]);
    for n in 1..=8 {
        list.accept(&format!("variable {n} of {n}"), &variable(n, n));
        let name = format!("variable {} of {n}", n + 1);
        list.refuse(&name, &variable(n, n + 1), (6, 0));
        list.refuse(&format!("variable 0 of {n}"), &variable(n, 0), (6, 0));
    }
}
