//! Named sheets for eight variables: both marks, lengths, keys of 32 bits, exponents
//! of 16 and more in products, integrals term by term.

use super::draft::{Draft, DraftModel};
use super::limits::largest;
use super::models::variable_key;
use super::samples::{input, with_inputs, Samples, HALF, LARGEST, UNIT};
use super::Sample;
use crate::book::{Step, MULTIPLY};
use crate::sheet::{Mark, LONGEST_SHEET};

/// All named sheets about eight variables.
pub fn samples() -> Vec<Sample> {
    let mut list = Samples::default();
    marks(&mut list);
    lengths(&mut list);
    keys(&mut list);
    orders_of_keys(&mut list);
    products(&mut list);
    substitutions(&mut list);
    integrals(&mut list);
    list.into_vec()
}

fn model(radius: u32, terms: &[(u32, i32)]) -> DraftModel {
    DraftModel::wide(radius, terms)
}

/// A sheet of one model, which is the result.
fn of(n: u8, radius: u32, terms: &[(u32, i32)]) -> Draft {
    Draft::new(n, 15, vec![model(radius, terms)], vec![input(0)])
}

/// The same bytes with another n and another mark.
fn marked(draft: &Draft, n: u8, mark: [u8; 2]) -> Vec<u8> {
    let mut bytes = draft.bytes();
    let trailer = bytes.len() - 8;
    bytes[trailer] = n;
    bytes[trailer + 6..].copy_from_slice(&mark);
    bytes
}

/// Every n under both marks, on sheets without models; marks that are none.
fn marks(list: &mut Samples) {
    let plain = Draft::new(1, 1, Vec::new(), vec![Step::constant(5)]);
    for mark in Mark::ALL {
        let bytes = mark.bytes();
        for n in [0, 1, 2, 3, 4, 5, 6, 7, 8, 9, 16, 255] {
            let name = format!("n = {n} under {bytes:02X?}");
            let sheet = marked(&plain, n, bytes);
            if mark.variables().contains(&usize::from(n)) {
                list.accept_bytes(&name, sheet);
            } else {
                list.refuse_bytes(&name, sheet, (3, 0));
            }
        }
    }
    for mark in [
        [0x57, 0x4D],
        [0x4B, 0x4D],
        [0x4B, 0x57],
        [0x57, 0x4B],
        [0x4D, 0x4D],
        [0x4D, 0x56],
        [0x4D, 0x58],
        [0, 0x57],
    ] {
        let name = format!("the mark {mark:02X?}");
        list.refuse_bytes(&name, marked(&plain, 9, mark), (2, 0));
    }
}

/// At the ends of both marks: the length counts before the mark, and the longest
/// sheet of the one is none of the other.
fn lengths(list: &mut Samples) {
    let few = largest(4);
    let records = few.model_bytes();
    let longer = |length: usize| {
        let mut records = records.clone();
        records.resize(records.len() + length - few.bytes().len(), 0);
        few.bytes_with_records(&records)
    };
    for length in [6_745, 8_000, LONGEST_SHEET] {
        let name = format!("{length} bytes with keys of 2");
        list.refuse_bytes(&name, longer(length), (5, 16));
        let mut padded = vec![0; length - few.bytes().len()];
        padded.extend(few.bytes());
        list.refuse_bytes(&format!("{name}, padded"), padded, (4, 0));
    }
    let above = longer(LONGEST_SHEET + 1);
    list.refuse_bytes("8793 bytes with keys of 2", above, (1, 0));
    let many = largest(8);
    let cut = many.bytes()[1..].to_vec();
    list.refuse_bytes("8791 bytes with keys of 4, cut", cut, (4, 0));
    list.refuse_bytes("8792 bytes, n = 4", marked(&many, 4, [0x4D, 0x57]), (3, 0));
    list.refuse_bytes("8792 bytes, n = 9", marked(&many, 9, [0x4D, 0x57]), (3, 0));
    // With keys of 2 bytes the first record ends early, and its terms break a rule.
    let other = marked(&many, 4, [0x4D, 0x4B]);
    list.refuse_bytes("8792 bytes under the other mark", other, (5, 0));
}

/// Each variable alone, the highest powers, digits that n hides.
fn keys(list: &mut Samples) {
    for n in 5..=8 {
        for v in 1..=8 {
            let power = |k: u32| of(n, 1, &[(k * variable_key(v), -7)]);
            for k in [1, 2, 15] {
                let name = format!("variable {v} to the {k} in {n}");
                if v <= n {
                    list.accept(&name, &power(k));
                } else {
                    list.refuse(&name, &power(k), (5, 0));
                }
            }
        }
    }
    list.accept("the product of all eight", &of(8, 0, &[(0x1111_1111, 9)]));
    list.accept("degree 15 in eight", &of(8, 0, &[(0x1222_2222, 9)]));
    list.refuse("degree 16 in eight", &of(8, 0, &[(0x2222_2222, 9)]), (5, 0));
    list.refuse("x1^15 x8", &of(8, 0, &[(0xF000_0001, 9)]), (5, 0));
    list.refuse("key FFFFFFFF", &of(8, 0, &[(0xFFFF_FFFF, 9)]), (5, 0));
    // The sum of the digits is 16 in the word, which four bits would take for 0.
    list.refuse("x7^8 x8^8", &of(8, 0, &[(0x0000_0088, 9)]), (5, 0));
    list.refuse("x4^8 x5^8", &of(8, 0, &[(0x0008_8000, 9)]), (5, 0));
}

/// Keys rise as words of 32 bits, and not by one of their halves.
fn orders_of_keys(list: &mut Samples) {
    let two = |low: u32, high: u32| of(8, 0, &[(low, 3), (high, 4)]);
    list.accept("equal upper halves", &two(0x0001_0001, 0x0001_0010));
    list.accept("falling lower halves", &two(0x0001_0100, 0x0010_0001));
    list.accept("from x5 to x4", &two(0x0000_F000, 0x0001_0000));
    list.refuse("equal keys", &two(0x0001_0001, 0x0001_0001), (5, 0));
    let falling = two(0x0010_0001, 0x0001_0100);
    list.refuse("falling upper halves", &falling, (5, 0));
    let falling = two(0x0001_0010, 0x0001_0001);
    list.refuse("falling lower halves of one upper", &falling, (5, 0));
}

/// Exponents of 16 and more, which as keys would run into the variable before, or
/// out of the word.
fn products(list: &mut Samples) {
    let product = |n: u8, f: &[(u32, i32)], g: &[(u32, i32)]| {
        with_inputs(
            n,
            15,
            &[model(0, f), model(0, g)],
            Step::two(MULTIPLY, 0, 1),
        )
    };
    for n in 5..=8 {
        for v in 1..=n {
            let x = variable_key(v);
            // (1/2 + x^15) (x - y): as keys x^15 x would be y, or for variable 1 the constant.
            let y = if v == 1 { 0 } else { 16 * x };
            let minus = [(x, UNIT), (y, -UNIT)];
            let minus = if v == 1 { [minus[1], minus[0]] } else { minus };
            let draft = product(n, &[(0, HALF), (15 * x, UNIT)], &minus);
            list.accept(&format!("x{v}^16 against the one before in {n}"), &draft);
        }
        for v in 2..n {
            let (w, x, y) = (variable_key(v - 1), variable_key(v), variable_key(v + 1));
            // x^8 x^9 against w y^8 y^8.
            let f = [(8 * x, UNIT), (w + 8 * y, UNIT)];
            let g = [(8 * y, -UNIT), (9 * x, UNIT)];
            let name = format!("x{v}^17 against x{} x{}^16 in {n}", v - 1, v + 1);
            list.accept(&name, &product(n, &f, &g));
        }
    }
    let row = |v: u8, count: u32| -> Vec<(u32, i32)> {
        (0..count).map(|k| (k * variable_key(v), HALF)).collect()
    };
    list.accept("64 terms of x7 and x8", &product(8, &row(7, 8), &row(8, 8)));
    let many = product(8, &row(8, 9), &row(5, 8));
    list.refuse("72 terms of x5 and x8", &many, (8, 2));
}

/// Variables that are put in, gathered and named beyond n; even powers of the last.
fn substitutions(list: &mut Samples) {
    for n in 5..=8 {
        let x: Vec<Step> = (1..=n).map(Step::variable).collect();
        let mut draft = Draft::new(n, 3, Vec::new(), x);
        let mut last = draft.push(Step::two(MULTIPLY, 0, n - 1));
        for v in 1..=n {
            last = draft.push(Step::substitute(last, v % n, v));
            last = draft.push(Step::antiderivative(last, v));
        }
        list.accept(&format!("variables in a circle of {n}"), &draft);
        let beyond = draft.steps.len();
        for (name, step) in [
            ("substitution", Step::substitute(last, 0, n + 1)),
            ("antiderivative", Step::antiderivative(last, n + 1)),
        ] {
            let mut wrong = draft.clone();
            wrong.push(step);
            let name = format!("a {name} of variable {} in {n}", n + 1);
            list.refuse(&name, &wrong, (6, beyond));
        }
        let put_in = |power: u32| {
            let even = model(0, &[(0, UNIT), (power * variable_key(n), -2 * UNIT)]);
            let first = model(0, &[(variable_key(1), UNIT)]);
            with_inputs(n, 4, &[first, even], Step::substitute(0, 1, 1))
        };
        list.accept(&format!("1 - 2 x{n}^2 put in"), &put_in(2));
        list.refuse(&format!("1 - 2 x{n}^3 put in"), &put_in(3), (9, 2));
    }
}

/// Each term is rounded by itself: thirds that do not cancel, nothing, a radius,
/// the largest integrals.
fn integrals(list: &mut Samples) {
    for n in 5..=8 {
        let last = variable_key(n);
        let name = |what: &str| format!("the integral of {what}, n = {n}");
        list.accept(&name("nothing"), &of(n, 0, &[]));
        list.accept(&name("a radius"), &of(n, 5, &[]));
        list.accept(&name("-5"), &of(n, 0, &[(0, -5)]));
        list.accept(
            &name("odd terms"),
            &of(n, 1, &[(last, 7), (0x1100_0000, -9)]),
        );
        let thirds = of(n, 0, &[(2 * last, 1), (0x2000_0000, -1)]);
        list.accept(&name("thirds that cancel"), &thirds);
        for sign in [1, -1] {
            list.accept(
                &name(&format!("{sign} x 2^30")),
                &of(n, 0, &[(0, sign * LARGEST)]),
            );
            let square = of(n, 0, &[(2 * last, sign * LARGEST)]);
            list.accept(&name(&format!("{sign} x 2^30 of a square")), &square);
        }
    }
    for c in [1, -1, 10, UNIT] {
        let draft = of(8, 3, &[(0x0000_2002, c)]);
        list.accept(&format!("the integral of {c} x5^2 x8^2"), &draft);
    }
    let all = of(
        8,
        0,
        &[(0x0222_2222, 1), (0x2022_2222, -5), (0x2222_2220, 7)],
    );
    list.accept("squares of seven of eight variables", &all);
}
