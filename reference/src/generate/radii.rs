//! Named sheets whose radii came from each share alone, beside slack and mixed,
//! for products, substitutions, sweeps and antiderivatives; and sheets whose run
//! ends in the middle.

use super::draft::{Draft, DraftModel};
use super::samples::{input, one_variable, with_inputs, Samples, HALF, LARGEST, UNIT};
use super::Sample;
use crate::book::{Step, ADD, MULTIPLY};

/// All named sheets about shares.
pub fn samples() -> Vec<Sample> {
    let mut list = Samples::default();
    products(&mut list);
    substitutions(&mut list);
    other_steps(&mut list);
    ended(&mut list);
    list.into_vec()
}

fn model(radius: u32, terms: &[(u16, i32)]) -> DraftModel {
    DraftModel::new(radius, terms)
}

/// Both models have one variable.
fn product(d: u8, f: DraftModel, g: DraftModel) -> Draft {
    with_inputs(1, d, &[f, g], Step::two(MULTIPLY, 0, 1))
}

fn products(list: &mut Samples) {
    let one = || model(0, &[(0, UNIT)]);
    let half = || model(0, &[(0, HALF)]);
    list.accept("carried alone", &product(1, one(), model(3, &[])));
    list.accept("carried alone, turned", &product(1, model(3, &[]), one()));
    let three = product(1, model(2, &[(0, 5)]), model(3, &[(0, -7)]));
    list.accept("carried from both and from both radii", &three);
    let two_halves = product(1, model(0, &[(0, 1), (0x1000, -1)]), half());
    list.accept("rounding alone", &two_halves);
    list.accept(
        "rounding and slack",
        &product(1, model(0, &[(0, 1)]), half()),
    );
    let x = |c: i32| model(0, &[(0x1000, c)]);
    list.accept("swept alone", &product(1, x(UNIT), x(UNIT)));
    list.accept("swept and slack", &product(1, x(-1), x(3)));
    let all = product(
        1,
        model(1, &[(0, UNIT), (0x1000, 1)]),
        model(0, &[(0, HALF), (0x1000, 3)]),
    );
    list.accept("carried, rounding, swept and slack", &all);
    let turned = |c: i32| model(0, &[(0x0100, c), (0x1000, 1)]);
    let squares = with_inputs(2, 1, &[turned(1), turned(-1)], Step::two(MULTIPLY, 0, 1));
    list.accept("swept after collecting", &squares);
    list.accept("no share at all", &product(1, model(0, &[]), model(7, &[])));
}

fn substitutions(list: &mut Samples) {
    let put_in =
        |d: u8, f: DraftModel, g: DraftModel| with_inputs(1, d, &[f, g], Step::substitute(0, 1, 1));
    let half = || model(0, &[(0, HALF)]);
    let without = put_in(3, model(7, &[(0, 5)]), half());
    list.accept("a substitution of no product", &without);
    let line = model(2, &[(0, 1), (0x1000, 3)]);
    list.accept("a substitution of one product", &put_in(3, line, half()));
    for k in [2, 3, 15] {
        let power = model(4, &[(k << 12, 1)]);
        list.accept(
            &format!("a substitution of {k} products"),
            &put_in(15, power, half()),
        );
    }
    let loose = model(2, &[(0, HALF)]);
    let carried = put_in(3, model(0, &[(0x1000, 3)]), loose);
    list.accept("a substitution that carries a radius", &carried);
    let square = || model(0, &[(0x2000, UNIT)]);
    list.accept("a substitution that sweeps", &put_in(3, square(), square()));
}

fn other_steps(list: &mut Samples) {
    let swept = |t: i32| {
        let f = model(2, &[(0, 1), (0x1000, -3)]);
        with_inputs(1, 1, &[f], Step::sweep(0, t))
    };
    list.accept("a sweep that carries and sweeps", &swept(3));
    list.accept("a sweep that carries", &swept(2));
    let terms = [(0x1000, 1), (0x2000, 4), (0x3000, 8), (0x4000, -7)];
    let gathered = with_inputs(1, 4, &[model(5, &terms)], Step::antiderivative(0, 1));
    list.accept("an antiderivative of three shares", &gathered);
    let thirds = [UNIT, 3 * UNIT, UNIT / 3, UNIT / 3].map(|c| model(0, &[(0, c)]));
    let third = with_inputs(1, 1, &thirds, Step::quotient(0, 1, 2, 3));
    list.accept("a quotient is all carried", &third);
}

/// A product, then a sum above the span, then the product once more; and the
/// same with a model that breaks a rule.
fn ended(list: &mut Samples) {
    let steps = [
        input(0),
        Step::two(MULTIPLY, 0, 0),
        Step::constant(LARGEST),
        Step::two(ADD, 2, 0),
        Step::two(MULTIPLY, 0, 0),
    ];
    let with = |radius: u32| one_variable(1, &[model(radius, &[(0, 5)])], &steps);
    list.refuse("rows before a refused step", &with(2), (7, 3));
    list.refuse("no rows of a sheet refused by 5", &with(1 << 30), (5, 0));
}
