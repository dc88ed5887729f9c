//! Named sheets at the places where errors are plausible.

use super::draft::{Draft, DraftModel};
use super::models;
use super::samples::{constants, input, one_variable, with_inputs, Samples, HALF, LARGEST, UNIT};
use super::Sample;
use crate::book::{Step, ADD, MULTIPLY, NEGATE, SUBTRACT};

/// All named sheets where errors are plausible.
pub fn samples() -> Vec<Sample> {
    let mut list = Samples::default();
    halves(&mut list);
    collecting(&mut list);
    ends_of_the_box(&mut list);
    even_powers(&mut list);
    orders_in_substitutions(&mut list);
    room_in_substitutions(&mut list);
    chains(&mut list);
    quotients(&mut list);
    quotients_in_chains(&mut list);
    antiderivatives(&mut list);
    antiderivatives_in_chains(&mut list);
    two_faults(&mut list);
    faults_not_used(&mut list);
    list.into_vec()
}

/// Products that fall on and next to halves, of both signs.
fn halves(list: &mut Samples) {
    for factor in -5..=5 {
        for near in [HALF - 1, HALF, HALF + 1] {
            let draft = constants(&[factor, near], Step::two(MULTIPLY, 0, 1));
            list.accept(&format!("{factor} times {near}"), &draft);
        }
    }
}

/// Monomials that must, and must not, be collected into one.
fn collecting(list: &mut Samples) {
    let steps = [
        Step::variable(1),
        Step::variable(2),
        Step::two(ADD, 0, 1),
        Step::two(SUBTRACT, 0, 1),
        Step::two(MULTIPLY, 2, 3),
    ];
    let squares = |d: u8| Draft::new(2, d, Vec::new(), steps.to_vec());
    list.accept("(x + y)(x - y), order 1", &squares(1));
    list.accept("(x + y)(x - y), order 2", &squares(2));
    // As keys, y^8 y^9 and x z^8 z^8 would both be hex 1100.
    let f = DraftModel::new(0, &[(0x0800, UNIT), (0x1080, UNIT)]);
    let g = DraftModel::new(0, &[(0x0080, -UNIT), (0x0900, UNIT)]);
    let draft = with_inputs(3, 15, &[f, g], Step::two(MULTIPLY, 0, 1));
    list.accept("y^17 against x z^16", &draft);
    // As keys, z^15 z and y would both be hex 0100; one is kept, one is not.
    let f = DraftModel::new(0, &[(0x0000, HALF), (0x00F0, UNIT)]);
    let g = DraftModel::new(0, &[(0x0010, -UNIT), (0x0100, UNIT)]);
    let draft = with_inputs(3, 15, &[f, g], Step::two(MULTIPLY, 0, 1));
    list.accept("z^16 against y", &draft);
}

/// Puts a model for x into another, in one variable.
fn put_in(f: &DraftModel, g: &DraftModel, d: u8) -> Draft {
    let models = [f.clone(), g.clone()];
    with_inputs(1, d, &models, Step::substitute(0, 1, 1))
}

fn power(k: u16) -> DraftModel {
    DraftModel::new(0, &[(k << 12, UNIT)])
}

fn constant(radius: u32, value: i32) -> DraftModel {
    DraftModel::new(radius, &[(0, value)])
}

fn ends_of_the_box(list: &mut Samples) {
    let (x, square) = (power(1), power(2));
    let at = |value: i32| put_in(&square, &constant(0, value), 2);
    list.accept("g at the end of the box", &at(UNIT));
    list.accept("g at the other end", &at(-UNIT));
    list.refuse("g one beyond", &at(UNIT + 1), (9, 2));
    list.refuse("g one beyond below", &at(-UNIT - 1), (9, 2));
    let near = |radius: u32, value: i32| put_in(&x, &constant(radius, value), 1);
    list.accept("g at the end by its radius", &near(1, UNIT - 1));
    list.accept("g at the other end by its radius", &near(1, 1 - UNIT));
    list.refuse("g leaving by its radius", &near(2, UNIT - 1), (9, 2));
    list.refuse("g leaving below by its radius", &near(2, 1 - UNIT), (9, 2));
    let beyond = constant(1, UNIT);
    let nothing = put_in(&DraftModel::default(), &beyond, 1);
    list.refuse("g leaving where f has no terms", &nothing, (9, 2));
    let without = put_in(&constant(3, 7), &beyond, 1);
    list.refuse("g leaving where f lacks the variable", &without, (9, 2));
    let radius = put_in(&square, &DraftModel::new(1 << 20, &[]), 2);
    list.accept("g of radius U only", &radius);
}

/// Even powers count between 0 and c: what stays in the box by that, and what
/// leaves it by 1; and quotients that are certified by that.
fn even_powers(list: &mut Samples) {
    let with = |radius: u32, c0: i32, key: u16, c: i32| {
        let g = DraftModel::new(radius, &[(0, c0), (key, c)]);
        put_in(&power(1), &g, 4)
    };
    list.accept("1 - 2 x^2 put in", &with(0, UNIT, 0x2000, -2 * UNIT));
    list.accept("2 x^4 - 1 put in", &with(0, -UNIT, 0x4000, 2 * UNIT));
    let beyond = with(0, UNIT, 0x2000, -2 * UNIT - 1);
    list.refuse("1 - 2 x^2 and 1 more below", &beyond, (9, 2));
    let beyond = with(0, -UNIT, 0x4000, 2 * UNIT + 1);
    list.refuse("2 x^4 - 1 and 1 more above", &beyond, (9, 2));
    list.refuse("1 + x^2", &with(0, UNIT, 0x2000, 1), (9, 2));
    let radius = with(1, UNIT, 0x2000, -2 * UNIT);
    list.refuse("1 - 2 x^2 with a radius", &radius, (9, 2));
    list.refuse("1 - 2 x^3", &with(0, UNIT, 0x3000, -2), (9, 2));
    // x^2 y^2 is even, and x^2 y is not.
    let both = |key: u16| {
        let models = [power(1), DraftModel::new(0, &[(0, UNIT), (key, -UNIT)])];
        with_inputs(2, 4, &models, Step::substitute(0, 1, 1))
    };
    list.accept("1 - x^2 y^2", &both(0x2200));
    list.accept("1 - y^2", &both(0x0200));
    list.refuse("1 - x^2 y", &both(0x2100), (9, 2));
    list.refuse("1 - x y", &both(0x1100), (9, 2));
    // w = 1: 1 - w g is -c x^2, and mu is the size of c. The dividend is 0, as
    // anything else becomes too large where mu is next to U.
    let over = |c: i32, w: i32| {
        let g = DraftModel::new(0, &[(0, UNIT), (0x2000, c)]);
        let zero = DraftModel::default();
        let models = [zero.clone(), g, zero, constant(0, w)];
        with_inputs(1, 2, &models, Step::quotient(0, 1, 2, 3))
    };
    list.accept("mu of an even power at U - 1", &over(UNIT - 1, UNIT));
    list.refuse("mu of an even power at U", &over(UNIT, UNIT), (12, 4));
    // w = 1/2: 1/2 - 3/4 x^2 lies from -1/4 to 1/2.
    list.accept("over 1 + 3/2 x^2", &over(3 * HALF, HALF));
    list.accept("over 1 + 3 x^2, mu at U - 1", &over(3 * UNIT - 2, HALF));
    list.refuse("over 1 + 3 x^2, mu at U", &over(3 * UNIT, HALF), (12, 4));
}

fn orders_in_substitutions(list: &mut Samples) {
    list.accept("g the variable itself", &put_in(&power(2), &power(1), 2));
    list.accept("g above the order", &put_in(&power(2), &power(2), 2));
    for k in [13, 14, 15] {
        let at = |value: i32| put_in(&power(k), &constant(0, value), 15);
        list.accept(&format!("x^{k} at -1"), &at(-UNIT));
        list.accept(&format!("x^{k} near 1"), &at(UNIT - 1));
        let zero = DraftModel::default();
        list.accept(&format!("x^{k} at 0"), &put_in(&power(k), &zero, 15));
        list.accept(
            &format!("x^{k} at x^15"),
            &put_in(&power(k), &power(15), 15),
        );
    }
}

/// U/4 × (1 + x + x^2 + x^3).
fn quarters() -> DraftModel {
    let terms: Vec<(u16, i32)> = (0..4).map(|k| (k << 12, UNIT / 4)).collect();
    DraftModel::new(0, &terms)
}

/// Full spans, where the rounding of an inner product may have no room.
fn room_in_substitutions(list: &mut Samples) {
    let slope = |radius: u32, c: i32| DraftModel::new(radius, &[(0x1000, c)]);
    let draft = |f: &DraftModel| put_in(f, &quarters(), 3);
    list.accept("room where nothing is rounded", &draft(&slope(0, LARGEST)));
    list.refuse(
        "no room for rounding",
        &draft(&slope(0, LARGEST - 1)),
        (7, 2),
    );
    let last = draft(&slope(1001, LARGEST - 1001));
    list.refuse("no room for the radius of f", &last, (7, 2));
    let without = draft(&constant(1, LARGEST - 1));
    list.accept("a full f that lacks the variable", &without);
}

/// Substitutions into what substitutions gave, over and over.
fn chains(list: &mut Samples) {
    let terms = [(0, 1000), (0x1000, HALF), (0x2000, -HALF / 2)];
    for d in [1, 2, 3, 15] {
        let kept = if d == 1 { &terms[..2] } else { &terms };
        let mut steps = vec![input(0)];
        for number in 0..63 {
            steps.push(Step::substitute(number, number / 2, 1));
        }
        let draft = one_variable(d, &[DraftModel::new(1, kept)], &steps);
        list.accept(&format!("63 substitutions, order {d}"), &draft);
    }
    list.accept("variables in a circle", &variables_in_a_circle());
}

/// x for y, y for z, z for w, w for x, each in what the last step gave.
fn variables_in_a_circle() -> Draft {
    let low = [(0x0012, 3 * HALF), (0x0301, -7)];
    let high = [(0x1000, UNIT), (0x2100, -HALF)];
    let model = DraftModel::new(2, &[low, high].concat());
    let mut draft = Draft::new(4, 6, vec![model], Vec::new());
    let x: Vec<u8> = (1..=4).map(|v| draft.push(Step::variable(v))).collect();
    let mut last = draft.push(input(0));
    for turn in 0..40 {
        let from = turn % 4;
        let into = (from + 1) % 4 + 1;
        last = draft.push(Step::substitute(last, x[from], into as u8));
        if turn % 10 == 9 {
            last = draft.push(Step::one(NEGATE, last));
        }
    }
    draft
}

/// A quotient of four constants, in units.
fn quotient(values: [i32; 4]) -> Draft {
    constants(&values, Step::quotient(0, 1, 2, 3))
}

/// mu next to U, radii next to 2^30, and which fault comes first.
fn quotients(list: &mut Samples) {
    list.accept("mu at U - 1", &quotient([5, 1, 0, UNIT]));
    list.accept("mu at U - 1 below", &quotient([5, 2 * UNIT - 1, 0, UNIT]));
    list.refuse("mu at U", &quotient([5, 0, 0, UNIT]), (12, 4));
    list.refuse("mu at U below", &quotient([5, 2 * UNIT, 0, UNIT]), (12, 4));
    list.accept("beta of 0", &quotient([3 * HALF, 3 * UNIT, HALF, 349_525]));
    list.accept(
        "a quotient's radius is rounded up",
        &quotient([1, UNIT, 0, UNIT - 1]),
    );
    list.accept("a quotient of radius 2^30", &quotient([1024, 1, 0, UNIT]));
    list.refuse(
        "a quotient's radius above",
        &quotient([1025, 1, 0, UNIT]),
        (7, 4),
    );
    let largest = |g: i32| quotient([LARGEST, g, 0, UNIT]);
    list.refuse("2^30 over 0", &largest(0), (12, 4));
    list.refuse("2^30 over 1 unit", &largest(1), (7, 4));
    list.accept("2^30 over 1", &largest(UNIT));
    let span = |f: i32| quotient([f, UNIT, LARGEST - 10, UNIT]);
    list.accept("a quotient of a full span", &span(LARGEST - 20));
    list.refuse(
        "a quotient of a full span and 1",
        &span(LARGEST - 21),
        (7, 4),
    );
    let first = |w: i32| quotient([-1, UNIT, LARGEST, w]);
    list.refuse("7 by g h - f and a good w", &first(UNIT), (7, 4));
    list.refuse("7 by g h - f before 12", &first(0), (7, 4));
    let minus = |w: i32| quotient([0, UNIT, 0, w]);
    list.refuse("7 by 1 - w g before 12", &minus(UNIT - LARGEST - 1), (7, 4));
    list.refuse("12 with a full 1 - w g", &minus(UNIT - LARGEST), (12, 4));
    let kept = quotient([UNIT, UNIT, UNIT, UNIT]);
    list.accept("1 over 1", &kept);
    for value in [-1, 4, 5, 255, 256, 1 << 24, i64::from(i32::MIN)] {
        let mut draft = kept.clone();
        draft.steps[4].value = value;
        list.refuse(&format!("step w of {value}"), &draft, (6, 4));
    }
    for (name, field) in [("a", 1), ("b", 2), ("h", 3)] {
        let mut bytes = kept.bytes();
        // The fifth step stands at 32.
        bytes[32 + field] = 4;
        list.refuse_bytes(&format!("step {name} is the step itself"), bytes, (6, 4));
    }
}

/// x/4 over 1 + x/4, with h = x/4 and w = 1.
fn quarters_quotient(d: u8) -> Draft {
    let x = DraftModel::new(0, &[(0x1000, UNIT / 4)]);
    let g = DraftModel::new(3, &[(0, UNIT), (0x1000, UNIT / 4)]);
    with_inputs(
        1,
        d,
        &[x.clone(), g, x, constant(77, UNIT)],
        Step::quotient(0, 1, 2, 3),
    )
}

/// Quotients put in, put into, and divided again.
fn quotients_in_chains(list: &mut Samples) {
    for d in [1, 2, 15] {
        let mut draft = quarters_quotient(d);
        list.accept(&format!("a quotient, order {d}"), &draft);
        let put_in = draft.push(Step::substitute(0, 4, 1));
        list.accept(&format!("a quotient put in, order {d}"), &draft);
        let both = draft.push(Step::substitute(4, 4, 1));
        list.accept(&format!("a quotient put into itself, order {d}"), &draft);
        let again = draft.push(Step::quotient(both, 1, put_in, 3));
        list.accept(&format!("a quotient divided again, order {d}"), &draft);
        let itself = Step::quotient(again, again, 3, 3);
        draft.push(itself);
        let name = format!("over a quotient that may be zero, order {d}");
        list.refuse(&name, &draft, (12, 8));
    }
    // 1 over 1 + x/4 with h = w = 1, over and over: each is the divisor of the
    // next. The radii are about 1/3, 1/2 and 1, and the last leaves mu no room.
    let mut draft = quarters_quotient(2);
    let mut last = 1;
    for _ in 0..3 {
        last = draft.push(Step::quotient(3, last, 3, 3));
    }
    list.accept("quotients over quotients", &draft);
    draft.push(Step::quotient(3, last, 3, 3));
    list.refuse("one quotient too many", &draft, (12, 8));
}

/// Ties, what rounds to zero, exponents 14 and 15, and what is above the order.
fn antiderivatives(list: &mut Samples) {
    let of = |d: u8, radius: u32, terms: &[(u16, i32)]| {
        let model = DraftModel::new(radius, terms);
        with_inputs(1, d, &[model], Step::antiderivative(0, 1))
    };
    for c in -6..=6 {
        for power in [1, 2, 3] {
            if c != 0 {
                let draft = of(4, 1, &[(power << 12, c)]);
                list.accept(&format!("{c} x^{power} gathered"), &draft);
                let draft = of(power as u8, 1, &[(power << 12, c)]);
                list.accept(&format!("{c} x^{power} gathered and swept"), &draft);
            }
        }
    }
    for c in [1, 14, 15, 16, 17, -17, UNIT, LARGEST, -LARGEST] {
        list.accept(&format!("{c} x^14 gathered"), &of(15, 0, &[(0xE000, c)]));
        list.accept(&format!("{c} x^15 gathered"), &of(15, 0, &[(0xF000, c)]));
    }
    list.accept("a radius gathered", &of(1, LARGEST as u32, &[]));
    list.accept("nothing gathered", &of(1, 0, &[]));
    // A full span of 64 odd units in four variables: each costs a radius of 1.
    let keys = models::all_keys(4, 15)
        .into_iter()
        .filter(|&key| key >= models::variable_key(1));
    let mut terms: Vec<(u32, i32)> = keys.take(64).map(|key| (key, 1)).collect();
    terms[0].1 = LARGEST - 63;
    for d in [1, 2, 15] {
        let kept = terms.iter().filter(|(key, _)| models::degree(*key) <= d);
        let kept: Vec<(u32, i32)> = kept.copied().collect();
        let full = DraftModel::wide(0, &kept);
        for v in 1..=4 {
            let draft = with_inputs(
                4,
                d,
                std::slice::from_ref(&full),
                Step::antiderivative(0, v),
            );
            list.accept(
                &format!("a full span gathered, order {d}, variable {v}"),
                &draft,
            );
        }
    }
    let whole = of(2, 0, &[(0, UNIT)]);
    for (name, step) in [
        ("the step itself", Step::antiderivative(1, 1)),
        ("variable 0", Step::antiderivative(0, 0)),
        ("variable 2 of 1", Step::antiderivative(0, 2)),
        (
            "a field b",
            Step {
                b: 1,
                ..Step::antiderivative(0, 1)
            },
        ),
        (
            "a value",
            Step {
                value: -1,
                ..Step::antiderivative(0, 1)
            },
        ),
    ] {
        let mut draft = whole.clone();
        draft.steps[1] = step;
        list.refuse(&format!("an antiderivative of {name}"), &draft, (6, 1));
    }
}

/// Antiderivatives taken again, put in, put into, divided and fed by a quotient.
fn antiderivatives_in_chains(list: &mut Samples) {
    for d in [1, 2, 15] {
        let mut steps = vec![Step::constant(UNIT)];
        for number in 0..20 {
            steps.push(Step::antiderivative(number, 1));
        }
        let draft = one_variable(d, &[], &steps);
        list.accept(&format!("1 gathered 20 times, order {d}"), &draft);
        // Step 4 is a quotient, step 0 x/4.
        let mut draft = quarters_quotient(d);
        let gathered = draft.push(Step::antiderivative(4, 1));
        list.accept(&format!("a quotient gathered, order {d}"), &draft);
        draft.push(Step::substitute(gathered, gathered, 1));
        list.accept(&format!("a gathered quotient put in, order {d}"), &draft);
        let mut draft = quarters_quotient(d);
        let gathered = draft.push(Step::antiderivative(0, 1));
        draft.push(Step::substitute(4, gathered, 1));
        list.accept(
            &format!("gathered and put into a quotient, order {d}"),
            &draft,
        );
        let divisor = draft.push(Step::two(ADD, gathered, 3));
        draft.push(Step::quotient(gathered, divisor, gathered, 3));
        list.accept(
            &format!("gathered on both sides of a quotient, order {d}"),
            &draft,
        );
        draft.push(Step::quotient(3, gathered, 3, 3));
        let name = format!("over an antiderivative, which is 0 at 0, order {d}");
        list.refuse(&name, &draft, (12, 9));
    }
    // x + x^2 / (2 U): within the box but for the 1 that the tie adds.
    let flow = |c: i32| {
        let models = [power(1), DraftModel::new(0, &[(0, UNIT - 1), (0x1000, c)])];
        let mut draft = with_inputs(1, 2, &models, Step::antiderivative(1, 1));
        draft.push(Step::substitute(0, 2, 1));
        draft
    };
    list.accept("gathered to the end of the box", &flow(1));
    list.accept("gathered below the end of the box", &flow(-2));
    list.refuse("gathered beyond the end of the box", &flow(3), (9, 3));
}

/// Two faults at once: the first test decides.
fn two_faults(list: &mut Samples) {
    let smallest = one_variable(1, &[], &[Step::constant(0)]).bytes();
    let with = |changes: &[(usize, u8)]| {
        let mut bytes = smallest.clone();
        for &(place, value) in changes {
            bytes[place] = value;
        }
        bytes
    };
    // The trailer starts at 8: n, d, counts, offset, mark.
    list.refuse_bytes("2 and 3 together", with(&[(8, 0), (15, 0)]), (2, 0));
    list.refuse_bytes("3 and 4 together", with(&[(9, 16), (12, 1)]), (3, 0));
    list.refuse_bytes("4 and 6 together", with(&[(0, 99), (12, 1)]), (4, 0));
    let unknown = Step::one(99, 0);
    let broken = DraftModel::new(0, &[(0, 0)]);
    let sound = DraftModel::new(0, &[(0, 1)]);
    let models = [sound, broken.clone(), broken];
    let both = one_variable(1, &models, &[unknown]);
    list.refuse("5 and 6 together", &both, (5, 1));
    let left_over = one_variable(1, &[], &[unknown]).bytes_with_records(&[0]);
    list.refuse_bytes("bytes without models", left_over, (5, 0));
    let steps = [Step::variable(1), unknown, unknown];
    list.refuse("two broken steps", &one_variable(1, &[], &steps), (6, 1));
}

/// Steps and models that the last step does not use are tested all the same.
fn faults_not_used(list: &mut Samples) {
    let mut draft = constants(&[LARGEST, 1], Step::two(ADD, 0, 1));
    draft.push(Step::constant(0));
    list.refuse("a refused step that is not used", &draft, (7, 2));
    let broken = DraftModel::new(u32::MAX, &[]);
    let draft = one_variable(1, &[broken], &[Step::constant(0)]);
    list.refuse("a broken model that is not used", &draft, (5, 0));
    // A broken step after a step that would be refused: 6 is tested first.
    let mut draft = constants(&[LARGEST, 1], Step::two(ADD, 0, 1));
    draft.push(Step::variable(2));
    list.refuse("6 after 7", &draft, (6, 3));
}
