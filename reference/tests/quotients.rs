//! Quotients worked out by hand. U is 1048576.

mod common;

use common::*;
use reference::book::{Step, MULTIPLY};
use reference::calls::{self, Call};
use reference::generate::quotients::{self, Operands};
use reference::generate::{hostile, DraftModel, Random};
use reference::operations;
use reference::run::run_sheet;
use reference::stored::StoredModel;
use std::collections::BTreeMap;

/// The lines of a sheet of four inputs f, g, h, w and their quotient.
fn quotient_lines(n: u8, d: u8, models: [DraftModel; 4]) -> String {
    let mut steps: Vec<Step> = (0..4).map(input).collect();
    steps.push(Step::quotient(0, 1, 2, 3));
    lines_of(n, d, &models, &steps)
}

/// The same of constants, in units.
fn of_constants(f: i32, g: i32, h: i32, w: i32) -> String {
    quotient_lines(1, 1, [f, g, h, w].map(constant))
}

fn constant(value: i32) -> DraftModel {
    let terms: &[(u16, i32)] = &[(0, value)];
    model(0, if value == 0 { &[] } else { terms })
}

/// x / 4.
fn quarter() -> DraftModel {
    model(0, &[(0x1000, UNIT / 4)])
}

/// 1 + x / 4.
fn one_and_quarter() -> DraftModel {
    model(0, &[(0, UNIT), (0x1000, UNIT / 4)])
}

#[test]
fn a_plain_proposal() {
    // f = x/4, g = 1 + x/4, h = x/4, w = 1.
    // g h - f = x/4 + x²/16 - x/4 = x²/16: beta = 65536.
    // 1 - w g = -x/4: mu = 262144.
    // 65536 × U / (U - 262144) = 65536 × 4/3 = 87381.33, up to 87382.
    let models = [quarter(), one_and_quarter(), quarter(), constant(UNIT)];
    let expected =
        "radius 87382\nterm 1 262144\nrange -349526 349526\nintegral -174764 174764\nexact 0 0\n";
    assert_eq!(quotient_lines(1, 2, models), expected);
}

#[test]
fn a_closer_proposal() {
    // h = x/4 - x²/16 and w = 1 - x/4, order 2.
    // g h = x/4 - x³/64; the cube is above the order and costs U/64 = 16384.
    // g h - f has no terms and radius 16384; times w, of sum U + U/4: 20480 = beta.
    // 1 - w g = x²/16: mu = 65536.
    // 20480 × U / (U - 65536) = 20480 × 16/15 = 21845.33, up to 21846.
    // The range is 262144 + 65536 + 21846 below and 262144 + 21846 above. The
    // integral of -x²/16 is -43690.67, and 2 × 21846 to either side.
    let h = model(0, &[(0x1000, UNIT / 4), (0x2000, -UNIT / 16)]);
    let w = model(0, &[(0, UNIT), (0x1000, -UNIT / 4)]);
    let expected = "radius 21846\nterm 1 262144\nterm 2 -65536\n\
        range -349526 283990\nintegral -87383 2\nexact -43691 70945875\n";
    let models = [quarter(), one_and_quarter(), h, w];
    assert_eq!(quotient_lines(1, 2, models), expected);
}

#[test]
fn two_variables() {
    // f = y/4, g = 1 + x/4, h = y/4, w = 1, order 1: g h = y/4 and x y/16 above
    // the order, which costs 65536 = beta; mu = 262144 as above.
    let f = || model(0, &[(0x0100, UNIT / 4)]);
    let models = [f(), one_and_quarter(), f(), constant(UNIT)];
    let expected =
        "radius 87382\nterm 0 1 262144\nrange -349526 349526\nintegral -349528 349528\nexact 0 0\n";
    assert_eq!(quotient_lines(2, 1, models), expected);
}

#[test]
fn mu_just_below_the_unit() {
    // g = 1 unit and w = 1: 1 - w g is U - 1 units, and so is mu.
    // beta = 5, and 5 × U / 1 is the radius.
    let accepted =
        "radius 5242880\nrange -5242880 5242880\nintegral -10485760 10485760\nexact 0 0\n";
    assert_eq!(of_constants(5, 1, 0, UNIT), accepted);
    // g = 0: mu is U.
    assert_eq!(of_constants(5, 0, 0, UNIT), "refused 12 4\n");
    // On the other side 1 - w g is -(U - 1) and -U.
    assert_eq!(of_constants(5, 2 * UNIT - 1, 0, UNIT), accepted);
    assert_eq!(of_constants(5, 2 * UNIT, 0, UNIT), "refused 12 4\n");
    // By a term: g = 1 + (U - 1) x / U, and then 1 + x.
    let with = |c: i32| {
        let g = model(0, &[(0, UNIT), (0x1000, c)]);
        quotient_lines(1, 1, [constant(5), g, constant(0), constant(UNIT)])
    };
    assert_eq!(with(UNIT - 1), accepted);
    assert_eq!(with(1 - UNIT), accepted);
    assert_eq!(with(UNIT), "refused 12 4\n");
    // By the radius of g.
    let with = |radius: u32| {
        let g = model(radius, &[(0, UNIT)]);
        quotient_lines(1, 1, [constant(5), g, constant(0), constant(UNIT)])
    };
    assert_eq!(with((1 << 20) - 1), accepted);
    assert_eq!(with(1 << 20), "refused 12 4\n");
}

#[test]
fn beta_of_zero() {
    // (3/2) / 3 with h = 1/2: g h - f = 0. With w = 349525 (nearly 1/3), w g is
    // 1048575 exactly, and mu is 1.
    let expected =
        "radius 0\nterm 0 524288\nrange 524288 524288\nintegral 1048576 1048576\nexact 1048576 0\n";
    assert_eq!(of_constants(3 * HALF, 3 * UNIT, HALF, 349_525), expected);
    // A bad w does no harm here: w = 1/6 gives 1 - w g = 1/2.
    assert_eq!(of_constants(3 * HALF, 3 * UNIT, HALF, 174_763), expected);
}

#[test]
fn an_f_of_zero() {
    let expected = "radius 0\nrange 0 0\nintegral 0 0\nexact 0 0\n";
    assert_eq!(of_constants(0, UNIT, 0, UNIT), expected);
    // A radius of 7 over 1/2, with w = 2: beta = 14, mu = 0.
    let models = [
        model(7, &[]),
        constant(HALF),
        constant(0),
        constant(2 * UNIT),
    ];
    let expected = "radius 14\nrange -14 14\nintegral -28 28\nexact 0 0\n";
    assert_eq!(quotient_lines(1, 1, models), expected);
}

#[test]
fn the_radius_is_rounded_up() {
    // f = 1 unit, g = 1, h = 0, w = U - 1 units: w × (-1) has z = -(U - 1), which
    // becomes -1 with a rest of 1, so that beta is 1 + 1 = 2; mu is 1.
    // 2 × U / (U - 1) is just above 2.
    let expected = "radius 3\nrange -3 3\nintegral -6 6\nexact 0 0\n";
    assert_eq!(of_constants(1, UNIT, 0, UNIT - 1), expected);
}

#[test]
fn the_radii_of_h_and_w_are_not_used() {
    let mut models = [quarter(), one_and_quarter(), quarter(), constant(UNIT)];
    let expected = quotient_lines(1, 2, models.clone());
    models[2].radius = 12_345_678;
    models[3].radius = (1 << 30) - (1 << 20);
    assert_eq!(quotient_lines(1, 2, models), expected);
}

#[test]
fn the_radii_of_f_and_g_are_used() {
    // g = 1 with radius U/4, h = f = 4 units: g h has radius 4 × 1/4 = 1, so that
    // beta is 1; mu is U/4; 1 × 4/3 is rounded up to 2.
    let g = model(1 << 18, &[(0, UNIT)]);
    let models = [constant(4), g.clone(), constant(4), constant(UNIT)];
    let expected = "radius 2\nterm 0 4\nrange 2 6\nintegral 4 12\nexact 8 0\n";
    assert_eq!(quotient_lines(1, 1, models), expected);
    // A radius of 2 in f makes beta 3, and 3 × 4/3 is 4.
    let f = model(2, &[(0, 4)]);
    let models = [f, g, constant(4), constant(UNIT)];
    let expected = "radius 4\nterm 0 4\nrange 0 8\nintegral 0 16\nexact 8 0\n";
    assert_eq!(quotient_lines(1, 1, models), expected);
}

#[test]
fn the_largest_dividend() {
    // f = 2^30, h = 0, w = 1: beta is 2^30. With g = 0 mu is U; with g = 1 unit
    // mu is U - 1 and the radius 2^50; with g = 1 it is 2^30, which is a span.
    assert_eq!(of_constants(LARGEST, 0, 0, UNIT), "refused 12 4\n");
    assert_eq!(of_constants(LARGEST, 1, 0, UNIT), "refused 7 4\n");
    let expected = "radius 1073741824\nrange -1073741824 1073741824\n\
        integral -2147483648 2147483648\nexact 0 0\n";
    assert_eq!(of_constants(LARGEST, UNIT, 0, UNIT), expected);
    // 1024 × U is 2^30, 1025 × U is above.
    assert_eq!(of_constants(1024, 1, 0, UNIT), expected);
    assert_eq!(of_constants(1025, 1, 0, UNIT), "refused 7 4\n");
    // h keeps its own share of the span: 2^30 - 10 and a radius of 10 or 11.
    let with = |f: i32| of_constants(f, UNIT, LARGEST - 10, UNIT);
    let expected = "radius 10\nterm 0 1073741814\nrange 1073741804 1073741824\n\
        integral 2147483608 2147483648\nexact 2147483628 0\n";
    assert_eq!(with(LARGEST - 20), expected);
    assert_eq!(with(LARGEST - 21), "refused 7 4\n");
}

#[test]
fn the_first_form_comes_first() {
    // g h - f is 2^30 + 1: 7, also where mu is U (w = 0).
    assert_eq!(of_constants(-1, UNIT, LARGEST, UNIT), "refused 7 4\n");
    assert_eq!(of_constants(-1, UNIT, LARGEST, 0), "refused 7 4\n");
    // Without that, w = 0 alone.
    assert_eq!(of_constants(0, UNIT, LARGEST, 0), "refused 12 4\n");
    // g = 1 + y + .. + y^7 and w = 1 + x + .. + x^8: w g has 72 terms.
    let g: Vec<(u16, i32)> = (0..8).map(|k| (k << 8, UNIT)).collect();
    let w: Vec<(u16, i32)> = (0..9).map(|k| (k << 12, UNIT)).collect();
    let with = |h: i32| {
        let models = [constant(0), model(0, &g), constant(h), model(0, &w)];
        quotient_lines(2, 15, models)
    };
    // h = 0: the first form is zero, and the second has too many terms.
    assert_eq!(with(0), "refused 8 4\n");
    // h = 2^28: g h is 8 × 2^28, above the span, before the 72 terms.
    assert_eq!(with(1 << 28), "refused 7 4\n");
    // h = 2^10: g h has room, but w × (g h) has 72 terms itself.
    assert_eq!(with(1 << 10), "refused 8 4\n");
}

#[test]
fn each_form_by_its_own() {
    let constants = |f, g, h, w| of_constants(f, g, h, w);
    // g h = 2^31.
    assert_eq!(constants(0, LARGEST, 2 * UNIT, 0), "refused 7 4\n");
    // w × (g h - f) = 2^25 × 2^26 / U = 2^31.
    assert_eq!(constants(0, UNIT, 1 << 25, 1 << 26), "refused 7 4\n");
    // w g = 2^31.
    assert_eq!(constants(0, 1 << 25, 0, 1 << 26), "refused 7 4\n");
    // 1 - w g = U + (2^30 - U + 1), and one less: then mu is above U.
    assert_eq!(constants(0, UNIT, 0, UNIT - LARGEST - 1), "refused 7 4\n");
    assert_eq!(constants(0, UNIT, 0, UNIT - LARGEST), "refused 12 4\n");
}

#[test]
fn a_quotient_is_a_step_like_others() {
    // q = x/4 with radius 87382 stands in the middle. q put into f = x/4:
    // 262144 × 262144 / U = 65536, and the radius is 87382 / 4 = 21845.5, up.
    let models = [quarter(), one_and_quarter(), quarter(), constant(UNIT)];
    let mut steps: Vec<Step> = (0..4).map(input).collect();
    steps.push(Step::quotient(0, 1, 2, 3));
    let after = |step: Step| {
        let steps = [steps.as_slice(), &[Step::constant(HALF), step]].concat();
        lines(2, &models, &steps)
    };
    let expected =
        "radius 21846\nterm 1 65536\nrange -87382 87382\nintegral -43692 43692\nexact 0 0\n";
    assert_eq!(after(Step::substitute(0, 4, 1)), expected);
    // 1/2 put into q: 131072, and the radius of q.
    let expected =
        "radius 87382\nterm 0 131072\nrange 43690 218454\nintegral 87380 436908\nexact 262144 0\n";
    assert_eq!(after(Step::substitute(4, 5, 1)), expected);
    // q × 1/2.
    let expected =
        "radius 43691\nterm 1 131072\nrange -174763 174763\nintegral -87382 87382\nexact 0 0\n";
    assert_eq!(after(Step::two(MULTIPLY, 4, 5)), expected);
    // q over q is not certified, as q may be zero.
    assert_eq!(after(Step::quotient(4, 4, 4, 3)), "refused 12 6\n");
    // q over g with h = q, of which only the polynomial is used, and w = 1: g h - f
    // is x²/16 with f's radius 87382, so that beta is 152918; × 4/3 is 203890.67.
    let expected =
        "radius 203891\nterm 1 262144\nrange -466035 466035\nintegral -407782 407782\nexact 0 0\n";
    assert_eq!(after(Step::quotient(4, 1, 4, 3)), expected);
}

#[test]
fn operands_may_be_one_step() {
    // 1 / 1 with h and w the same step: exactly 1.
    let steps = [Step::constant(UNIT), Step::quotient(0, 0, 0, 0)];
    let expected = "radius 0\nterm 0 1048576\nrange 1048576 1048576\nintegral 2097152 2097152\nexact 2097152 0\n";
    assert_eq!(lines(1, &[], &steps), expected);
}

#[test]
fn operands_are_earlier_steps() {
    let with = |step: Step| {
        let steps = [Step::constant(UNIT), Step::variable(1), step];
        lines(1, &[], &steps)
    };
    assert_eq!(
        with(Step::quotient(1, 0, 1, 0)).lines().next(),
        Some("radius 0")
    );
    // The step itself.
    for step in [
        Step::quotient(2, 0, 1, 0),
        Step::quotient(1, 2, 1, 0),
        Step::quotient(1, 0, 2, 0),
        Step::quotient(1, 0, 1, 2),
    ] {
        assert_eq!(with(step), "refused 6 2\n");
    }
    // A value that is no step, also where its lowest byte would be one.
    let kept = Step::quotient(1, 0, 1, 0);
    for value in [-1, 3, 255, 256, 1 << 16, 1 << 30, -256, i32::MIN, i32::MAX] {
        let value = i64::from(value);
        assert_eq!(with(Step { value, ..kept }), "refused 6 2\n", "{value}");
    }
    assert_eq!(
        lines(1, &[], &[Step::quotient(0, 0, 0, 0)]),
        "refused 6 0\n"
    );
    // Codes from 11 on are none.
    assert_eq!(with(Step { code: 11, ..kept }), "refused 6 2\n");
}

fn refusal(models: [StoredModel; 4], order: u8) -> Option<(u8, usize)> {
    let [f, g, h, w] = models;
    pair(calls::quotient(&f, &g, &h, &w, order).refusal)
}

fn one(n: u8) -> StoredModel {
    stored(n, 0, &[(0, 1 << 20)])
}

#[test]
fn tests_of_a_call_stand_in_order() {
    let broken = stored(1, u64::MAX, &[]);
    let square = stored(1, 0, &[(0x2000, 1)]);
    assert_eq!(refusal([one(1); 4], 1), None);
    assert_eq!(refusal([broken; 4], 0), Some((3, 0)));
    assert_eq!(refusal([broken; 4], 16), Some((3, 0)));
    for place in 0..4 {
        // Sound before the place, broken from there on; another n does not count yet.
        let from = std::array::from_fn(|i| match i {
            _ if i >= place => broken,
            0 => one(2),
            _ => one(1),
        });
        assert_eq!(refusal(from, 1), Some((5, place)));
        let mut models = [one(1); 4];
        models[place] = square;
        assert_eq!(refusal(models, 1), Some((5, place)));
        models[place] = stored(1, 0, &[(0, 0)]);
        assert_eq!(refusal(models, 1), Some((5, place)));
        models[place] = one(2);
        assert_eq!(refusal(models, 1), Some((10, 0)));
        // Two and two.
        models[(place + 1) % 4] = one(2);
        assert_eq!(refusal(models, 1), Some((10, 0)));
    }
    // 10 before what the forms would give: 2^30 × 2^30.
    let large = |n: u8| stored(n, 0, &[(0, 1 << 30)]);
    assert_eq!(
        refusal([large(1), large(1), large(1), large(2)], 1),
        Some((10, 0))
    );
    assert_eq!(refusal([large(1); 4], 1), Some((7, 0)));
}

#[test]
fn a_refused_quotient_gives_the_zero_model() {
    let answer = calls::quotient(&one(3), &stored(3, 0, &[]), &one(3), &one(3), 1);
    assert_eq!(pair(answer.refusal), Some((12, 0)));
    assert_eq!(answer.model, stored(1, 0, &[]));
    let answer = calls::quotient(&one(3), &one(3), &one(3), &one(3), 1);
    assert_eq!(answer.model, one(3));
}

/// Every form is refused as its way of making says, by a call and on a sheet.
#[test]
fn every_form_is_refused() {
    let mut random = Random::new(71);
    for way in &quotients::REFUSED {
        for _ in 0..60 {
            let operands = (way.make)(&mut random);
            let models = stored_operands(&operands);
            let expected = Some((way.refusal, 0));
            assert_eq!(refusal(models, operands.d), expected, "{}", way.name);
            let lines = quotient_lines(operands.n, operands.d, operands.models);
            let line = format!("refused {} 4\n", way.refusal);
            assert_eq!(lines, line, "{}", way.name);
        }
    }
}

fn stored_operands(operands: &Operands) -> [StoredModel; 4] {
    let models = operands.models.each_ref();
    models.map(|draft| StoredModel::store(&draft.model(operands.n)))
}

/// Which form is refused first, by working them out one after another.
fn refused_form(operands: &Operands) -> &'static str {
    let [f, g, mut h, mut w] = quotients::sound(operands);
    let order = u32::from(operands.d);
    h.radius = 0;
    w.radius = 0;
    let Ok(product) = operations::multiply(&g, &h, order) else {
        return "g h";
    };
    let Ok(defect) = operations::subtract(&product, &f) else {
        return "g h - f";
    };
    if operations::multiply(&w, &defect, order).is_err() {
        return "w (g h - f)";
    }
    let Ok(weighted) = operations::multiply(&w, &g, order) else {
        return "w g";
    };
    let one = operations::constant(f.n, 1 << 20);
    if operations::subtract(&one, &weighted).is_err() {
        return "1 - w g";
    }
    "none"
}

/// The ways do reach the form that they name.
#[test]
fn every_way_reaches_its_form() {
    let mut random = Random::new(72);
    for way in &quotients::REFUSED {
        let form = match way.name {
            "8 by g h" | "7 by g h" | "7 by g h before 8 by w g" => "g h",
            "8 by g h - f" | "7 by g h - f" | "7 by g h - f before 12" => "g h - f",
            "8 by w (g h - f)" | "7 by w (g h - f)" => "w (g h - f)",
            "8 by w g" | "7 by w g" => "w g",
            "8 by 1 - w g" | "7 by 1 - w g" => "1 - w g",
            _ => "none",
        };
        for _ in 0..20 {
            assert_eq!(refused_form(&(way.make)(&mut random)), form, "{}", way.name);
        }
    }
}

/// Proposals are accepted, by a call and on a sheet, and not always with mu or
/// beta 0.
#[test]
fn proposals_are_accepted() {
    let mut random = Random::new(73);
    let mut with_radius = 0;
    for _ in 0..1_000 {
        let operands = quotients::accepted(&mut random);
        let [f, g, h, w] = stored_operands(&operands);
        let answer = calls::quotient(&f, &g, &h, &w, operands.d);
        assert_eq!(answer.refusal, None);
        with_radius += usize::from(answer.model.radius > 0);
        // The answer is h but for the radius.
        let expected = StoredModel {
            radius: answer.model.radius,
            ..h
        };
        assert_eq!(answer.model, expected);
        let draft = generate_sheet(&operands);
        assert_eq!(run_sheet(&draft).model, answer.model);
    }
    assert!(with_radius > 700, "only {with_radius} have a radius");
}

fn generate_sheet(operands: &Operands) -> Vec<u8> {
    let mut steps: Vec<Step> = (0..4).map(input).collect();
    steps.push(Step::quotient(0, 1, 2, 3));
    let models = operands.models.to_vec();
    reference::generate::Draft::new(operands.n, operands.d, models, steps).bytes()
}

/// Generated calls reach every refusal of a quotient often.
#[test]
fn generated_calls_reach_every_refusal() {
    let mut counts: BTreeMap<Option<(u8, usize)>, usize> = BTreeMap::new();
    for number in 0..60_000 {
        let call = hostile::call(74, number);
        if matches!(call, Call::Quotient { .. }) {
            *counts.entry(pair(call.answer().refusal())).or_default() += 1;
        }
    }
    println!("calls of quotient: {counts:?}");
    let refusals = [
        (3, 0),
        (5, 0),
        (5, 1),
        (5, 2),
        (5, 3),
        (7, 0),
        (8, 0),
        (10, 0),
        (12, 0),
    ];
    let reached: Vec<(u8, usize)> = counts.keys().flatten().copied().collect();
    assert_eq!(reached, refusals);
    assert!(counts.values().all(|&count| count >= 40));
    assert!(counts[&None] > 1_000);
}
