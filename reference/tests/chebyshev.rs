//! Chebyshev curves by hand-made cases: the table, products, conversions, spans
//! and the order of the tests.

mod common;

use common::{curve, pair, stored};
use reference::chebyshev::calls::{self, ChebyshevAnswer};
use reference::chebyshev::table::{polynomials_in_powers, powers_in_polynomials, DIVISOR};
use reference::chebyshev::{StoredChebyshev, PLACES};
use reference::operations::Ends;
use reference::stored::StoredModel;

const U: i64 = 1 << 20;
const LARGEST: i64 = 1 << 30;

/// A power model of one variable, by pairs of power and number.
fn powers(radius: u64, terms: &[(u16, i64)]) -> StoredModel {
    let terms: Vec<(u16, i64)> = terms.iter().map(|&(power, c)| (power << 12, c)).collect();
    stored(1, radius, &terms)
}

fn accepted(answer: ChebyshevAnswer) -> StoredChebyshev {
    assert_eq!(answer.refusal, None);
    answer.model
}

/// The refusal, with the zero model of the Chebyshev form beside it.
fn refused(answer: ChebyshevAnswer) -> Option<(u8, usize)> {
    if answer.refusal.is_some() {
        assert_eq!(answer.model, curve(0, &[]));
    }
    pair(answer.refusal)
}

fn product(f: &StoredChebyshev, g: &StoredChebyshev) -> StoredChebyshev {
    accepted(calls::multiply(f, g))
}

/// T_0 to T_15 as they are printed in tables.
const ROWS: [&[i128]; PLACES] = [
    &[1],
    &[0, 1],
    &[-1, 0, 2],
    &[0, -3, 0, 4],
    &[1, 0, -8, 0, 8],
    &[0, 5, 0, -20, 0, 16],
    &[-1, 0, 18, 0, -48, 0, 32],
    &[0, -7, 0, 56, 0, -112, 0, 64],
    &[1, 0, -32, 0, 160, 0, -256, 0, 128],
    &[0, 9, 0, -120, 0, 432, 0, -576, 0, 256],
    &[-1, 0, 50, 0, -400, 0, 1120, 0, -1280, 0, 512],
    &[0, -11, 0, 220, 0, -1232, 0, 2816, 0, -2816, 0, 1024],
    &[1, 0, -72, 0, 840, 0, -3584, 0, 6912, 0, -6144, 0, 2048],
    &[
        0, 13, 0, -364, 0, 2912, 0, -9984, 0, 16640, 0, -13312, 0, 4096,
    ],
    &[
        -1, 0, 98, 0, -1568, 0, 9408, 0, -26880, 0, 39424, 0, -28672, 0, 8192,
    ],
    &[
        0, -15, 0, 560, 0, -6048, 0, 28800, 0, -70400, 0, 92160, 0, -61440, 0, 16384,
    ],
];

#[test]
fn the_recurrence_gives_the_printed_rows() {
    for (row, printed) in polynomials_in_powers().iter().zip(ROWS) {
        assert_eq!(&row[..printed.len()], printed);
        assert!(row[printed.len()..].iter().all(|&c| c == 0));
    }
}

/// x^m is the sum of m over (m - k) / 2 times T_k, over 2^(m-1), that of T_0 halved.
#[test]
fn powers_have_binomial_coefficients() {
    let rows = powers_in_polynomials();
    for (power, row) in rows.iter().enumerate() {
        for (k, &coefficient) in row.iter().enumerate() {
            let mut expected = 0;
            if k <= power && (power - k) % 2 == 0 {
                let sides = if k == 0 { 1 } else { 2 };
                expected = sides * binomial(power, (power - k) / 2) * (DIVISOR >> power);
            }
            assert_eq!(coefficient, expected, "T_{k} in x^{power}");
        }
    }
}

fn binomial(n: usize, k: usize) -> i128 {
    (1..=k as i128).fold(1, |product, i| product * (n as i128 - k as i128 + i) / i)
}

/// T_i × T_j with unit coefficients, for all i and j and all signs.
#[test]
fn products_of_two_polynomials() {
    for (i, j) in (0..PLACES).flat_map(|i| (0..PLACES).map(move |j| (i, j))) {
        for (a, b) in [(U, U), (-U, U), (U, -U), (-U, -U)] {
            let half = a * b / U / 2;
            let mut expected = curve(0, &[(i.abs_diff(j), half)]);
            match expected.coefficients.get_mut(i + j) {
                Some(place) => *place += half,
                None => expected.radius = half.unsigned_abs(),
            }
            let found = product(&curve(0, &[(i, a)]), &curve(0, &[(j, b)]));
            assert_eq!(found, expected, "T_{i} by T_{j}");
        }
    }
}

/// T_0 is the model of 1: nothing is counted once only, and nothing twice.
#[test]
fn the_model_of_one_leaves_a_curve_as_it_is() {
    let one = curve(0, &[(0, U)]);
    let whole: Vec<(usize, i64)> = (0..PLACES).map(|k| (k, 1_001 - 333 * k as i64)).collect();
    let f = curve(7, &whole);
    assert_eq!(product(&one, &f), f);
    assert_eq!(product(&f, &one), f);
}

/// By T_0 × U/2 an odd number gives a half: to the even side, whatever its sign.
#[test]
fn halves_go_to_the_even_number() {
    let half = curve(0, &[(0, U / 2)]);
    for (c, expected) in [(1, 0), (3, 2), (5, 2), (7, 4), (9, 4)] {
        for sign in [1, -1] {
            for k in [0, 1, 2, 15] {
                let found = product(&curve(0, &[(k, sign * c)]), &half);
                assert_eq!(found, curve(1, &[(k, sign * expected)]));
            }
        }
    }
}

/// The halves of the rule itself tie as well: T_1 × T_2 = (T_1 + T_3) / 2.
#[test]
fn halves_of_the_rule_tie() {
    let unit = curve(0, &[(2, U)]);
    for (c, expected) in [(1, 0), (3, 2), (5, 2), (-1, 0), (-3, -2), (-5, -2)] {
        let found = product(&curve(0, &[(1, c)]), &unit);
        assert_eq!(found, curve(1, &[(1, expected), (3, expected)]));
    }
}

/// (T_1 + T_3) × T_2 of one unit: T_1 collects two halves to a whole. T_3 and T_5 have one half each.
#[test]
fn coefficients_are_rounded_after_collecting() {
    let found = product(&curve(0, &[(1, 1), (3, 1)]), &curve(0, &[(2, U)]));
    assert_eq!(found, curve(1, &[(1, 1)]));
    let found = product(&curve(0, &[(1, 1), (3, -1)]), &curve(0, &[(2, U)]));
    assert_eq!(found, curve(1, &[]));
}

/// Two quarters left over and a half of a unit that the radius brings make one unit, and one unit only.
#[test]
fn the_radius_is_rounded_up_once() {
    let (f, g) = (curve(1, &[(1, 1)]), curve(0, &[(2, U / 2)]));
    assert_eq!(product(&f, &g), curve(1, &[]));
    assert_eq!(product(&g, &f), curve(1, &[]));
    // One more unit of 1 / 2U is above.
    let g = curve(0, &[(2, U / 2 + 1)]);
    assert_eq!(product(&f, &g), curve(2, &[]));
}

#[test]
fn radii_meet_in_a_product() {
    assert_eq!(product(&curve(2, &[]), &curve(3, &[])), curve(1, &[]));
    // A × e2 = 5, B × e1 = 6 units, and e1 × e2 is 10 / U of one.
    let found = product(&curve(2, &[(3, U)]), &curve(5, &[(0, -3 * U)]));
    assert_eq!(found, curve(12, &[(3, -3 * U)]));
    // All sixteen places count in A.
    let all: Vec<(usize, i64)> = (0..PLACES)
        .map(|k| (k, if k < 9 { U } else { -U }))
        .collect();
    assert_eq!(product(&curve(0, &all), &curve(1, &[])), curve(16, &[]));
}

/// (T_10 + T_9) × (T_10 - T_11): T_20 and T_1 cancel, T_21 and T_19 are swept.
#[test]
fn sizes_above_fifteen_are_taken_after_collecting() {
    let f = curve(0, &[(10, U), (9, U)]);
    let g = curve(0, &[(10, U), (11, -U)]);
    let expected = curve(U as u64, &[(0, U / 2), (2, -U / 2)]);
    assert_eq!(product(&f, &g), expected);
    // (T_10 - T_9) × (T_10 + T_9) is T_10² - T_9²: of the swept only T_20 and T_18 are left.
    let f = curve(0, &[(10, U), (9, -U)]);
    let g = curve(0, &[(10, U), (9, U)]);
    assert_eq!(product(&f, &g), curve(U as u64, &[]));
    // T_15 × T_1 is the first to leave the form, and only with its upper half.
    let found = product(&curve(0, &[(15, U)]), &curve(0, &[(1, U)]));
    assert_eq!(found, curve(U as u64 / 2, &[(14, U / 2)]));
    // What is swept is not rounded first: a half and a half are one unit.
    let found = product(&curve(0, &[(15, 1)]), &curve(0, &[(1, U)]));
    assert_eq!(found, curve(1, &[]));
}

#[test]
fn sums_and_signs() {
    let f = curve(2, &[(0, 5), (3, -7), (15, 1)]);
    let g = curve(9, &[(0, -5), (3, -1), (4, 2)]);
    let sum = curve(11, &[(3, -8), (4, 2), (15, 1)]);
    assert_eq!(accepted(calls::add(&f, &g)), sum);
    let difference = curve(11, &[(0, 10), (3, -6), (4, -2), (15, 1)]);
    assert_eq!(accepted(calls::subtract(&f, &g)), difference);
    let negative = curve(2, &[(0, -5), (3, 7), (15, -1)]);
    assert_eq!(accepted(calls::negate(&f)), negative);
}

/// T_2 counts to both sides, other than x² in powers.
#[test]
fn ranges() {
    let ends = |model| calls::range(&model).ends;
    let f = curve(2, &[(0, 5), (2, 3), (3, -4)]);
    assert_eq!(ends(f), Ends { low: -4, high: 14 });
    let f = curve(2, &[(0, -5), (2, -3), (15, 4)]);
    assert_eq!(ends(f), Ends { low: -14, high: 4 });
    assert_eq!(ends(curve(0, &[])), Ends { low: 0, high: 0 });
    let largest = i128::from(LARGEST);
    let (low, high) = (-largest, largest);
    assert_eq!(ends(curve(0, &[(8, LARGEST)])), Ends { low, high });
    let over = calls::range(&curve(1, &[(8, LARGEST)]));
    assert_eq!(pair(over.refusal), Some((5, 0)));
    assert_eq!(over.ends, Ends { low: 0, high: 0 });
}

#[test]
fn polynomials_go_to_powers() {
    let answer = |model| calls::to_powers(&model);
    for (k, row) in ROWS.iter().enumerate() {
        for c in [1, -1, 3_893] {
            let terms = (0..).zip(row.iter()).filter(|(_, &entry)| entry != 0);
            let terms: Vec<(u16, i64)> = terms.map(|(p, &entry)| (p, c * entry as i64)).collect();
            assert_eq!(answer(curve(6, &[(k, c)])).model, powers(6, &terms));
        }
    }
    // T_0 + T_2 = 2 x²: the constant goes, and so does its term.
    assert_eq!(
        answer(curve(0, &[(0, 9), (2, 9)])).model,
        powers(0, &[(2, 18)])
    );
    assert_eq!(answer(curve(0, &[])).model, powers(0, &[]));
}

/// The coefficients of T_15 in powers have sizes that sum to 275,807.
#[test]
fn spans_of_conversions_to_powers() {
    let refusal = |radius, c| {
        let answer = calls::to_powers(&curve(radius, &[(15, c)]));
        if answer.refusal.is_some() {
            assert_eq!(answer.model, StoredModel::REFUSED);
        }
        pair(answer.refusal)
    };
    let left = (LARGEST - 3_893 * 275_807) as u64;
    for sign in [1, -1] {
        assert_eq!(refusal(0, sign * 3_893), None);
        assert_eq!(refusal(0, sign * 3_894), Some((7, 0)));
        assert_eq!(refusal(left, sign * 3_893), None);
        assert_eq!(refusal(left + 1, sign * 3_893), Some((7, 0)));
    }
    // Before the conversion the span is 5's.
    assert_eq!(refusal(0, LARGEST), Some((7, 0)));
    assert_eq!(refusal(1, LARGEST), Some((5, 0)));
    // 1 and x have the same span in both forms.
    for k in [0, 1] {
        let largest = curve(0, &[(k, -LARGEST)]);
        assert_eq!(calls::to_powers(&largest).refusal, None);
    }
}

#[test]
fn powers_come_back() {
    let back = |radius, terms: &[(u16, i64)]| accepted(calls::from_powers(&powers(radius, terms)));
    // x^15 × 2^14 is whole in every place.
    let whole = [
        (1, 6_435),
        (3, 5_005),
        (5, 3_003),
        (7, 1_365),
        (9, 455),
        (11, 105),
        (13, 15),
        (15, 1),
    ];
    assert_eq!(back(4, &[(15, 1 << 14)]), curve(4, &whole));
    // One unit of it: eight residuals that sum to one.
    assert_eq!(back(0, &[(15, 1)]), curve(1, &[]));
    assert_eq!(back(7, &[(15, -1)]), curve(8, &[]));
    assert_eq!(back(3, &[(0, -5), (1, 9)]), curve(3, &[(0, -5), (1, 9)]));
    assert_eq!(back(0, &[]), curve(0, &[]));
}

/// x² = (T_0 + T_2) / 2 and x^4 = (3 T_0 + 4 T_2 + T_4) / 8.
#[test]
fn powers_come_back_rounded_once() {
    let back = |terms: &[(u16, i64)]| accepted(calls::from_powers(&powers(0, terms)));
    for (c, expected) in [(1, 0), (3, 2), (5, 2), (-1, 0), (-3, -2), (-5, -2)] {
        let rounded = curve(1, &[(0, expected), (2, expected)]);
        assert_eq!(back(&[(2, c)]), rounded);
    }
    // 3/2 and 1/2, each to the even side.
    assert_eq!(back(&[(0, 1), (2, 1)]), curve(1, &[(0, 2)]));
    // 7/8, 1 and 1/8: collected first, so that T_2 has a whole unit.
    assert_eq!(back(&[(2, 1), (4, 1)]), curve(1, &[(0, 1), (2, 1)]));
    // 3/8, 1/2 and 1/8 are left over: one unit, though three are rounded.
    assert_eq!(back(&[(4, 1)]), curve(1, &[]));
}

#[test]
fn spans_of_conversions_from_powers() {
    let refusal = |radius, c| refused(calls::from_powers(&powers(radius, &[(2, c)])));
    for sign in [1, -1] {
        assert_eq!(refusal(0, sign * LARGEST), None);
        assert_eq!(refusal(1, sign * LARGEST), Some((5, 0)));
        assert_eq!(refusal(2, sign * (LARGEST - 2)), None);
        // Both halves go up to 2^29, and the radius has 1.
        assert_eq!(refusal(0, sign * (LARGEST - 1)), Some((7, 0)));
        // Both go down, so that there is room.
        assert_eq!(refusal(0, sign * (LARGEST - 3)), None);
        assert_eq!(refusal(2, sign * (LARGEST - 3)), None);
    }
}

/// Exact one way, and so the other: nothing is left over.
#[test]
fn to_powers_and_back_is_the_same_curve() {
    let mixed: Vec<(usize, i64)> = (0..PLACES).map(|k| (k, 700 - 97 * k as i64)).collect();
    let single = (0..PLACES).map(|k| curve(5, &[(k, -3_893)]));
    for f in single.chain([curve(0, &mixed), curve(11, &[])]) {
        let there = calls::to_powers(&f);
        assert_eq!(there.refusal, None);
        assert_eq!(accepted(calls::from_powers(&there.model)), f);
    }
}

#[test]
fn spans_of_sums() {
    let largest = curve(0, &[(4, LARGEST)]);
    for (radius, coefficient, expected) in [
        (0, (0, 0), None),
        (0, (4, -1), None),
        (1, (4, -1), None),
        (0, (4, 1), Some((7, 0))),
        (0, (5, -1), Some((7, 0))),
        (1, (4, 0), Some((7, 0))),
        (2, (4, -1), Some((7, 0))),
    ] {
        let other = curve(radius, &[coefficient]);
        assert_eq!(refused(calls::add(&largest, &other)), expected);
        assert_eq!(refused(calls::add(&other, &largest)), expected);
        let turned = curve(radius, &[(coefficient.0, -coefficient.1)]);
        assert_eq!(refused(calls::subtract(&largest, &turned)), expected);
    }
    let negative = calls::negate(&largest);
    assert_eq!(accepted(negative), curve(0, &[(4, -LARGEST)]));
}

#[test]
fn spans_of_products() {
    let refusal = |f, g| refused(calls::multiply(&f, &g));
    for sign in [1, -1] {
        let unit = curve(0, &[(1, sign * U)]);
        let second = |c| curve(0, &[(2, c)]);
        assert_eq!(refusal(unit, second(LARGEST)), None);
        // Two halves go up to 2^29, and the radius has 1.
        assert_eq!(refusal(unit, second(LARGEST - 1)), Some((7, 0)));
        assert_eq!(refusal(unit, second(LARGEST - 2)), None);
        assert_eq!(refusal(unit, second(LARGEST - 3)), None);
        assert_eq!(refusal(unit, curve(2, &[(2, LARGEST - 2)])), None);
        let wider = curve(1, &[(1, sign * U)]);
        assert_eq!(refusal(wider, second(LARGEST)), Some((7, 0)));
        let larger = curve(0, &[(1, sign * (U + 1))]);
        assert_eq!(refusal(larger, second(LARGEST)), Some((7, 0)));
        // Half of it is swept, and counts in the span as a radius.
        let (high, top) = (curve(0, &[(15, sign * U)]), curve(0, &[(15, LARGEST)]));
        assert_eq!(refusal(high, top), None);
        let top = curve(1, &[(15, LARGEST)]);
        assert_eq!(refusal(high, top), Some((5, 1)));
    }
    // Numbers whose product is far beyond 64 bits.
    let largest = curve(0, &[(0, LARGEST)]);
    assert_eq!(refusal(largest, largest), Some((7, 0)));
    let radius = curve(LARGEST as u64, &[]);
    assert_eq!(refusal(radius, radius), Some((7, 0)));
}

/// The span is summed in whole numbers: nothing wraps, and 0 is no fault.
#[test]
fn a_curve_over_the_span_gets_5() {
    assert_eq!(refused(calls::negate(&curve(0, &[]))), None);
    assert_eq!(refused(calls::negate(&curve(LARGEST as u64, &[]))), None);
    let wrapping = StoredChebyshev {
        coefficients: [i64::MIN; PLACES],
        radius: 0,
    };
    let over = [
        curve(LARGEST as u64 + 1, &[]),
        curve(1, &[(15, -LARGEST)]),
        curve(0, &[(0, LARGEST), (9, -1)]),
        curve(u64::MAX, &[(0, 1)]),
        curve(0, &[(3, i64::MIN)]),
        curve(1 << 32, &[]),
        wrapping,
    ];
    let sound = curve(0, &[(1, U)]);
    for f in over {
        assert_eq!(refused(calls::negate(&f)), Some((5, 0)));
        assert_eq!(pair(calls::range(&f).refusal), Some((5, 0)));
        let answer = calls::to_powers(&f);
        assert_eq!(pair(answer.refusal), Some((5, 0)));
        assert_eq!(answer.model, StoredModel::REFUSED);
        for call in [calls::add, calls::subtract, calls::multiply] {
            assert_eq!(refused(call(&f, &sound)), Some((5, 0)));
            assert_eq!(refused(call(&f, &f)), Some((5, 0)));
            assert_eq!(refused(call(&sound, &f)), Some((5, 1)));
        }
    }
}

/// 5, then 13, then 7.
#[test]
fn tests_of_a_conversion_stand_in_order() {
    let refusal =
        |n, radius, terms: &[(u16, i64)]| refused(calls::from_powers(&stored(n, radius, terms)));
    let square = [(0x2000, LARGEST - 1)];
    assert_eq!(refusal(1, 0, &square), Some((7, 0)));
    for n in 2..=8 {
        assert_eq!(refusal(n, 0, &[]), Some((13, 0)));
        assert_eq!(refusal(n, 0, &square), Some((13, 0)));
        assert_eq!(refusal(n, 2, &square), Some((5, 0)));
        assert_eq!(refusal(n, 0, &[(0x2000, 0)]), Some((5, 0)));
    }
    for n in [0, 9, 255] {
        assert_eq!(refusal(n, 0, &[]), Some((5, 0)));
    }
    // Another variable than the first is 5 in a model of one, 13 in one of two.
    assert_eq!(refusal(1, 0, &[(0x0100, 1)]), Some((5, 0)));
    assert_eq!(refusal(2, 0, &[(0x0100, 1)]), Some((13, 0)));
    assert_eq!(refusal(1, 0, &[(0xF000, 1)]), None);
}
