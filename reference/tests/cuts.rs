//! Ranges of a cut box by hand-made cases, and the order of the tests.

mod common;

use common::{pair, stored};
use reference::calls;
use reference::cuts::{cut_range, piece};
use reference::model::{key_of_monomial, UNIT};
use reference::operations::{range, Ends};
use reference::stored::StoredModel;

const U: i64 = UNIT as i64;
const LARGEST: i64 = 1 << 30;

fn ends(low: i64, high: i64) -> Ends {
    Ends {
        low: low.into(),
        high: high.into(),
    }
}

/// A model of one variable, by its coefficients from the constant on.
fn powers(coefficients: &[i64]) -> StoredModel {
    let terms = (0..).zip(coefficients).filter(|(_, &c)| c != 0);
    let terms: Vec<(u16, i64)> = terms.map(|(power, &c)| (power << 12, c)).collect();
    stored(1, 0, &terms)
}

/// The answer of an accepted cut of variable 1 at order 15.
fn cut(f: &StoredModel, depth: u8) -> Ends {
    cut_in(f, 1, depth)
}

fn cut_in(f: &StoredModel, i: u8, depth: u8) -> Ends {
    let answer = cut_range(f, i, depth, 15);
    assert_eq!(answer.refusal, None);
    answer.ends
}

/// The refusal, with both ends 0 beside it.
fn refused(f: &StoredModel, i: u8, depth: u8, order: u8) -> Option<(u8, usize)> {
    let answer = cut_range(f, i, depth, order);
    if answer.refusal.is_some() {
        assert_eq!(answer.ends, ends(0, 0));
    }
    pair(answer.refusal)
}

/// The constant and the coefficient of the variable that are put in.
fn parts(n: usize, i: usize, depth: u8, j: usize) -> (i128, i128) {
    let model = piece(n, i, depth, j);
    let of_variable = model
        .polynomial
        .iter()
        .filter(|(monomial, _)| key_of_monomial(monomial) == 1 << (32 - 4 * i));
    let of_variable: Vec<i128> = of_variable.map(|(_, &c)| c).collect();
    assert_eq!((model.n, model.radius, of_variable.len()), (n, 0, 1));
    let constant = model.constant_coefficient();
    let others = model.polynomial.len() - 1;
    assert_eq!(others, usize::from(constant != 0));
    (constant, of_variable[0])
}

#[test]
fn pieces_are_halves_quarters_and_so_on() {
    // With k = 0 the constant is 0 and gives no term: the variable itself.
    assert_eq!(parts(3, 2, 0, 0), (0, UNIT));
    assert_eq!(parts(1, 1, 1, 0), (-UNIT / 2, UNIT / 2));
    assert_eq!(parts(8, 8, 1, 1), (UNIT / 2, UNIT / 2));
    let quarters: Vec<i128> = (0..4).map(|j| parts(1, 1, 2, j).0).collect();
    assert_eq!(quarters, [-786_432, -262_144, 262_144, 786_432]);
    assert_eq!(parts(1, 1, 6, 0), (-1_032_192, 16_384));
    assert_eq!(parts(1, 1, 6, 31), (-16_384, 16_384));
    assert_eq!(parts(1, 1, 6, 63), (1_032_192, 16_384));
}

/// One piece begins where the last one ends, from -U to U, and none leaves the box.
#[test]
fn pieces_cover_the_box() {
    for depth in 0..=6 {
        let mut reached = -UNIT;
        for j in 0..1 << depth {
            let found = range(&piece(2, 1, depth, j));
            assert_eq!(found.low, reached);
            reached = found.high;
        }
        assert_eq!(reached, UNIT);
    }
}

#[test]
fn depth_0_is_the_range() {
    let models = [
        powers(&[U, U, U]),
        powers(&[5, -3, 7, 0, 0, -11, 0, 0, 0, 0, 0, 0, 0, 0, 0, 13]),
        stored(3, 9, &[(0, -4), (0x0110, 6), (0x2220, -8), (0xA320, 1)]),
        stored(1, LARGEST as u64, &[]),
        stored(2, 0, &[]),
    ];
    for f in models {
        for i in 1..=f.n {
            assert_eq!(cut_in(&f, i, 0), calls::range(&f).ends);
        }
    }
}

/// On [-1, 0] x² is 1/4 - x/2 + x²/4 of the piece's variable, which has a low end of -1/4.
#[test]
fn squares_stay_above_0_by_the_overlap() {
    let square = powers(&[0, 0, U]);
    for depth in 0..=6 {
        assert_eq!(cut(&square, depth), ends(0, U));
        assert_eq!(cut(&powers(&[0, 0, -U]), depth), ends(-U, 0));
    }
}

#[test]
fn a_variable_has_its_whole_range() {
    for depth in 0..=6 {
        assert_eq!(cut(&powers(&[0, U]), depth), ends(-U, U));
        assert_eq!(cut(&powers(&[0, -U]), depth), ends(-U, U));
    }
}

/// 1 + x + x² is from 3/4 to 3; nothing of it is near 0.
#[test]
fn smallest_and_largest_do_not_begin_at_0() {
    let f = powers(&[U, U, U]);
    assert_eq!(cut(&f, 0), ends(0, 3 * U));
    assert_eq!(cut(&f, 1), ends(786_432, 3 * U));
    let f = powers(&[-U, -U, -U]);
    assert_eq!(cut(&f, 0), ends(-3 * U, 0));
    assert_eq!(cut(&f, 1), ends(-3 * U, -786_432));
}

/// (x - 1/2)²: at depth 1 the piece [0, 1] has it as x²/4; at depth 2 the middle of no piece is 1/2, and
/// 1/16 - x/8 + x²/16 reaches down to -1/16.
#[test]
fn deeper_can_be_wider() {
    let f = powers(&[U / 4, -U, U]);
    assert_eq!(cut(&f, 0), ends(-3 * U / 4, 9 * U / 4));
    assert_eq!(cut(&f, 1), ends(0, 9 * U / 4));
    assert_eq!(cut(&f, 2), ends(-65_536, 9 * U / 4));
}

/// Neither end of these needs be the first piece's or the last one's.
#[test]
fn inner_pieces_count() {
    // x/4 - x² at depth 2, in sixteenths: -12 + 7 t - t², -2 + 3 t - t², -t - t², -6 - 5 t - t².
    let f = powers(&[0, U / 4, -U]);
    assert_eq!(cut(&f, 2), ends(-20 * U / 16, U / 16));
    let f = powers(&[0, -U / 4, U]);
    assert_eq!(cut(&f, 2), ends(-U / 16, 20 * U / 16));
    // x - x³ in 64ths: -21 - 11 t + 9 t² - t³, -15 + 13 t + 3 t² - t³, and these mirrored.
    let f = powers(&[0, U, 0, -U]);
    assert_eq!(cut(&f, 2), ends(-33 * U / 64, 33 * U / 64));
}

/// c/2 is halfway between 2^28 - 1 and 2^28: both parts go up, and the radius is 1.
#[test]
fn the_first_refused_piece_is_the_place() {
    let f = powers(&[(1 << 29) + 1, (1 << 29) - 1]);
    assert_eq!(refused(&f, 1, 0, 1), None);
    assert_eq!(refused(&f, 1, 1, 1), Some((7, 1)));
    assert_eq!(refused(&f, 1, 2, 1), Some((7, 3)));
    assert_eq!(refused(&f, 1, 2, 15), Some((7, 3)));
    // The mirrored curve is refused at its first piece.
    let f = powers(&[(1 << 29) + 1, -(1 << 29) + 1]);
    assert_eq!(refused(&f, 1, 1, 1), Some((7, 0)));
    // x times 64 monomials of other variables: each has two terms on a piece.
    let terms: Vec<(u16, i64)> = (0..64_u16)
        .map(|k| (0x1000 + ((k / 8) << 4) + k % 8, U))
        .collect();
    let f = stored(4, 0, &terms);
    assert_eq!(refused(&f, 1, 0, 15), None);
    assert_eq!(refused(&f, 1, 1, 15), Some((8, 0)));
    assert_eq!(refused(&f, 2, 1, 15), None);
}

/// (x + 1/2) y has one term on the first half, t y / 2, and two on the second; x has two on each.
#[test]
fn more_terms_at_a_later_piece() {
    let with_others = |others: u16| {
        let mut terms: Vec<(u16, i64)> = vec![(0x0100, U / 2)];
        terms.extend((0..others).map(|k| (0x0200 + ((k / 8) << 4) + k % 8, U)));
        terms.extend([(0x1000, U), (0x1100, U)]);
        stored(4, 0, &terms)
    };
    assert_eq!(refused(&with_others(60), 1, 1, 15), None);
    assert_eq!(refused(&with_others(61), 1, 1, 15), Some((8, 1)));
}

#[test]
fn depths_up_to_6() {
    let f = powers(&[1, 2, 3]);
    for depth in 0..=6 {
        assert_eq!(refused(&f, 1, depth, 2), None);
    }
    for depth in [7, 8, 64, 128, 255] {
        assert_eq!(refused(&f, 1, depth, 2), Some((14, 0)));
    }
}

/// 3, 5 with the order, 6, 14, and then the pieces.
#[test]
fn tests_stand_in_order() {
    let broken = stored(1, u64::MAX, &[]);
    let square = powers(&[0, 0, U]);
    let large = powers(&[(1 << 29) + 1, (1 << 29) - 1]);
    for order in [0, 16, 255] {
        assert_eq!(refused(&broken, 9, 7, order), Some((3, 0)));
    }
    assert_eq!(refused(&broken, 9, 7, 1), Some((5, 0)));
    // A degree above the order is a fault of the model.
    assert_eq!(refused(&square, 9, 7, 1), Some((5, 0)));
    assert_eq!(refused(&square, 1, 1, 1), Some((5, 0)));
    assert_eq!(refused(&square, 1, 1, 2), None);
    for i in [0, 2, 9, 255] {
        assert_eq!(refused(&square, i, 7, 2), Some((6, 0)));
    }
    assert_eq!(refused(&large, 1, 7, 1), Some((14, 0)));
    assert_eq!(refused(&large, 1, 1, 1), Some((7, 1)));
    for n in [0, 9, 255] {
        assert_eq!(refused(&stored(n, 0, &[]), 1, 1, 1), Some((5, 0)));
    }
}

#[test]
fn a_variable_that_the_model_lacks() {
    let f = stored(2, 3, &[(0, 5), (0x1000, -7), (0x2000, 4)]);
    for depth in 0..=6 {
        assert_eq!(cut_in(&f, 2, depth), calls::range(&f).ends);
    }
}

#[test]
fn a_radius_alone() {
    for radius in [0, 1, LARGEST] {
        let f = stored(1, radius as u64, &[]);
        for depth in 0..=6 {
            assert_eq!(cut(&f, depth), ends(-radius, radius));
        }
    }
    assert_eq!(
        refused(&stored(1, LARGEST as u64 + 1, &[]), 1, 1, 1),
        Some((5, 0))
    );
}

/// x² + x + y: cut in x it is from -5/4 on, cut in y nothing changes.
#[test]
fn two_variables() {
    let f = stored(2, 0, &[(0x0100, U), (0x1000, U), (0x2000, U)]);
    assert_eq!(cut_in(&f, 1, 0), ends(-2 * U, 3 * U));
    assert_eq!(cut_in(&f, 1, 1), ends(-5 * U / 4, 3 * U));
    assert_eq!(cut_in(&f, 2, 1), ends(-2 * U, 3 * U));
    // The same with the variables exchanged, and with a radius.
    let f = stored(2, 9, &[(0x0100, U), (0x0200, U), (0x1000, U)]);
    assert_eq!(cut_in(&f, 2, 1), ends(-5 * U / 4 - 9, 3 * U + 9));
    assert_eq!(cut_in(&f, 1, 1), ends(-2 * U - 9, 3 * U + 9));
}

/// Degrees do not grow on a piece, so that the order of a sound model is enough.
#[test]
fn the_order_sweeps_nothing() {
    let f = stored(2, 0, &[(0x0100, U), (0x1100, 2 * U), (0x2100, U)]);
    let whole = cut_in(&f, 1, 3);
    let answer = cut_range(&f, 1, 3, 3);
    assert_eq!((answer.ends, answer.refusal), (whole, None));
    assert_eq!(refused(&f, 1, 3, 2), Some((5, 0)));
}
