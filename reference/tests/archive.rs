//! The archive by hand-made cases: the order, bytes, and the order of the tests.

mod common;

use common::{pair, stored};
use reference::archive::{in_order, rank_of, restore, store, RANKS};
use reference::model::{degree, key_of_half, key_of_monomial, monomial_of_key, Monomial};
use reference::stored::StoredModel;

const LARGEST: i64 = 1 << 30;

fn monomial(half: u16) -> Monomial {
    monomial_of_key(key_of_half(half))
}

fn rank(half: u16) -> u16 {
    rank_of(&monomial(half))
}

/// The bytes of an archive, by rank and coefficient of each term.
fn archive(n: u8, radius: u32, terms: &[(u16, i32)]) -> Vec<u8> {
    let mut bytes = vec![n];
    bytes.extend(radius.to_le_bytes());
    bytes.push(terms.len() as u8);
    for (rank, coefficient) in terms {
        bytes.extend(rank.to_le_bytes());
        bytes.extend(coefficient.to_le_bytes());
    }
    bytes
}

fn stored_bytes(f: &StoredModel) -> Vec<u8> {
    let mut buffer = [0xEE; 400];
    let answer = store(f, &mut buffer);
    assert_eq!(answer.refusal, None);
    assert!(buffer[answer.length..].iter().all(|&byte| byte == 0xEE));
    buffer[..answer.length].to_vec()
}

fn restored(bytes: &[u8], most: usize) -> StoredModel {
    let answer = restore(bytes, most);
    assert_eq!(answer.refusal, None);
    answer.model
}

/// The refusal, with the zero model beside it.
fn refused(bytes: &[u8], most: usize) -> Option<(u8, usize)> {
    let answer = restore(bytes, most);
    if answer.refusal.is_some() {
        assert_eq!(answer.model, StoredModel::REFUSED);
    }
    pair(answer.refusal)
}

/// How many monomials of so many variables have a degree of at most this.
fn up_to(variables: usize, degree: usize) -> usize {
    (1..=variables).fold(1, |product, i| product * (degree + i) / i)
}

#[test]
fn the_order_is_strict_and_complete() {
    let order = in_order();
    assert_eq!((order.len(), RANKS), (3_876, up_to(4, 15)));
    let place = |m: &Monomial| (degree(m), key_of_monomial(m));
    assert!(order
        .windows(2)
        .all(|pair| place(&pair[0]) < place(&pair[1])));
    let four = |m: &Monomial| m[4..].iter().all(|&exponent| exponent == 0);
    assert!(order.iter().all(|m| four(m) && degree(m) <= 15));
}

/// The rank is the number of monomials before: of lower degree, and of the same degree with a smaller first,
/// second or third exponent.
#[test]
fn ranks_by_counting() {
    for (rank, m) in in_order().iter().enumerate() {
        let [a, b, c] = [m[0], m[1], m[2]].map(usize::from);
        let d = degree(m) as usize;
        let lower = if d == 0 { 0 } else { up_to(4, d - 1) };
        let first: usize = (0..a).map(|k| up_to(2, d - k)).sum();
        let second: usize = (0..b).map(|k| up_to(1, d - a - k)).sum();
        assert_eq!(rank, lower + first + second + c);
        assert_eq!(usize::from(rank_of(m)), rank);
    }
}

#[test]
fn ranks_of_low_degrees() {
    let order = [
        0x0000, 0x0001, 0x0010, 0x0100, 0x1000, 0x0002, 0x0011, 0x0020, 0x0101, 0x0110, 0x0200,
        0x1001, 0x1010, 0x1100, 0x2000, 0x0003,
    ];
    for (expected, half) in order.into_iter().enumerate() {
        assert_eq!(usize::from(rank(half)), expected, "{half:04x}");
    }
    assert_eq!(rank(0xF000), 3_875);
    assert_eq!(rank(0x000F), 3_060);
}

/// Of one variable, also where the model has n = 1: ranks are among all of four variables.
#[test]
fn ranks_of_one_variable() {
    let ranks = [
        0, 4, 14, 34, 69, 125, 209, 329, 494, 714, 1_000, 1_364, 1_819, 2_379, 3_059, 3_875,
    ];
    let terms: Vec<(u16, i64)> = (0..16).map(|k| (k << 12, i64::from(k) + 1)).collect();
    let f = stored(1, 7, &terms);
    let expected: Vec<(u16, i32)> = ranks.into_iter().zip(1..).collect();
    let bytes = stored_bytes(&f);
    assert_eq!(bytes, archive(1, 7, &expected));
    assert_eq!(restored(&bytes, 16), f);
}

#[test]
fn bytes_by_hand() {
    let f = stored(1, 0x0102_0304, &[(0, 3), (0x1000, -2)]);
    let bytes = [
        1, 4, 3, 2, 1, 2, 0, 0, 3, 0, 0, 0, 4, 0, 0xFE, 0xFF, 0xFF, 0xFF,
    ];
    assert_eq!(stored_bytes(&f), bytes);
    assert_eq!(restored(&bytes, 2), f);
    let f = stored(3, 9, &[]);
    assert_eq!(stored_bytes(&f), [3, 9, 0, 0, 0, 0]);
    assert_eq!(restored(&[3, 9, 0, 0, 0, 0], 0), f);
}

/// By key y² comes before x, by degree after it; restored, the terms stand by key again.
#[test]
fn low_degrees_come_first() {
    let f = stored(
        2,
        1,
        &[
            (0, 10),
            (0x0100, 11),
            (0x0200, 12),
            (0x1000, 13),
            (0x1100, 14),
        ],
    );
    let bytes = archive(2, 1, &[(0, 10), (3, 11), (4, 13), (10, 12), (13, 14)]);
    assert_eq!(stored_bytes(&f), bytes);
    assert_eq!(restored(&bytes, 5), f);
    assert_eq!(restored(&bytes, usize::MAX), f);
    let low = stored(2, 1, &[(0, 10), (0x0100, 11), (0x1000, 13)]);
    assert_eq!(restored(&bytes, 3), low);
    let lower = stored(2, 1, &[(0, 10), (0x0100, 11), (0x0200, 12), (0x1000, 13)]);
    assert_eq!(restored(&bytes, 4), lower);
}

#[test]
fn no_terms_at_all() {
    let bytes = archive(2, 5, &[(0, 10), (3, 11)]);
    assert_eq!(restored(&bytes, 0), stored(2, 5, &[]));
    let bytes = archive(4, 1 << 30, &[(0, 10)]);
    assert_eq!(restored(&bytes, 0), stored(4, LARGEST as u64, &[]));
    assert_eq!(refused(&bytes, 1), Some((5, 0)));
}

#[test]
fn a_full_model() {
    let order = &in_order()[..64];
    let mut halves: Vec<u16> = order
        .iter()
        .map(|m| (key_of_monomial(m) >> 16) as u16)
        .collect();
    halves.sort();
    let terms: Vec<(u16, i64)> = halves.into_iter().zip(1..).collect();
    let f = stored(4, 3, &terms);
    let bytes = stored_bytes(&f);
    assert_eq!(bytes.len(), 390);
    assert_eq!(restored(&bytes, 64), f);
    assert_eq!(restored(&bytes, 63).count, 63);
}

#[test]
fn lengths() {
    for length in 0..6 {
        assert_eq!(refused(&[0; 6][..length], 0), Some((1, 0)));
    }
    assert_eq!(refused(&[1, 0, 0, 0, 0, 0], 0), None);
    assert_eq!(refused(&[1, 0, 0, 0, 0, 0, 0], 0), Some((1, 0)));
    assert_eq!(refused(&[1, 0, 0, 0, 0, 1], 0), Some((1, 0)));
    let bytes = archive(1, 0, &[(0, 1), (4, 1)]);
    assert_eq!(refused(&bytes, 9), None);
    assert_eq!(refused(&bytes[..17], 0), Some((1, 0)));
    assert_eq!(refused(&bytes[..12], 0), Some((1, 0)));
    assert_eq!(refused(&[bytes, vec![0; 6]].concat(), 0), Some((1, 0)));
}

#[test]
fn numbers_of_variables() {
    for n in [0, 5, 8, 255] {
        assert_eq!(refused(&archive(n, 0, &[]), 0), Some((3, 0)));
        // Before 17 and 5, after 1.
        let faults = archive(n, u32::MAX, &[(RANKS as u16, 0)]);
        assert_eq!(refused(&faults, 1), Some((3, 0)));
        assert_eq!(refused(&faults[..11], 1), Some((1, 0)));
    }
    for n in 1..=4 {
        assert_eq!(
            restored(&archive(n, 0, &[(0, 1)]), 1),
            stored(n, 0, &[(0, 1)])
        );
    }
}

#[test]
fn ranks_must_rise() {
    let two = |first, second, most| refused(&archive(4, 0, &[(first, 1), (second, 1)]), most);
    assert_eq!(two(7, 8, 2), None);
    assert_eq!(two(7, 7, 2), Some((17, 1)));
    assert_eq!(two(7, 6, 2), Some((17, 1)));
    assert_eq!(two(0, 0, 2), Some((17, 1)));
    // Not looked at beyond those read.
    assert_eq!(two(7, 7, 1), None);
    assert_eq!(two(7, 6, 1), None);
    assert_eq!(two(7, 6, 0), None);
    assert_eq!(two(7, u16::MAX, 1), None);
    // A later one must rise above the last, not above the highest.
    let bytes = archive(4, 0, &[(1, 1), (9, 1), (5, 1), (4, 1)]);
    assert_eq!(refused(&bytes, 2), None);
    assert_eq!(refused(&bytes, 3), Some((17, 2)));
    assert_eq!(refused(&bytes, 4), Some((17, 2)));
}

#[test]
fn ranks_end_at_3875() {
    let one = |rank| refused(&archive(4, 0, &[(rank, 1)]), 1);
    assert_eq!(one(3_875), None);
    assert_eq!(one(3_876), Some((17, 0)));
    assert_eq!(one(u16::MAX), Some((17, 0)));
    let bytes = archive(1, 0, &[(0, 1), (3_875, 6)]);
    assert_eq!(restored(&bytes, 2), stored(1, 0, &[(0, 1), (0xF000, 6)]));
    // No rank comes before what does not rise after it.
    let bytes = archive(4, 0, &[(0, 1), (3_876, 1), (3_876, 1)]);
    assert_eq!(refused(&bytes, 3), Some((17, 1)));
}

#[test]
fn seventeen_comes_before_5() {
    let bytes = archive(1, u32::MAX, &[(3, 0), (3, 1)]);
    assert_eq!(refused(&bytes, 2), Some((17, 1)));
    assert_eq!(refused(&bytes, 1), Some((5, 0)));
    assert_eq!(refused(&bytes, 0), Some((5, 0)));
}

#[test]
fn rules_of_a_model() {
    let one = |n, radius, rank, c| refused(&archive(n, radius, &[(rank, c)]), 1);
    // A coefficient of 0.
    assert_eq!(one(1, 0, 0, 0), Some((5, 0)));
    assert_eq!(refused(&archive(1, 0, &[(0, 0)]), 0), None);
    // Variable 3 of a model with n = 2, and variable 2 of one with n = 1.
    assert_eq!(one(2, 0, 2, 1), Some((5, 0)));
    assert_eq!(one(3, 0, 2, 1), None);
    assert_eq!(one(1, 0, 3, 1), Some((5, 0)));
    assert_eq!(one(2, 0, 3, 1), None);
    // Spans, of what is read.
    assert_eq!(one(1, 0, 0, 1 << 30), None);
    assert_eq!(one(1, 1, 0, 1 << 30), Some((5, 0)));
    assert_eq!(one(1, 0, 0, -(1 << 30) - 1), Some((5, 0)));
    assert_eq!(one(1, 0, 0, i32::MIN), Some((5, 0)));
    let two = archive(1, 0, &[(0, 1 << 30), (4, 1)]);
    assert_eq!(refused(&two, 1), None);
    assert_eq!(refused(&two, 2), Some((5, 0)));
    assert_eq!(refused(&archive(1, (1 << 30) + 1, &[]), 0), Some((5, 0)));
}

/// A count above 64 is 5 however few are read; ranks are tested of all that are.
#[test]
fn counts_above_64() {
    let rising = |count: u16| -> Vec<(u16, i32)> { (0..count).map(|rank| (rank, 1)).collect() };
    assert_eq!(refused(&archive(4, 0, &rising(64)), 64), None);
    for most in [0, 1, 64, 65, 66] {
        assert_eq!(refused(&archive(4, 0, &rising(65)), most), Some((5, 0)));
    }
    let mut terms = rising(255);
    assert_eq!(refused(&archive(4, 0, &terms), 255), Some((5, 0)));
    terms[200].0 = 199;
    let bytes = archive(4, 0, &terms);
    assert_eq!(refused(&bytes, 255), Some((17, 200)));
    assert_eq!(refused(&bytes, 201), Some((17, 200)));
    assert_eq!(refused(&bytes, 200), Some((5, 0)));
    terms[64].0 = 3_876;
    let bytes = archive(4, 0, &terms);
    assert_eq!(refused(&bytes, 255), Some((17, 64)));
    assert_eq!(refused(&bytes, 64), Some((5, 0)));
}

/// 3, then 5, then 11; a refused store changes no byte.
#[test]
fn tests_of_a_store_stand_in_order() {
    let refusal = |f: &StoredModel, length: usize| {
        let mut buffer = vec![0xEE; length];
        let answer = store(f, &mut buffer);
        if answer.refusal.is_some() {
            assert_eq!(answer.length, 0);
            assert!(buffer.iter().all(|&byte| byte == 0xEE));
        }
        pair(answer.refusal)
    };
    for n in [0, 5, 8, 9, 255] {
        assert_eq!(refusal(&stored(n, u64::MAX, &[]), 0), Some((3, 0)));
        assert_eq!(refusal(&stored(n, 0, &[]), 99), Some((3, 0)));
    }
    assert_eq!(refusal(&stored(4, u64::MAX, &[]), 0), Some((5, 0)));
    assert_eq!(refusal(&stored(1, 0, &[(0x0100, 1)]), 99), Some((5, 0)));
    assert_eq!(refusal(&stored(4, 0, &[(0xF100, 1)]), 99), Some((5, 0)));
    let f = stored(4, 0, &[(0, 1), (0xF000, 1)]);
    assert_eq!(refusal(&f, 17), Some((11, 0)));
    assert_eq!(refusal(&f, 0), Some((11, 0)));
    assert_eq!(refusal(&f, 18), None);
    assert_eq!(refusal(&stored(4, 0, &[]), 5), Some((11, 0)));
    assert_eq!(refusal(&stored(4, 0, &[]), 6), None);
}
