//! Calls that cut the box: of every depth, and refused by each number at many
//! pieces.

use super::hostile;
use super::models::{self, Scale, LARGEST_SPAN, UNIT};
use super::random::Random;
use super::{functions, kind, CallKind, DraftModel, Expected};
use crate::cuts::{Call, DEEPEST};
use crate::exact::{Fraction, Point};
use crate::model::{key_of_monomial, monomial_of_key, MOST_VARIABLES};

/// A call, one for each number from 0; numbers are independent of each other.
pub fn call(seed: u64, number: u64) -> Call {
    let mut random = Random::new(seed ^ number.wrapping_mul(0xA24B_AED4_963E_E407));
    match random.below(4) {
        0 => hostile_call(&mut random),
        1 => {
            let kind = random.pick(&KINDS);
            (kind.make)(&mut random).0
        }
        _ => sound_call(&mut random),
    }
}

/// Arguments that are mostly right, at times outside, and a model that may be
/// broken.
fn hostile_call(random: &mut Random) -> Call {
    let order = hostile::small_number(random, 1, 15);
    let n = models::any_n(random);
    let f = Box::new(hostile::model(random, n, order));
    let i = hostile::small_number(random, 1, f.n.clamp(1, MOST_VARIABLES as u8));
    let depth = match random.below(8) {
        0 => too_deep(random),
        _ => any_depth(random),
    };
    Call { f, i, depth, order }
}

/// A sound model of any scale. Few terms come most often, as many are refused with
/// 8 by the first piece.
fn sound_call(random: &mut Random) -> Call {
    let (n, order) = (models::any_n(random), random.byte(1, 15));
    let most = *random.pick(&[4, 12, 12, 24, 64]);
    let draft = models::model(random, n, order, most);
    let i = random.byte(1, n);
    let depth = any_depth(random);
    made(random, Shape { n, i, depth, order }, &draft)
}

/// Small depths come most often, as deep ones take long.
fn any_depth(random: &mut Random) -> u8 {
    match random.below(4) {
        0 => random.byte(0, DEEPEST),
        _ => random.byte(0, 3),
    }
}

fn too_deep(random: &mut Random) -> u8 {
    match random.below(3) {
        0 => DEEPEST + 1,
        1 => *random.pick(&[8, 20, 21, 64, 128, 255]),
        _ => random.byte(DEEPEST + 1, 255),
    }
}

/// Everything of a call but its model.
#[derive(Clone, Copy)]
struct Shape {
    n: u8,
    i: u8,
    depth: u8,
    order: u8,
}

fn made(random: &mut Random, shape: Shape, draft: &DraftModel) -> Call {
    Call {
        f: Box::new(hostile::stored(random, shape.n, draft)),
        i: shape.i,
        depth: shape.depth,
        order: shape.order,
    }
}

/// Three variables or more, so that there are many monomials without the one that
/// is cut.
fn wide_shape(random: &mut Random, depth: u8) -> Shape {
    let n = random.byte(3, MOST_VARIABLES as u8);
    Shape {
        n,
        i: random.byte(1, n),
        depth,
        order: random.byte(14, 15),
    }
}

/// Distinct keys without the variable that is cut, of degree at most 11.
fn other_keys(random: &mut Random, shape: Shape, count: usize) -> Vec<u32> {
    let mut keys = models::keys(random, shape.n - 1, 11, count);
    for key in &mut keys {
        let mut monomial = monomial_of_key(*key);
        monomial[usize::from(shape.i) - 1..].rotate_right(1);
        *key = key_of_monomial(&monomial);
    }
    keys
}

/// The key times a power of the variable that is cut.
fn raised(shape: Shape, key: u32, power: usize) -> u32 {
    key + power as u32 * models::variable_key(shape.i)
}

/// A draft whose terms stand in order.
fn draft(radius: i64, mut terms: Vec<(u32, i32)>) -> DraftModel {
    terms.sort();
    DraftModel {
        radius: radius as u32,
        terms,
    }
}

/// Accepted at the limits, and refused by each number, 7 and 8 at many pieces.
pub const KINDS: [CallKind<Call>; 12] = [
    kind("a span at the limit", span_at_limit),
    kind("64 terms on every piece", terms_at_limit),
    kind("3", bad_order),
    kind("5", broken_model),
    kind("5 by the order", degree_above_order),
    kind("6", bad_variable),
    kind("14", cut_too_deep),
    kind("7 by residuals", residuals_over),
    kind("7 by a constant that grows", constant_over),
    kind("7 at the last piece", last_piece_over),
    kind("8 by a constant that was a root", roots_over),
    kind("8 by a constant that was rounded off", rounded_over),
];

const ACCEPTED: Expected = Expected::Accepted;

/// One unit of x times each of m monomials. On piece j of the first quarter -1
/// unit is left of each, and the rounding is m × (2j + 2) / 2^k units, rounded up
/// into the radius: it grows from piece to piece.
fn residuals(m: u64, j: u64, depth: u8) -> i64 {
    (m * (2 * j + 2)).div_ceil(1 << depth) as i64
}

fn units(random: &mut Random, shape: Shape, m: u64, room: i64) -> Call {
    let keys = other_keys(random, shape, m as usize);
    let sign = random.sign() as i32;
    let terms = keys.into_iter().map(|key| (raised(shape, key, 1), sign));
    let radius = LARGEST_SPAN - m as i64 - room;
    let draft = draft(radius, terms.collect());
    made(random, shape, &draft)
}

fn residuals_over(random: &mut Random) -> (Call, Expected) {
    let depth = random.byte(2, DEEPEST);
    let j = random.below(1 << (depth - 2));
    let shape = wide_shape(random, depth);
    // So many that every piece has a unit more than the last one.
    let m = (1 << (depth - 1)) + random.below(65 - (1 << (depth - 1)));
    let room = residuals(m, j, depth) - 1;
    let call = units(random, shape, m, room);
    (call, Expected::Refused(7, j as usize))
}

/// Room for the largest rounding, which is below half a unit of each, both for x
/// and for its constant; beyond the first quarter nothing is left of the constant.
fn span_at_limit(random: &mut Random) -> (Call, Expected) {
    let depth = random.byte(2, DEEPEST);
    let shape = wide_shape(random, depth);
    let m = 1 + random.below(64);
    let room = residuals(m, (1 << (depth - 2)) - 1, depth);
    (units(random, shape, m, room), ACCEPTED)
}

/// One unit of 1 + x times each of m monomials, up to 32, and no room for half a unit
/// each: the constant is 0, then 1, and 2 units from three quarters on.
fn constant_over(random: &mut Random) -> (Call, Expected) {
    let depth = random.byte(2, DEEPEST);
    let shape = wide_shape(random, depth);
    let m = 1 + random.below(32);
    let room = random.below(m.div_ceil(2)) as i64;
    let sign = random.sign() as i32;
    let keys = other_keys(random, shape, m as usize);
    let both = |key| [(key, sign), (raised(shape, key, 1), sign)];
    let terms = keys.into_iter().flat_map(both).collect();
    let draft = draft(LARGEST_SPAN - 2 * m as i64 - room, terms);
    let call = made(random, shape, &draft);
    (call, Expected::Refused(7, 3 << (depth - 2)))
}

/// c0 + c x of one sign and of the largest span: only the last piece has it all, and
/// rounding takes it above.
fn last_piece_over(random: &mut Random) -> (Call, Expected) {
    let depth = random.byte(1, DEEPEST);
    let n = models::any_n(random);
    let shape = Shape {
        n,
        i: random.byte(1, n),
        depth,
        order: random.byte(1, 15),
    };
    // Below a multiple of 2^k by 1: the parts sum to c, or to one more where both are
    // halves that go up, and something is left over for the radius.
    let power = depth.max(2);
    let c = (random.between(1, (LARGEST_SPAN / 4) >> power) << power) - 1;
    let sign = random.sign();
    let terms = vec![
        (0, (sign * (LARGEST_SPAN - c)) as i32),
        (models::variable_key(shape.i), (sign * c) as i32),
    ];
    let draft = draft(0, terms);
    let call = made(random, shape, &draft);
    (call, Expected::Refused(7, (1 << depth) - 1))
}

/// U × x^k times monomials, which have so many terms together on every piece; none of
/// these terms is rounded off, as 2^20 is enough for three halvings by 6. The first has
/// no x: it comes with the last sum of Horner's rule only, so that the last product has
/// room for a constant that this sum cancels.
fn filling(random: &mut Random, shape: Shape, keys: &[u32], count: usize) -> Vec<(u32, i32)> {
    let mut left = count;
    let mut terms = Vec::new();
    for &key in keys {
        if left > 0 {
            let most = if terms.is_empty() { 0 } else { 3.min(left - 1) };
            let power = random.size(0, most);
            let coefficient = random.sign() * UNIT;
            terms.push((raised(shape, key, power), coefficient as i32));
            left -= power + 1;
        }
    }
    terms
}

fn terms_at_limit(random: &mut Random) -> (Call, Expected) {
    let depth = random.byte(1, DEEPEST);
    let shape = wide_shape(random, depth);
    let keys = other_keys(random, shape, 64);
    let draft = draft(0, filling(random, shape, &keys, 64));
    (made(random, shape, &draft), ACCEPTED)
}

/// How many leading pieces may have their middles as roots: a polynomial of that
/// degree is exact on every piece if it is a multiple of 2^(k × degree) units.
const MOST_ROOTS: [usize; 7] = [0, 1, 3, 7, 5, 4, 4];

/// c × (x - a_0) × .. × (x - a_(j-1)) with the middles of the first j pieces as
/// roots: these have no constant, piece j has one, and is the first with 65 terms.
fn roots_over(random: &mut Random) -> (Call, Expected) {
    let depth = random.byte(1, DEEPEST);
    let shape = wide_shape(random, depth);
    let j = random.size(0, MOST_ROOTS[usize::from(depth)]);
    let keys = other_keys(random, shape, 65);
    // Two variables have 78 monomials of degree 11 and less, so that some are low.
    let low = |key: &u32| usize::from(models::degree(*key)) + j <= 14;
    let low_keys: Vec<u32> = keys.iter().copied().filter(low).collect();
    let with_roots = *random.pick(&low_keys);
    let others: Vec<u32> = keys.into_iter().filter(|&key| key != with_roots).collect();
    // Coefficients from the constant on, over 2^(k × j).
    let mut product = vec![1_i64];
    for root in 0..j as i64 {
        let middle = 2 * root + 1 - (1 << depth);
        product.push(0);
        for power in (0..product.len()).rev() {
            let lower = if power > 0 { product[power - 1] } else { 0 };
            product[power] = (lower << depth) - middle * product[power];
        }
    }
    let mut terms = filling(random, shape, &others, 64 - j);
    for (power, &c) in product.iter().enumerate().filter(|(_, &c)| c != 0) {
        terms.push((raised(shape, with_roots, power), c as i32));
    }
    let draft = draft(0, terms);
    (made(random, shape, &draft), Expected::Refused(8, j))
}

/// A few units c of 1 + x: the constant c × (2j + 1) / 2^k goes to 0 while it is
/// below a half, and all of the part of x does. 64 terms stand beside it.
fn rounded_over(random: &mut Random) -> (Call, Expected) {
    let depth = random.byte(2, DEEPEST);
    let shape = wide_shape(random, depth);
    let keys = other_keys(random, shape, 65);
    let most = 1 << random.byte(0, depth - 2);
    let c = random.between(1, most);
    let j = (0..).find(|j| c * (2 * j + 1) > 1 << (depth - 1));
    let small = random.sign() * c;
    // Powers of 0 to 3 in so few terms that two more have room.
    let mut terms = filling(random, shape, &keys[1..], 64);
    while terms.len() > 62 {
        terms = filling(random, shape, &keys[1..], 64);
    }
    terms.extend([0, 1].map(|power| (raised(shape, keys[0], power), small as i32)));
    let draft = draft(0, terms);
    let place = j.expect("the second half has such a piece") as usize;
    (made(random, shape, &draft), Expected::Refused(8, place))
}

/// Everything else may be wrong as well.
fn bad_order(random: &mut Random) -> (Call, Expected) {
    let mut call = hostile_call(random);
    call.order = *random.pick(&[0, 16, 17, 128, 255]);
    (call, Expected::Refused(3, 0))
}

fn broken_model(random: &mut Random) -> (Call, Expected) {
    let mut call = sound_call(random);
    match random.below(4) {
        0 => call.f.n = *random.pick(&[0, 9, 255]),
        1 => call.f.radius = (1 << 30) + 1,
        2 => call.f.count = 65,
        _ => {
            call.f.count = call.f.count.max(1);
            call.f.terms[0].coefficient = 0;
        }
    }
    call.i = random.byte(0, 255);
    call.depth = random.byte(0, 255);
    (call, Expected::Refused(5, 0))
}

/// A single power above the order, sound without one.
fn degree_above_order(random: &mut Random) -> (Call, Expected) {
    let order = random.byte(1, 14);
    let n = models::any_n(random);
    let power = random.byte(order + 1, 15);
    let i = random.byte(1, n);
    let key = u32::from(power) * models::variable_key(random.byte(1, n));
    let draft = draft(0, vec![(key, 1)]);
    let depth = random.byte(0, 7);
    let call = made(random, Shape { n, i, depth, order }, &draft);
    (call, Expected::Refused(5, 0))
}

fn bad_variable(random: &mut Random) -> (Call, Expected) {
    let mut call = sound_call(random);
    call.i = match random.below(3) {
        0 => 0,
        1 => call.f.n + 1,
        _ => random.byte(9, 255),
    };
    call.depth = random.byte(0, 255);
    (call, Expected::Refused(6, 0))
}

fn cut_too_deep(random: &mut Random) -> (Call, Expected) {
    let mut call = sound_call(random);
    call.depth = too_deep(random);
    (call, Expected::Refused(14, 0))
}

/// Points of every piece: an end, the middle, or any of its points; the other
/// coordinates are those of a corner or of any point.
pub fn points(random: &mut Random, call: &Call) -> Vec<Point> {
    let n = usize::from(call.f.n);
    let pieces = 1_i128 << call.depth;
    let mut points = Vec::new();
    for j in 0..pieces {
        let mut point = match random.below(2) {
            0 => functions::corner(n, random.size(0, (1 << n) - 1)),
            _ => functions::any_point(random, n),
        };
        let share = match random.below(4) {
            0 => Fraction::of(-1, 1),
            1 => Fraction::of(1, 1),
            2 => Fraction::zero(),
            _ => Fraction::of(random.between(-97, 97).into(), 97),
        };
        let middle = Fraction::of(2 * j + 1 - pieces, pieces);
        let within = &share * &Fraction::of(1, pieces);
        point[usize::from(call.i) - 1] = &middle + &within;
        points.push(point);
    }
    points
}

/// A sound model that a function is wanted for, of any scale but those that drown
/// everything in their radius.
pub fn clear_call(random: &mut Random) -> Call {
    let (n, order) = (random.byte(1, 4), random.byte(1, 15));
    let scale = *random.pick(&[Scale::Tiny, Scale::Unit, Scale::Halves, Scale::Even]);
    let count = random.size(1, 8);
    let draft = models::of_scale(random, n, order, count, scale);
    let i = random.byte(1, n);
    let depth = any_depth(random);
    made(random, Shape { n, i, depth, order }, &draft)
}
