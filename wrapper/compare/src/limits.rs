//! Single calls at the limits: 64 terms, spans about 2^30, degree 15, substituted models that just stay in the box,
//! quotients whose mu is about U, antiderivatives of full spans and of the highest degrees.

use reference::calls::Call;
use reference::generate::hostile;
use reference::generate::models::{self, LARGEST_SPAN, UNIT};
use reference::generate::{DraftModel, Random};
use reference::model::MOST_TERMS;
use reference::stored::StoredModel;

/// A call of any kind that a limit may refuse.
pub fn call(random: &mut Random) -> Call {
    let n = models::any_n(random);
    match random.below(16) {
        0 | 1 => sum(random, n),
        2..=4 => product(random, n),
        5..=7 => substitution(random, n),
        8 => sweep(random, n),
        9 => evaluation(random, n),
        10 | 11 => quotient(random, n),
        12 | 13 => antiderivative(random, n),
        14 => Call::Range {
            f: at_span(random, n, 15),
        },
        _ => Call::Integral {
            f: integrand(random, n),
        },
    }
}

/// Spans that add up to about 2^30, and 64 or 65 monomials between them.
fn sum(random: &mut Random, n: u8) -> Call {
    let first = random.size(0, MOST_TERMS);
    let count = MOST_TERMS + random.size(0, 2);
    let keys = rising_keys(random, n, 15, count);
    let (left, right) = keys.split_at(first.min(keys.len()));
    let shared = random.size(0, 2).min(left.len());
    let mut other: Vec<u32> = right.iter().chain(&left[..shared]).copied().collect();
    other.sort_unstable();
    other.truncate(MOST_TERMS);
    let most = LARGEST_SPAN - MOST_TERMS as i64;
    let part = random.between(MOST_TERMS as i64, most);
    let f = with_span(random, n, left, part);
    let rest = about(random, LARGEST_SPAN) - part;
    let g = with_span(random, n, &other, rest.max(MOST_TERMS as i64));
    if random.one_in(2) {
        Call::Add { f, g }
    } else {
        Call::Subtract { f, g }
    }
}

/// Spans whose product is about 2^30 × U, high degrees, and 8 by 8 terms or 64 by 1 that all stay or nearly.
fn product(random: &mut Random, n: u8) -> Call {
    let order = if random.one_in(3) {
        random.byte(1, 15)
    } else {
        15
    };
    let (a, b) = *random.pick(&[(1, 64), (64, 1), (2, 32), (8, 8), (8, 9), (64, 64), (64, 2)]);
    let degree = if random.one_in(2) {
        order
    } else {
        order.div_ceil(2)
    };
    let exponent = random.byte(14, 30);
    let f_span = about(random, 1 << exponent).clamp(MOST_TERMS as i64, LARGEST_SPAN);
    let g_span =
        about(random, LARGEST_SPAN / f_span.max(1) * UNIT).clamp(MOST_TERMS as i64, LARGEST_SPAN);
    let f_keys = rising_keys(random, n, degree, a);
    let g_keys = rising_keys(random, n, degree, b);
    Call::Multiply {
        f: with_span(random, n, &f_keys, f_span),
        g: with_span(random, n, &g_keys, g_span),
        order,
    }
}

/// High powers of the variable, and a model whose range reaches U or just leaves the box.
fn substitution(random: &mut Random, n: u8) -> Call {
    let order = if random.one_in(3) {
        random.byte(1, 15)
    } else {
        15
    };
    let i = random.byte(1, n);
    let count = random.size(1, 16);
    let mut keys = rising_keys(random, n, order, count);
    keys.push(u32::from(order) * models::variable_key(i));
    keys.sort_unstable();
    keys.dedup();
    let shift = random.byte(0, 12);
    let f_span = about(random, LARGEST_SPAN >> shift).max(MOST_TERMS as i64);
    let few = random.size(0, 6);
    let g_keys = rising_keys(random, n, order, few);
    let g_span = about(random, UNIT).max(g_keys.len() as i64);
    Call::Substitute {
        f: with_span(random, n, &keys, f_span),
        g: with_span(random, n, &g_keys, g_span),
        i,
        order,
    }
}

/// Constants, at times with a term or a radius, whose mu is about U or about 0, and a radius that about fills the span.
fn quotient(random: &mut Random, n: u8) -> Call {
    let order = random.byte(1, 15);
    let distance = match random.below(4) {
        0 => about(random, 0),
        1 => UNIT - random.between(1, 64),
        2 => random.between(0, UNIT),
        _ => about(random, UNIT),
    };
    let divisor = UNIT + random.sign() * distance;
    let mut g = constant(random, n, divisor);
    if random.one_in(4) {
        g = with_distance(random, n, distance);
    }
    // The radius is |h - f / g| at most, times U / (U - mu).
    let room = (UNIT - distance).max(1);
    let most = LARGEST_SPAN * room / UNIT;
    let beta = match random.below(3) {
        0 => about(random, most),
        1 => random.between(0, most),
        _ => about(random, 0),
    };
    let h_size = match random.below(3) {
        0 => 0,
        1 => about(random, LARGEST_SPAN - beta.max(0) * UNIT / room),
        _ => random.between(0, LARGEST_SPAN),
    };
    let h_value = random.sign() * h_size.clamp(0, LARGEST_SPAN);
    let f_value = h_value * divisor / UNIT + random.sign() * beta;
    let one = match random.below(4) {
        0 => about(random, UNIT),
        _ => UNIT,
    };
    let f_value = f_value.clamp(-LARGEST_SPAN, LARGEST_SPAN);
    Call::Quotient {
        f: constant(random, n, f_value),
        g,
        h: constant(random, n, h_value),
        w: constant(random, n, one),
        order,
    }
}

/// A full span, tiny coefficients of which most round, degrees next to the order: what is kept, dropped and swept.
fn antiderivative(random: &mut Random, n: u8) -> Call {
    let order = *random.pick(&[1, 2, 14, 15, 15]);
    let count = *random.pick(&[1, 15, 63, 64]);
    let keys = rising_keys(random, n, order, count);
    let span = match random.below(3) {
        0 => (keys.len() as i64) * 3,
        1 => about(random, UNIT).max(keys.len() as i64),
        _ => about(random, LARGEST_SPAN),
    };
    Call::Antiderivative {
        f: with_span(random, n, &keys, span),
        i: random.byte(1, n),
        order,
    }
}

/// One term of key 0, or none.
fn constant(random: &mut Random, n: u8, value: i64) -> Box<StoredModel> {
    let terms: &[(u16, i32)] = &[(0, value as i32)];
    let draft = DraftModel::new(0, if value == 0 { &[] } else { terms });
    Box::new(hostile::stored(random, n, &draft))
}

/// 1 and a variable, or 1 with a radius: mu is the distance.
fn with_distance(random: &mut Random, n: u8, distance: i64) -> Box<StoredModel> {
    let size = distance.max(0);
    let variable = models::variable_key(random.byte(1, n));
    let draft = if size > 0 && random.one_in(2) {
        DraftModel::wide(
            0,
            &[(0, UNIT as i32), (variable, (random.sign() * size) as i32)],
        )
    } else {
        DraftModel::new(size as u32, &[(0, UNIT as i32)])
    };
    Box::new(hostile::stored(random, n, &draft))
}

/// A threshold that is some coefficient's size, or next to it.
fn sweep(random: &mut Random, n: u8) -> Call {
    let f = at_span(random, n, 15);
    let place = random.size(0, f.count.clamp(1, MOST_TERMS) - 1);
    let size = f.terms[place].coefficient.saturating_abs();
    let threshold = match random.below(4) {
        0 => about(random, 0),
        1 => about(random, LARGEST_SPAN),
        _ => about(random, size),
    };
    Call::Sweep { f, threshold }
}

/// The corners of the box and their neighbours.
fn evaluation(random: &mut Random, n: u8) -> Call {
    let f = at_span(random, n, 15);
    let point = std::array::from_fn(|index| {
        if index < usize::from(n) {
            random.sign() * (UNIT - random.between(0, 1) * random.between(-1, 2))
        } else {
            0
        }
    });
    Call::Evaluate { f, point }
}

/// A model of a full span, or of even exponents alone, of which every term counts.
fn integrand(random: &mut Random, n: u8) -> Box<StoredModel> {
    if random.one_in(2) {
        return at_span(random, n, 15);
    }
    let count = *random.pick(&[1, 2, 15, 64]);
    let halves = rising_keys(random, n, 7, count);
    let keys: Vec<u32> = halves.into_iter().map(|key| 2 * key).collect();
    let span = match random.below(3) {
        0 => (keys.len() as i64) * 3,
        1 => about(random, UNIT).max(keys.len() as i64),
        _ => about(random, LARGEST_SPAN),
    };
    with_span(random, n, &keys, span)
}

/// A model of up to 64 terms and a span of about 2^30.
fn at_span(random: &mut Random, n: u8, order: u8) -> Box<StoredModel> {
    let count = *random.pick(&[0, 1, 15, 63, 64]);
    let keys = rising_keys(random, n, order, count);
    let span = about(random, LARGEST_SPAN);
    with_span(random, n, &keys, span)
}

fn rising_keys(random: &mut Random, n: u8, degree: u8, count: usize) -> Vec<u32> {
    models::keys(random, n, degree, count)
}

fn about(random: &mut Random, number: i64) -> i64 {
    number + random.between(-1, 1)
}

/// A model of these keys whose span is exactly this, which leaves at least 1 for each coefficient. What is left is the
/// radius, or goes into the last coefficient.
fn with_span(random: &mut Random, n: u8, keys: &[u32], span: i64) -> Box<StoredModel> {
    let keys = &keys[..keys.len().min(MOST_TERMS)];
    let mut left = span;
    let mut terms = Vec::new();
    let even = random.one_in(2);
    for (index, &key) in keys.iter().enumerate() {
        let later = (keys.len() - index - 1) as i64;
        let most = left - later;
        let share = if even { most / (later + 1) } else { most };
        let last = later == 0 && random.one_in(2);
        let size = if last {
            most
        } else {
            random.between(1, share.max(1))
        };
        left -= size;
        terms.push((key, (size * random.sign()) as i32));
    }
    let draft = DraftModel {
        radius: u32::try_from(left).unwrap_or(0),
        terms,
    };
    Box::new(hostile::stored(random, n, &draft))
}
