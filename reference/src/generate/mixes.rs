//! Sheets with a product or a substitution whose radius came from chosen shares:
//! carried, rounding and swept each alone and in every mix, with slack and
//! without.
//!
//! A factor of one term with coefficient 1 or -1 and radius 0 leaves all numbers
//! of the other one as they are: its radius is carried, what its kept
//! coefficients are above or below a whole number of units is rounded, and its
//! coefficients above the order are swept.

use super::draft::{Draft, DraftModel};
use super::models::{self, LARGEST_SPAN, UNIT};
use super::random::Random;
use super::sound::{self, SMALL};
use super::{Expected, Kind};
use crate::book::{Step, ADD, MULTIPLY};

pub const KINDS: [Kind; 2] = [
    Kind {
        name: "a product of chosen shares",
        make: product,
    },
    Kind {
        name: "a substitution of chosen shares",
        make: substitution,
    },
];

type Made = (Vec<u8>, Expected);

/// Which shares a row is to have. Slack comes only beside others.
#[derive(Clone, Copy, Debug)]
struct Mix {
    carried: bool,
    rounding: bool,
    swept: bool,
    slack: bool,
}

impl Mix {
    fn any(random: &mut Random) -> Mix {
        Mix {
            carried: random.one_in(2),
            rounding: random.one_in(2),
            swept: random.one_in(2),
            slack: random.one_in(2),
        }
    }
}

/// The sizes of the shares; what is rounded comes from one coefficient or two.
#[derive(Debug, Default)]
struct Sizes {
    carried: i64,
    rounded: Vec<i64>,
    swept: i64,
}

/// Sizes that fill up to so many units, to the last one if there is no slack.
fn sizes(random: &mut Random, mix: Mix, most_units: i64) -> Sizes {
    if !(mix.carried || mix.rounding || mix.swept) {
        return Sizes::default();
    }
    // Two coefficients can be off by half a unit each.
    let rounding_alone = !(mix.carried || mix.swept);
    let units = if rounding_alone {
        1
    } else {
        random.between(1, most_units)
    };
    let total = if mix.slack {
        units * UNIT - random.between(1, UNIT - 3)
    } else {
        units * UNIT
    };
    let rounding = match (mix.rounding, rounding_alone) {
        (false, _) => 0,
        (true, true) => total,
        (true, false) => random.between(1, (total - 2).min(UNIT)),
    };
    let rest = total - rounding;
    let carried = match (mix.carried, mix.swept) {
        (false, _) => 0,
        (true, false) => rest,
        (true, true) => random.between(1, rest - 1),
    };
    Sizes {
        carried,
        rounded: parted(random, rounding),
        swept: rest - carried,
    }
}

/// In parts of half a unit at most.
fn parted(random: &mut Random, size: i64) -> Vec<i64> {
    let half = UNIT / 2;
    if size == 0 {
        return Vec::new();
    }
    if size == 1 || size <= half && random.one_in(2) {
        return vec![size];
    }
    let first = random.between((size - half).max(1), half.min(size - 1));
    vec![first, size - first]
}

/// A key of n exponents whose degree is from the low to the high one.
fn key(random: &mut Random, n: u8, low: u8, high: u8) -> u32 {
    loop {
        let key = models::key(random, n, high);
        if models::degree(key) >= low {
            return key;
        }
    }
}

/// The factor whose numbers are the sizes, where the other one has this degree.
/// Kept coefficients are next to so many units, which cost nothing.
fn factor(random: &mut Random, sizes: &Sizes, n: u8, d: u8, other: u8, units: i64) -> DraftModel {
    let mut terms = Vec::new();
    while terms.len() < sizes.rounded.len() {
        let kept = key(random, n, 0, d - other);
        if terms.iter().all(|(key, _)| *key != kept) {
            let whole = random.between(-units, units) * UNIT;
            let rounded = sizes.rounded[terms.len()] * random.sign();
            terms.push((kept, (whole + rounded) as i32));
        }
    }
    if sizes.swept > 0 {
        let swept = key(random, n, d - other + 1, d);
        terms.push((swept, (sizes.swept * random.sign()) as i32));
    }
    terms.sort_unstable();
    DraftModel::wide(sizes.carried as u32, &terms)
}

/// A few accepted steps, n and order with room for what follows.
fn before(random: &mut Random, least_n: u8) -> Draft {
    let n = random.byte(least_n, 8);
    let d = random.byte(2, 15);
    sound::accepted_of(random, n, d, SMALL)
}

/// The sheet, at times with a sum above the span after its last step.
fn ended(random: &mut Random, mut draft: Draft) -> Made {
    if !random.one_in(4) {
        return (draft.bytes(), Expected::Accepted);
    }
    let largest = draft.push(Step::constant(LARGEST_SPAN as i32));
    draft.push(Step::two(ADD, largest, largest));
    let place = draft.steps.len() - 1;
    if random.one_in(2) {
        draft.push(Step::one(crate::book::NEGATE, 0));
    }
    (draft.bytes(), Expected::Refused(7, place))
}

fn product(random: &mut Random) -> Made {
    let mut draft = before(random, 1);
    let (n, d) = (draft.n, draft.d);
    let other = random.byte(1, d - 1);
    let mix = Mix::any(random);
    let sizes = sizes(random, mix, 3);
    let single = DraftModel::wide(0, &[(key(random, n, other, other), random.sign() as i32)]);
    let factor = factor(random, &sizes, n, d, other, 2);
    let a = draft.push_input(single);
    let b = draft.push_input(factor);
    let (a, b) = if random.one_in(2) { (a, b) } else { (b, a) };
    draft.push(Step::two(MULTIPLY, a, b));
    ended(random, draft)
}

/// One variable times a monomial of the others, by turns with a constant part:
/// one product is made, of that monomial and what is put in, which stays in the
/// box.
fn substitution(random: &mut Random) -> Made {
    let mut draft = before(random, 2);
    let (n, d) = (draft.n, draft.d);
    let v = random.byte(1, n);
    let other = random.byte(1, d - 1);
    // The monomial has the variable's exponent 0, and then 1.
    let rest = loop {
        let rest = key(random, n, other, other);
        if rest & (models::variable_key(v) * 15) == 0 {
            break rest;
        }
    };
    let mix = Mix::any(random);
    let sizes = sizes(random, mix, 1);
    let mut terms = vec![(rest + models::variable_key(v), random.sign() as i32)];
    if random.one_in(2) {
        terms.insert(0, (0, random.between(1, UNIT) as i32));
    }
    let radius = if mix.carried && random.one_in(2) {
        random.between(1, UNIT)
    } else {
        0
    };
    let a = draft.push_input(DraftModel::wide(radius as u32, &terms));
    let factor = factor(random, &sizes, n, d, other, 0);
    let b = draft.push_input(factor);
    draft.push(Step::substitute(a, b, v));
    ended(random, draft)
}
