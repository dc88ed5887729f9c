//! Whole numbers of any size, by the schoolbook methods.

use std::cmp::Ordering;
use std::ops::{Add, Mul, Neg, Sub};

/// A whole number: a sign and limbs of 32 bits, lowest first. The highest limb
/// is not 0 and zero is not negative, so that equal numbers are equal values.
#[derive(Clone, Debug, PartialEq, Eq, Hash)]
pub struct Integer {
    negative: bool,
    limbs: Vec<u32>,
}

impl Integer {
    pub fn zero() -> Integer {
        Integer::signed(false, Vec::new())
    }

    pub fn one() -> Integer {
        Integer::from(1)
    }

    pub fn power_of_two(exponent: usize) -> Integer {
        Integer::signed(false, shifted_left(&[1], exponent))
    }

    fn signed(negative: bool, mut limbs: Vec<u32>) -> Integer {
        while limbs.last() == Some(&0) {
            limbs.pop();
        }
        Integer {
            negative: negative && !limbs.is_empty(),
            limbs,
        }
    }

    pub fn is_zero(&self) -> bool {
        self.limbs.is_empty()
    }

    pub fn is_one(&self) -> bool {
        !self.negative && self.limbs == [1]
    }

    pub fn is_negative(&self) -> bool {
        self.negative
    }

    pub fn abs(&self) -> Integer {
        Integer::signed(false, self.limbs.clone())
    }

    /// How many bits the size takes.
    pub fn bits(&self) -> usize {
        match self.limbs.last() {
            Some(highest) => 32 * self.limbs.len() - highest.leading_zeros() as usize,
            None => 0,
        }
    }

    /// The powers 0 to `largest`.
    pub fn powers(&self, largest: usize) -> Vec<Integer> {
        let mut powers = vec![Integer::one()];
        for k in 0..largest {
            powers.push(&powers[k] * self);
        }
        powers
    }

    /// The quotient of sizes, where the divisor is known to divide; the sign
    /// stays.
    pub fn divided_exactly(&self, divisor: &Integer) -> Integer {
        let (quotient, rest) = divided(&self.limbs, &divisor.limbs);
        debug_assert!(rest.iter().all(|&limb| limb == 0));
        Integer::signed(self.negative, quotient)
    }

    /// The greatest common divisor of the sizes. Common powers of two are taken
    /// out first, as most denominators are nothing else.
    pub fn greatest_common_divisor(&self, other: &Integer) -> Integer {
        if self.is_zero() {
            return other.abs();
        }
        if other.is_zero() {
            return self.abs();
        }
        let (mine, theirs) = (self.trailing_zeros(), other.trailing_zeros());
        let mut a = Integer::signed(false, shifted_right(&self.limbs, mine));
        let mut b = Integer::signed(false, shifted_right(&other.limbs, theirs));
        while !b.is_zero() && !b.is_one() {
            let (_, rest) = divided(&a.limbs, &b.limbs);
            a = std::mem::replace(&mut b, Integer::signed(false, rest));
        }
        let odd = if b.is_one() { b } else { a };
        Integer::signed(false, shifted_left(&odd.limbs, mine.min(theirs)))
    }

    /// The power of two in a number that is not 0.
    fn trailing_zeros(&self) -> usize {
        let whole = self.limbs.iter().take_while(|&&limb| limb == 0).count();
        32 * whole + self.limbs[whole].trailing_zeros() as usize
    }

    /// A number that depends on the value only.
    pub fn fingerprint(&self) -> u64 {
        let start = u64::from(self.negative) + 0xCBF2_9CE4_8422_2325;
        self.limbs.iter().fold(start, |hash, &limb| {
            (hash ^ u64::from(limb)).wrapping_mul(0x0000_0100_0000_01B3)
        })
    }
}

impl From<i128> for Integer {
    fn from(number: i128) -> Self {
        let size = number.unsigned_abs();
        let limbs = (0..4).map(|i| (size >> (32 * i)) as u32).collect();
        Integer::signed(number < 0, limbs)
    }
}

impl Neg for &Integer {
    type Output = Integer;

    fn neg(self) -> Integer {
        Integer::signed(!self.negative, self.limbs.clone())
    }
}

impl Add for &Integer {
    type Output = Integer;

    fn add(self, other: &Integer) -> Integer {
        if self.negative == other.negative {
            return Integer::signed(self.negative, sum(&self.limbs, &other.limbs));
        }
        match compare(&self.limbs, &other.limbs) {
            Ordering::Less => {
                Integer::signed(other.negative, difference(&other.limbs, &self.limbs))
            }
            _ => Integer::signed(self.negative, difference(&self.limbs, &other.limbs)),
        }
    }
}

impl Sub for &Integer {
    type Output = Integer;

    fn sub(self, other: &Integer) -> Integer {
        self + &-other
    }
}

impl Mul for &Integer {
    type Output = Integer;

    fn mul(self, other: &Integer) -> Integer {
        let limbs = product(&self.limbs, &other.limbs);
        Integer::signed(self.negative != other.negative, limbs)
    }
}

impl Ord for Integer {
    fn cmp(&self, other: &Integer) -> Ordering {
        match (self.negative, other.negative) {
            (false, true) => Ordering::Greater,
            (true, false) => Ordering::Less,
            (false, false) => compare(&self.limbs, &other.limbs),
            (true, true) => compare(&other.limbs, &self.limbs),
        }
    }
}

impl PartialOrd for Integer {
    fn partial_cmp(&self, other: &Integer) -> Option<Ordering> {
        Some(self.cmp(other))
    }
}

/// Compares sizes without leading zeros.
fn compare(a: &[u32], b: &[u32]) -> Ordering {
    let by_length = a.len().cmp(&b.len());
    by_length.then_with(|| a.iter().rev().cmp(b.iter().rev()))
}

fn sum(a: &[u32], b: &[u32]) -> Vec<u32> {
    let mut limbs = Vec::with_capacity(a.len().max(b.len()) + 1);
    let mut carry = 0;
    for i in 0..a.len().max(b.len()) {
        let total = carry + limb(a, i) + limb(b, i);
        limbs.push(total as u32);
        carry = total >> 32;
    }
    limbs.push(carry as u32);
    limbs
}

fn limb(limbs: &[u32], i: usize) -> u64 {
    limbs.get(i).map_or(0, |&limb| u64::from(limb))
}

/// The difference of sizes, where the first is not the smaller one.
fn difference(a: &[u32], b: &[u32]) -> Vec<u32> {
    let mut limbs = Vec::with_capacity(a.len());
    let mut borrow = 0;
    for i in 0..a.len() {
        let total = (1 << 32) + limb(a, i) - limb(b, i) - borrow;
        limbs.push(total as u32);
        borrow = 1 - (total >> 32);
    }
    limbs
}

fn product(a: &[u32], b: &[u32]) -> Vec<u32> {
    let mut limbs = vec![0; a.len() + b.len()];
    for (i, &x) in a.iter().enumerate() {
        let mut carry = 0;
        for (j, &y) in b.iter().enumerate() {
            let total = u64::from(limbs[i + j]) + u64::from(x) * u64::from(y) + carry;
            limbs[i + j] = total as u32;
            carry = total >> 32;
        }
        limbs[i + b.len()] = carry as u32;
    }
    limbs
}

fn shifted_left(limbs: &[u32], bits: usize) -> Vec<u32> {
    let mut shifted = vec![0; bits / 32];
    let mut carry = 0;
    for &limb in limbs {
        let wide = u64::from(limb) << (bits % 32) | carry;
        shifted.push(wide as u32);
        carry = wide >> 32;
    }
    shifted.push(carry as u32);
    shifted
}

fn shifted_right(limbs: &[u32], bits: usize) -> Vec<u32> {
    let kept = &limbs[bits / 32..];
    (0..kept.len())
        .map(|i| ((limb(kept, i) | limb(kept, i + 1) << 32) >> (bits % 32)) as u32)
        .collect()
}

/// Quotient and rest of sizes; the divisor is not 0.
fn divided(a: &[u32], b: &[u32]) -> (Vec<u32>, Vec<u32>) {
    if compare(a, b) == Ordering::Less {
        return (Vec::new(), a.to_vec());
    }
    if b.len() == 1 {
        return divided_by_limb(a, b[0]);
    }
    // The highest bit of the divisor must be set for the guesses below to be
    // at most two too large (Knuth, volume 2, algorithm D).
    let shift = b[b.len() - 1].leading_zeros() as usize;
    let divisor = &shifted_left(b, shift)[..b.len()];
    let mut rest = shifted_left(a, shift);
    let places = rest.len() - divisor.len();
    let mut quotient = vec![0; places];
    for place in (0..places).rev() {
        let window = &mut rest[place..=place + divisor.len()];
        quotient[place] = take_out(window, divisor);
    }
    (quotient, shifted_right(&rest[..divisor.len()], shift))
}

fn divided_by_limb(a: &[u32], divisor: u32) -> (Vec<u32>, Vec<u32>) {
    let mut quotient = vec![0; a.len()];
    let mut rest = 0;
    for i in (0..a.len()).rev() {
        let wide = rest << 32 | u64::from(a[i]);
        quotient[i] = (wide / u64::from(divisor)) as u32;
        rest = wide % u64::from(divisor);
    }
    (quotient, vec![rest as u32])
}

/// Takes the divisor out of a window one limb longer as often as it goes, and
/// gives how often that is.
fn take_out(window: &mut [u32], divisor: &[u32]) -> u32 {
    let mut times = guess(window, divisor);
    let mut borrow = subtract_times(window, divisor, times);
    while borrow {
        times -= 1;
        borrow = !add_back(window, divisor);
    }
    times as u32
}

/// How often the divisor goes, or at most two more: judged by the two highest
/// limbs of the window and the highest limb of the divisor.
fn guess(window: &[u32], divisor: &[u32]) -> u64 {
    let n = divisor.len();
    let head = u64::from(window[n]) << 32 | u64::from(window[n - 1]);
    (head / u64::from(divisor[n - 1])).min(u64::from(u32::MAX))
}

/// Subtracts a multiple in place, and tells whether it ran below 0.
fn subtract_times(window: &mut [u32], divisor: &[u32], times: u64) -> bool {
    let mut carry = 0;
    let mut borrow = 0;
    for (i, place) in window.iter_mut().enumerate() {
        let multiple = limb(divisor, i) * times + carry;
        carry = multiple >> 32;
        let total = (1 << 32) + u64::from(*place) - (multiple & 0xFFFF_FFFF) - borrow;
        *place = total as u32;
        borrow = 1 - (total >> 32);
    }
    borrow == 1
}

/// Adds the divisor back in place, and tells whether the window came up to 0
/// or above again.
fn add_back(window: &mut [u32], divisor: &[u32]) -> bool {
    let mut carry = 0;
    for (i, place) in window.iter_mut().enumerate() {
        let total = u64::from(*place) + limb(divisor, i) + carry;
        *place = total as u32;
        carry = total >> 32;
    }
    carry == 1
}

#[cfg(test)]
mod tests {
    use super::*;
    use crate::generate::random::Random;

    fn wide(random: &mut Random) -> i128 {
        let number = i128::from(random.next_u64()) << 64 | i128::from(random.next_u64());
        // Shifts give numbers of every length, with runs of zeros at the end.
        (number >> random.below(127)) << (random.below(3) * 20 % 40)
    }

    #[test]
    fn agrees_with_machine_integers() {
        let mut random = Random::new(1);
        for _ in 0..20_000 {
            let (a, b) = (wide(&mut random) >> 66, wide(&mut random) >> 66);
            let (x, y) = (Integer::from(a), Integer::from(b));
            assert_eq!(&x + &y, Integer::from(a + b));
            assert_eq!(&x - &y, Integer::from(a - b));
            assert_eq!(&x * &y, Integer::from(a * b));
            assert_eq!(x.cmp(&y), a.cmp(&b));
        }
    }

    #[test]
    fn division_undoes_multiplication() {
        let mut random = Random::new(2);
        for _ in 0..20_000 {
            let x = &Integer::from(wide(&mut random)) * &Integer::from(wide(&mut random));
            let y = Integer::from(wide(&mut random));
            if y.is_zero() {
                continue;
            }
            let (quotient, rest) = divided(&x.limbs, &y.limbs);
            let quotient = Integer::signed(false, quotient);
            let rest = Integer::signed(false, rest);
            assert!(rest < y.abs());
            assert_eq!(&(&quotient * &y.abs()) + &rest, x.abs());
            assert_eq!((&x * &y).divided_exactly(&y).abs(), x.abs());
        }
    }

    #[test]
    fn guesses_that_are_too_large_are_undone() {
        // Limbs at the extremes make the guess miss by one and by two.
        let extremes = [0, 1, 0x7FFF_FFFF, 0x8000_0000, 0xFFFF_FFFE, 0xFFFF_FFFF];
        let mut random = Random::new(3);
        for _ in 0..50_000 {
            let mut limbs = |most: u64| -> Vec<u32> {
                let count = 1 + random.below(most);
                (0..count).map(|_| *random.pick(&extremes)).collect()
            };
            let x = Integer::signed(false, limbs(7));
            let y = Integer::signed(false, limbs(4));
            if y.is_zero() {
                continue;
            }
            let (quotient, rest) = divided(&x.limbs, &y.limbs);
            let rest = Integer::signed(false, rest);
            assert!(rest < y);
            assert_eq!(&(&Integer::signed(false, quotient) * &y) + &rest, x);
        }
    }

    #[test]
    fn common_divisors_are_greatest() {
        let mut random = Random::new(4);
        for _ in 0..5_000 {
            let (a, b) = (wide(&mut random), wide(&mut random));
            let expected = euclid(a.unsigned_abs(), b.unsigned_abs());
            let found = Integer::from(a).greatest_common_divisor(&Integer::from(b));
            assert_eq!(found.limbs, Integer::from(expected as i128).limbs);
        }
    }

    fn euclid(a: u128, b: u128) -> u128 {
        if b == 0 {
            a
        } else {
            euclid(b, a % b)
        }
    }
}
