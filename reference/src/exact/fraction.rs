//! Exact fractions.

use super::integer::Integer;
use std::cmp::Ordering;
use std::ops::{Add, Mul, Neg, Sub};

/// A whole number over a whole number from 1, in lowest terms, so that equal
/// fractions are equal values.
#[derive(Clone, Debug, PartialEq, Eq)]
pub struct Fraction {
    numerator: Integer,
    denominator: Integer,
}

impl Fraction {
    /// Brings a fraction to lowest terms. The denominator is from 1.
    pub fn new(numerator: Integer, denominator: Integer) -> Fraction {
        assert!(!denominator.is_zero() && !denominator.is_negative());
        let common = numerator.greatest_common_divisor(&denominator);
        if common.is_one() {
            return Fraction {
                numerator,
                denominator,
            };
        }
        Fraction {
            numerator: numerator.divided_exactly(&common),
            denominator: denominator.divided_exactly(&common),
        }
    }

    pub fn of(numerator: i128, denominator: i128) -> Fraction {
        Fraction::new(Integer::from(numerator), Integer::from(denominator))
    }

    pub fn zero() -> Fraction {
        Fraction::of(0, 1)
    }

    pub fn one() -> Fraction {
        Fraction::of(1, 1)
    }

    pub fn numerator(&self) -> &Integer {
        &self.numerator
    }

    pub fn denominator(&self) -> &Integer {
        &self.denominator
    }

    pub fn abs(&self) -> Fraction {
        Fraction {
            numerator: self.numerator.abs(),
            denominator: self.denominator.clone(),
        }
    }

    /// The quotient, or none if the divisor is 0.
    pub fn divided_by(&self, divisor: &Fraction) -> Option<Fraction> {
        if divisor.numerator.is_zero() {
            return None;
        }
        let numerator = &self.numerator * &divisor.denominator;
        let denominator = &self.denominator * &divisor.numerator;
        // The sign stands above, as a denominator is from 1.
        let numerator = if denominator.is_negative() {
            -&numerator
        } else {
            numerator
        };
        Some(Fraction::new(numerator, denominator.abs()))
    }

    /// How many bits the larger of the two numbers takes.
    pub fn bits(&self) -> usize {
        self.numerator.bits().max(self.denominator.bits())
    }

    /// Whether this is a coordinate of a point of the box.
    pub fn is_in_box(&self) -> bool {
        self.numerator.abs() <= self.denominator
    }

    /// A number that depends on the value only, however it was written.
    pub fn fingerprint(&self) -> u64 {
        let numerator = self.numerator.fingerprint();
        numerator.rotate_left(23) ^ self.denominator.fingerprint()
    }
}

impl Neg for &Fraction {
    type Output = Fraction;

    fn neg(self) -> Fraction {
        Fraction {
            numerator: -&self.numerator,
            denominator: self.denominator.clone(),
        }
    }
}

impl Add for &Fraction {
    type Output = Fraction;

    fn add(self, other: &Fraction) -> Fraction {
        let left = &self.numerator * &other.denominator;
        let right = &other.numerator * &self.denominator;
        Fraction::new(&left + &right, &self.denominator * &other.denominator)
    }
}

impl Sub for &Fraction {
    type Output = Fraction;

    fn sub(self, other: &Fraction) -> Fraction {
        self + &-other
    }
}

impl Mul for &Fraction {
    type Output = Fraction;

    fn mul(self, other: &Fraction) -> Fraction {
        Fraction::new(
            &self.numerator * &other.numerator,
            &self.denominator * &other.denominator,
        )
    }
}

impl Ord for Fraction {
    fn cmp(&self, other: &Fraction) -> Ordering {
        let left = &self.numerator * &other.denominator;
        let right = &other.numerator * &self.denominator;
        left.cmp(&right)
    }
}

impl PartialOrd for Fraction {
    fn partial_cmp(&self, other: &Fraction) -> Option<Ordering> {
        Some(self.cmp(other))
    }
}

#[cfg(test)]
mod tests {
    use super::*;

    #[test]
    fn equal_fractions_are_one_value() {
        assert_eq!(Fraction::of(6, 4), Fraction::of(3, 2));
        assert_eq!(Fraction::of(0, 9), Fraction::zero());
        assert_eq!(
            Fraction::of(-6, 4).fingerprint(),
            Fraction::of(-3, 2).fingerprint()
        );
    }

    #[test]
    fn arithmetic_on_thirds_and_halves() {
        let (third, half) = (Fraction::of(1, 3), Fraction::of(1, 2));
        assert_eq!(&third + &half, Fraction::of(5, 6));
        assert_eq!(&third - &half, Fraction::of(-1, 6));
        assert_eq!(&third * &half, Fraction::of(1, 6));
        let minus = Fraction::of(-1, 6);
        assert_eq!(third.divided_by(&half), Some(Fraction::of(2, 3)));
        assert_eq!(half.divided_by(&minus), Some(Fraction::of(-3, 1)));
        assert_eq!(minus.divided_by(&minus), Some(Fraction::one()));
        assert_eq!(half.divided_by(&Fraction::zero()), None);
        assert!(third < half && -&third > -&half);
        assert!(Fraction::of(-1, 1).is_in_box() && !Fraction::of(-8, 7).is_in_box());
    }
}
