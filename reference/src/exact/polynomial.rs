//! Polynomials with fraction coefficients, of any degree and number of terms.

use super::fraction::Fraction;
use super::integer::Integer;
use super::outcome::Point;
use crate::model::{Model, MOST_VARIABLES, UNIT};
use std::collections::BTreeMap;

type Exponents = [u32; MOST_VARIABLES];

/// Whole coefficients over one common denominator from 1.
#[derive(Clone, Debug)]
pub struct ExactPolynomial {
    terms: BTreeMap<Exponents, Integer>,
    denominator: Integer,
}

/// Where exact work stops. A chain of 64 squarings has an outcome that no
/// machine can write down, so that some checks must be given up.
#[derive(Clone, Copy, Debug)]
pub struct SizeLimit {
    pub terms: usize,
    pub degree: u32,
    pub bits: usize,
    /// How many points a single outcome may visit through substitutions.
    pub points: usize,
}

impl Default for SizeLimit {
    fn default() -> Self {
        SizeLimit {
            terms: 300,
            degree: 48,
            bits: 6_000,
            points: 64,
        }
    }
}

impl ExactPolynomial {
    pub fn zero() -> ExactPolynomial {
        ExactPolynomial {
            terms: BTreeMap::new(),
            denominator: Integer::one(),
        }
    }

    pub fn constant(value: &Fraction) -> ExactPolynomial {
        ExactPolynomial::term([0; MOST_VARIABLES], value)
    }

    /// Variable i, from 1.
    pub fn variable(i: usize) -> ExactPolynomial {
        let mut exponents = [0; MOST_VARIABLES];
        exponents[i - 1] = 1;
        ExactPolynomial::term(exponents, &Fraction::one())
    }

    pub fn term(exponents: Exponents, coefficient: &Fraction) -> ExactPolynomial {
        let mut polynomial = ExactPolynomial {
            terms: BTreeMap::from([(exponents, coefficient.numerator().clone())]),
            denominator: coefficient.denominator().clone(),
        };
        polynomial.drop_zeros();
        polynomial
    }

    /// The polynomial of a model, without its radius.
    pub fn of_model(model: &Model) -> ExactPolynomial {
        let terms = model.polynomial.iter();
        ExactPolynomial {
            terms: terms
                .map(|(monomial, &c)| (monomial.map(u32::from), Integer::from(c)))
                .collect(),
            denominator: Integer::from(UNIT),
        }
    }

    fn drop_zeros(&mut self) {
        self.terms.retain(|_, c| !c.is_zero());
    }

    pub fn negated(&self) -> ExactPolynomial {
        ExactPolynomial {
            terms: self.terms.iter().map(|(&e, c)| (e, -c)).collect(),
            denominator: self.denominator.clone(),
        }
    }

    pub fn plus(&self, other: &ExactPolynomial) -> ExactPolynomial {
        let common = self.denominator.greatest_common_divisor(&other.denominator);
        let mine = other.denominator.divided_exactly(&common);
        let theirs = self.denominator.divided_exactly(&common);
        let mut total = ExactPolynomial {
            terms: self.terms.iter().map(|(&e, c)| (e, c * &mine)).collect(),
            denominator: &self.denominator * &mine,
        };
        for (&exponents, c) in &other.terms {
            total.add_term(exponents, &(c * &theirs));
        }
        total.drop_zeros();
        total
    }

    fn add_term(&mut self, exponents: Exponents, c: &Integer) {
        let place = self.terms.entry(exponents).or_insert_with(Integer::zero);
        *place = &*place + c;
    }

    /// The product, or none if it is above the limit.
    pub fn times(&self, other: &ExactPolynomial, limit: &SizeLimit) -> Option<ExactPolynomial> {
        let mut total = ExactPolynomial {
            terms: BTreeMap::new(),
            denominator: &self.denominator * &other.denominator,
        };
        for (left, a) in &self.terms {
            for (right, b) in &other.terms {
                let exponents = std::array::from_fn(|i| left[i] + right[i]);
                total.add_term(exponents, &(a * b));
            }
            if total.terms.len() > limit.terms {
                return None;
            }
        }
        total.drop_zeros();
        total.is_within(limit).then_some(total)
    }

    fn is_within(&self, limit: &SizeLimit) -> bool {
        let degree = |exponents: &Exponents| exponents.iter().sum::<u32>();
        self.terms.len() <= limit.terms
            && self.denominator.bits() <= limit.bits
            && self.terms.keys().all(|e| degree(e) <= limit.degree)
            && self.terms.values().all(|c| c.bits() <= limit.bits)
    }

    /// Puts g for variable i (from 1), or none if that is above the limit.
    pub fn substituted(
        &self,
        i: usize,
        g: &ExactPolynomial,
        limit: &SizeLimit,
    ) -> Option<ExactPolynomial> {
        let parts = self.split(i);
        let largest = parts.keys().next_back().copied().unwrap_or(0);
        let mut total = ExactPolynomial::zero();
        for k in (0..=largest).rev() {
            total = total.times(g, limit)?;
            if let Some(part) = parts.get(&k) {
                total = total.plus(part);
            }
        }
        Some(total)
    }

    /// The antiderivative in variable i (from 1) that is zero wherever that
    /// variable is 0, or none if it is above the limit.
    pub fn antiderivative(&self, i: usize, limit: &SizeLimit) -> Option<ExactPolynomial> {
        let raised = |exponents: &Exponents| {
            let mut raised = *exponents;
            raised[i - 1] += 1;
            raised
        };
        // Every coefficient goes over one multiple of all new exponents.
        let multiple = self.terms.keys().fold(Integer::one(), |multiple, e| {
            let k = Integer::from(i128::from(e[i - 1]) + 1);
            let common = multiple.greatest_common_divisor(&k);
            &multiple * &k.divided_exactly(&common)
        });
        let share = |(exponents, c): (&Exponents, &Integer)| {
            let raised = raised(exponents);
            let k = Integer::from(i128::from(raised[i - 1]));
            (raised, c * &multiple.divided_exactly(&k))
        };
        let total = ExactPolynomial {
            terms: self.terms.iter().map(share).collect(),
            denominator: &self.denominator * &multiple,
        };
        total.is_within(limit).then_some(total)
    }

    /// What multiplies each power of variable i (from 1).
    fn split(&self, i: usize) -> BTreeMap<u32, ExactPolynomial> {
        let mut parts = BTreeMap::new();
        for (exponents, c) in &self.terms {
            let mut rest = *exponents;
            let k = std::mem::take(&mut rest[i - 1]);
            let part = parts.entry(k).or_insert_with(|| ExactPolynomial {
                terms: BTreeMap::new(),
                denominator: self.denominator.clone(),
            });
            part.terms.insert(rest, c.clone());
        }
        parts
    }

    /// The value at a point. All powers are brought over one denominator, so
    /// that lowest terms are sought only once.
    pub fn at(&self, point: &Point) -> Fraction {
        let largest = self.largest_exponents();
        let powers: [Powers; MOST_VARIABLES] =
            std::array::from_fn(|i| Powers::of(&point[i], largest[i]));
        let mut numerator = Integer::zero();
        for (exponents, c) in &self.terms {
            let mut value = c.clone();
            for (power, &k) in powers.iter().zip(exponents) {
                value = power.scale(&value, k as usize);
            }
            numerator = &numerator + &value;
        }
        let denominator = powers.iter().fold(self.denominator.clone(), |d, power| {
            &d * power.denominator()
        });
        Fraction::new(numerator, denominator)
    }

    fn largest_exponents(&self) -> Exponents {
        std::array::from_fn(|i| self.terms.keys().map(|e| e[i]).max().unwrap_or(0))
    }

    /// An upper bound of the bits of the denominator at a point.
    pub fn bits_at(&self, point: &Point) -> usize {
        let powers = point.iter().zip(self.largest_exponents());
        let bits: usize = powers.map(|(x, k)| x.bits() * k as usize).sum();
        bits + self.denominator.bits()
    }

    /// The integral over the box of n variables, summed over the terms.
    pub fn integral(&self, n: usize) -> Fraction {
        let volume = 1_i128 << n;
        let mut total = Fraction::zero();
        for (exponents, c) in &self.terms {
            if exponents[..n].iter().any(|k| k % 2 == 1) {
                continue;
            }
            let divisor: i128 = exponents[..n].iter().map(|&k| i128::from(k) + 1).product();
            let numerator = c * &Integer::from(volume);
            let denominator = &self.denominator * &Integer::from(divisor);
            total = &total + &Fraction::new(numerator, denominator);
        }
        total
    }
}

/// The powers of a coordinate p / q up to an exponent K, all over q^K.
struct Powers {
    of_numerator: Vec<Integer>,
    of_denominator: Vec<Integer>,
}

impl Powers {
    fn of(coordinate: &Fraction, largest: u32) -> Powers {
        Powers {
            of_numerator: coordinate.numerator().powers(largest as usize),
            of_denominator: coordinate.denominator().powers(largest as usize),
        }
    }

    /// The value times p^k × q^(K - k).
    fn scale(&self, value: &Integer, k: usize) -> Integer {
        let missing = self.of_denominator.len() - 1 - k;
        &(value * &self.of_numerator[k]) * &self.of_denominator[missing]
    }

    fn denominator(&self) -> &Integer {
        &self.of_denominator[self.of_denominator.len() - 1]
    }
}
