//! Sound models: an exact polynomial with whole coefficients and a radius.

use std::collections::BTreeMap;

/// The unit U: a coefficient c stands for c / U.
pub const UNIT: i128 = 1 << 20;
/// The largest span of a model.
pub const LARGEST_SPAN: i128 = 1 << 30;
/// The largest total degree of a term, and the largest order.
pub const LARGEST_DEGREE: u32 = 15;
/// The largest number of terms.
pub const MOST_TERMS: usize = 64;
/// The largest number of variables.
pub const MOST_VARIABLES: usize = 8;
/// Up to so many variables a sheet's keys have 16 bits, and an integral is given
/// with its remainder.
pub const FEW_VARIABLES: usize = 4;

/// Eight exponents, variable 1 first. The order of arrays is the order of keys,
/// as variable 1 stands in the highest bits of a key. Exponents are bytes and
/// not four bits, so that a product may pass 15 without running into its
/// neighbour: y^17 and x z^16 stay different.
pub type Monomial = [u8; MOST_VARIABLES];

/// The constant monomial.
pub const ONE: Monomial = [0; MOST_VARIABLES];

/// Coefficients by monomial. No coefficient is zero.
pub type Polynomial = BTreeMap<Monomial, i128>;

/// The exponents in a key, variable 1 in its highest four bits.
pub fn monomial_of_key(key: u32) -> Monomial {
    std::array::from_fn(|place| (key >> (28 - 4 * place) & 15) as u8)
}

/// The key of exponents that fit four bits each.
pub fn key_of_monomial(monomial: &Monomial) -> u32 {
    monomial.iter().fold(0, |key, &exponent| {
        assert!(exponent <= 15, "an exponent above 15 has no key");
        key << 4 | u32::from(exponent)
    })
}

/// A key of 16 bits, as sheets of up to four variables have them, is the upper
/// half of a key.
pub fn key_of_half(half: u16) -> u32 {
    u32::from(half) << 16
}

/// The total degree.
pub fn degree(monomial: &Monomial) -> u32 {
    monomial.iter().map(|&exponent| u32::from(exponent)).sum()
}

/// A model that keeps all rules of document 01, "A model".
#[derive(Clone, Debug, PartialEq, Eq)]
pub struct Model {
    pub n: usize,
    pub polynomial: Polynomial,
    pub radius: i128,
}

impl Model {
    /// No terms, radius 0.
    pub fn zero(n: usize) -> Model {
        Model {
            n,
            polynomial: Polynomial::new(),
            radius: 0,
        }
    }

    /// The sum of all |c|, called A or B in a product.
    pub fn coefficient_sum(&self) -> i128 {
        self.polynomial.values().map(|c| c.abs()).sum()
    }

    /// The sum of all |c| plus the radius.
    pub fn span(&self) -> i128 {
        self.coefficient_sum() + self.radius
    }

    /// The coefficient of key 0, or 0.
    pub fn constant_coefficient(&self) -> i128 {
        self.polynomial.get(&ONE).copied().unwrap_or(0)
    }
}
