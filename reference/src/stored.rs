//! Models in memory. Every field may hold anything; only what is found sound
//! becomes a [`Model`].

use crate::model::{
    degree, key_of_monomial, monomial_of_key, Model, Monomial, Polynomial, LARGEST_SPAN,
    MOST_TERMS, MOST_VARIABLES,
};

/// A term in memory.
#[derive(Clone, Copy, Debug, Default, PartialEq, Eq)]
pub struct StoredTerm {
    pub key: u32,
    pub coefficient: i64,
}

/// A model in memory.
#[derive(Clone, Copy, Debug, PartialEq, Eq)]
pub struct StoredModel {
    pub n: u8,
    pub count: usize,
    pub radius: u64,
    pub terms: [StoredTerm; MOST_TERMS],
}

impl StoredModel {
    /// Every field 0: what stands in a book's places beyond its count.
    pub const ZEROS: StoredModel = StoredModel {
        n: 0,
        count: 0,
        radius: 0,
        terms: [StoredTerm {
            key: 0,
            coefficient: 0,
        }; MOST_TERMS],
    };

    /// The zero model that a refused call answers with.
    pub const REFUSED: StoredModel = StoredModel {
        n: 1,
        ..StoredModel::ZEROS
    };

    /// Puts a sound model into memory, with zeros beyond its count.
    pub fn store(model: &Model) -> StoredModel {
        let mut stored = StoredModel {
            n: model.n as u8,
            count: model.polynomial.len(),
            radius: narrowed(model.radius),
            ..StoredModel::ZEROS
        };
        for (place, (monomial, &coefficient)) in stored.terms.iter_mut().zip(&model.polynomial) {
            place.key = key_of_monomial(monomial);
            place.coefficient = narrowed(coefficient);
        }
        stored
    }

    /// The model, if it keeps every rule and no degree is above
    /// `largest_degree` (the order where one applies, otherwise 15).
    pub fn sound(&self, largest_degree: u32) -> Option<Model> {
        let n = usize::from(self.n);
        if !(1..=MOST_VARIABLES).contains(&n) {
            return None;
        }
        // A count above 64 has no places to look at, which `get` answers.
        let terms = self.terms.get(..self.count)?;
        if !keys_rise(terms) {
            return None;
        }
        let polynomial = sound_terms(terms, n, largest_degree)?;
        let model = Model {
            n,
            polynomial,
            radius: i128::from(self.radius),
        };
        (model.span() <= LARGEST_SPAN).then_some(model)
    }
}

fn keys_rise(terms: &[StoredTerm]) -> bool {
    terms.windows(2).all(|pair| pair[0].key < pair[1].key)
}

fn sound_terms(terms: &[StoredTerm], n: usize, largest_degree: u32) -> Option<Polynomial> {
    let mut polynomial = Polynomial::new();
    for term in terms {
        let monomial = monomial_of_key(term.key);
        if term.coefficient == 0 || !sound_monomial(&monomial, n, largest_degree) {
            return None;
        }
        polynomial.insert(monomial, i128::from(term.coefficient));
    }
    Some(polynomial)
}

fn sound_monomial(monomial: &Monomial, n: usize, largest_degree: u32) -> bool {
    monomial[n..].iter().all(|&exponent| exponent == 0) && degree(monomial) <= largest_degree
}

/// A sound model's numbers are at most 2^30 in size, so that they fit.
fn narrowed<T>(number: i128) -> T
where
    T: TryFrom<i128>,
    T::Error: std::fmt::Debug,
{
    T::try_from(number).expect("the span bounds every number of a sound model")
}
