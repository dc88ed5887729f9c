//! Chebyshev models, sound and in memory.

use crate::model::LARGEST_SPAN;

/// How many coefficients there are: those of T_0 to T_15.
pub const PLACES: usize = 16;

/// A Chebyshev model whose span is at most 2^30. A coefficient c stands for
/// c / U and may be 0.
#[derive(Clone, Debug, PartialEq, Eq)]
pub struct ChebyshevModel {
    pub coefficients: [i128; PLACES],
    pub radius: i128,
}

impl ChebyshevModel {
    /// The sum of all |c|, called A or B in a product.
    pub fn coefficient_sum(&self) -> i128 {
        self.coefficients.iter().map(|c| c.abs()).sum()
    }

    /// The sum of all |c| plus the radius.
    pub fn span(&self) -> i128 {
        self.coefficient_sum() + self.radius
    }
}

/// A Chebyshev model in memory, whose fields may hold anything.
#[derive(Clone, Copy, Debug, Default, PartialEq, Eq)]
pub struct StoredChebyshev {
    pub coefficients: [i64; PLACES],
    pub radius: u64,
}

impl StoredChebyshev {
    /// The zero model of this form, which a refused call answers with.
    pub const ZEROS: StoredChebyshev = StoredChebyshev {
        coefficients: [0; PLACES],
        radius: 0,
    };

    /// Puts a sound model into memory.
    pub fn store(model: &ChebyshevModel) -> StoredChebyshev {
        let fits = "the span bounds every number of a sound model";
        StoredChebyshev {
            coefficients: model.coefficients.map(|c| i64::try_from(c).expect(fits)),
            radius: u64::try_from(model.radius).expect(fits),
        }
    }

    /// The model, if its span is at most 2^30: there is no other rule to break.
    pub fn sound(&self) -> Option<ChebyshevModel> {
        let model = ChebyshevModel {
            coefficients: self.coefficients.map(i128::from),
            radius: i128::from(self.radius),
        };
        (model.span() <= LARGEST_SPAN).then_some(model)
    }
}
