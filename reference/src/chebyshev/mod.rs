//! Chebyshev curves (document 02, CR 10): models of one variable by their
//! coefficients of the Chebyshev polynomials T_0 to T_15.
//!
//! The layers are those of power models: [`model`] has sound models and models
//! in memory, [`operations`] what the request computes with sound ones, and
//! [`calls`] the calls, which first test what they are handed. [`table`] has the
//! polynomials in powers, and the powers in these polynomials.

pub mod calls;
pub mod model;
pub mod operations;
pub mod table;

pub use calls::{Call, CallAnswer, ChebyshevAnswer};
pub use model::{ChebyshevModel, StoredChebyshev, PLACES};
