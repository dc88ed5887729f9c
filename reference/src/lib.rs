//! A second implementation of document 01, "Polynomial models for milk meter
//! curves", and of the requests of document 02 that README.md names.
//!
//! It exists to be compared with another implementation, so it follows the
//! sentences of the papers one by one and prefers the obvious to the fast:
//! polynomials are ordered maps from exponents to 128-bit coefficients.
//!
//! The layers, from the bottom:
//! - [`model`]: sound models, as mathematics sees them, and [`stored`]: models in
//!   memory, whose fields may hold anything;
//! - [`operations`]: what the papers compute with sound models, [`shares`]: where
//!   a radius came from, and [`calls`]: the single calls, which first test what
//!   they are handed;
//! - [`chebyshev`]: models of one variable in Chebyshev polynomials;
//! - [`cuts`]: narrower ranges by cutting the box;
//! - [`doubles`]: curves delivered in doubles;
//! - [`readings`]: readings held against a curve;
//! - [`archive`]: models stored with their low degrees first, and restored;
//! - [`book`], [`sheet`], [`mod@write`], [`run`], [`records`], [`text`]: sheets;
//! - [`renaming`]: sheets whose variables are renamed throughout;
//! - [`exact`]: exact fractions and the check of the enclosure statement;
//! - [`generate`]: reproducible inputs for a comparison.

#![forbid(unsafe_code)]

pub mod archive;
pub mod book;
pub mod calls;
pub mod chebyshev;
pub mod cuts;
pub mod doubles;
pub mod exact;
pub mod generate;
pub mod model;
pub mod operations;
pub mod readings;
pub mod records;
pub mod refusal;
pub mod renaming;
pub mod run;
pub mod shares;
pub mod sheet;
pub mod stored;
pub mod text;
pub mod write;
