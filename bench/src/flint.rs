//! FLINT's product, through the functions of bench/product.c.

use hechroung::Model;
use std::ffi::c_void;
use std::sync::Once;

extern "C" {
    fn bench_flint_start();
    fn bench_flint_polynomial(
        variables: usize,
        keys: *const u32,
        coefficients: *const i64,
        count: usize,
    ) -> *mut c_void;
    fn bench_flint_multiply(f: *const c_void, g: *const c_void);
    fn bench_flint_free(p: *mut c_void);
}

static START: Once = Once::new();

/// A polynomial that FLINT has built. It is used on one thread.
pub struct Polynomial(*mut c_void);

impl Polynomial {
    /// The polynomial of a model of at most 64 terms.
    pub fn new(model: &Model) -> Polynomial {
        // SAFETY: the contexts are made once and first; the arrays have 64 places, at least as many as are read.
        START.call_once(|| unsafe { bench_flint_start() });
        let count = model.count.min(hechroung::MOST_TERMS);
        let variables = usize::from(model.n).min(hechroung::MOST_VARS);
        let (keys, coefficients) = (model.keys.as_ptr(), model.coefficients.as_ptr());
        Polynomial(unsafe { bench_flint_polynomial(variables, keys, coefficients, count) })
    }

    /// The exact product of two in as many variables, which is thrown away.
    pub fn multiply(&self, other: &Polynomial) {
        // SAFETY: both were built by `new` and are not freed yet.
        unsafe { bench_flint_multiply(self.0, other.0) }
    }
}

impl Drop for Polynomial {
    fn drop(&mut self) {
        // SAFETY: built by `new`, and freed here only.
        unsafe { bench_flint_free(self.0) }
    }
}
