/* FLINT's exact product of two polynomials in as many variables, for bench/src: built beforehand, so that only the
   product is timed. */
#include <flint/fmpz_mpoly.h>
#include <stdint.h>
#include <stdlib.h>

enum { MOST_VARIABLES = 8 };

/* A context and room for a product, by the number of variables. */
static fmpz_mpoly_ctx_t contexts[MOST_VARIABLES + 1];
static fmpz_mpoly_t products[MOST_VARIABLES + 1];

struct polynomial {
    size_t variables;
    fmpz_mpoly_t terms;
};

void bench_flint_start(void) {
    for (size_t n = 1; n <= MOST_VARIABLES; n++) {
        fmpz_mpoly_ctx_init(contexts[n], (slong)n, ORD_LEX);
        fmpz_mpoly_init(products[n], contexts[n]);
    }
}

/* A polynomial by keys of four bits an exponent, variable 1 in the highest bits. */
void *bench_flint_polynomial(size_t variables, const uint32_t *keys, const int64_t *coefficients, size_t count) {
    struct polynomial *p = malloc(sizeof *p);
    if (p == NULL || variables < 1 || variables > MOST_VARIABLES) abort();
    p->variables = variables;
    fmpz_mpoly_init(p->terms, contexts[variables]);
    for (size_t t = 0; t < count; t++) {
        ulong exponents[MOST_VARIABLES];
        for (size_t i = 0; i < variables; i++) exponents[i] = keys[t] >> (28 - 4 * i) & 15;
        fmpz_mpoly_push_term_si_ui(p->terms, coefficients[t], exponents, contexts[variables]);
    }
    fmpz_mpoly_sort_terms(p->terms, contexts[variables]);
    return p;
}

void bench_flint_multiply(const void *f, const void *g) {
    const struct polynomial *left = f, *right = g;
    const size_t n = left->variables;
    fmpz_mpoly_mul(products[n], left->terms, right->terms, contexts[n]);
}

void bench_flint_free(void *p) {
    struct polynomial *freed = p;
    fmpz_mpoly_clear(freed->terms, contexts[freed->variables]);
    free(freed);
}
