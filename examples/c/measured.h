/* Models and curves of what was measured in decimals.

   A decimal number is rarely a whole number of units. Each coefficient goes to the nearest unit; by what that leaves
   the polynomial is off, so it all goes into the radius, beside the error of the measurement. That sum is rounded up,
   and once: rounded down, a curve at the edge of the error would not be within the model, and its band would not be
   promised. */
#ifndef MEASURED_H
#define MEASURED_H

#include <hechroung.h>

/* A coefficient as it was measured, a whole number of parts. */
struct measured_term {
    uint32_t key;
    int64_t value;
};

/* a / b rounded down, also below 0, for b above 0: division in C goes toward 0. */
static inline int64_t floored(int64_t a, int64_t b) { return a / b - (a % b < 0); }

/* The nearest coefficient of a value, which is a whole number of parts, so many to 1; by how much it is off, in parts
   of a unit, is added to what is left. */
static inline int64_t nearest(int64_t parts, int64_t value, int64_t *left) {
    const int64_t wanted = HECHROUNG_UNIT * value, coefficient = floored(2 * wanted + parts, 2 * parts);
    *left += wanted < parts * coefficient ? parts * coefficient - wanted : wanted - parts * coefficient;
    return coefficient;
}

/* The model of a polynomial in n variables with up to 64 terms that is known to an error; the error and the
   coefficients are whole numbers of parts, so many to 1. Everything is exact, in parts of a unit, up to the last
   line. */
static inline struct hechroung_model measured(uint8_t n, int64_t parts, int64_t error,
                                              const struct measured_term *terms, size_t count) {
    struct hechroung_model model = hechroung_zero(n);
    int64_t left = HECHROUNG_UNIT * error;
    for (size_t i = 0; i < count; i++) {
        const int64_t coefficient = nearest(parts, terms[i].value, &left);
        /* a model has no terms of 0; what was rounded away is paid for */
        if (coefficient == 0) continue;
        model.keys[model.count] = terms[i].key;
        model.coefficients[model.count] = coefficient;
        model.count++;
    }
    model.radius = (uint64_t)((left + parts - 1) / parts);
    return model;
}

/* The same for a curve, by up to 16 coefficients of T_0, T_1 and on: no |T_k| is above 1, so that what a coefficient is
   off by is again the most that the curve is. */
static inline struct hechroung_curve measured_curve(int64_t parts, int64_t error, const int64_t *values, size_t count) {
    struct hechroung_curve curve = {{0}, 0};
    int64_t left = HECHROUNG_UNIT * error;
    for (size_t k = 0; k < count; k++) curve.coefficients[k] = nearest(parts, values[k], &left);
    curve.radius = (uint64_t)((left + parts - 1) / parts);
    return curve;
}

#endif
