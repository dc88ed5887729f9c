/* A conductivity curve corrected by a temperature curve: the quotient from a proposal, as a single call and as a step,
   then a poorer proposal, a refusal and a misuse. examples/quotient.md says what the lines mean. */
#include "measured.h"
#include <inttypes.h>
#include <stdio.h>

enum { ORDER = 3 };

/* h near f / g and w near 1 / g, by the library's own calls. From the inverse of g's constant part, w <- w (2 - g w)
   squares the distance from 1 / g in every round, up to the order; then h <- f w. Radii do not matter for a proposal
   and are left away. g's first term is the constant one. */
static int propose(struct hechroung_model f, struct hechroung_model g, int rounds, struct hechroung_model *h,
                   struct hechroung_model *w) {
    struct hechroung_model two, factor;
    f.radius = g.radius = 0;
    if (hechroung_constant(f.n, 2 * HECHROUNG_UNIT, &two) ||
        hechroung_constant(f.n, (int64_t)HECHROUNG_UNIT * HECHROUNG_UNIT / g.coefficients[0], w))
        return 1;
    for (int round = 0; round < rounds; round++) {
        if (hechroung_multiply(ORDER, &g, w, &factor, NULL) || hechroung_subtract(&two, &factor, &factor, NULL) ||
            hechroung_multiply(ORDER, w, &factor, w, NULL))
            return 1;
        w->radius = 0;
    }
    if (hechroung_multiply(ORDER, &f, w, h, NULL)) return 1;
    h->radius = 0;
    return 0;
}

int main(void) {
    /* x is the time of the milking, y the milk's temperature. Conductivity in mS/cm, to 0.02; the factor of the
       temperature, to 0.001; both in thousandths. Keys: x has hex 10000000, y hex 01000000. */
    const struct measured_term conductivities[5] = {
        {0, 5600}, {0x01000000, 600}, {0x10000000, 500}, {0x11000000, 50}, {0x20000000, -200}};
    const struct measured_term factors[3] = {{0, 1240}, {0x01000000, 60}, {0x10000000, 10}};
    const struct hechroung_model conductivity = measured(2, 1000, 20, conductivities, 5);
    const struct hechroung_model temperature = measured(2, 1000, 1, factors, 3);

    struct hechroung_model h, w, corrected, poorer, y;
    struct hechroung_ends range, value;
    /* a point is in whole units; 5/8 and -1/4 are, where 0.6 and -0.3 would be another point */
    const int64_t point[HECHROUNG_MOST_VARIABLES] = {HECHROUNG_UNIT / 8 * 5, -HECHROUNG_UNIT / 4};
    if (propose(conductivity, temperature, 2, &h, &w) ||
        hechroung_divide(ORDER, &conductivity, &temperature, &h, &w, &corrected, NULL) ||
        hechroung_range(&corrected, &range) || hechroung_evaluate(&corrected, point, HECHROUNG_MOST_VARIABLES, &value))
        return 1;
    printf("conductivity: radius %" PRIu64 "\n", conductivity.radius);
    printf("temperature: radius %" PRIu64 "\n", temperature.radius);
    printf("proposal: h of %zu terms, w of %zu\n", h.count, w.count);
    printf("radius %" PRIu64 "\n", corrected.radius);
    for (size_t i = 0; i < corrected.count; i++)
        printf("term %" PRIu32 " %" PRIu32 " %" PRId64 "\n", corrected.keys[i] >> 28, corrected.keys[i] >> 24 & 15,
               corrected.coefficients[i]);
    printf("range %" PRId64 " %" PRId64 "\n", range.low, range.high);
    printf("at 5/8 -1/4 %" PRId64 " %" PRId64 "\n", value.low, value.high);

    /* the same as a step: four inputs, then code 9 with f in a, g in b, step h in v and step w in value */
    const struct hechroung_model models[4] = {conductivity, temperature, h, w};
    const struct hechroung_step steps[5] = {
        {.code = 0}, {.a = 1}, {.a = 2}, {.a = 3}, {.code = 9, .b = 1, .v = 2, .value = 3}};
    struct hechroung_summary summary;
    if (hechroung_run_models(2, ORDER, models, 4, steps, 5, &summary, NULL) ||
        summary.model.radius != corrected.radius || summary.model.count != corrected.count ||
        summary.range.low != range.low || summary.range.high != range.high)
        return 1;

    /* Without Newton's rule w is a constant. That is a proposal as well, only a poorer one. */
    if (propose(conductivity, temperature, 0, &h, &w) ||
        hechroung_divide(ORDER, &conductivity, &temperature, &h, &w, &poorer, NULL))
        return 1;
    printf("with a constant w: radius %" PRIu64 "\n", poorer.radius);

    /* the temperature's own variable is 0 somewhere: no proposal makes it a divisor */
    size_t place = 0;
    if (hechroung_variable(2, 2, &y)) return 1;
    uint8_t number = hechroung_divide(ORDER, &conductivity, &y, &h, &w, &poorer, &place);
    printf("refused %d %zu\n", number, place);
    printf("misused %d\n", hechroung_divide(ORDER, &conductivity, &temperature, &h, NULL, &poorer, &place));
    return 0;
}
