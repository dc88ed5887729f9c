/* Flow over the milking time in, litres gathered out, with the band at the end of milking: the antiderivative as a
   single call and as a step, then a lower order, a refusal and a misuse. examples/litres.md says what the lines are. */
#include "measured.h"
#include <inttypes.h>
#include <stdio.h>

/* HALF_TIME: minutes from the middle of the milking to its end, where x is 1. */
enum { ORDER = 4, HALF_TIME = 3 };

/* Litres since the start, where x is -1: the antiderivative is 0 in the middle, so its value at the start goes off. */
static int gathered(uint8_t order, const struct hechroung_model *flow, struct hechroung_model *litres) {
    struct hechroung_model from_middle, at_start, half_time;
    return hechroung_antiderivative(order, 1, flow, &from_middle) ||
           hechroung_constant(1, -HECHROUNG_UNIT, &at_start) ||
           hechroung_substitute(order, 1, &from_middle, &at_start, &at_start, NULL) ||
           hechroung_subtract(&from_middle, &at_start, litres, NULL) ||
           hechroung_constant(1, HALF_TIME * HECHROUNG_UNIT, &half_time) ||
           hechroung_multiply(order, litres, &half_time, litres, NULL);
}

int main(void) {
    /* Litres a minute, to 0.05: 3.20 - 0.60 x - 2.40 x^2 + 0.40 x^3, in hundredths. Keys: x has hex 10000000. */
    const struct measured_term terms[4] = {{0, 320}, {0x10000000, -60}, {0x20000000, -240}, {0x30000000, 40}};
    const struct hechroung_model flow = measured(1, 100, 5, terms, 4);
    struct hechroung_model litres, lower;
    if (gathered(ORDER, &flow, &litres)) return 1;
    printf("flow: radius %" PRIu64 "\n", flow.radius);
    printf("radius %" PRIu64 "\n", litres.radius);
    for (size_t i = 0; i < litres.count; i++)
        printf("term %" PRIu32 " %" PRId64 "\n", litres.keys[i] >> 28, litres.coefficients[i]);
    for (int half = 0; half <= 2; half++) {
        const int64_t point[HECHROUNG_MOST_VARIABLES] = {(half - 1) * (int64_t)HECHROUNG_UNIT};
        struct hechroung_ends value;
        if (hechroung_evaluate(&litres, point, HECHROUNG_MOST_VARIABLES, &value)) return 1;
        printf("after %d minutes %" PRId64 " %" PRId64 "\n", half * HALF_TIME, value.low, value.high);
    }

    /* the same as a sheet: the antiderivative is code 10, with its step in a and its variable in v */
    const struct hechroung_step steps[7] = {{.code = 0},
                                            {.code = 10, .v = 1},
                                            {.code = 1, .value = -HECHROUNG_UNIT},
                                            {.code = 7, .a = 1, .b = 2, .v = 1},
                                            {.code = 5, .a = 1, .b = 3},
                                            {.code = 1, .value = HALF_TIME * HECHROUNG_UNIT},
                                            {.code = 6, .a = 4, .b = 5}};
    struct hechroung_summary summary;
    struct hechroung_shares shares[HECHROUNG_MOST_STEPS];
    if (hechroung_shares_models(1, ORDER, &flow, 1, steps, 7, &summary, shares, NULL) ||
        summary.model.count != litres.count || summary.model.radius != litres.radius ||
        memcmp(summary.model.coefficients, litres.coefficients, sizeof litres.coefficients) != 0)
        return 1;
    printf("carried, rounding, swept, slack: %" PRIu64 " %" PRIu64 " %" PRIu64 " %" PRIu64 "\n", shares[6].carried,
           shares[6].rounding, shares[6].swept, shares[6].slack);

    /* one order less has no room for the fourth power: it goes into the radius */
    if (gathered(3, &flow, &lower)) return 1;
    printf("with order 3: radius %" PRIu64 "\n", lower.radius);

    /* the flow has no second variable; the place of such a refusal is 0 */
    printf("refused %d 0\n", hechroung_antiderivative(ORDER, 2, &flow, &lower));
    printf("misused %d\n", hechroung_antiderivative(ORDER, 1, NULL, &lower));
    return 0;
}
