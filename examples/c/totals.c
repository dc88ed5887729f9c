/* Litres of a herd: the integrals of many runs added up, by their ends and without loss by their quotients and
   remainders, and how much narrower the band of the total is. examples/totals.md says what the lines mean. */
#include <hechroung.h>
#include <inttypes.h>
#include <stdio.h>

/* The exact integral stands after the ends from layout 2 on, and keys have 32 bits from layout 3 on. */
#if HECHROUNG_ABI != 4
#error "this example is for layout 4 of hechroung.h"
#endif

/* HALF_TIME: minutes from the middle of a milking to its end, where x is 1. */
enum { MILKINGS = 2000, ORDER = 4, HALF_TIME = 3 };

/* Litres a minute of milking k, each a little different. The meter counts in steps of 1/1024, which are whole units:
   nothing is rounded, and the radius is 0. Keys: x has hex 10000000. */
static struct hechroung_model flow(int64_t k) {
    const int64_t values[5] = {2900 + 7 * k % 611, -650 + 13 * k % 301, -2000 - 11 * k % 407, 310 + 5 * k % 97,
                               -40 - 3 * k % 53};
    struct hechroung_model flow = hechroung_zero(1);
    for (; flow.count < 5; flow.count++) {
        flow.keys[flow.count] = (uint32_t)flow.count << 28;
        flow.coefficients[flow.count] = HECHROUNG_UNIT / 1024 * values[flow.count];
    }
    return flow;
}

int main(void) {
    /* the flow times the minutes: the integral of the product is the milk of one milking */
    const struct hechroung_step steps[3] = {
        {.code = 0}, {.code = 1, .value = HALF_TIME * HECHROUNG_UNIT}, {.code = 6, .b = 1}};
    struct hechroung_ends sum = {0, 0}, band;
    struct hechroung_exact total = {0, 0};
    int64_t radii = 0, width;
    for (int64_t k = 0; k < MILKINGS; k++) {
        const struct hechroung_model model = flow(k);
        struct hechroung_summary summary;
        if (hechroung_run_models(1, ORDER, &model, 1, steps, 3, &summary, NULL)) return 1;
        sum.low += summary.integral.low;
        sum.high += summary.integral.high;
        total.quotient += summary.exact.quotient;
        total.remainder += summary.exact.remainder;
        radii += (int64_t)summary.model.radius;
    }
    /* what is a whole unit is carried; the radii count twice, as the box is 2 long */
    total.quotient += total.remainder / HECHROUNG_DENOMINATOR;
    total.remainder %= HECHROUNG_DENOMINATOR;
    band.low = total.quotient - 2 * radii;
    band.high = total.quotient + 2 * radii + (total.remainder != 0);
    width = band.high - band.low;
    if (band.low < sum.low || band.high > sum.high) return 1;

    printf("milkings %d litres %" PRId64 "\n", MILKINGS, total.quotient / HECHROUNG_UNIT);
    printf("sum of ends %" PRId64 " %" PRId64 " width %" PRId64 "\n", sum.low, sum.high, sum.high - sum.low);
    printf("exact %" PRId64 " %" PRId64 "\n", total.quotient, total.remainder);
    printf("band %" PRId64 " %" PRId64 " width %" PRId64 "\n", band.low, band.high, width);
    printf("narrower by %" PRId64 " units, to 1 part in %" PRId64 "\n", sum.high - sum.low - width,
           (sum.high - sum.low) / width);
    return 0;
}
