/* A vacuum curve fitted in Chebyshev polynomials, corrected by the curve of its gauge, converted to powers and put into
   a sheet, whose answer comes back as a curve; then a refusal and a misuse. examples/vacuum.md says what the lines
   mean. */
#include "measured.h"
#include <inttypes.h>
#include <stdio.h>

/* WANTED: the vacuum that the machine is set to, in kPa. */
enum { ORDER = 15, WANTED = 42 };

int main(void) {
    /* x is the time of one pulse, from -1 to 1. Vacuum in kPa as the gauge reports it, to 0.05, and the factor of the
       gauge, to 0.0005; coefficients of T_0, T_1 and on, in ten-thousandths. */
    const int64_t reported[8] = {412350, -18420, 9870, -6130, 3360, -1640, 830, -290};
    const int64_t factors[3] = {10040, -60, 25};
    const struct hechroung_curve vacuum = measured_curve(10000, 500, reported, 8);
    const struct hechroung_curve gauge = measured_curve(10000, 5, factors, 3);
    struct hechroung_curve corrected, off;
    struct hechroung_ends range;
    if (hechroung_multiply_curves(&vacuum, &gauge, &corrected, NULL) || hechroung_range_of_curve(&corrected, &range))
        return 1;
    printf("vacuum: radius %" PRIu64 "\n", vacuum.radius);
    printf("gauge: radius %" PRIu64 "\n", gauge.radius);
    printf("corrected: radius %" PRIu64 "\n", corrected.radius);
    for (int k = 0; k < HECHROUNG_CURVE_PLACES; k++)
        if (corrected.coefficients[k] != 0) printf("T %d %" PRId64 "\n", k, corrected.coefficients[k]);
    printf("range %" PRId64 " %" PRId64 "\n", range.low, range.high);

    /* the same polynomial in powers, and its radius: nothing is rounded; the range goes term by term and is wider */
    struct hechroung_model powers;
    if (hechroung_curve_to_powers(&corrected, &powers) || hechroung_range(&powers, &range)) return 1;
    printf("in powers: radius %" PRIu64 "\n", powers.radius);
    for (size_t i = 0; i < powers.count; i++)
        printf("term %" PRIu32 " %" PRId64 "\n", powers.keys[i] >> 28, powers.coefficients[i]);
    printf("range %" PRId64 " %" PRId64 "\n", range.low, range.high);

    /* a sheet: the model, the constant, their difference; its integral over the pulse is twice the mean */
    const struct hechroung_step steps[3] = {
        {.code = 0}, {.code = 1, .value = WANTED * HECHROUNG_UNIT}, {.code = 5, .b = 1}};
    struct hechroung_summary summary;
    if (hechroung_run_models(1, ORDER, &powers, 1, steps, 3, &summary, NULL)) return 1;
    printf("off: integral %" PRId64 " %" PRId64 "\n", summary.integral.low, summary.integral.high);
    printf("off: range %" PRId64 " %" PRId64 "\n", summary.range.low, summary.range.high);
    /* its answer as a curve: a conversion to powers can be undone, and the range is narrow again */
    if (hechroung_curve_from_powers(&summary.model, &off) || hechroung_range_of_curve(&off, &range)) return 1;
    for (int k = 1; k < HECHROUNG_CURVE_PLACES; k++)
        if (off.coefficients[k] != corrected.coefficients[k]) return 1;
    if (off.radius != corrected.radius) return 1;
    printf("as a curve: radius %" PRIu64 " range %" PRId64 " %" PRId64 "\n", off.radius, range.low, range.high);

    /* a model of two variables is no curve */
    struct hechroung_model x;
    if (hechroung_variable(2, 1, &x)) return 1;
    printf("refused %d 0\n", hechroung_curve_from_powers(&x, &off));
    printf("misused %d\n", hechroung_multiply_curves(&vacuum, NULL, &off, NULL));
    return 0;
}
