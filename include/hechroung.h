/* Hechroung: polynomial models in 1 to 8 variables on the box [-1, 1]^n, with an error radius, and curves in Chebyshev
   polynomials. The functions that are written out here spread structs into numbers and slices, test for null pointers,
   and hand on to those of hechroung_raw.h, which are proved (crates/exports).

   Numbers. Coefficients, radii, values, coordinates and ends are whole numbers in units of 1/U, U =
   HECHROUNG_UNIT.

   Answers. Every function that makes a call returns a byte (hechroung_print and hechroung_record return a length,
   hechroung_next a kind of record):
     0                   accepted
     1 to 17             the refusal of documents 01 and 02; the answer is then the zero model in one variable, the
                         curve of zeros, or ends 0 and the exact integral 0
     HECHROUNG_MISUSED   no call was made and nothing was written: a pointer is null, a slice is too short, or a code
                         names no call

   Memory. The caller owns everything. Nothing is kept after a call, nothing is allocated, and there is no state, so
   that any number of threads may call at once. A call needs up to 160 KB of stack, the run of a sheet or a book, with
   shares or without, up to 320 KB, writing and writing back up to 160 KB, opening, a step and a record up to 4 KB (a KB
   is 1,024 bytes; the functions written out here add what they say). The run of a sheet needs up to 144 KB if none
   of its steps asks for more than 256 products: a product asks for one for each pair of terms, a substitution for 64
   for each term of what is put in, a quotient for one for each pair of terms of g and h, or for 64 for each term of w.
   These figures are tested, not proved.

   Slices. A slice is a pointer and a length in elements. Nothing is read or written outside the lengths that are given;
   a pointer must be to that many elements, aligned, and a slice that is written must not overlap another one. */
#ifndef HECHROUNG_H
#define HECHROUNG_H

#include "hechroung_raw.h"

#include <stddef.h>
#include <stdint.h>
/* Of string.h memcpy and memset alone are used. A compiler without a library (-ffreestanding) may lack it. */
#if __STDC_HOSTED__ || defined __cplusplus
#include <string.h>
#else
extern void *memcpy(void *to, const void *from, size_t length);
extern void *memset(void *to, int byte, size_t length);
#endif

#ifdef __cplusplus
#define HECHROUNG_CAST_(type, value) static_cast<type>(value)
extern "C" {
#else
#define HECHROUNG_CAST_(type, value) ((type)(value))
#endif

/* The version of this header, as text and as numbers; hechroung_version() hands out the text. */
#define HECHROUNG_VERSION "2.1.0"
#define HECHROUNG_VERSION_MAJOR 2
#define HECHROUNG_VERSION_MINOR 1
#define HECHROUNG_VERSION_PATCH 0

/* The number of the layout: of the functions of hechroung_raw.h, their names, codes and slices. A program that hands
   slices to them can test it when it is compiled: #if HECHROUNG_ABI != 4 (with this header: hechroung_raw.h alone
   defines neither it nor the limits). The shared library is named by it,
   libhechroung.so.4 (libhechroung.so is a link to it), so that a program that was linked with another layout does not
   start with this one. In layout 3 the functions had other names, an antiderivative was code 9 of a call, and a call on
   curves had the codes 1 to 4. In layout 2 keys had 16 bits, those of variables 1 to 4: such a key has to be shifted up
   by 16 bits; where it is not, the model is refused with 5, since the key names variables above n. */
#define HECHROUNG_ABI 4

#define HECHROUNG_UNIT 1048576
#define HECHROUNG_DENOMINATOR 212837625
#define HECHROUNG_MOST_VARIABLES 8
#define HECHROUNG_MOST_TERMS 64
#define HECHROUNG_CURVE_PLACES 16
#define HECHROUNG_MOST_MODELS 16
#define HECHROUNG_MOST_STEPS 64
#define HECHROUNG_MOST_READINGS 256
#define HECHROUNG_LONGEST_SHEET 8792
#define HECHROUNG_LONGEST_RECORD 517
#define HECHROUNG_LONGEST_TEXT 4096
#define HECHROUNG_LONGEST_ARCHIVED 390
#define HECHROUNG_MISUSED 255

/* What a call returns, beside HECHROUNG_MISUSED: the refusals of documents 01 and 02 by their numbers.
   hechroung_sentence says of each what to do. */
enum hechroung_refusal {
    HECHROUNG_ACCEPTED = 0,
    HECHROUNG_BAD_LENGTH = 1,
    HECHROUNG_BAD_MARK = 2,
    HECHROUNG_BAD_LIMITS = 3,
    HECHROUNG_BAD_OFFSET = 4,
    HECHROUNG_BAD_MODEL = 5,
    HECHROUNG_BAD_STEP = 6,
    HECHROUNG_OVER_SPAN = 7,
    HECHROUNG_TOO_MANY_TERMS = 8,
    HECHROUNG_LEAVES_BOX = 9,
    HECHROUNG_VARIABLES_DIFFER = 10,
    HECHROUNG_SHORT_BUFFER = 11,
    HECHROUNG_UNCERTIFIED = 12,
    HECHROUNG_NOT_ONE_VARIABLE = 13,
    HECHROUNG_CUT_TOO_DEEP = 14,
    HECHROUNG_BAD_READING = 15,
    HECHROUNG_BAD_DOUBLE = 16,
    HECHROUNG_BAD_RANK = 17
};

/* The codes of a sheet's steps, the `code` of struct hechroung_step; hechroung_raw_call has
   the same but 0 and 9, hechroung_raw_curve has 3 to 6. */
enum hechroung_step_code {
    HECHROUNG_STEP_INPUT = 0,
    HECHROUNG_STEP_CONSTANT = 1,
    HECHROUNG_STEP_VARIABLE = 2,
    HECHROUNG_STEP_NEGATE = 3,
    HECHROUNG_STEP_ADD = 4,
    HECHROUNG_STEP_SUBTRACT = 5,
    HECHROUNG_STEP_MULTIPLY = 6,
    HECHROUNG_STEP_SUBSTITUTE = 7,
    HECHROUNG_STEP_SWEEP = 8,
    HECHROUNG_STEP_QUOTIENT = 9,
    HECHROUNG_STEP_ANTIDERIVATIVE = 10
};

/* What hechroung_next finds at a place of a sheet. None of these is the code of a step. */
enum hechroung_record_kind {
    HECHROUNG_NO_RECORD = 0,
    HECHROUNG_MODEL_RECORD = 1,
    HECHROUNG_STEP_RECORD = 2
};

/* A model: the first `count` of its terms, with keys strictly rising, and a radius. A key has eight exponents of four
   bits each, that of variable 1 in the highest bits; the exponents of variables above n are 0, so that in up to four
   variables a key uses the upper 16 bits only. Any field may hold anything: a call tests the model and refuses with 5
   what breaks a rule. Places beyond the count are not looked at; in an answer they hold zeros. */
struct hechroung_model {
    uint8_t n;
    size_t count;
    uint64_t radius;
    uint32_t keys[HECHROUNG_MOST_TERMS];
    int64_t coefficients[HECHROUNG_MOST_TERMS];
};

/* The low and the high end of a range, an integral or a value. */
struct hechroung_ends {
    int64_t low, high;
};

/* The integral of a polynomial over the box without any rounding: quotient + remainder / HECHROUNG_DENOMINATOR units,
   with a remainder from 0 to HECHROUNG_DENOMINATOR - 1; the quotient is rounded down, also below 0. Sums of these are
   exact: add quotients and remainders, and carry. Above four variables there is none: both are 0 and say nothing. */
struct hechroung_exact {
    int64_t quotient, remainder;
};

/* What a run gives: the last step's model, the ends of its range and of its integral over the box, and the exact
   integral of its polynomial, without its radius. Point 3 at the beginning of README.md says what is promised of it,
   with the exceptions for sheets with a quotient or an antiderivative. Where the n variables of a sheet or a book that
   passes tests 1 to 6 are renamed among themselves, with terms put back in key order, the answer has its keys renamed
   likewise and is the same in everything else: coefficients, radius, ends, the exact integral and the shares of each
   step, or the refusal and its place. The variable of a step is v in codes 2, 7 and 10. An evaluation at the renamed
   point can have other ends: it puts the variables in one after the other and rounds between. */
struct hechroung_summary {
    struct hechroung_model model;
    struct hechroung_ends range, integral;
    struct hechroung_exact exact;
};

/* Where the radius of a step came from: four whole numbers that sum to HECHROUNG_UNIT times the radius. carried is from
   the radii of the operands, rounding from coefficients that were rounded, swept from terms above the order or dropped
   by a sweep, slack is what rounding the radius up added. A product, a sweep and an antiderivative have what they
   carried and, beside it, what they made themselves; a substitution has the shares of its last product (zeros if it
   made none), which carries the radii of the earlier ones, and the radius of its first step as carried; any other step,
   a sum or a quotient for instance, is all carried. */
struct hechroung_shares {
    uint64_t carried, rounding, swept, slack;
};

/* A step of a book: its code, one of enum hechroung_step_code, and its fields; those that the code does not name are 0.
   Code 9, a quotient, has f in a, g in b, step h in v and step w in value; code 10, an antiderivative, has its step in
   a and its variable, from 1, in v. */
struct hechroung_step {
    uint8_t code, a, b, v;
    int64_t value;
};

/* A curve: a model of one variable by its coefficients of the Chebyshev polynomials T_0 to T_15 (T_0 = 1, T_1 = x,
   T_(k+1) = 2 x T_k - T_(k-1)), in this order, any of which may be 0, and a radius. A function is within it if at every
   fraction of [-1, 1] it differs from the sum of all c T_k by at most the radius. Any field may hold anything: a call
   refuses with 5 a curve whose sizes and radius sum to more than 2^30. Functions within the operands of a call give a
   function within its answer. */
struct hechroung_curve {
    int64_t coefficients[HECHROUNG_CURVE_PLACES];
    uint64_t radius;
};

/* A curve in one variable as a supplier delivers it: c0 + c1 x + c2 x^2, and how far from it the true values may lie.
   Any bits are taken. */
struct hechroung_doubles {
    double c0, c1, c2, radius;
};

/* A reading of the bench: a point, as hechroung_evaluate takes it, and a low and a high value. */
struct hechroung_reading {
    int64_t point[HECHROUNG_MOST_VARIABLES];
    int64_t low, high;
};

/* ---- words ---- */

/* HECHROUNG_VERSION. */
static inline const char *hechroung_version(void) {
    return HECHROUNG_VERSION;
}

/* A sentence for the number that a call returned: what is wrong, and what to do about it. It is never null and never to
   be freed. */
static inline const char *hechroung_sentence(uint8_t number) {
    static const char *const sentences[] = {
        "Accepted.",
        "The length is wrong: a sheet has 16 to 8792 bytes, an archived model 6 and 6 more for each of its terms; hand "
        "over all of its bytes and no others.",
        "The sheet's last two bytes are not its mark, hex 4D 4B for up to four variables or 4D 57 for more: see "
        "whether it is a sheet and was not cut short.",
        "A number is outside its limits: n is 1 to 8 and fits the sheet's mark (1 to 4 in the archive), the order 1 to "
        "15; there are 0 to 16 models and 1 to 64 steps.",
        "The sheet's parts do not fit its length, which is the offset of the first step, 8 bytes for each step and 8: "
        "mend the trailer.",
        "The model that the place names breaks a rule: it has at most 64 terms, keys that rise, no coefficient of 0, "
        "no variable above n, degrees up to the order, a span up to 2^30 and its book's n, and ends before the steps.",
        "The step that the place names, or an argument, breaks its form: operands are earlier steps, a variable is 1 "
        "to n, a constant -2^30 to 2^30, a threshold 0 to 2^30, and what is not used is 0.",
        "The span, the sizes of all coefficients and the radius together, rises above 2^30 units: scale the inputs "
        "down.",
        "More than 64 terms are left: lower the order, or sweep small terms before.",
        "The box is left: what is put in for a variable, its radius included, and each coordinate has to lie from -1 "
        "to 1; scale it.",
        "The models differ in n: give all models of a call the same.",
        "The buffer is too short: 8792 bytes are enough for every sheet, 390 for every archived model.",
        "Uncertified: the proposal w does not show that the divisor is nowhere zero; bring w nearer to 1 / g, and see "
        "whether g has a zero in the box.",
        "A model to convert into a Chebyshev curve has another n than 1: hand over a model of one variable.",
        "The box is to be cut to a depth above 6: take a depth of 0 to 6.",
        "A row has more than 256 readings, or the reading that the place names has a low value above its high one: cut "
        "the row into shorter ones, or mend the reading.",
        "A value in doubles is infinite or no number, or the radius is negative: mend what was delivered.",
        "The rank of the archived term that the place names is 3876 or more, or does not rise: the bytes are damaged, "
        "or no archived model.",
    };
    if (number < sizeof sentences / sizeof sentences[0]) return sentences[number];
    if (number == HECHROUNG_MISUSED)
        return "No call was made: a pointer is null, a slice is too short, or a code names no call.";
    return "No call returns this number.";
}

/* ---- calls. The answer may be one of the models that are read. A place of null is not written. ---- */

static inline uint8_t hechroung_called_(uint8_t code, uint8_t d, uint8_t i, int64_t value,
                                        const struct hechroung_model *f, const struct hechroung_model *g,
                                        struct hechroung_model *answer, size_t *place) {
    struct hechroung_model model;
    uint64_t numbers[4] = {0, 0, 0, 0};
    uint8_t number;
    if (f == NULL || g == NULL || answer == NULL) return HECHROUNG_MISUSED;
    number = hechroung_raw_call(code, d, i, value,
                                f->n, f->count, f->radius,
                                f->keys, HECHROUNG_MOST_TERMS, f->coefficients, HECHROUNG_MOST_TERMS,
                                g->n, g->count, g->radius,
                                g->keys, HECHROUNG_MOST_TERMS, g->coefficients, HECHROUNG_MOST_TERMS,
                                model.keys, HECHROUNG_MOST_TERMS, model.coefficients, HECHROUNG_MOST_TERMS, numbers, 4);
    model.n = HECHROUNG_CAST_(uint8_t, numbers[1]);
    model.count = HECHROUNG_CAST_(size_t, numbers[2]);
    model.radius = numbers[3];
    *answer = model;
    if (place != NULL) *place = HECHROUNG_CAST_(size_t, numbers[0]);
    return number;
}

/* No terms, radius 0. */
static inline struct hechroung_model hechroung_zero(uint8_t n) {
    struct hechroung_model zero;
    memset(&zero, 0, sizeof zero);
    zero.n = n;
    return zero;
}

/* The constant value, -2^30 to 2^30. Refusals 3 (n), 6 (value). */
static inline uint8_t hechroung_constant(uint8_t n, int64_t value, struct hechroung_model *answer) {
    struct hechroung_model of_n = hechroung_zero(n);
    return hechroung_called_(HECHROUNG_STEP_CONSTANT, 0, 0, value, &of_n, &of_n, answer, NULL);
}

/* Variable i, 1 to n. Refusals 3 (n), 6 (i). */
static inline uint8_t hechroung_variable(uint8_t n, uint8_t i, struct hechroung_model *answer) {
    struct hechroung_model of_n = hechroung_zero(n);
    return hechroung_called_(HECHROUNG_STEP_VARIABLE, 0, i, 0, &of_n, &of_n, answer, NULL);
}

/* All signs turned. Refusal 5. */
static inline uint8_t hechroung_negate(const struct hechroung_model *f, struct hechroung_model *answer) {
    return hechroung_called_(HECHROUNG_STEP_NEGATE, 0, 0, 0, f, f, answer, NULL);
}

/* The sum and the difference. Refusals 5 at place 0 or 1 (that model), 10, 8, 7. */
static inline uint8_t hechroung_add(const struct hechroung_model *f, const struct hechroung_model *g,
                                    struct hechroung_model *answer, size_t *place) {
    return hechroung_called_(HECHROUNG_STEP_ADD, 0, 0, 0, f, g, answer, place);
}

static inline uint8_t hechroung_subtract(const struct hechroung_model *f, const struct hechroung_model *g,
                                         struct hechroung_model *answer, size_t *place) {
    return hechroung_called_(HECHROUNG_STEP_SUBTRACT, 0, 0, 0, f, g, answer, place);
}

/* The product; what is above degree d, 1 to 15, goes into the radius. Refusals 3 (d), 5 at place 0 or 1, 10, 8, 7. */
static inline uint8_t hechroung_multiply(uint8_t d, const struct hechroung_model *f, const struct hechroung_model *g,
                                         struct hechroung_model *answer, size_t *place) {
    return hechroung_called_(HECHROUNG_STEP_MULTIPLY, d, 0, 0, f, g, answer, place);
}

/* g in the place of variable i of f, with order d. Refusals 3 (d), 5 at place 0 or 1, 10, 6 (i), 9, then 8 or 7. */
static inline uint8_t hechroung_substitute(uint8_t d, uint8_t i, const struct hechroung_model *f,
                                           const struct hechroung_model *g, struct hechroung_model *answer,
                                           size_t *place) {
    return hechroung_called_(HECHROUNG_STEP_SUBSTITUTE, d, i, 0, f, g, answer, place);
}

/* Terms but the constant one with |c| up to the threshold, 0 to 2^30, moved into the radius. Refusals 5, 6. */
static inline uint8_t hechroung_sweep(const struct hechroung_model *f, int64_t threshold,
                                      struct hechroung_model *answer) {
    return hechroung_called_(HECHROUNG_STEP_SWEEP, 0, 0, threshold, f, f, answer, NULL);
}

/* The antiderivative of f in variable i that is 0 wherever that variable is 0, with order d: a curve of what was
   gathered from the middle of the box on. Refusals 3 (d), 5, 6 (i). */
static inline uint8_t hechroung_antiderivative(uint8_t d, uint8_t i, const struct hechroung_model *f,
                                               struct hechroung_model *answer) {
    return hechroung_called_(HECHROUNG_STEP_ANTIDERIVATIVE, d, i, 0, f, f, answer, NULL);
}

/* The quotient f / g with order d, from a proposal: h should be near f / g and w near 1 / g; both are used without
   their radii. The answer is the polynomial of h with a radius that the call works out; nothing is supposed of the
   proposal. Refusals 3 (d), 5 at place 0 to 3 (f, g, h, w), 10, then 8 or 7 of a product or difference inside, 12
   (uncertified: with this w it is not shown that g is nowhere zero), 7. It takes some 5 KB of stack itself. */
static inline uint8_t hechroung_divide(uint8_t d, const struct hechroung_model *f, const struct hechroung_model *g,
                                       const struct hechroung_model *h, const struct hechroung_model *w,
                                       struct hechroung_model *answer, size_t *place) {
    const struct hechroung_model *models[4];
    struct hechroung_model model;
    uint8_t ns[4], number;
    size_t counts[4], k;
    uint64_t radii[4], numbers[4] = {0, 0, 0, 0};
    uint32_t keys[4 * HECHROUNG_MOST_TERMS];
    int64_t coefficients[4 * HECHROUNG_MOST_TERMS];
    if (f == NULL || g == NULL || h == NULL || w == NULL || answer == NULL) return HECHROUNG_MISUSED;
    models[0] = f;
    models[1] = g;
    models[2] = h;
    models[3] = w;
    for (k = 0; k < 4; k++) {
        ns[k] = models[k]->n;
        counts[k] = models[k]->count;
        radii[k] = models[k]->radius;
        memcpy(keys + k * HECHROUNG_MOST_TERMS, models[k]->keys, sizeof models[k]->keys);
        memcpy(coefficients + k * HECHROUNG_MOST_TERMS, models[k]->coefficients, sizeof models[k]->coefficients);
    }
    number = hechroung_raw_divide(d, ns, 4, counts, 4, radii, 4,
                                  keys, 4 * HECHROUNG_MOST_TERMS, coefficients, 4 * HECHROUNG_MOST_TERMS,
                                  model.keys, HECHROUNG_MOST_TERMS, model.coefficients, HECHROUNG_MOST_TERMS,
                                  numbers, 4);
    model.n = HECHROUNG_CAST_(uint8_t, numbers[1]);
    model.count = HECHROUNG_CAST_(size_t, numbers[2]);
    model.radius = numbers[3];
    *answer = model;
    if (place != NULL) *place = HECHROUNG_CAST_(size_t, numbers[0]);
    return number;
}

/* The exact integral is stored where `exact` is not null. */
static inline uint8_t hechroung_ended_(uint8_t code, const struct hechroung_model *f,
                                       const int64_t *point, size_t length,
                                       struct hechroung_ends *answer, struct hechroung_exact *exact) {
    int64_t ends[4] = {0, 0, 0, 0};
    uint8_t number;
    if (f == NULL || point == NULL || answer == NULL) return HECHROUNG_MISUSED;
    number = hechroung_raw_ends(code, f->n, f->count, f->radius,
                                f->keys, HECHROUNG_MOST_TERMS, f->coefficients, HECHROUNG_MOST_TERMS,
                                point, length, ends, 4);
    if (number == HECHROUNG_MISUSED) return number;
    answer->low = ends[0];
    answer->high = ends[1];
    if (exact != NULL) {
        exact->quotient = ends[2];
        exact->remainder = ends[3];
    }
    return number;
}

/* The range over the box: every function within the model has its values, times U, between the ends. Refusal 5. */
static inline uint8_t hechroung_range(const struct hechroung_model *f, struct hechroung_ends *answer) {
    static const int64_t nowhere = 0;
    return hechroung_ended_(HECHROUNG_ENDS_RANGE, f, &nowhere, 0, answer, NULL);
}

/* The integral over the box, times U. Refusal 5. */
static inline uint8_t hechroung_integral(const struct hechroung_model *f, struct hechroung_ends *answer) {
    static const int64_t nowhere = 0;
    return hechroung_ended_(HECHROUNG_ENDS_INTEGRAL, f, &nowhere, 0, answer, NULL);
}

/* The same, with the exact integral of the polynomial, which is 0 above four variables. Refusal 5. */
static inline uint8_t hechroung_integral_exact(const struct hechroung_model *f, struct hechroung_ends *answer,
                                               struct hechroung_exact *exact) {
    static const int64_t nowhere = 0;
    if (exact == NULL) return HECHROUNG_MISUSED;
    return hechroung_ended_(HECHROUNG_ENDS_INTEGRAL, f, &nowhere, 0, answer, exact);
}

/* The values at the point X_i/U, which has at least HECHROUNG_MOST_VARIABLES coordinates; those above n are 0. Refusals
   5, 6 (a coordinate above n), 9 (one outside -U to U), 7. */
static inline uint8_t hechroung_evaluate(const struct hechroung_model *f, const int64_t *point, size_t length,
                                         struct hechroung_ends *answer) {
    return hechroung_ended_(HECHROUNG_ENDS_EVALUATE, f, point, length, answer, NULL);
}

static inline void hechroung_summed_(const uint64_t numbers[4], const int64_t ends[6], struct hechroung_summary *answer,
                                     size_t *place) {
    answer->model.n = HECHROUNG_CAST_(uint8_t, numbers[1]);
    answer->model.count = HECHROUNG_CAST_(size_t, numbers[2]);
    answer->model.radius = numbers[3];
    answer->range.low = ends[0];
    answer->range.high = ends[1];
    answer->integral.low = ends[2];
    answer->integral.high = ends[3];
    answer->exact.quotient = ends[4];
    answer->exact.remainder = ends[5];
    if (place != NULL) *place = HECHROUNG_CAST_(size_t, numbers[0]);
}

/* Runs a sheet. Refusals 1 to 9, 12. */
static inline uint8_t hechroung_run_sheet(const uint8_t *sheet, size_t length, struct hechroung_summary *answer,
                                          size_t *place) {
    uint64_t numbers[4] = {0, 0, 0, 0};
    int64_t ends[6] = {0, 0, 0, 0, 0, 0};
    uint8_t number;
    if (sheet == NULL || answer == NULL) return HECHROUNG_MISUSED;
    number = hechroung_raw_run_sheet(sheet, length, answer->model.keys, HECHROUNG_MOST_TERMS,
                                     answer->model.coefficients, HECHROUNG_MOST_TERMS, numbers, 4, ends, 6);
    hechroung_summed_(numbers, ends, answer, place);
    return number;
}

static inline void hechroung_shared_(const uint64_t numbers[4 * HECHROUNG_MOST_STEPS],
                                     struct hechroung_shares shares[HECHROUNG_MOST_STEPS]) {
    size_t i;
    for (i = 0; i < HECHROUNG_MOST_STEPS; i++) {
        shares[i].carried = numbers[4 * i];
        shares[i].rounding = numbers[4 * i + 1];
        shares[i].swept = numbers[4 * i + 2];
        shares[i].slack = numbers[4 * i + 3];
    }
}

/* Runs a sheet, with the same answer, and tells where the radius of each of its steps came from, in 64 places: all 0
   for a refused step and those after it, for steps that the sheet does not have, and for all steps of a sheet refused
   by 1 to 6. Refusals 1 to 9, 12. It takes some 2 KB of stack itself. */
static inline uint8_t hechroung_shares_sheet(const uint8_t *sheet, size_t length, struct hechroung_summary *answer,
                                             struct hechroung_shares shares[HECHROUNG_MOST_STEPS], size_t *place) {
    uint64_t numbers[4] = {0, 0, 0, 0}, rows[4 * HECHROUNG_MOST_STEPS];
    int64_t ends[6] = {0, 0, 0, 0, 0, 0};
    uint8_t number;
    if (sheet == NULL || answer == NULL || shares == NULL) return HECHROUNG_MISUSED;
    memset(rows, 0, sizeof rows);
    number = hechroung_raw_shares_sheet(sheet, length, answer->model.keys, HECHROUNG_MOST_TERMS,
                                        answer->model.coefficients, HECHROUNG_MOST_TERMS, numbers, 4, ends, 6,
                                        rows, 4 * HECHROUNG_MOST_STEPS);
    hechroung_summed_(numbers, ends, answer, place);
    hechroung_shared_(rows, shares);
    return number;
}

/* Runs a sheet to the program's lines and returns their length, at most HECHROUNG_LONGEST_TEXT, or 0 where a pointer is
   null. As much of them as there is room for is put at the start of `lines`, without a zero at the end; what lies after
   it stays. */
static inline size_t hechroung_print(const uint8_t *sheet, size_t sheet_length, uint8_t *lines, size_t lines_length) {
    if (sheet == NULL || lines == NULL) return 0;
    return hechroung_raw_print(sheet, sheet_length, lines, lines_length);
}

/* Reads a sheet and writes what was read; a buffer of HECHROUNG_LONGEST_SHEET bytes is always enough. The length is
   stored where `length` points. Refusals 1 to 6, 11 (the buffer is too short); a refused call changes no byte and
   stores the length 0. */
static inline uint8_t hechroung_rewrite(const uint8_t *sheet, size_t sheet_length,
                                        uint8_t *buffer, size_t buffer_length, size_t *length, size_t *place) {
    uint64_t numbers[2] = {0, 0};
    uint8_t number;
    if (sheet == NULL || buffer == NULL || length == NULL) return HECHROUNG_MISUSED;
    number = hechroung_raw_rewrite(sheet, sheet_length, buffer, buffer_length, numbers, 2);
    *length = HECHROUNG_CAST_(size_t, numbers[1]);
    if (place != NULL) *place = HECHROUNG_CAST_(size_t, numbers[0]);
    return number;
}

/* Record i of a sheet, from 0: each model's bytes, then each step's 8. It returns the record's length, at most
   HECHROUNG_LONGEST_RECORD, or 0 where there is none or a pointer is null; a sheet that tests 1 to 6 refuse has none.
   As much of it as there is room for is put at the start of `bytes`. */
static inline size_t hechroung_record(const uint8_t *sheet, size_t sheet_length, size_t i,
                                      uint8_t *bytes, size_t bytes_length) {
    if (sheet == NULL || bytes == NULL) return 0;
    return hechroung_raw_record(sheet, sheet_length, i, bytes, bytes_length);
}

/* Opens a sheet for stepping through it: where its first record stands is stored at `first`; beside a refusal that is
   the sheet's length, where there is no record. Refusals 1 to 6. */
static inline uint8_t hechroung_open(const uint8_t *sheet, size_t sheet_length, size_t *first, size_t *place) {
    uint64_t numbers[2] = {0, 0};
    uint8_t number;
    if (sheet == NULL || first == NULL) return HECHROUNG_MISUSED;
    number = hechroung_raw_open(sheet, sheet_length, numbers, 2);
    *first = HECHROUNG_CAST_(size_t, numbers[1]);
    if (place != NULL) *place = HECHROUNG_CAST_(size_t, numbers[0]);
    return number;
}

/* The record at a place of an opened sheet. It returns an enum hechroung_record_kind, or HECHROUNG_MISUSED. As much of
   the record as there is room for is put at the start of `bytes`; its length is stored at `length`, and at `next` the
   place of the next one; where there is no record that is the place itself, as often as it is asked for. */
static inline uint8_t hechroung_next(const uint8_t *sheet, size_t sheet_length, size_t at,
                                     uint8_t *bytes, size_t bytes_length, size_t *length, size_t *next) {
    uint64_t numbers[2] = {0, 0};
    uint8_t kind;
    if (sheet == NULL || bytes == NULL || length == NULL || next == NULL) return HECHROUNG_MISUSED;
    kind = hechroung_raw_next(sheet, sheet_length, at, bytes, bytes_length, numbers, 2);
    *length = HECHROUNG_CAST_(size_t, numbers[0]);
    *next = HECHROUNG_CAST_(size_t, numbers[1]);
    return kind;
}

/* The slices of a book, some 14 KB; hechroung_flatten_ fills them, and answers 0 where a pointer is null that must not
   be. */
struct hechroung_flat_ {
    uint8_t ns[HECHROUNG_MOST_MODELS], fields[4 * HECHROUNG_MOST_STEPS];
    size_t counts[HECHROUNG_MOST_MODELS];
    uint64_t radii[HECHROUNG_MOST_MODELS];
    uint32_t keys[HECHROUNG_MOST_MODELS * HECHROUNG_MOST_TERMS];
    int64_t coefficients[HECHROUNG_MOST_MODELS * HECHROUNG_MOST_TERMS], values[HECHROUNG_MOST_STEPS];
};

static inline int hechroung_flatten_(const struct hechroung_model *models, size_t model_count,
                                     const struct hechroung_step *steps, size_t step_count,
                                     struct hechroung_flat_ *flat) {
    size_t k, i;
    if ((models == NULL && model_count != 0) || (steps == NULL && step_count != 0)) return 0;
    memset(flat, 0, sizeof *flat);
    for (k = 0; k < model_count && k < HECHROUNG_MOST_MODELS; k++) {
        flat->ns[k] = models[k].n;
        flat->counts[k] = models[k].count;
        flat->radii[k] = models[k].radius;
        memcpy(flat->keys + k * HECHROUNG_MOST_TERMS, models[k].keys, sizeof models[k].keys);
        memcpy(flat->coefficients + k * HECHROUNG_MOST_TERMS, models[k].coefficients, sizeof models[k].coefficients);
    }
    for (i = 0; i < step_count && i < HECHROUNG_MOST_STEPS; i++) {
        flat->fields[4 * i] = steps[i].code;
        flat->fields[4 * i + 1] = steps[i].a;
        flat->fields[4 * i + 2] = steps[i].b;
        flat->fields[4 * i + 3] = steps[i].v;
        flat->values[i] = steps[i].value;
    }
    return 1;
}

/* Writes a book of these models and steps as a sheet; a buffer of HECHROUNG_LONGEST_SHEET bytes is always enough. Its
   length is stored where `length` points. Refusals 3, 5, 6, 11; a refused write changes no byte and stores the length
   0. It takes some 14 KB of stack itself. */
static inline uint8_t hechroung_write_sheet(uint8_t n, uint8_t d,
                                            const struct hechroung_model *models, size_t model_count,
                                            const struct hechroung_step *steps, size_t step_count,
                                            uint8_t *buffer, size_t buffer_length, size_t *length, size_t *place) {
    struct hechroung_flat_ flat;
    uint64_t numbers[2] = {0, 0};
    uint8_t number;
    if (buffer == NULL || length == NULL || !hechroung_flatten_(models, model_count, steps, step_count, &flat))
        return HECHROUNG_MISUSED;
    number = hechroung_raw_write_sheet(n, d, model_count, step_count, flat.ns, HECHROUNG_MOST_MODELS,
                                       flat.counts, HECHROUNG_MOST_MODELS, flat.radii, HECHROUNG_MOST_MODELS,
                                       flat.keys, HECHROUNG_MOST_MODELS * HECHROUNG_MOST_TERMS,
                                       flat.coefficients, HECHROUNG_MOST_MODELS * HECHROUNG_MOST_TERMS,
                                       flat.fields, 4 * HECHROUNG_MOST_STEPS, flat.values, HECHROUNG_MOST_STEPS,
                                       buffer, buffer_length, numbers, 2);
    *length = HECHROUNG_CAST_(size_t, numbers[1]);
    if (place != NULL) *place = HECHROUNG_CAST_(size_t, numbers[0]);
    return number;
}

/* Runs a book of these models and steps. Refusals 3, 5 to 9, 12. It takes some 14 KB of stack itself. */
static inline uint8_t hechroung_run_models(uint8_t n, uint8_t d,
                                           const struct hechroung_model *models, size_t model_count,
                                           const struct hechroung_step *steps, size_t step_count,
                                           struct hechroung_summary *answer, size_t *place) {
    struct hechroung_flat_ flat;
    uint64_t numbers[4] = {0, 0, 0, 0};
    int64_t ends[6] = {0, 0, 0, 0, 0, 0};
    uint8_t number;
    if (answer == NULL || !hechroung_flatten_(models, model_count, steps, step_count, &flat)) return HECHROUNG_MISUSED;
    number = hechroung_raw_run_models(n, d, model_count, step_count, flat.ns, HECHROUNG_MOST_MODELS,
                                      flat.counts, HECHROUNG_MOST_MODELS, flat.radii, HECHROUNG_MOST_MODELS,
                                      flat.keys, HECHROUNG_MOST_MODELS * HECHROUNG_MOST_TERMS,
                                      flat.coefficients, HECHROUNG_MOST_MODELS * HECHROUNG_MOST_TERMS,
                                      flat.fields, 4 * HECHROUNG_MOST_STEPS, flat.values, HECHROUNG_MOST_STEPS,
                                      answer->model.keys, HECHROUNG_MOST_TERMS,
                                      answer->model.coefficients, HECHROUNG_MOST_TERMS, numbers, 4, ends, 6);
    hechroung_summed_(numbers, ends, answer, place);
    return number;
}

/* Runs a book of these models and steps and tells where the radius of each step came from, as hechroung_shares_sheet
   does. Refusals 3, 5 to 9, 12. It takes some 16 KB of stack itself. */
static inline uint8_t hechroung_shares_models(uint8_t n, uint8_t d,
                                              const struct hechroung_model *models, size_t model_count,
                                              const struct hechroung_step *steps, size_t step_count,
                                              struct hechroung_summary *answer,
                                              struct hechroung_shares shares[HECHROUNG_MOST_STEPS], size_t *place) {
    struct hechroung_flat_ flat;
    uint64_t numbers[4] = {0, 0, 0, 0}, rows[4 * HECHROUNG_MOST_STEPS];
    int64_t ends[6] = {0, 0, 0, 0, 0, 0};
    uint8_t number;
    if (answer == NULL || shares == NULL || !hechroung_flatten_(models, model_count, steps, step_count, &flat))
        return HECHROUNG_MISUSED;
    memset(rows, 0, sizeof rows);
    number = hechroung_raw_shares_models(n, d, model_count, step_count, flat.ns, HECHROUNG_MOST_MODELS,
                                         flat.counts, HECHROUNG_MOST_MODELS, flat.radii, HECHROUNG_MOST_MODELS,
                                         flat.keys, HECHROUNG_MOST_MODELS * HECHROUNG_MOST_TERMS,
                                         flat.coefficients, HECHROUNG_MOST_MODELS * HECHROUNG_MOST_TERMS,
                                         flat.fields, 4 * HECHROUNG_MOST_STEPS, flat.values, HECHROUNG_MOST_STEPS,
                                         answer->model.keys, HECHROUNG_MOST_TERMS,
                                         answer->model.coefficients, HECHROUNG_MOST_TERMS, numbers, 4, ends, 6,
                                         rows, 4 * HECHROUNG_MOST_STEPS);
    hechroung_summed_(numbers, ends, answer, place);
    hechroung_shared_(rows, shares);
    return number;
}

static inline uint8_t hechroung_curved_(uint8_t code, const struct hechroung_curve *f, const struct hechroung_curve *g,
                                        struct hechroung_curve *answer, size_t *place) {
    struct hechroung_curve curve;
    uint64_t numbers[2] = {0, 0};
    uint8_t number;
    if (f == NULL || g == NULL || answer == NULL) return HECHROUNG_MISUSED;
    number = hechroung_raw_curve(code, f->coefficients, HECHROUNG_CURVE_PLACES, f->radius,
                                 g->coefficients, HECHROUNG_CURVE_PLACES, g->radius,
                                 curve.coefficients, HECHROUNG_CURVE_PLACES, numbers, 2);
    curve.radius = numbers[1];
    *answer = curve;
    if (place != NULL) *place = HECHROUNG_CAST_(size_t, numbers[0]);
    return number;
}

/* All signs turned. Refusal 5. */
static inline uint8_t hechroung_negate_curve(const struct hechroung_curve *f, struct hechroung_curve *answer) {
    return hechroung_curved_(HECHROUNG_STEP_NEGATE, f, f, answer, NULL);
}

/* The sum and the difference. Refusals 5 at place 0 or 1 (that curve), 7. */
static inline uint8_t hechroung_add_curves(const struct hechroung_curve *f, const struct hechroung_curve *g,
                                           struct hechroung_curve *answer, size_t *place) {
    return hechroung_curved_(HECHROUNG_STEP_ADD, f, g, answer, place);
}

static inline uint8_t hechroung_subtract_curves(const struct hechroung_curve *f, const struct hechroung_curve *g,
                                                struct hechroung_curve *answer, size_t *place) {
    return hechroung_curved_(HECHROUNG_STEP_SUBTRACT, f, g, answer, place);
}

/* The product by T_i T_j = (T_(i+j) + T_|i-j|) / 2; what is above T_15, and what rounding leaves, goes into the radius.
   Refusals 5 at place 0 or 1, 7. */
static inline uint8_t hechroung_multiply_curves(const struct hechroung_curve *f, const struct hechroung_curve *g,
                                                struct hechroung_curve *answer, size_t *place) {
    return hechroung_curved_(HECHROUNG_STEP_MULTIPLY, f, g, answer, place);
}

/* The range over [-1, 1]: every function within the curve has its values, times U, between the ends, which are the
   coefficient of T_0, minus and plus all other sizes and the radius. Refusal 5. */
static inline uint8_t hechroung_range_of_curve(const struct hechroung_curve *f, struct hechroung_ends *answer) {
    int64_t ends[2] = {0, 0};
    uint8_t number;
    if (f == NULL || answer == NULL) return HECHROUNG_MISUSED;
    number = hechroung_raw_range_of_curve(f->coefficients, HECHROUNG_CURVE_PLACES, f->radius, ends, 2);
    answer->low = ends[0];
    answer->high = ends[1];
    return number;
}

/* The model of one variable that has the curve's polynomial in powers, exactly, and its radius: the same functions are
   within both. Refusals 5, 7. */
static inline uint8_t hechroung_curve_to_powers(const struct hechroung_curve *f, struct hechroung_model *answer) {
    uint64_t numbers[4] = {0, 0, 0, 0};
    uint8_t number;
    if (f == NULL || answer == NULL) return HECHROUNG_MISUSED;
    number = hechroung_raw_curve_to_powers(f->coefficients, HECHROUNG_CURVE_PLACES, f->radius,
                                           answer->keys, HECHROUNG_MOST_TERMS,
                                           answer->coefficients, HECHROUNG_MOST_TERMS, numbers, 4);
    answer->n = HECHROUNG_CAST_(uint8_t, numbers[1]);
    answer->count = HECHROUNG_CAST_(size_t, numbers[2]);
    answer->radius = numbers[3];
    return number;
}

/* The curve of a model of one variable: each coefficient goes to the nearest unit, halfway to the even one, and what
   that leaves goes into the radius, so that every function within the model is within the curve. Refusals 5, 13 (n is
   not 1), 7. */
static inline uint8_t hechroung_curve_from_powers(const struct hechroung_model *f, struct hechroung_curve *answer) {
    uint64_t numbers[2] = {0, 0};
    uint8_t number;
    if (f == NULL || answer == NULL) return HECHROUNG_MISUSED;
    number = hechroung_raw_curve_from_powers(f->n, f->count, f->radius, f->keys, HECHROUNG_MOST_TERMS,
                                             f->coefficients, HECHROUNG_MOST_TERMS,
                                             answer->coefficients, HECHROUNG_CURVE_PLACES, numbers, 2);
    answer->radius = numbers[1];
    return number;
}

/* The range over the box, narrower by cutting: variable i, 1 to n, is cut into 2^k equal pieces, k up to 6, the model
   is substituted for on each with order d, and the answer is the overlap of the undivided range with what the ranges of
   the pieces cover. Every function within the model has its values, times U, between the ends. A deeper cut is not
   always narrower. Refusals 3 (d), 5 (a degree above d among it), 6 (i), 14 (k above 6), all at place 0, then 8 or 7 of
   a piece, whose number, from 0, is the place. */
static inline uint8_t hechroung_range_cut(uint8_t d, uint8_t i, uint8_t k, const struct hechroung_model *f,
                                          struct hechroung_ends *answer, size_t *place) {
    int64_t ends[2] = {0, 0};
    uint64_t numbers[1] = {0};
    uint8_t number;
    if (f == NULL || answer == NULL) return HECHROUNG_MISUSED;
    number = hechroung_raw_range_cut(d, i, k, f->n, f->count, f->radius,
                                     f->keys, HECHROUNG_MOST_TERMS, f->coefficients, HECHROUNG_MOST_TERMS,
                                     ends, 2, numbers, 1);
    answer->low = ends[0];
    answer->high = ends[1];
    if (place != NULL) *place = HECHROUNG_CAST_(size_t, numbers[0]);
    return number;
}

/* The model of a curve that is delivered in doubles, in one variable: any function that differs from c0 + c1 x + c2 x^2
   by at most the radius, everywhere from -1 to 1, is within it. Of each coefficient's exact value U times it goes to
   the nearest whole number, ties to even; the radius is U times theirs rounded up, plus 1 for each coefficient that is
   no whole number of units. Minus zero counts as zero. Refusals 16 (a value is not finite, or the radius is negative),
   7. */
static inline uint8_t hechroung_from_doubles(const struct hechroung_doubles *curve, struct hechroung_model *answer) {
    uint64_t numbers[4] = {0, 0, 0, 0};
    uint8_t number;
    if (curve == NULL || answer == NULL) return HECHROUNG_MISUSED;
    number = hechroung_raw_from_doubles(curve->c0, curve->c1, curve->c2, curve->radius,
                                        answer->keys, HECHROUNG_MOST_TERMS, answer->coefficients, HECHROUNG_MOST_TERMS,
                                        numbers, 4);
    answer->n = HECHROUNG_CAST_(uint8_t, numbers[1]);
    answer->count = HECHROUNG_CAST_(size_t, numbers[2]);
    answer->radius = numbers[3];
    return number;
}

/* Holds `count` readings against a model, in order, up to the first that contradicts it: its band from low to high and
   the ends of the evaluation at its point have no number in common (ends that touch have one). No function within the
   model passes through that one; of the others nothing is promised, not even that a function within the model passes
   through them. `contradicted` is 1 if one contradicts and else 0, and `reading` the number of the first that does,
   from 0; both are 0 where none does and beside a refusal. Refusals 15 at place 0 (more than HECHROUNG_MOST_READINGS
   readings), 5, then with the reading as place 15 (a low value above its high one), 6 (a coordinate above n that is not
   0) and 9 (another outside -U to U), each tested of all readings before the next, then 7 (of an evaluation). A longer
   row than HECHROUNG_MOST_READINGS is handed over by one reading more than that, which is refused. It takes some 20 KB
   of stack itself. */
static inline uint8_t hechroung_hold(const struct hechroung_model *f, const struct hechroung_reading *readings,
                                     size_t count, int *contradicted, size_t *reading, size_t *place) {
    int64_t points[HECHROUNG_MOST_VARIABLES * (HECHROUNG_MOST_READINGS + 1)];
    int64_t lows[HECHROUNG_MOST_READINGS + 1], highs[HECHROUNG_MOST_READINGS + 1];
    uint64_t numbers[3] = {0, 0, 0};
    uint8_t number;
    size_t i;
    if (f == NULL || (readings == NULL && count != 0) || contradicted == NULL || reading == NULL)
        return HECHROUNG_MISUSED;
    if (count > HECHROUNG_MOST_READINGS + 1) count = HECHROUNG_MOST_READINGS + 1;
    for (i = 0; i < count; i++) {
        memcpy(points + HECHROUNG_MOST_VARIABLES * i, readings[i].point, sizeof readings[i].point);
        lows[i] = readings[i].low;
        highs[i] = readings[i].high;
    }
    number = hechroung_raw_hold(f->n, f->count, f->radius,
                                f->keys, HECHROUNG_MOST_TERMS, f->coefficients, HECHROUNG_MOST_TERMS,
                                points, HECHROUNG_MOST_VARIABLES * count, lows, count, highs, count, numbers, 3);
    *contradicted = HECHROUNG_CAST_(int, numbers[1]);
    *reading = HECHROUNG_CAST_(size_t, numbers[2]);
    if (place != NULL) *place = HECHROUNG_CAST_(size_t, numbers[0]);
    return number;
}

/* Stores a model of 1 to 4 variables in the archive's form: n, the radius in 4 bytes, the count, then for each term its
   rank in 2 bytes and its coefficient in 4, by total degree and then key, so that the low degrees come first; at most
   HECHROUNG_LONGEST_ARCHIVED bytes. The rank is the term's place, from 0, among all 3,876 monomials in four variables
   of degree at most 15 in that order. The length is stored where `length` points. Refusals 3 (n is not 1 to 4), 5, 11
   (the buffer is too short); a refused call changes no byte and stores the length 0. */
static inline uint8_t hechroung_store_model(const struct hechroung_model *f, uint8_t *buffer, size_t buffer_length,
                                            size_t *length) {
    uint64_t numbers[2] = {0, 0};
    uint8_t number;
    if (f == NULL || buffer == NULL || length == NULL) return HECHROUNG_MISUSED;
    number = hechroung_raw_store_model(f->n, f->count, f->radius, f->keys, HECHROUNG_MOST_TERMS,
                                       f->coefficients, HECHROUNG_MOST_TERMS, buffer, buffer_length, numbers, 2);
    *length = HECHROUNG_CAST_(size_t, numbers[1]);
    return number;
}

/* Restores a model from the archive's form: of all its terms, or of the first ones only, `terms` of them where fewer
   are asked for than are stored. All give the very model that was stored. WARNING: fewer terms give those terms with
   the stored radius, and that is no band around the curve: what was left out is not in the radius. Who wants a band has
   to add the sizes |c| of all terms left out to it. Refusals 1 (the length is below 6 or other than 6 + 6 times the
   count), 3 (n is not 1 to 4), 17 at the first term read, from 0, whose rank is 3,876 or more or does not rise, 5 (more
   than 64 terms are stored, or the radius or the terms read break a rule). Terms that are not read are not tested. */
static inline uint8_t hechroung_restore_model(const uint8_t *bytes, size_t bytes_length, size_t terms,
                                              struct hechroung_model *answer, size_t *place) {
    uint64_t numbers[4] = {0, 0, 0, 0};
    uint8_t number;
    if (bytes == NULL || answer == NULL) return HECHROUNG_MISUSED;
    number = hechroung_raw_restore_model(bytes, bytes_length, terms, answer->keys, HECHROUNG_MOST_TERMS,
                                         answer->coefficients, HECHROUNG_MOST_TERMS, numbers, 4);
    answer->n = HECHROUNG_CAST_(uint8_t, numbers[1]);
    answer->count = HECHROUNG_CAST_(size_t, numbers[2]);
    answer->radius = numbers[3];
    if (place != NULL) *place = HECHROUNG_CAST_(size_t, numbers[0]);
    return number;
}

#ifdef __cplusplus
}
#endif
#endif
