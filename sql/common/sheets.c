/* Sheets for databases: see sheets.h. */
#include "sheets.h"

#include <hechroung.h>

enum { MOST_VARIABLES_EXACT = 4 };

const char *sheet_sentence(int refusal) {
    const int refused = refusal >= HECHROUNG_BAD_LENGTH && refusal <= HECHROUNG_BAD_RANK;
    return refused ? hechroung_sentence((uint8_t)refusal) : NULL;
}

void sheet_run(const uint8_t *sheet, size_t length, struct sheet_answer *answer) {
    static const uint8_t none[1] = {0};
    struct hechroung_summary summary;
    size_t place = 0;
    memset(answer, 0, sizeof *answer);
    /* databases hand out an empty value as a null pointer, which the library takes for misuse */
    answer->refusal = hechroung_run_sheet(length == 0 ? none : sheet, length, &summary, &place);
    answer->place = (int)place;
    if (answer->refusal != 0) return;
    answer->radius = (int64_t)summary.model.radius;
    answer->range_low = summary.range.low;
    answer->range_high = summary.range.high;
    answer->integral_low = summary.integral.low;
    answer->integral_high = summary.integral.high;
    answer->exact = summary.model.n <= MOST_VARIABLES_EXACT;
    answer->q = summary.exact.quotient;
    answer->r = summary.exact.remainder;
}

static struct wide wide_of(int64_t number) {
    const struct wide answer = {number < 0 ? UINT64_MAX : 0, (uint64_t)number};
    return answer;
}

static struct wide wide_sum(struct wide a, struct wide b) {
    const uint64_t low = a.low + b.low;
    const struct wide sum = {a.high + b.high + (low < a.low), low};
    return sum;
}

static struct wide wide_negated(struct wide number) {
    const struct wide turned = {~number.high, ~number.low};
    return wide_sum(turned, wide_of(1));
}

static struct wide wide_difference(struct wide a, struct wide b) {
    return wide_sum(a, wide_negated(b));
}

/* The exact part: what is a whole unit is carried, so that the remainder stays below the denominator. */
static void exact_add(struct sheet_totals *totals, struct wide q, uint64_t r) {
    totals->q = wide_sum(totals->q, q);
    totals->r += r;
    if (totals->r < HECHROUNG_DENOMINATOR) return;
    totals->r -= HECHROUNG_DENOMINATOR;
    totals->q = wide_sum(totals->q, wide_of(1));
}

static void exact_remove(struct sheet_totals *totals, struct wide q, uint64_t r) {
    totals->q = wide_difference(totals->q, q);
    if (totals->r < r) {
        totals->r += HECHROUNG_DENOMINATOR;
        totals->q = wide_difference(totals->q, wide_of(1));
    }
    totals->r -= r;
}

void totals_add(struct sheet_totals *totals, const struct sheet_answer *answer) {
    if (answer == NULL) {
        totals->nulls++;
        return;
    }
    if (answer->refusal != 0) {
        totals->refused++;
        return;
    }
    totals->accepted++;
    totals->integral_low = wide_sum(totals->integral_low, wide_of(answer->integral_low));
    totals->integral_high = wide_sum(totals->integral_high, wide_of(answer->integral_high));
    if (answer->exact)
        exact_add(totals, wide_of(answer->q), (uint64_t)answer->r);
    else
        totals->without_exact++;
}

void totals_remove(struct sheet_totals *totals, const struct sheet_answer *answer) {
    if (answer == NULL) {
        totals->nulls--;
        return;
    }
    if (answer->refusal != 0) {
        totals->refused--;
        return;
    }
    totals->accepted--;
    totals->integral_low = wide_difference(totals->integral_low, wide_of(answer->integral_low));
    totals->integral_high = wide_difference(totals->integral_high, wide_of(answer->integral_high));
    if (answer->exact)
        exact_remove(totals, wide_of(answer->q), (uint64_t)answer->r);
    else
        totals->without_exact--;
}

void totals_merge(struct sheet_totals *totals, const struct sheet_totals *other) {
    totals->accepted += other->accepted;
    totals->refused += other->refused;
    totals->nulls += other->nulls;
    totals->without_exact += other->without_exact;
    exact_add(totals, other->q, other->r);
    totals->integral_low = wide_sum(totals->integral_low, other->integral_low);
    totals->integral_high = wide_sum(totals->integral_high, other->integral_high);
}

int totals_normal(const struct sheet_totals *totals) {
    return totals->r < HECHROUNG_DENOMINATOR;
}

/* Divides by ten and answers with the remainder, in pieces of 32 bits from the highest down. */
static unsigned wide_digit(struct wide *number) {
    uint64_t pieces[4] = {number->high >> 32, number->high & UINT32_MAX, number->low >> 32, number->low & UINT32_MAX};
    uint64_t rest = 0;
    size_t i;
    for (i = 0; i < 4; i++) {
        rest = rest << 32 | pieces[i];
        pieces[i] = rest / 10;
        rest %= 10;
    }
    number->high = pieces[0] << 32 | pieces[1];
    number->low = pieces[2] << 32 | pieces[3];
    return (unsigned)rest;
}

void wide_text(struct wide number, char text[WIDE_TEXT]) {
    char digits[WIDE_TEXT];
    size_t count = 0, at = 0;
    if (number.high >> 63) {
        text[at++] = '-';
        number = wide_negated(number);
    }
    do {
        digits[count++] = (char)('0' + wide_digit(&number));
    } while (number.high != 0 || number.low != 0);
    while (count > 0) text[at++] = digits[--count];
    text[at] = '\0';
}
