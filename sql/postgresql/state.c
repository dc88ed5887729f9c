/* The state of hechroung_total as bytes: see state.h. */
#include "state.h"

enum { FORM = 1 };

static uint8_t *number_store(uint64_t number, uint8_t *bytes) {
    int i;
    for (i = 0; i < 8; i++) bytes[i] = (uint8_t)(number >> (56 - 8 * i));
    return bytes + 8;
}

static const uint8_t *number_restore(const uint8_t *bytes, uint64_t *number) {
    int i;
    *number = 0;
    for (i = 0; i < 8; i++) *number = *number << 8 | bytes[i];
    return bytes + 8;
}

static uint8_t *wide_store(struct wide number, uint8_t *bytes) {
    return number_store(number.low, number_store(number.high, bytes));
}

static const uint8_t *wide_restore(const uint8_t *bytes, struct wide *number) {
    return number_restore(number_restore(bytes, &number->high), &number->low);
}

void state_store(const struct sheet_totals *totals, uint8_t state[STATE_LENGTH]) {
    uint8_t *at = state;
    *at++ = FORM;
    at = number_store(totals->accepted, at);
    at = number_store(totals->refused, at);
    at = number_store(totals->nulls, at);
    at = number_store(totals->without_exact, at);
    at = wide_store(totals->q, at);
    at = number_store(totals->r, at);
    at = wide_store(totals->integral_low, at);
    wide_store(totals->integral_high, at);
}

int state_restore(const uint8_t *state, size_t length, struct sheet_totals *totals) {
    const uint8_t *at = state;
    if (length != STATE_LENGTH || *at++ != FORM) return 0;
    at = number_restore(at, &totals->accepted);
    at = number_restore(at, &totals->refused);
    at = number_restore(at, &totals->nulls);
    at = number_restore(at, &totals->without_exact);
    at = wide_restore(at, &totals->q);
    at = number_restore(at, &totals->r);
    at = wide_restore(at, &totals->integral_low);
    wide_restore(at, &totals->integral_high);
    return totals_normal(totals);
}
