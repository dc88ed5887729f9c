/* The state of hechroung_total between rows, and between processes and machines: sums as bytes of a fixed order. */
#ifndef HECHROUNG_SQL_STATE_H
#define HECHROUNG_SQL_STATE_H

#include "sheets.h"

/* A byte with the number of this form, then eleven numbers of 8 bytes, the highest byte first. */
enum { STATE_LENGTH = 1 + 11 * 8 };

void state_store(const struct sheet_totals *totals, uint8_t state[STATE_LENGTH]);

/* The sums of a state; 0 where these bytes are none, as a user may call the aggregate's functions with anything. */
int state_restore(const uint8_t *state, size_t length, struct sheet_totals *totals);

#endif
