/* What the SQLite and the PostgreSQL extension share: one sheet run to a plain struct, a sentence for each refusal, and
   exact sums over many sheets. No other file of sql/ names a function of hechroung.h. */
#ifndef HECHROUNG_SQL_SHEETS_H
#define HECHROUNG_SQL_SHEETS_H

#include <stddef.h>
#include <stdint.h>

/* One sheet's answer. The numbers of a refused one are 0 and say nothing; q and r say something where `exact` is 1: the
   sheet is accepted and has at most four variables. */
struct sheet_answer {
    int refusal; /* 0 for an accepted sheet */
    int place;
    int exact;
    int64_t radius, range_low, range_high, integral_low, integral_high, q, r;
};

/* A whole number of 128 bits in two's complement. Two halves and not the compiler's own type: databases hand out
   memory that is aligned to 8 bytes only. No sum of a log leaves it: an end is below 2^40 in size, and no log has 2^64
   rows. */
struct wide {
    uint64_t high, low;
};

/* Sums over a log. Every sheet is in exactly one of accepted, refused and nulls; without_exact of the accepted ones
   have more than four variables and are in the sums of the ends, but not in q and r. The exact sum is q + r / the
   denominator with r below it. */
struct sheet_totals {
    uint64_t accepted, refused, nulls, without_exact;
    struct wide q;
    uint64_t r;
    struct wide integral_low, integral_high;
};

/* A sign, 39 digits and a zero at the end. */
enum { WIDE_TEXT = 41 };

/* Runs a sheet; the pointer may be null where the length is 0. It takes up to 330 KB of stack. */
void sheet_run(const uint8_t *sheet, size_t length, struct sheet_answer *answer);

/* A sentence for a refusal, 1 to 17; null for any other number. */
const char *sheet_sentence(int refusal);

/* One answer, or one NULL, more or less. */
void totals_add(struct sheet_totals *totals, const struct sheet_answer *answer);
void totals_remove(struct sheet_totals *totals, const struct sheet_answer *answer);

/* The sums over two logs, into the first. */
void totals_merge(struct sheet_totals *totals, const struct sheet_totals *other);

/* Whether a remainder is one: sums from elsewhere are tested by it. */
int totals_normal(const struct sheet_totals *totals);

/* The number in decimal digits. */
void wide_text(struct wide number, char text[WIDE_TEXT]);

#endif
