/* The sums that both extensions share, and the state that PostgreSQL hands around: an input is a row of changes, held
   against the compiler's own numbers of 128 bits, and bytes that claim to be a state. */
#include "input.h"
#include "state.h"

int LLVMFuzzerTestOneInput(const uint8_t *data, size_t size);

__extension__ typedef __int128 number;

struct sums {
    number exact, low, high; /* exact: in parts of a unit over the denominator */
    uint64_t accepted, refused, without_exact;
};

static number of_wide(struct wide wide) {
    return (number)(((__extension__(unsigned __int128)wide.high) << 64) | wide.low);
}

/* Decimal digits read back. */
static number of_text(const char *text) {
    number value = 0;
    const int negative = *text == '-';
    for (text += negative; *text != '\0'; text++) {
        HOLDS(*text >= '0' && *text <= '9');
        value = value * 10 + (negative ? '0' - *text : *text - '0');
    }
    return value;
}

static void agree(const struct sheet_totals *totals, const struct sums *sums) {
    char text[WIDE_TEXT];
    HOLDS(totals_normal(totals));
    HOLDS(totals->accepted == sums->accepted && totals->refused == sums->refused);
    HOLDS(totals->without_exact == sums->without_exact && totals->nulls == 0);
    HOLDS(of_wide(totals->q) * HECHROUNG_DENOMINATOR + (number)totals->r == sums->exact);
    HOLDS(of_wide(totals->integral_low) == sums->low && of_wide(totals->integral_high) == sums->high);
    wide_text(totals->q, text);
    HOLDS(of_text(text) == of_wide(totals->q) && (text[0] != '0' || text[1] == '\0'));
    wide_text(totals->integral_low, text);
    HOLDS(of_text(text) == sums->low);
}

static struct sheet_answer take_answer(struct input *input) {
    struct sheet_answer answer;
    memset(&answer, 0, sizeof answer);
    answer.refusal = (int)(take(input, 1) % 18 * (take(input, 1) % 3 == 0));
    if (answer.refusal != 0) return answer;
    answer.exact = (int)take(input, 1) & 1;
    answer.integral_low = (int64_t)take(input, 5) - (1LL << 39);
    answer.integral_high = answer.integral_low + (int64_t)take(input, 3);
    if (!answer.exact) return answer;
    answer.q = (int64_t)take(input, 5) - (1LL << 39);
    answer.r = (int64_t)(take(input, 4) % HECHROUNG_DENOMINATOR);
    return answer;
}

static void change(struct sums *sums, const struct sheet_answer *answer, int sign) {
    sums->exact += sign * ((number)answer->q * HECHROUNG_DENOMINATOR + answer->r);
    sums->low += sign * (number)answer->integral_low;
    sums->high += sign * (number)answer->integral_high;
    sums->refused += (uint64_t)(sign * (answer->refusal != 0));
    sums->accepted += (uint64_t)(sign * (answer->refusal == 0));
    sums->without_exact += (uint64_t)(sign * (answer->refusal == 0 && !answer->exact));
}

/* Bytes of any kind: what is taken for a state is stored as the same bytes. */
static void state(const struct input *input) {
    struct sheet_totals totals;
    uint8_t again[STATE_LENGTH];
    char text[WIDE_TEXT];
    if (!state_restore(input->at, input->left, &totals)) return;
    state_store(&totals, again);
    HOLDS(input->left == STATE_LENGTH && memcmp(again, input->at, STATE_LENGTH) == 0);
    wide_text(totals.q, text);
    totals_merge(&totals, &totals);
    HOLDS(totals_normal(&totals));
}

int LLVMFuzzerTestOneInput(const uint8_t *data, size_t size) {
    struct input input = {data, size};
    struct sheet_totals totals, copy;
    struct sums sums = {0, 0, 0, 0, 0, 0};
    uint8_t stored[STATE_LENGTH];
    state(&input);
    memset(&totals, 0, sizeof totals);
    for (int doubled = 0; input.left > 0;) {
        const uint64_t word = take(&input, 1) % 8;
        const struct sheet_answer answer = take_answer(&input);
        if (word == 0 && doubled < 40) {
            copy = totals;
            totals_merge(&totals, &copy);
            sums.exact *= 2, sums.low *= 2, sums.high *= 2;
            sums.accepted *= 2, sums.refused *= 2, sums.without_exact *= 2;
            doubled++;
        } else if (word == 1) {
            totals_remove(&totals, &answer);
            change(&sums, &answer, -1);
        } else {
            totals_add(&totals, &answer);
            change(&sums, &answer, 1);
        }
        agree(&totals, &sums);
    }
    state_store(&totals, stored);
    HOLDS(state_restore(stored, sizeof stored, &copy) && memcmp(&copy, &totals, sizeof copy) == 0);
    return 0;
}
