/* A bench log held against a meter's curve: which line contradicts it. examples/bench.md says what the lines mean. */
#include <hechroung.h>
#include <inttypes.h>
#include <stdio.h>

/* The meter and the bench count in steps of 1/1024, which are whole units: nothing is rounded. */
enum { STEP = HECHROUNG_UNIT / 1024, LONGEST_LINE = 100 };

/* Litres a minute over the pump's setting, within 20 steps, from the data sheet. Keys: x has hex 10000000. */
static struct hechroung_model curve(void) {
    const int64_t values[4] = {2970, 666, -410, 82};
    struct hechroung_model curve = hechroung_zero(1);
    for (; curve.count < 4; curve.count++) {
        curve.keys[curve.count] = (uint32_t)curve.count << 28;
        curve.coefficients[curve.count] = STEP * values[curve.count];
    }
    curve.radius = 20 * STEP;
    return curve;
}

int main(void) {
    const struct hechroung_model meter = curve();
    struct hechroung_reading rows[HECHROUNG_MOST_READINGS] = {{{0}, 0, 0}};
    size_t lines[HECHROUNG_MOST_READINGS], count = 0, line = 0, reading, i;
    char text[LONGEST_LINE];
    int contradicted;
    FILE *log = fopen("examples/bench.log", "r");
    if (log == NULL) return 1;
    while (count < HECHROUNG_MOST_READINGS && fgets(text, sizeof text, log) != NULL) {
        int64_t setting, low, high;
        line++;
        if (sscanf(text, "%" SCNd64 " %" SCNd64 " %" SCNd64, &setting, &low, &high) != 3) continue;
        rows[count].point[0] = STEP * setting;
        rows[count].low = STEP * low;
        rows[count].high = STEP * high;
        lines[count++] = line;
    }
    fclose(log);
    printf("readings %zu\n", count);
    for (;;) {
        const struct hechroung_reading *row;
        struct hechroung_ends ends;
        if (hechroung_hold(&meter, rows, count, &contradicted, &reading, NULL)) return 1;
        if (!contradicted) break;
        row = &rows[reading];
        if (hechroung_evaluate(&meter, row->point, HECHROUNG_MOST_VARIABLES, &ends)) return 1;
        printf("line %zu contradicts: read %" PRId64 " %" PRId64 " curve %" PRId64 " %" PRId64 "\n", lines[reading],
               row->low, row->high, ends.low, ends.high);
        /* without it, the rest */
        for (i = reading + 1; i < count; i++) {
            rows[i - 1] = rows[i];
            lines[i - 1] = lines[i];
        }
        count--;
    }
    printf("of the other %zu none contradicts\n", count);
    return 0;
}
