/* A curve that a supplier delivers in doubles: its model, its range, and what is refused. */
#include <hechroung.h>
#include <inttypes.h>
#include <math.h>
#include <stdio.h>

int main(void) {
    /* 4.1 + 0.35 x - 1.25 x^2 litres a minute, to 0.002 */
    struct hechroung_doubles theirs = {.c0 = 4.1, .c1 = 0.35, .c2 = -1.25, .radius = 0.002};
    struct hechroung_model ours;
    struct hechroung_ends range;

    if (hechroung_from_doubles(&theirs, &ours) || hechroung_range(&ours, &range)) return 1;
    printf("radius %" PRIu64 "\n", ours.radius);
    for (size_t i = 0; i < ours.count; i++)
        printf("term %" PRIu32 " %" PRId64 "\n", ours.keys[i] >> 28, ours.coefficients[i]);
    printf("range %" PRId64 " %" PRId64 "\n", range.low, range.high);

    /* a value that is not finite, a negative radius, one that is too large; and minus zero, which is zero */
    theirs.c2 = NAN;
    printf("not a number: %d\n", hechroung_from_doubles(&theirs, &ours));
    theirs.c2 = 0.0;
    theirs.radius = -0x1p-1074;
    printf("a negative radius: %d\n", hechroung_from_doubles(&theirs, &ours));
    theirs.radius = 1e300;
    printf("too large: %d\n", hechroung_from_doubles(&theirs, &ours));
    theirs.radius = -0.0;
    printf("minus zero: %d\n", hechroung_from_doubles(&theirs, &ours));
    printf("misused: %d\n", hechroung_from_doubles(NULL, &ours));
    return 0;
}
