/* Squares the curve x + 1/2, reads its range and its value at 1/4, writes the same as a sheet, runs that, and shows a
   refusal and a misuse. */
#include <hechroung.h>
#include <inttypes.h>
#include <stdio.h>

int main(void) {
    struct hechroung_model x, half, sum, square;
    struct hechroung_ends range, value;
    const int64_t quarter[HECHROUNG_MOST_VARIABLES] = {HECHROUNG_UNIT / 4};
    size_t place = 0;

    if (hechroung_variable(1, 1, &x) || hechroung_constant(1, HECHROUNG_UNIT / 2, &half) ||
        hechroung_add(&x, &half, &sum, NULL) || hechroung_multiply(2, &sum, &sum, &square, NULL) ||
        hechroung_range(&square, &range) || hechroung_evaluate(&square, quarter, HECHROUNG_MOST_VARIABLES, &value))
        return 1;

    printf("radius %" PRIu64 "\n", square.radius);
    for (size_t i = 0; i < square.count; i++)
        printf("term %" PRIu32 " %" PRId64 "\n", square.keys[i] >> 28, square.coefficients[i]);
    printf("range %" PRId64 " %" PRId64 "\n", range.low, range.high);
    printf("at 1/4 %" PRId64 " %" PRId64 "\n", value.low, value.high);

    /* x, 1/2, their sum, its square, as the steps of a sheet in one variable of order 2 */
    const struct hechroung_step steps[4] = {
        {.code = 2, .v = 1}, {.code = 1, .value = HECHROUNG_UNIT / 2},
        {.code = 4, .b = 1}, {.code = 6, .a = 2, .b = 2}};
    uint8_t sheet[HECHROUNG_LONGEST_SHEET], lines[HECHROUNG_LONGEST_TEXT];
    size_t length;
    if (hechroung_write_sheet(1, 2, NULL, 0, steps, 4, sheet, sizeof sheet, &length, NULL)) return 1;
    printf("sheet of %zu bytes\n", length);
    fwrite(lines, 1, hechroung_print(sheet, length, lines, sizeof lines), stdout);

    /* the same book is run as it is, and the sheet stepped through */
    struct hechroung_summary of_book, of_sheet;
    if (hechroung_run_models(1, 2, NULL, 0, steps, 4, &of_book, NULL) ||
        hechroung_run_sheet(sheet, length, &of_sheet, NULL) || of_book.exact.remainder != of_sheet.exact.remainder ||
        of_book.model.coefficients[1] != square.coefficients[1])
        return 1;
    uint8_t record[8];
    size_t at, record_length;
    int kind, count = 0;
    if (hechroung_open(sheet, length, &at, NULL)) return 1;
    while ((kind = hechroung_next(sheet, length, at, record, sizeof record, &record_length, &at)) != 0) {
        if (kind != HECHROUNG_STEP_RECORD || record[0] != steps[count].code) return 1;
        count++;
    }
    if (count != 4) return 1;

    /* order 1, the second byte of the trailer, has no room for the square: the radius of step 3 is what was swept */
    struct hechroung_shares shares[HECHROUNG_MOST_STEPS];
    sheet[length - 7] = 1;
    if (hechroung_shares_sheet(sheet, length, &of_sheet, shares, NULL)) return 1;
    printf("with order 1: radius %" PRIu64 " from %" PRIu64 " %" PRIu64 " %" PRIu64 " %" PRIu64 "\n",
           of_sheet.model.radius, shares[3].carried, shares[3].rounding, shares[3].swept, shares[3].slack);

    /* the second model is no model of one variable */
    half.n = 9;
    uint8_t number = hechroung_add(&x, &half, &sum, &place);
    printf("refused %d %zu\n", number, place);
    printf("misused %d\n", hechroung_add(&x, NULL, &sum, &place));
    return 0;
}
