/* What include/hechroung.h adds to the proved functions: names for numbers, a sentence for each refusal, the version,
   and the calls on structs. tools/try-header compiles this as C and as C++ and runs it. */
#include <hechroung_raw.h>
#include <hechroung.h>
#include <hechroung.h>
#include <hechroung_raw.h>

#include <stdio.h>
#include <string.h>

static int failed = 0;

#define SAME(found, expected)                                                                                          \
    do {                                                                                                               \
        if ((found) != (expected)) {                                                                                   \
            printf("header.c:%d: %s is not %s\n", __LINE__, #found, #expected);                                        \
            failed = 1;                                                                                                \
        }                                                                                                              \
    } while (0)

/* The smallest sheet: one step, and the trailer. */
static const uint8_t smallest[16] = {HECHROUNG_STEP_CONSTANT, 0, 0, 0, 1, 0, 0, 0, 1, 1, 0, 1, 0, 0, 0x4D, 0x4B};

/* 64 terms of variables 1 to 4, with the keys from `first` on of those of degree up to 15. */
static struct hechroung_model full(uint32_t first) {
    struct hechroung_model model = hechroung_zero(4);
    uint32_t key = first;
    for (; model.count < HECHROUNG_MOST_TERMS; key++) {
        if ((key & 15) + (key >> 4 & 15) + (key >> 8 & 15) + (key >> 12) > 15) continue;
        model.keys[model.count] = key << 16;
        model.coefficients[model.count] = 1;
        model.count++;
    }
    return model;
}

/* Each refusal is met by a call and has its name. */
static void refusals(void) {
    struct hechroung_model one, two, zero = hechroung_zero(1), answer;
    struct hechroung_model low = full(0), high = full(0x100), wrong = hechroung_zero(1);
    struct hechroung_summary summary;
    struct hechroung_curve curve;
    struct hechroung_ends ends;
    struct hechroung_reading reading = {{0}, 1, 0};
    struct hechroung_doubles doubles = {0, 0, 0, -1};
    int64_t outside[HECHROUNG_MOST_VARIABLES] = {HECHROUNG_UNIT + 1};
    uint8_t bytes[16];
    const uint8_t archived[12] = {1, 0, 0, 0, 0, 1, 0x24, 0x0F, 1, 0, 0, 0};
    size_t length, first;
    int contradicted;
    wrong.count = HECHROUNG_MOST_TERMS + 1;
    SAME(hechroung_constant(1, HECHROUNG_UNIT, &one), HECHROUNG_ACCEPTED);
    SAME(hechroung_constant(2, 1, &two), HECHROUNG_ACCEPTED);
    SAME(hechroung_run_sheet(smallest, 16, &summary, NULL), HECHROUNG_ACCEPTED);
    SAME(hechroung_run_sheet(smallest, 15, &summary, NULL), HECHROUNG_BAD_LENGTH);
    memset(bytes, 0, sizeof bytes);
    SAME(hechroung_run_sheet(bytes, 16, &summary, NULL), HECHROUNG_BAD_MARK);
    SAME(hechroung_constant(0, 1, &answer), HECHROUNG_BAD_LIMITS);
    memcpy(bytes, smallest, sizeof bytes);
    bytes[12] = 1;
    SAME(hechroung_run_sheet(bytes, 16, &summary, NULL), HECHROUNG_BAD_OFFSET);
    SAME(hechroung_negate(&wrong, &answer), HECHROUNG_BAD_MODEL);
    SAME(hechroung_variable(1, 2, &answer), HECHROUNG_BAD_STEP);
    SAME(hechroung_constant(1, 1073741824, &answer), HECHROUNG_ACCEPTED);
    SAME(hechroung_add(&answer, &one, &answer, NULL), HECHROUNG_OVER_SPAN);
    SAME(hechroung_add(&low, &high, &answer, NULL), HECHROUNG_TOO_MANY_TERMS);
    SAME(hechroung_evaluate(&one, outside, HECHROUNG_MOST_VARIABLES, &ends), HECHROUNG_LEAVES_BOX);
    ends.low = 7;
    SAME(hechroung_evaluate(&one, outside, HECHROUNG_MOST_VARIABLES - 1, &ends), HECHROUNG_MISUSED);
    SAME(ends.low, 7); /* no call was made, and nothing was written */
    SAME(hechroung_add(&one, &two, &answer, NULL), HECHROUNG_VARIABLES_DIFFER);
    SAME(hechroung_store_model(&one, bytes, 11, &length), HECHROUNG_SHORT_BUFFER);
    SAME(hechroung_divide(1, &one, &one, &one, &zero, &answer, NULL), HECHROUNG_UNCERTIFIED);
    SAME(hechroung_curve_from_powers(&two, &curve), HECHROUNG_NOT_ONE_VARIABLE);
    SAME(hechroung_range_cut(1, 1, 7, &one, &ends, NULL), HECHROUNG_CUT_TOO_DEEP);
    SAME(hechroung_hold(&one, &reading, 1, &contradicted, &first, NULL), HECHROUNG_BAD_READING);
    SAME(hechroung_from_doubles(&doubles, &answer), HECHROUNG_BAD_DOUBLE);
    SAME(hechroung_restore_model(archived, 12, 1, &answer, NULL), HECHROUNG_BAD_RANK);
    SAME(hechroung_negate(NULL, &answer), HECHROUNG_MISUSED);
}

/* A book with a step of each code. */
static void steps(void) {
    const struct hechroung_step all[] = {
        {HECHROUNG_STEP_INPUT, 0, 0, 0, 0},
        {HECHROUNG_STEP_CONSTANT, 0, 0, 0, HECHROUNG_UNIT / 2},
        {HECHROUNG_STEP_VARIABLE, 0, 0, 1, 0},
        {HECHROUNG_STEP_NEGATE, 1, 0, 0, 0},
        {HECHROUNG_STEP_ADD, 1, 1, 0, 0},
        {HECHROUNG_STEP_SUBTRACT, 1, 3, 0, 0},
        {HECHROUNG_STEP_MULTIPLY, 2, 2, 0, 0},
        {HECHROUNG_STEP_SUBSTITUTE, 6, 1, 1, 0},
        {HECHROUNG_STEP_SWEEP, 6, 0, 0, HECHROUNG_UNIT},
        {HECHROUNG_STEP_QUOTIENT, 7, 4, 7, 5},
        {HECHROUNG_STEP_ANTIDERIVATIVE, 6, 0, 1, 0},
    };
    /* Of each step: how many terms it has, the first coefficient and the radius. */
    const int64_t expected[][3] = {
        {0, 0, 9},
        {1, HECHROUNG_UNIT / 2, 0},
        {1, HECHROUNG_UNIT, 0},
        {1, -HECHROUNG_UNIT / 2, 0},
        {1, HECHROUNG_UNIT, 0},
        {1, HECHROUNG_UNIT, 0},
        {1, HECHROUNG_UNIT, 0},
        {1, HECHROUNG_UNIT / 4, 0},
        {0, 0, HECHROUNG_UNIT},
        {1, HECHROUNG_UNIT / 4, 0},
        {1, 349525, 1},
    };
    /* The input alone, as the program writes it. */
    static const char lines[] = "radius 9\nrange -9 9\nintegral -18 18\nexact 0 0\n";
    struct hechroung_model input = hechroung_zero(1);
    struct hechroung_summary summary;
    uint8_t sheet[HECHROUNG_LONGEST_SHEET], bytes[HECHROUNG_LONGEST_RECORD];
    uint8_t again[HECHROUNG_LONGEST_SHEET];
    size_t i, length, at, record_length, again_length, place = 9;
    input.radius = 9;
    for (i = 0; i < sizeof all / sizeof all[0]; i++) {
        SAME(hechroung_run_models(1, 3, &input, 1, all, i + 1, &summary, NULL), HECHROUNG_ACCEPTED);
        SAME(summary.model.count, HECHROUNG_CAST_(size_t, expected[i][0]));
        SAME(summary.model.coefficients[0], expected[i][1]);
        SAME(summary.model.radius, HECHROUNG_CAST_(uint64_t, expected[i][2]));
    }
    SAME(hechroung_write_sheet(1, 3, &input, 1, all, 1, sheet, sizeof sheet, &length, NULL), HECHROUNG_ACCEPTED);
    SAME(hechroung_rewrite(sheet, length, again, sizeof again, &again_length, &place), HECHROUNG_ACCEPTED);
    SAME(again_length, length);
    SAME(memcmp(again, sheet, length), 0);
    SAME(place, 0u);
    SAME(hechroung_rewrite(sheet, length, again, length - 1, &again_length, NULL), HECHROUNG_SHORT_BUFFER);
    SAME(again_length, 0u);
    SAME(hechroung_open(sheet, length - 1, &at, &place), HECHROUNG_BAD_MARK);
    SAME(at, length - 1);
    SAME(hechroung_open(sheet, length, &at, NULL), HECHROUNG_ACCEPTED);
    SAME(hechroung_next(sheet, length, at, bytes, sizeof bytes, &record_length, &at), HECHROUNG_MODEL_RECORD);
    SAME(record_length, 5u);
    SAME(hechroung_record(sheet, length, 0, bytes, sizeof bytes), 5u);
    SAME(hechroung_next(sheet, length, at, bytes, sizeof bytes, &record_length, &at), HECHROUNG_STEP_RECORD);
    SAME(record_length, 8u);
    SAME(hechroung_record(sheet, length, 1, bytes, sizeof bytes), 8u);
    SAME(bytes[0], HECHROUNG_STEP_INPUT);
    SAME(hechroung_next(sheet, length, at, bytes, sizeof bytes, &record_length, &i), HECHROUNG_NO_RECORD);
    SAME(record_length, 0u);
    SAME(i, at);
    SAME(hechroung_record(sheet, length, 2, bytes, sizeof bytes), 0u);
    SAME(hechroung_print(sheet, length, bytes, sizeof bytes), sizeof lines - 1);
    SAME(memcmp(bytes, lines, sizeof lines - 1), 0);
}

/* A null pointer makes no call, and nothing is written. */
static void null_pointers(void) {
    uint8_t bytes[16];
    size_t number = 7;
    SAME(hechroung_print(NULL, 16, bytes, sizeof bytes), 0u);
    SAME(hechroung_print(smallest, 16, NULL, 16), 0u);
    SAME(hechroung_record(NULL, 16, 0, bytes, sizeof bytes), 0u);
    SAME(hechroung_record(smallest, 16, 0, NULL, 8), 0u);
    SAME(hechroung_rewrite(NULL, 16, bytes, sizeof bytes, &number, NULL), HECHROUNG_MISUSED);
    SAME(hechroung_rewrite(smallest, 16, NULL, 16, &number, NULL), HECHROUNG_MISUSED);
    SAME(hechroung_rewrite(smallest, 16, bytes, sizeof bytes, NULL, NULL), HECHROUNG_MISUSED);
    SAME(hechroung_open(NULL, 16, &number, &number), HECHROUNG_MISUSED);
    SAME(hechroung_open(smallest, 16, NULL, &number), HECHROUNG_MISUSED);
    SAME(hechroung_next(NULL, 16, 0, bytes, sizeof bytes, &number, &number), HECHROUNG_MISUSED);
    SAME(hechroung_next(smallest, 16, 0, NULL, 8, &number, &number), HECHROUNG_MISUSED);
    SAME(hechroung_next(smallest, 16, 0, bytes, sizeof bytes, NULL, &number), HECHROUNG_MISUSED);
    SAME(hechroung_next(smallest, 16, 0, bytes, sizeof bytes, &number, NULL), HECHROUNG_MISUSED);
    SAME(number, 7u);
}

/* A call by each code, known ones refused for their n of 9: a step's input and quotient are no calls. */
static void codes(void) {
    const uint8_t known[] = {0, 1, 1, 1, 1, 1, 1, 1, 1, 0, 1, 0};
    const uint32_t keys[1] = {0};
    const int64_t coefficients[1] = {0};
    struct hechroung_model answer;
    struct hechroung_curve curve;
    uint64_t numbers[4];
    uint8_t code;
    memset(&curve, 0, sizeof curve);
    for (code = 0; code < sizeof known; code++) {
        uint8_t number = hechroung_raw_call(code, 1, 1, 0, 9, 0, 0, keys, 1, coefficients, 1,
                                            9, 0, 0, keys, 1, coefficients, 1, answer.keys, HECHROUNG_MOST_TERMS,
                                            answer.coefficients, HECHROUNG_MOST_TERMS, numbers, 4);
        SAME(number != HECHROUNG_MISUSED, known[code] != 0);
        number = hechroung_raw_curve(code, curve.coefficients, HECHROUNG_CURVE_PLACES, 0,
                                     curve.coefficients, HECHROUNG_CURVE_PLACES, 0,
                                     answer.coefficients, HECHROUNG_CURVE_PLACES, numbers, 2);
        SAME(number, code < HECHROUNG_STEP_NEGATE || code > HECHROUNG_STEP_MULTIPLY ? HECHROUNG_MISUSED : 0);
    }
}

/* Whether the sentence of a refusal names the limit. */
static int names(uint8_t refusal, int limit) {
    char digits[16];
    snprintf(digits, sizeof digits, "%d", limit);
    return strstr(hechroung_sentence(refusal), digits) != NULL;
}

static void words(void) {
    const char *none = hechroung_sentence(HECHROUNG_BAD_RANK + 1);
    char version[32];
    int i, k;
    snprintf(version, sizeof version, "%d.%d.%d", HECHROUNG_VERSION_MAJOR, HECHROUNG_VERSION_MINOR,
             HECHROUNG_VERSION_PATCH);
    SAME(strcmp(hechroung_version(), version), 0);
    SAME(strcmp(hechroung_version(), HECHROUNG_VERSION), 0);
    for (i = 0; i <= 255; i++) {
        const char *sentence = hechroung_sentence(HECHROUNG_CAST_(uint8_t, i));
        SAME(sentence[strlen(sentence) - 1], '.');
        SAME(strcmp(sentence, none) == 0, i > HECHROUNG_BAD_RANK && i != HECHROUNG_MISUSED);
        for (k = 0; k < i && i <= HECHROUNG_BAD_RANK; k++)
            SAME(strcmp(sentence, hechroung_sentence(HECHROUNG_CAST_(uint8_t, k))) == 0, 0);
    }
    SAME(names(HECHROUNG_BAD_LENGTH, HECHROUNG_LONGEST_SHEET), 1);
    SAME(names(HECHROUNG_BAD_LIMITS, HECHROUNG_MOST_VARIABLES), 1);
    SAME(names(HECHROUNG_BAD_LIMITS, HECHROUNG_MOST_MODELS), 1);
    SAME(names(HECHROUNG_BAD_LIMITS, HECHROUNG_MOST_STEPS), 1);
    SAME(names(HECHROUNG_BAD_MODEL, HECHROUNG_MOST_TERMS), 1);
    SAME(names(HECHROUNG_TOO_MANY_TERMS, HECHROUNG_MOST_TERMS), 1);
    SAME(names(HECHROUNG_SHORT_BUFFER, HECHROUNG_LONGEST_SHEET), 1);
    SAME(names(HECHROUNG_SHORT_BUFFER, HECHROUNG_LONGEST_ARCHIVED), 1);
    SAME(names(HECHROUNG_BAD_READING, HECHROUNG_MOST_READINGS), 1);
}

int main(void) {
    refusals();
    steps();
    null_pointers();
    codes();
    words();
    return failed;
}
