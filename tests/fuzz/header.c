/* The functions that include/hechroung.h writes out: they are not proved. Each input names one and its arguments; null
   pointers are handed over too. Answers have to be in their form, and ways that lead to the same answer have to
   agree. */
#include "input.h"

int LLVMFuzzerTestOneInput(const uint8_t *data, size_t size);

/* A refused call answers with the zero model in one variable, an accepted one with a model that is in order. */
static void model_in_form(uint8_t number, const struct hechroung_model *model) {
    HOLDS(number <= 17);
    HOLDS(model->n >= 1 && model->n <= 8 && model->count <= HECHROUNG_MOST_TERMS);
    HOLDS(number == 0 || (model->n == 1 && model->count == 0 && model->radius == 0));
    for (size_t i = 0; i < HECHROUNG_MOST_TERMS; i++) {
        HOLDS(i >= model->count || model->coefficients[i] != 0);
        HOLDS(i < model->count || (model->keys[i] == 0 && model->coefficients[i] == 0));
        HOLDS(i == 0 || i >= model->count || model->keys[i - 1] < model->keys[i]);
    }
}

static void same_model(const struct hechroung_model *a, const struct hechroung_model *b) {
    HOLDS(a->n == b->n && a->count == b->count && a->radius == b->radius);
    HOLDS(memcmp(a->keys, b->keys, sizeof a->keys) == 0);
    HOLDS(memcmp(a->coefficients, b->coefficients, sizeof a->coefficients) == 0);
}

static void same_summary(const struct hechroung_summary *a, const struct hechroung_summary *b) {
    same_model(&a->model, &b->model);
    HOLDS(a->range.low == b->range.low && a->range.high == b->range.high);
    HOLDS(a->integral.low == b->integral.low && a->integral.high == b->integral.high);
    HOLDS(a->exact.quotient == b->exact.quotient && a->exact.remainder == b->exact.remainder);
}

/* Record by record, by its place and by its number, and written back as it was. */
static void records(const struct input *input) {
    uint8_t bytes[HECHROUNG_LONGEST_RECORD], again[HECHROUNG_LONGEST_RECORD], buffer[HECHROUNG_LONGEST_SHEET];
    size_t at = 0, length = 0, place = 99, other = 98, count = 0;
    uint8_t kind;
    const uint8_t number = hechroung_open(input->at, input->left, &at, &place);
    HOLDS(number <= 6 && (number == 0 || at == input->left));
    HOLDS(hechroung_rewrite(input->at, input->left, buffer, sizeof buffer, &length, &other) == number);
    HOLDS(place == other && length == (number == 0 ? input->left : 0) && memcmp(buffer, input->at, length) == 0);
    while ((kind = hechroung_next(input->at, input->left, at, bytes, sizeof bytes, &length, &at)) != 0) {
        HOLDS(kind == HECHROUNG_MODEL_RECORD || (kind == HECHROUNG_STEP_RECORD && length == 8));
        HOLDS(hechroung_record(input->at, input->left, count, again, sizeof again) == length);
        HOLDS(memcmp(bytes, again, length) == 0);
        count++;
    }
    HOLDS(length == 0 && hechroung_record(input->at, input->left, count, again, sizeof again) == 0);
    HOLDS(count <= HECHROUNG_MOST_MODELS + HECHROUNG_MOST_STEPS && (number == 0) == (count > 0));
}

/* By the struct, with shares, and as lines. */
static void sheet(struct input *input) {
    struct hechroung_summary run, shared;
    struct hechroung_shares shares[HECHROUNG_MOST_STEPS];
    uint8_t lines[HECHROUNG_LONGEST_TEXT];
    char refused[64];
    size_t place = 99, other = 99;
    const uint8_t number = hechroung_run_sheet(input->at, input->left, &run, &place);
    const size_t length = hechroung_print(input->at, input->left, lines, sizeof lines);
    records(input);
    model_in_form(number, &run.model);
    HOLDS(run.exact.remainder >= 0 && run.exact.remainder < HECHROUNG_DENOMINATOR);
    HOLDS(run.range.low <= run.range.high && run.integral.low <= run.integral.high);
    HOLDS(hechroung_shares_sheet(input->at, input->left, &shared, shares, &other) == number && other == place);
    same_summary(&run, &shared);
    HOLDS(length <= sizeof lines);
    if (number == 0) {
        HOLDS(length > 7 && memcmp(lines, "radius ", 7) == 0);
        return;
    }
    snprintf(refused, sizeof refused, "refused %d %zu\n", number, place);
    HOLDS(length == strlen(refused) && memcmp(lines, refused, length) == 0);
}

/* A book: run, with shares, and written and run as a sheet. */
static void book(struct input *input) {
    const uint8_t n = (uint8_t)take(input, 1), d = (uint8_t)take(input, 1);
    const size_t model_count = (size_t)take(input, 1) % 19, step_count = (size_t)take(input, 1) % 70;
    struct hechroung_model models[19];
    struct hechroung_step steps[70];
    struct hechroung_summary run, other;
    struct hechroung_shares shares[HECHROUNG_MOST_STEPS];
    uint8_t buffer[HECHROUNG_LONGEST_SHEET];
    size_t place = 0, other_place = 0, length = 0;
    uint8_t number, written;
    for (size_t i = 0; i < model_count; i++) models[i] = take_model(input, n);
    for (size_t i = 0; i < step_count; i++) {
        steps[i].code = (uint8_t)take(input, 1) % 12;
        steps[i].a = (uint8_t)take(input, 1);
        steps[i].b = (uint8_t)take(input, 1);
        steps[i].v = (uint8_t)take(input, 1);
        steps[i].value = (int64_t)take(input, 8);
    }
    number = hechroung_run_models(n, d, models, model_count, steps, step_count, &run, &place);
    model_in_form(number, &run.model);
    written = hechroung_shares_models(n, d, models, model_count, steps, step_count, &other, shares, &other_place);
    HOLDS(written == number && place == other_place);
    same_summary(&run, &other);
    written = hechroung_write_sheet(n, d, models, model_count, steps, step_count, buffer, sizeof buffer, &length, NULL);
    HOLDS(written <= 17 && (written == 0) == (length > 0));
    if (written != 0) return;
    HOLDS(hechroung_run_sheet(buffer, length, &other, &other_place) == number && place == other_place);
    same_summary(&run, &other);
    HOLDS(hechroung_write_sheet(n, d, models, model_count, steps, step_count, buffer, length - 1, &length, NULL) == 11);
}

/* One of the calls that answer with a model. */
static uint8_t called(unsigned code, uint8_t d, uint8_t i, int64_t value, const struct hechroung_model *f,
                      const struct hechroung_model *g, struct hechroung_model *answer) {
    switch (code) {
    case 0: return hechroung_constant(f->n, value, answer);
    case 1: return hechroung_variable(f->n, i, answer);
    case 2: return hechroung_negate(f, answer);
    case 3: return hechroung_add(f, g, answer, NULL);
    case 4: return hechroung_subtract(f, g, answer, NULL);
    case 5: return hechroung_multiply(d, f, g, answer, NULL);
    case 6: return hechroung_substitute(d, i, f, g, answer, NULL);
    case 7: return hechroung_sweep(f, value, answer);
    case 8: return hechroung_antiderivative(d, i, f, answer);
    default: return hechroung_divide(d, f, g, f, g, answer, NULL);
    }
}

static void call(struct input *input) {
    const unsigned code = (unsigned)take(input, 1) % 10;
    const uint8_t n = (uint8_t)(take(input, 1) % 8 + 1), d = (uint8_t)take(input, 1), i = (uint8_t)take(input, 1);
    const int64_t value = (int64_t)take(input, 8);
    const struct hechroung_model f = take_model(input, n), g = take_model(input, n);
    struct hechroung_model answer, aliased = f;
    const uint8_t number = called(code, d, i, value, &f, &g, &answer);
    model_in_form(number, &answer);
    /* the answer may stand where an operand was */
    HOLDS(called(code, d, i, value, &aliased, &g, &aliased) == number);
    same_model(&answer, &aliased);
}

static void ends(struct input *input) {
    const uint8_t n = (uint8_t)(take(input, 1) % 8 + 1), i = (uint8_t)take(input, 1), k = (uint8_t)take(input, 1);
    const struct hechroung_model f = take_model(input, n);
    struct hechroung_ends range = {1, 0}, integral = {1, 0}, value = {1, 0}, cut = {1, 0};
    struct hechroung_exact exact = {-1, -1};
    int64_t point[HECHROUNG_MOST_VARIABLES];
    const uint8_t number = hechroung_range(&f, &range);
    for (size_t v = 0; v < HECHROUNG_MOST_VARIABLES; v++) point[v] = (int64_t)(int32_t)take(input, 4);
    HOLDS(number == 0 || number == 5);
    HOLDS(range.low <= range.high);
    HOLDS(hechroung_integral_exact(&f, &integral, &exact) == number && integral.low <= integral.high);
    HOLDS(exact.remainder >= 0 && exact.remainder < HECHROUNG_DENOMINATOR);
    HOLDS(hechroung_evaluate(&f, point, (size_t)take(input, 1) % 9, &value) != 0 || value.low <= value.high);
    HOLDS(hechroung_range_cut(15, i, k % 8, &f, &cut, NULL) != 0 || (cut.low >= range.low && cut.high <= range.high));
}

static void curve(struct input *input) {
    struct hechroung_curve f, g, sum, difference, product;
    struct hechroung_ends range;
    struct hechroung_model model;
    size_t place;
    memset(&f, 0, sizeof f);
    memset(&g, 0, sizeof g);
    for (size_t k = 0; k < HECHROUNG_CURVE_PLACES; k++) {
        f.coefficients[k] = (int64_t)(int32_t)take(input, 4);
        g.coefficients[k] = (int64_t)(int16_t)take(input, 2);
    }
    f.radius = take(input, 3);
    g.radius = take(input, 8);
    HOLDS(hechroung_add_curves(&f, &g, &sum, &place) <= 17);
    HOLDS(hechroung_negate_curve(&g, &g) <= 17);
    HOLDS(hechroung_subtract_curves(&f, &g, &difference, NULL) <= 17);
    HOLDS(hechroung_multiply_curves(&f, &g, &product, &place) <= 17);
    HOLDS(hechroung_range_of_curve(&f, &range) <= 17 && range.low <= range.high);
    if (hechroung_curve_to_powers(&f, &model) == 0) HOLDS(hechroung_curve_from_powers(&model, &sum) <= 17);
}

static void doubles(struct input *input) {
    struct hechroung_doubles delivered;
    struct hechroung_model model;
    uint64_t bits[4];
    for (size_t i = 0; i < 4; i++) bits[i] = take(input, 8);
    memcpy(&delivered, bits, sizeof delivered);
    model_in_form(hechroung_from_doubles(&delivered, &model), &model);
}

static void readings(struct input *input) {
    static struct hechroung_reading rows[300];
    const uint8_t n = (uint8_t)(take(input, 1) % 8 + 1);
    const struct hechroung_model f = take_model(input, n);
    const size_t count = (size_t)take(input, 2) % 301;
    int contradicted = 9;
    size_t reading = 0, place = 0;
    for (size_t i = 0; i < count; i++) {
        for (size_t v = 0; v < HECHROUNG_MOST_VARIABLES; v++) rows[i].point[v] = v < n ? (int16_t)take(input, 2) : 0;
        rows[i].low = (int32_t)take(input, 4);
        rows[i].high = rows[i].low + (int64_t)take(input, 3);
    }
    HOLDS(hechroung_hold(&f, rows, count, &contradicted, &reading, &place) <= 17);
    HOLDS(contradicted == 0 || (contradicted == 1 && reading < count));
}

static void archive(struct input *input) {
    struct hechroung_model model, again;
    uint8_t buffer[HECHROUNG_LONGEST_ARCHIVED];
    size_t place = 0, length = 0;
    const uint64_t terms = take(input, 1);
    const uint8_t number = hechroung_restore_model(input->at, input->left, (size_t)terms, &model, &place);
    model_in_form(number, &model);
    if (number != 0) return;
    HOLDS(hechroung_store_model(&model, buffer, sizeof buffer, &length) == 0);
    HOLDS(hechroung_restore_model(buffer, length, HECHROUNG_MOST_TERMS, &again, &place) == 0);
    same_model(&model, &again);
}

/* Null pointers: no call is made, and nothing is written. */
static void null_pointers(struct input *input) {
    struct hechroung_model f = take_model(input, 1), answer = f;
    struct hechroung_summary summary;
    struct hechroung_ends ends_ = {7, 8};
    struct hechroung_curve curve_;
    size_t length = 3;
    memset(&curve_, 0, sizeof curve_);
    HOLDS(hechroung_run_sheet(NULL, input->left, &summary, NULL) == HECHROUNG_MISUSED);
    HOLDS(hechroung_run_sheet(input->at, input->left, NULL, NULL) == HECHROUNG_MISUSED);
    HOLDS(hechroung_run_models(1, 1, NULL, 2, NULL, 1, &summary, NULL) == HECHROUNG_MISUSED);
    HOLDS(hechroung_print(input->at, input->left, NULL, 9) == 0 && hechroung_record(NULL, 9, 0, NULL, 9) == 0);
    HOLDS(hechroung_rewrite(input->at, input->left, NULL, 9, &length, NULL) == HECHROUNG_MISUSED && length == 3);
    HOLDS(hechroung_open(NULL, 9, &length, &length) == HECHROUNG_MISUSED && length == 3);
    HOLDS(hechroung_next(input->at, input->left, 0, NULL, 9, &length, &length) == HECHROUNG_MISUSED && length == 3);
    HOLDS(hechroung_write_sheet(1, 1, &f, 1, NULL, 1, NULL, 9, &length, NULL) == HECHROUNG_MISUSED && length == 3);
    HOLDS(hechroung_negate(NULL, &answer) == HECHROUNG_MISUSED && hechroung_negate(&f, NULL) == HECHROUNG_MISUSED);
    HOLDS(hechroung_add(&f, NULL, &answer, NULL) == HECHROUNG_MISUSED);
    HOLDS(hechroung_divide(1, &f, &f, NULL, &f, &answer, NULL) == HECHROUNG_MISUSED);
    same_model(&f, &answer);
    HOLDS(hechroung_range(NULL, &ends_) == HECHROUNG_MISUSED && ends_.low == 7 && ends_.high == 8);
    HOLDS(hechroung_range_of_curve(NULL, &ends_) == HECHROUNG_MISUSED && ends_.low == 7);
    HOLDS(hechroung_add_curves(&curve_, NULL, &curve_, NULL) == HECHROUNG_MISUSED);
    HOLDS(hechroung_from_doubles(NULL, &answer) == HECHROUNG_MISUSED);
    HOLDS(hechroung_store_model(&f, NULL, 9, &length) == HECHROUNG_MISUSED && length == 3);
    HOLDS(hechroung_restore_model(NULL, 9, 1, &answer, NULL) == HECHROUNG_MISUSED);
}

int LLVMFuzzerTestOneInput(const uint8_t *data, size_t size) {
    static void (*const targets[])(struct input *) = {sheet, book, call, ends, curve, doubles, readings, archive,
                                                      null_pointers};
    struct input input = {data, size};
    const size_t target = (size_t)take(&input, 1) % (sizeof targets / sizeof targets[0]);
    if (input.left > 0) targets[target](&input);
    return 0;
}
