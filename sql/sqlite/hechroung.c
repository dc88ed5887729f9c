/* A loadable SQLite extension: hechroung_run(sheet), a table of one row, and hechroung_total(sheet), an aggregate that
   is a window function too. docs/SQL.md says what they answer. */
#include <sqlite3ext.h>
SQLITE_EXTENSION_INIT1

#include "sheets.h"

#include <inttypes.h>
#include <stdio.h>
#include <string.h>

/* The columns of hechroung_run; the last one is hidden and takes the argument. Its name is one that no log has: the
   query `FROM log, hechroung_run(sheet)` would not know which `sheet` is meant. */
enum { REFUSAL, PLACE, SENTENCE, RADIUS, RANGE_LOW, RANGE_HIGH, INTEGRAL_LOW, INTEGRAL_HIGH, Q, R, SHEET };
static const char DECLARED[] =
    "CREATE TABLE x(refusal INTEGER, place INTEGER, sentence TEXT, radius INTEGER, range_low INTEGER, "
    "range_high INTEGER, integral_low INTEGER, integral_high INTEGER, q INTEGER, r INTEGER, "
    "hechroung_sheet BLOB HIDDEN)";

/* What a value is. Text is no sheet: it would be refused for its length or its mark, and hex digits that someone forgot
   to decode would be counted as a damaged sheet. */
enum kind { ANSWERED, NULL_SHEET, NO_BLOB, NO_MEMORY };

/* The answer of one value, where it is a sheet. */
static enum kind answer_of(sqlite3_value *value, struct sheet_answer *answer) {
    const void *bytes;
    int length;
    if (sqlite3_value_type(value) == SQLITE_NULL) return NULL_SHEET;
    if (sqlite3_value_type(value) != SQLITE_BLOB) return NO_BLOB;
    /* in this order: asking for the blob may move the value */
    bytes = sqlite3_value_blob(value);
    length = sqlite3_value_bytes(value);
    if (bytes == NULL && length != 0) return NO_MEMORY;
    sheet_run(bytes, (size_t)length, answer);
    return ANSWERED;
}

/* ---- hechroung_run: a virtual table without a name in the schema ---- */

struct cursor {
    sqlite3_vtab_cursor base;
    sqlite3_value *sheet;
    struct sheet_answer answer;
    enum kind kind;
    int ended;
};

static int run_connect(sqlite3 *db, void *unused, int count, const char *const *words, sqlite3_vtab **table,
                       char **error) {
    int status = sqlite3_declare_vtab(db, DECLARED);
    (void)unused, (void)count, (void)words, (void)error;
    if (status != SQLITE_OK) return status;
    *table = sqlite3_malloc(sizeof **table);
    if (*table == NULL) return SQLITE_NOMEM;
    memset(*table, 0, sizeof **table);
    /* it reads nothing but its argument and changes nothing, so that a schema that is not trusted may name it */
    sqlite3_vtab_config(db, SQLITE_VTAB_INNOCUOUS);
    return SQLITE_OK;
}

static int run_disconnect(sqlite3_vtab *table) {
    sqlite3_free(table);
    return SQLITE_OK;
}

/* The words that SQLite prints. */
static int failed(sqlite3_vtab *table, const char *words) {
    sqlite3_free(table->zErrMsg);
    table->zErrMsg = sqlite3_mprintf("%s", words);
    return SQLITE_ERROR;
}

/* The one way to use it: with the argument. */
static int run_best(sqlite3_vtab *table, sqlite3_index_info *plan) {
    int i, given = 0;
    for (i = 0; i < plan->nConstraint; i++) {
        if (plan->aConstraint[i].iColumn != SHEET || plan->aConstraint[i].op != SQLITE_INDEX_CONSTRAINT_EQ) continue;
        given = 1;
        if (!plan->aConstraint[i].usable) continue;
        plan->aConstraintUsage[i].argvIndex = 1;
        plan->aConstraintUsage[i].omit = 1;
        plan->estimatedCost = 100;
        plan->estimatedRows = 1;
        plan->idxFlags = SQLITE_INDEX_SCAN_UNIQUE;
        return SQLITE_OK;
    }
    if (given) return SQLITE_CONSTRAINT; /* SQLite asks again, with the argument known before */
    return failed(table, "hechroung_run takes one sheet");
}

static int run_open(sqlite3_vtab *table, sqlite3_vtab_cursor **opened) {
    struct cursor *cursor = sqlite3_malloc(sizeof *cursor);
    (void)table;
    if (cursor == NULL) return SQLITE_NOMEM;
    memset(cursor, 0, sizeof *cursor);
    *opened = &cursor->base;
    return SQLITE_OK;
}

static int run_close(sqlite3_vtab_cursor *base) {
    struct cursor *cursor = (struct cursor *)base;
    sqlite3_value_free(cursor->sheet);
    sqlite3_free(cursor);
    return SQLITE_OK;
}

static int run_filter(sqlite3_vtab_cursor *base, int plan, const char *words, int count, sqlite3_value **values) {
    struct cursor *cursor = (struct cursor *)base;
    (void)plan, (void)words, (void)count; /* run_best asks for the one argument */
    cursor->ended = 0;
    sqlite3_value_free(cursor->sheet);
    cursor->sheet = NULL;
    cursor->kind = answer_of(values[0], &cursor->answer);
    if (cursor->kind == NO_BLOB) return failed(base->pVtab, "hechroung_run: a sheet is a BLOB or NULL");
    if (cursor->kind == NO_MEMORY) return SQLITE_NOMEM;
    cursor->sheet = sqlite3_value_dup(values[0]);
    return cursor->sheet == NULL ? SQLITE_NOMEM : SQLITE_OK;
}

static int run_next(sqlite3_vtab_cursor *base) {
    ((struct cursor *)base)->ended = 1;
    return SQLITE_OK;
}

static int run_eof(sqlite3_vtab_cursor *base) {
    return ((struct cursor *)base)->ended;
}

static int run_rowid(sqlite3_vtab_cursor *base, sqlite3_int64 *rowid) {
    (void)base;
    *rowid = 1;
    return SQLITE_OK;
}

/* The columns that a refused sheet has. */
static void refused_column(sqlite3_context *context, const struct sheet_answer *answer, int column) {
    switch (column) {
    case PLACE: sqlite3_result_int(context, answer->place); break;
    case SENTENCE: sqlite3_result_text(context, sheet_sentence(answer->refusal), -1, SQLITE_STATIC); break;
    default: sqlite3_result_null(context);
    }
}

/* The columns that an accepted sheet has. */
static void accepted_column(sqlite3_context *context, const struct sheet_answer *answer, int column) {
    switch (column) {
    case RADIUS: sqlite3_result_int64(context, answer->radius); break;
    case RANGE_LOW: sqlite3_result_int64(context, answer->range_low); break;
    case RANGE_HIGH: sqlite3_result_int64(context, answer->range_high); break;
    case INTEGRAL_LOW: sqlite3_result_int64(context, answer->integral_low); break;
    case INTEGRAL_HIGH: sqlite3_result_int64(context, answer->integral_high); break;
    case Q: if (answer->exact) sqlite3_result_int64(context, answer->q); break;
    case R: if (answer->exact) sqlite3_result_int64(context, answer->r); break;
    default: sqlite3_result_null(context);
    }
}

static int run_column(sqlite3_vtab_cursor *base, sqlite3_context *context, int column) {
    const struct cursor *cursor = (const struct cursor *)base;
    if (cursor->kind == NULL_SHEET) return SQLITE_OK; /* a column that is not set is NULL */
    if (column == SHEET)
        sqlite3_result_value(context, cursor->sheet);
    else if (column == REFUSAL)
        sqlite3_result_int(context, cursor->answer.refusal);
    else if (cursor->answer.refusal != 0)
        refused_column(context, &cursor->answer, column);
    else
        accepted_column(context, &cursor->answer, column);
    return SQLITE_OK;
}

/* Without xCreate it exists in every database and cannot be created under another name. */
static const sqlite3_module RUN = {
    .xConnect = run_connect, .xBestIndex = run_best, .xDisconnect = run_disconnect, .xOpen = run_open,
    .xClose = run_close, .xFilter = run_filter, .xNext = run_next, .xEof = run_eof, .xColumn = run_column,
    .xRowid = run_rowid};

/* ---- hechroung_total ---- */

typedef void change(struct sheet_totals *, const struct sheet_answer *);

static void changed(sqlite3_context *context, sqlite3_value *value, change *by) {
    struct sheet_totals *totals = sqlite3_aggregate_context(context, sizeof *totals);
    struct sheet_answer answer;
    switch (totals == NULL ? NO_MEMORY : answer_of(value, &answer)) {
    case ANSWERED: by(totals, &answer); break;
    case NULL_SHEET: by(totals, NULL); break;
    case NO_BLOB: sqlite3_result_error(context, "hechroung_total: a sheet is a BLOB or NULL", -1); break;
    case NO_MEMORY: sqlite3_result_error_nomem(context); break;
    }
}

static void total_step(sqlite3_context *context, int count, sqlite3_value **values) {
    (void)count;
    changed(context, values[0], totals_add);
}

/* A row that leaves the window. */
static void total_inverse(sqlite3_context *context, int count, sqlite3_value **values) {
    (void)count;
    changed(context, values[0], totals_remove);
}

static void total_value(sqlite3_context *context) {
    static const struct sheet_totals zero;
    const struct sheet_totals *totals = sqlite3_aggregate_context(context, 0);
    char q[WIDE_TEXT], low[WIDE_TEXT], high[WIDE_TEXT], json[512];
    if (totals == NULL) totals = &zero; /* no row at all */
    wide_text(totals->q, q);
    wide_text(totals->integral_low, low);
    wide_text(totals->integral_high, high);
    snprintf(json, sizeof json,
             "{\"accepted\":%" PRIu64 ",\"refused\":%" PRIu64 ",\"nulls\":%" PRIu64 ",\"without_exact\":%" PRIu64
             ",\"q\":\"%s\",\"r\":%" PRIu64 ",\"integral_low\":\"%s\",\"integral_high\":\"%s\"}",
             totals->accepted, totals->refused, totals->nulls, totals->without_exact, q, totals->r, low, high);
    sqlite3_result_text(context, json, -1, SQLITE_TRANSIENT);
}

/* SQLite looks for this name in hechroung.so; it is the only one that is seen from outside. */
__attribute__((visibility("default"))) int sqlite3_hechroung_init(sqlite3 *db, char **error,
                                                                  const sqlite3_api_routines *api);

int sqlite3_hechroung_init(sqlite3 *db, char **error, const sqlite3_api_routines *api) {
    const int flags = SQLITE_UTF8 | SQLITE_DETERMINISTIC | SQLITE_INNOCUOUS;
    int status;
    SQLITE_EXTENSION_INIT2(api);
    (void)error;
    status = sqlite3_create_module(db, "hechroung_run", &RUN, NULL);
    if (status != SQLITE_OK) return status;
    return sqlite3_create_window_function(db, "hechroung_total", 1, flags, NULL, total_step, total_value, total_value,
                                          total_inverse, NULL);
}
