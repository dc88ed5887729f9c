/* The SQLite extension, compiled into the fuzzer: an input is a row of sheets, each with two bytes of length, in a
   table. Rows, totals and windows have to be what the library and plain sums say. */
#include <sqlite3.h>

#include "input.h"
#include "sheets.h"

int sqlite3_hechroung_init(sqlite3 *db, char **error, const void *api);
int LLVMFuzzerTestOneInput(const uint8_t *data, size_t size);

enum { MOST_ROWS = 24 };

static sqlite3 *opened(void) {
    sqlite3 *db;
    HOLDS(sqlite3_open(":memory:", &db) == SQLITE_OK);
    HOLDS(sqlite3_hechroung_init(db, NULL, NULL) == SQLITE_OK);
    HOLDS(sqlite3_exec(db, "CREATE TABLE log(id INTEGER PRIMARY KEY, sheet)", NULL, NULL, NULL) == SQLITE_OK);
    return db;
}

static sqlite3_stmt *prepared(sqlite3 *db, const char *words) {
    sqlite3_stmt *statement;
    HOLDS(sqlite3_prepare_v2(db, words, -1, &statement, NULL) == SQLITE_OK);
    return statement;
}

/* Puts the rows into the table and adds them up here; 0 where one is no sheet, as the database has to say too. */
static int filled(sqlite3 *db, struct input *input, struct sheet_totals *totals) {
    sqlite3_stmt *insert = prepared(db, "INSERT INTO log(sheet) VALUES(?)");
    int sheets = 1;
    for (int row = 0; row < MOST_ROWS && input->left > 0; row++) {
        size_t length = (size_t)take(input, 2);
        const size_t kind = length >> 14;
        length &= 0x3FFF;
        if (length > input->left) length = input->left;
        if (kind == 2) {
            sqlite3_bind_null(insert, 1);
            totals_add(totals, NULL);
        } else if (kind == 3) {
            sqlite3_bind_text(insert, 1, (const char *)input->at, (int)length, SQLITE_STATIC);
            sheets = 0;
        } else {
            struct sheet_answer answer;
            sqlite3_bind_blob(insert, 1, input->at, (int)length, SQLITE_STATIC);
            sheet_run(input->at, length, &answer);
            totals_add(totals, &answer);
        }
        HOLDS(sqlite3_step(insert) == SQLITE_DONE);
        sqlite3_reset(insert);
        input->at += length;
        input->left -= length;
    }
    sqlite3_finalize(insert);
    return sheets;
}

static void column_is(sqlite3_stmt *row, int column, int there, int64_t number) {
    HOLDS((sqlite3_column_type(row, column) == SQLITE_INTEGER) == there);
    HOLDS(!there || sqlite3_column_int64(row, column) == number);
}

/* Every row of hechroung_run. */
static void rows(sqlite3 *db) {
    sqlite3_stmt *row = prepared(db, "SELECT log.sheet, run.*, run.hechroung_sheet "
                                     "FROM log, hechroung_run(sheet) AS run");
    int status;
    while ((status = sqlite3_step(row)) == SQLITE_ROW) {
        const void *sheet = sqlite3_column_blob(row, 0);
        const size_t length = (size_t)sqlite3_column_bytes(row, 0);
        const int null = sqlite3_column_type(row, 0) == SQLITE_NULL;
        struct sheet_answer answer;
        sheet_run(sheet, length, &answer);
        const int accepted = !null && answer.refusal == 0;
        column_is(row, 1, !null, answer.refusal);
        column_is(row, 2, !null && !accepted, answer.place);
        HOLDS((sqlite3_column_type(row, 3) == SQLITE_TEXT) == (!null && !accepted));
        column_is(row, 4, accepted, answer.radius);
        column_is(row, 5, accepted, answer.range_low);
        column_is(row, 6, accepted, answer.range_high);
        column_is(row, 7, accepted, answer.integral_low);
        column_is(row, 8, accepted, answer.integral_high);
        column_is(row, 9, accepted && answer.exact, answer.q);
        column_is(row, 10, accepted && answer.exact, answer.r);
        HOLDS(sqlite3_column_type(row, 11) == (null ? SQLITE_NULL : SQLITE_BLOB));
        HOLDS((size_t)sqlite3_column_bytes(row, 11) == length);
    }
    HOLDS(status == SQLITE_DONE);
    sqlite3_finalize(row);
}

static void totals_are(sqlite3 *db, const struct sheet_totals *totals) {
    sqlite3_stmt *row = prepared(db, "SELECT t->>'accepted', t->>'refused', t->>'nulls', t->>'without_exact', t->>'q', "
                                     "t->>'r' FROM (SELECT hechroung_total(sheet) AS t FROM log)");
    char q[WIDE_TEXT];
    HOLDS(sqlite3_step(row) == SQLITE_ROW);
    wide_text(totals->q, q);
    column_is(row, 0, 1, (int64_t)totals->accepted);
    column_is(row, 1, 1, (int64_t)totals->refused);
    column_is(row, 2, 1, (int64_t)totals->nulls);
    column_is(row, 3, 1, (int64_t)totals->without_exact);
    HOLDS(strcmp((const char *)sqlite3_column_text(row, 4), q) == 0);
    column_is(row, 5, 1, (int64_t)totals->r);
    sqlite3_finalize(row);
}

/* A window that forgets what left it has the totals of what is in it. */
static void windows(sqlite3 *db) {
    sqlite3_stmt *row = prepared(
        db, "SELECT (SELECT hechroung_total(sheet) FROM log AS near WHERE near.id BETWEEN log.id - 2 AND log.id), "
            "hechroung_total(sheet) OVER (ORDER BY id ROWS 2 PRECEDING) FROM log");
    int status;
    while ((status = sqlite3_step(row)) == SQLITE_ROW)
        HOLDS(strcmp((const char *)sqlite3_column_text(row, 0), (const char *)sqlite3_column_text(row, 1)) == 0);
    HOLDS(status == SQLITE_DONE);
    sqlite3_finalize(row);
}

/* A text among the sheets is an error, in both. */
static void refused(sqlite3 *db) {
    static const char *const statements[] = {
        "SELECT hechroung_total(sheet) FROM log", "SELECT refusal FROM log, hechroung_run(sheet)",
        "SELECT hechroung_total(sheet) OVER (ORDER BY id ROWS 1 PRECEDING) FROM log"};
    for (size_t i = 0; i < sizeof statements / sizeof statements[0]; i++)
        HOLDS(sqlite3_exec(db, statements[i], NULL, NULL, NULL) == SQLITE_ERROR);
}

int LLVMFuzzerTestOneInput(const uint8_t *data, size_t size) {
    static sqlite3 *db;
    struct sheet_totals totals;
    struct input input = {data, size};
    if (db == NULL) db = opened();
    memset(&totals, 0, sizeof totals);
    if (filled(db, &input, &totals)) {
        rows(db);
        totals_are(db, &totals);
        windows(db);
    } else {
        refused(db);
    }
    HOLDS(sqlite3_exec(db, "DELETE FROM log", NULL, NULL, NULL) == SQLITE_OK);
    return 0;
}
