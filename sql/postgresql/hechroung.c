/* The PostgreSQL extension: hechroung_run(sheet), which answers a row, and the functions of the aggregate
   hechroung_total(sheet). docs/SQL.md says what they answer. */
#include "postgres.h"

#include "fmgr.h"
#include "funcapi.h"
#include "miscadmin.h"
#include "utils/builtins.h"
#include "utils/numeric.h"

#include "state.h"

PG_MODULE_MAGIC;

/* The columns of hechroung_answer and of hechroung_totals, in the order of the SQL file. */
enum { REFUSAL, PLACE, SENTENCE, RADIUS, RANGE_LOW, RANGE_HIGH, INTEGRAL_LOW, INTEGRAL_HIGH, Q, R, ANSWER_COLUMNS };
enum { ACCEPTED, REFUSED, NULLS, WITHOUT_EXACT, SUM_Q, SUM_R, SUM_LOW, SUM_HIGH, TOTALS_COLUMNS };

/* The row type that the SQL file declares for the function that is called. */
static TupleDesc declared_row(FunctionCallInfo fcinfo, int columns) {
    TupleDesc row;
    if (get_call_result_type(fcinfo, NULL, &row) != TYPEFUNC_COMPOSITE || row->natts != columns)
        ereport(ERROR, (errcode(ERRCODE_DATATYPE_MISMATCH), errmsg("hechroung: the types are of another version")));
    return BlessTupleDesc(row);
}

/* The answer of a sheet in argument i. */
static struct sheet_answer answer_of(FunctionCallInfo fcinfo, int i) {
    const bytea *sheet = PG_GETARG_BYTEA_PP(i);
    struct sheet_answer answer;
    check_stack_depth(); /* below its limit the server keeps 512 KB in hand, and a run takes up to 410 */
    sheet_run((const uint8_t *)VARDATA_ANY(sheet), VARSIZE_ANY_EXHDR(sheet), &answer);
    return answer;
}

static void set(Datum *values, bool *nulls, int column, Datum value) {
    values[column] = value;
    nulls[column] = false;
}

static void set_refused(const struct sheet_answer *answer, Datum *values, bool *nulls) {
    set(values, nulls, PLACE, Int32GetDatum(answer->place));
    set(values, nulls, SENTENCE, CStringGetTextDatum(sheet_sentence(answer->refusal)));
}

static void set_accepted(const struct sheet_answer *answer, Datum *values, bool *nulls) {
    set(values, nulls, RADIUS, Int64GetDatum(answer->radius));
    set(values, nulls, RANGE_LOW, Int64GetDatum(answer->range_low));
    set(values, nulls, RANGE_HIGH, Int64GetDatum(answer->range_high));
    set(values, nulls, INTEGRAL_LOW, Int64GetDatum(answer->integral_low));
    set(values, nulls, INTEGRAL_HIGH, Int64GetDatum(answer->integral_high));
    if (!answer->exact) return;
    set(values, nulls, Q, Int64GetDatum(answer->q));
    set(values, nulls, R, Int64GetDatum(answer->r));
}

PG_FUNCTION_INFO_V1(hechroung_pg_run);
Datum hechroung_pg_run(PG_FUNCTION_ARGS) {
    const TupleDesc row = declared_row(fcinfo, ANSWER_COLUMNS);
    const struct sheet_answer answer = answer_of(fcinfo, 0);
    Datum values[ANSWER_COLUMNS] = {0};
    bool nulls[ANSWER_COLUMNS];
    memset(nulls, true, sizeof nulls);
    set(values, nulls, REFUSAL, Int32GetDatum(answer.refusal));
    if (answer.refusal != 0)
        set_refused(&answer, values, nulls);
    else
        set_accepted(&answer, values, nulls);
    PG_RETURN_DATUM(HeapTupleGetDatum(heap_form_tuple(row, values, nulls)));
}

/* ---- hechroung_total ---- */

/* The sums of the state in argument i; zeros for NULL, which is the state before the first row. */
static struct sheet_totals state_of(FunctionCallInfo fcinfo, int i) {
    struct sheet_totals totals;
    memset(&totals, 0, sizeof totals);
    if (!PG_ARGISNULL(i)) {
        const bytea *state = PG_GETARG_BYTEA_PP(i);
        if (!state_restore((const uint8_t *)VARDATA_ANY(state), VARSIZE_ANY_EXHDR(state), &totals))
            ereport(ERROR, (errcode(ERRCODE_INVALID_PARAMETER_VALUE), errmsg("no state of hechroung_total")));
    }
    return totals;
}

/* A state of its own each time: what the aggregate's functions are handed stays as it is. */
static Datum stored(const struct sheet_totals *totals) {
    bytea *state = palloc(VARHDRSZ + STATE_LENGTH);
    SET_VARSIZE(state, VARHDRSZ + STATE_LENGTH);
    state_store(totals, (uint8_t *)VARDATA(state));
    return PointerGetDatum(state);
}

PG_FUNCTION_INFO_V1(hechroung_pg_total_add);
Datum hechroung_pg_total_add(PG_FUNCTION_ARGS) {
    struct sheet_totals totals = state_of(fcinfo, 0);
    if (PG_ARGISNULL(1)) {
        totals_add(&totals, NULL);
    } else {
        const struct sheet_answer answer = answer_of(fcinfo, 1);
        totals_add(&totals, &answer);
    }
    PG_RETURN_DATUM(stored(&totals));
}

PG_FUNCTION_INFO_V1(hechroung_pg_total_combine);
Datum hechroung_pg_total_combine(PG_FUNCTION_ARGS) {
    struct sheet_totals totals = state_of(fcinfo, 0);
    const struct sheet_totals other = state_of(fcinfo, 1);
    totals_merge(&totals, &other);
    PG_RETURN_DATUM(stored(&totals));
}

static Datum numeric_of(struct wide number) {
    char text[WIDE_TEXT];
    wide_text(number, text);
    return DirectFunctionCall3(numeric_in, CStringGetDatum(text), ObjectIdGetDatum(InvalidOid), Int32GetDatum(-1));
}

PG_FUNCTION_INFO_V1(hechroung_pg_total_row);
Datum hechroung_pg_total_row(PG_FUNCTION_ARGS) {
    const TupleDesc row = declared_row(fcinfo, TOTALS_COLUMNS);
    const struct sheet_totals totals = state_of(fcinfo, 0);
    Datum values[TOTALS_COLUMNS];
    bool nulls[TOTALS_COLUMNS];
    set(values, nulls, ACCEPTED, UInt64GetDatum(totals.accepted));
    set(values, nulls, REFUSED, UInt64GetDatum(totals.refused));
    set(values, nulls, NULLS, UInt64GetDatum(totals.nulls));
    set(values, nulls, WITHOUT_EXACT, UInt64GetDatum(totals.without_exact));
    set(values, nulls, SUM_Q, numeric_of(totals.q));
    set(values, nulls, SUM_R, UInt64GetDatum(totals.r));
    set(values, nulls, SUM_LOW, numeric_of(totals.integral_low));
    set(values, nulls, SUM_HIGH, numeric_of(totals.integral_high));
    PG_RETURN_DATUM(HeapTupleGetDatum(heap_form_tuple(row, values, nulls)));
}
