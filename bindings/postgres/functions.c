/* Functions of a column. */
#include "value.h"

#include <miscadmin.h>
#include <utils/builtins.h>
#include <utils/fmgrprotos.h>

PG_FUNCTION_INFO_V1(sql_flcol_len);
Datum sql_flcol_len(PG_FUNCTION_ARGS) {
    struct column *column = open_value(PG_GETARG_DATUM(0));
    const int64 len = (int64)column->len;
    column_close(column);
    PG_RETURN_INT64(len);
}

PG_FUNCTION_INFO_V1(sql_flcol_get);
Datum sql_flcol_get(PG_FUNCTION_ARGS) {
    struct column *column = open_value(PG_GETARG_DATUM(0));
    struct item item = {0};
    check(column_get(column, PG_GETARG_INT64(1), &item));
    column_close(column);
    if (item.is_null) PG_RETURN_NULL();
    PG_RETURN_INT64(item.value);
}

PG_FUNCTION_INFO_V1(sql_flcol_slice);
Datum sql_flcol_slice(PG_FUNCTION_ARGS) {
    struct column *column = open_value(PG_GETARG_DATUM(0));
    flcol_array *part = hold_array();
    check(column_slice(column, PG_GETARG_INT64(1), PG_GETARG_INT64(2), part));
    column_close(column);
    PG_RETURN_DATUM(array_value(part));
}

void gather_all(struct column *column, const uint8_t *mask, gather_fn *gather, void *gathered) {
    for (size_t from = 0; from < column->len; from += COLUMN_WINDOW) {
        CHECK_FOR_INTERRUPTS();
        check(column_gather(column, from, mask, gather, gathered));
    }
}

/* Gathers from the items of the first argument: from all, or where there is a second one from those that it is true for. */
static void gather_asked(FunctionCallInfo fcinfo, gather_fn *gather, void *gathered) {
    struct column *column = open_value(PG_GETARG_DATUM(0));
    struct answers answers = {0};
    if (PG_NARGS() > 1) read_mask(&answers, PG_GETARG_DATUM(1), column);
    gather_all(column, answers.bits, gather, gathered);
    answers_close(&answers);
    column_close(column);
}

/* How many items of the first argument meet a condition. */
static Datum count_items(FunctionCallInfo fcinfo, struct condition condition) {
    struct column *column = open_value(PG_GETARG_DATUM(0));
    struct counted counted = {.condition = condition};
    gather_all(column, NULL, gather_count, &counted);
    column_close(column);
    PG_RETURN_INT64(counted.count);
}

uint8_t operator_argument(Datum value) {
    const char *text = DatumGetCString(DirectFunctionCall1(enum_out, value));
    uint8_t op = 0;
    check(operator_of(text, strlen(text), &op));
    return op;
}

PG_FUNCTION_INFO_V1(sql_flcol_count);
Datum sql_flcol_count(PG_FUNCTION_ARGS) {
    const struct condition condition = {.op = operator_argument(PG_GETARG_DATUM(1)), .constant = PG_GETARG_INT64(2)};
    return count_items(fcinfo, condition);
}

PG_FUNCTION_INFO_V1(sql_flcol_between);
Datum sql_flcol_between(PG_FUNCTION_ARGS) {
    const struct condition condition = {
        .is_between = true, .lower = PG_GETARG_INT64(1), .upper = PG_GETARG_INT64(2)};
    return count_items(fcinfo, condition);
}

/* ---- Sums and extremes: null where no item is an integer ---- */

/* An integer of 128 bits as a numeric. */
static Datum numeric_of(wide integer) {
    char digits[41]; /* a sign, 39 digits and the 0 */
    char *at = digits + sizeof digits - 1;
    unsigned __int128 rest = integer < 0 ? -(unsigned __int128)integer : (unsigned __int128)integer;
    for (*at = '\0'; rest > 0 || *at == '\0'; rest /= 10) *--at = (char)('0' + rest % 10);
    if (integer < 0) *--at = '-';
    return DirectFunctionCall3(numeric_in, CStringGetDatum(at), ObjectIdGetDatum(InvalidOid), Int32GetDatum(-1));
}

PG_FUNCTION_INFO_V1(sql_flcol_sum);
Datum sql_flcol_sum(PG_FUNCTION_ARGS) {
    struct summed summed = {0};
    gather_asked(fcinfo, gather_sum, &summed);
    if (summed.count == 0) PG_RETURN_NULL();
    PG_RETURN_DATUM(numeric_of(summed.sum));
}

/* The mean, with as many digits as PostgreSQL's own avg has. */
PG_FUNCTION_INFO_V1(sql_flcol_avg);
Datum sql_flcol_avg(PG_FUNCTION_ARGS) {
    struct summed summed = {0};
    gather_asked(fcinfo, gather_sum, &summed);
    if (summed.count == 0) PG_RETURN_NULL();
    PG_RETURN_DATUM(DirectFunctionCall2(numeric_div, numeric_of(summed.sum), numeric_of(summed.count)));
}

static Datum extreme(FunctionCallInfo fcinfo, bool is_greatest) {
    struct extremes extremes = {0};
    int64_t value = 0;
    gather_asked(fcinfo, gather_extremes, &extremes);
    if (!extremes.is_some) PG_RETURN_NULL();
    check(narrowed(is_greatest ? extremes.greatest : extremes.least, &value));
    PG_RETURN_INT64(value);
}

PG_FUNCTION_INFO_V1(sql_flcol_min);
Datum sql_flcol_min(PG_FUNCTION_ARGS) {
    return extreme(fcinfo, false);
}

PG_FUNCTION_INFO_V1(sql_flcol_max);
Datum sql_flcol_max(PG_FUNCTION_ARGS) {
    return extreme(fcinfo, true);
}

PG_FUNCTION_INFO_V1(sql_flcol_nulls);
Datum sql_flcol_nulls(PG_FUNCTION_ARGS) {
    struct column *column = open_value(PG_GETARG_DATUM(0));
    size_t nulls = 0;
    check(flcol_null_count(&column->array, &nulls));
    column_close(column);
    PG_RETURN_INT64((int64)nulls);
}

PG_FUNCTION_INFO_V1(sql_flcol_inspect);
Datum sql_flcol_inspect(PG_FUNCTION_ARGS) {
    struct varlena *bytes = PG_GETARG_VARLENA_PP(0);
    const uint8_t *container = (const uint8_t *)VARDATA_ANY(bytes);
    size_t len = 0;
    check(flcol_inspect(container, VARSIZE_ANY_EXHDR(bytes), NULL, 0, &len));
    text *description = palloc(VARHDRSZ + len);
    SET_VARSIZE(description, VARHDRSZ + len);
    check(flcol_inspect(container, VARSIZE_ANY_EXHDR(bytes), VARDATA(description), len, &len));
    PG_RETURN_TEXT_P(description);
}
