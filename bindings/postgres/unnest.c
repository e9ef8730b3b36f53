/* flcol_unnest: the items of a column as rows, in their order. */
#include "value.h"

#include <funcapi.h>

/* A column, and the items of it that were read last. */
struct rows {
    struct column *column;
    struct window window;
};

/* Begins, in memory that lives until the last row was asked for. */
static struct rows *begin(FuncCallContext *call, Datum value) {
    MemoryContext before = MemoryContextSwitchTo(call->multi_call_memory_ctx);
    struct rows *rows = palloc(sizeof *rows);
    rows->column = open_value(value);
    rows->window.from = rows->window.len = 0;
    call->max_calls = rows->column->len;
    MemoryContextSwitchTo(before);
    return rows;
}

PG_FUNCTION_INFO_V1(sql_flcol_unnest);
Datum sql_flcol_unnest(PG_FUNCTION_ARGS) {
    if (SRF_IS_FIRSTCALL()) {
        FuncCallContext *call = SRF_FIRSTCALL_INIT();
        call->user_fctx = begin(call, PG_GETARG_DATUM(0));
    }
    FuncCallContext *call = SRF_PERCALL_SETUP();
    struct rows *rows = call->user_fctx;
    struct item item = {0};
    if (call->call_cntr >= call->max_calls) SRF_RETURN_DONE(call);
    check(column_item(rows->column, &rows->window, call->call_cntr, &item));
    if (item.is_null) SRF_RETURN_NEXT_NULL(call);
    SRF_RETURN_NEXT(call, Int64GetDatum(item.value));
}
