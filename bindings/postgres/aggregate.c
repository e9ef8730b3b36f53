/* flcol_agg: the integers of a group as a column, in the order in which they come.
 *
 * The state is a builder in the aggregate's memory context. Parallel workers hand theirs on as bytes: the type, whether
 * a scheme is named, its length and text, then the items in containers, each behind its length.
 */
#include "value.h"

#include <libpq/pqformat.h>
#include <miscadmin.h>
#include <utils/memutils.h>

static struct builder *new_state(FunctionCallInfo fcinfo, uint8_t type) {
    MemoryContext context;
    if (!AggCheckCallContext(fcinfo, &context)) elog(ERROR, "flcol_agg is called outside of an aggregate");
    struct builder *state = MemoryContextAllocZero(context, sizeof *state);
    state->type = type;
    state->most = COLUMN_ITEMS;
    state->resize = resize_in;
    state->owner = context;
    return state;
}

static struct builder *state_of(FunctionCallInfo fcinfo, int argument) {
    return PG_ARGISNULL(argument) ? NULL : (struct builder *)PG_GETARG_POINTER(argument);
}

/* The state for a row. The scheme of the first row counts. A null leaves the choice to the library. */
static struct builder *state_for_row(FunctionCallInfo fcinfo, uint8_t type) {
    struct builder *state = state_of(fcinfo, 0);
    if (state != NULL) return state;
    state = new_state(fcinfo, type);
    if (PG_NARGS() > 2 && !PG_ARGISNULL(2)) {
        const text *scheme = PG_GETARG_TEXT_PP(2);
        check(builder_set_scheme(state, VARDATA_ANY(scheme), VARSIZE_ANY_EXHDR(scheme)));
    }
    return state;
}

#define DEFINE_ADD(NAME, TYPE, GET)                                       \
    PG_FUNCTION_INFO_V1(NAME);                                            \
    Datum NAME(PG_FUNCTION_ARGS) {                                        \
        struct builder *state = state_for_row(fcinfo, TYPE);              \
        struct item item = {.is_null = PG_ARGISNULL(1)};                  \
        if (!item.is_null) item.value = GET(1);                           \
        check(builder_push(state, item));                                 \
        PG_RETURN_POINTER(state);                                         \
    }

DEFINE_ADD(sql_flcol_add_smallint, FLCOL_I16, PG_GETARG_INT16)
DEFINE_ADD(sql_flcol_add_integer, FLCOL_I32, PG_GETARG_INT32)
DEFINE_ADD(sql_flcol_add_bigint, FLCOL_I64, PG_GETARG_INT64)

/* A group without rows has no column: the answer is null. */
PG_FUNCTION_INFO_V1(sql_flcol_finish);
Datum sql_flcol_finish(PG_FUNCTION_ARGS) {
    const struct builder *state = state_of(fcinfo, 0);
    if (state == NULL) PG_RETURN_NULL();
    PG_RETURN_DATUM(array_value(encoded_items(state)));
}

/* ---- Parallel workers ---- */

enum {
    STATE_CHUNK = 1 << 20, /* how many items a container of a state has at most, so that none takes long to make */
    STATE_PLAIN = 16 << 20 /* how many bytes of values are handed on as they are: the state has to be less than 1 GB */
};

/* Adds the items of another state, which is given back, behind those of the first. */
PG_FUNCTION_INFO_V1(sql_flcol_combine);
Datum sql_flcol_combine(PG_FUNCTION_ARGS) {
    struct builder *state = state_of(fcinfo, 0), *other = state_of(fcinfo, 1);
    if (other == NULL && state == NULL) PG_RETURN_NULL();
    if (other == NULL) PG_RETURN_POINTER(state);
    if (state == NULL) {
        state = new_state(fcinfo, other->type);
        if (other->scheme != NULL) check(builder_set_scheme(state, other->scheme, other->scheme_len));
    }
    check(builder_append(state, other->values, other->validity, other->len));
    builder_close(other);
    PG_RETURN_POINTER(state);
}

/* Appends the length of an array's container, and the container. */
static void send_array(StringInfo bytes, flcol_array *array) {
    size_t len = 0;
    check(flcol_serialized_len(array, &len));
    pq_sendint32(bytes, len);
    enlargeStringInfo(bytes, len);
    check(flcol_serialize(array, (uint8_t *)bytes->data + bytes->len, len, &len));
    bytes->len += len;
    flcol_free(array);
}

/* Appends a state's items from an index on, compressed where all of them might be too many bytes. */
static void send_items(StringInfo bytes, const struct builder *state, size_t from) {
    flcol_array *items = hold_array(), *packed = hold_array();
    check(builder_plain(state, from, Min(STATE_CHUNK, state->len - from), items));
    if (builder_value_bytes(state, state->len) > STATE_PLAIN) {
        check(flcol_compress(items, packed));
        flcol_free(items);
        items = packed;
    }
    send_array(bytes, items);
}

PG_FUNCTION_INFO_V1(sql_flcol_serialize);
Datum sql_flcol_serialize(PG_FUNCTION_ARGS) {
    const struct builder *state = state_of(fcinfo, 0);
    StringInfoData bytes;
    pq_begintypsend(&bytes);
    pq_sendbyte(&bytes, state->type);
    pq_sendbyte(&bytes, state->scheme != NULL);
    pq_sendint32(&bytes, state->scheme_len);
    if (state->scheme != NULL) pq_sendbytes(&bytes, state->scheme, state->scheme_len);
    for (size_t from = 0; from < state->len; from += STATE_CHUNK) {
        CHECK_FOR_INTERRUPTS();
        send_items(&bytes, state, from);
    }
    PG_RETURN_BYTEA_P(pq_endtypsend(&bytes));
}

/* Adds the items of a container. */
static void receive_items(struct builder *state, struct window *window, StringInfo bytes) {
    const size_t len = pq_getmsgint(bytes, 4);
    struct column *column = open_bytes(pq_getmsgbytes(bytes, len), len);
    struct item item = {0};
    window->from = window->len = 0;
    for (size_t i = 0; i < column->len; i++) {
        check(column_item(column, window, i, &item));
        check(builder_push(state, item));
    }
    column_close(column);
}

PG_FUNCTION_INFO_V1(sql_flcol_deserialize);
Datum sql_flcol_deserialize(PG_FUNCTION_ARGS) {
    const bytea *value = PG_GETARG_BYTEA_PP(0);
    StringInfoData bytes = {.data = VARDATA_ANY(value), .len = VARSIZE_ANY_EXHDR(value)};
    struct builder *state = new_state(fcinfo, (uint8_t)pq_getmsgbyte(&bytes));
    struct window *window = palloc(sizeof *window);
    const bool has_scheme = pq_getmsgbyte(&bytes);
    const size_t scheme_len = pq_getmsgint(&bytes, 4);
    const char *scheme = pq_getmsgbytes(&bytes, scheme_len);
    if (has_scheme) check(builder_set_scheme(state, scheme, scheme_len));
    while (bytes.cursor < bytes.len) {
        CHECK_FOR_INTERRUPTS();
        receive_items(state, window, &bytes);
    }
    pfree(window);
    PG_RETURN_POINTER(state);
}
