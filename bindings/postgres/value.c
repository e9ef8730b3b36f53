/* Values of the type `flcol`: their text, their binary form, and the library's memory. */
#include "value.h"

#include <lib/stringinfo.h>
#include <libpq/pqformat.h>
#include <miscadmin.h>
#include <utils/builtins.h>
#include <utils/memutils.h>
#if PG_VERSION_NUM >= 160000
#include <nodes/miscnodes.h>
#else
/* Servers before 16 have hard errors alone. */
#define ereturn(context, answer, ...) ereport(ERROR, __VA_ARGS__)
#define hex_decode_safe(digits, len, bytes, context) hex_decode(digits, len, bytes)
#define SOFT_ERROR_OCCURRED(context) false
#endif

PG_MODULE_MAGIC;

void _PG_init(void);
void _PG_init(void) {
    if (flcol_abi_version() == FLCOL_ABI_VERSION) return;
    ereport(ERROR, (errcode(ERRCODE_INVALID_OBJECT_DEFINITION),
                    errmsg("flcol: the library has version %u of its interface, and %d is needed", flcol_abi_version(),
                           FLCOL_ABI_VERSION)));
}

/* ---- Errors ---- */

/* The SQLSTATE of what a call is refused for. */
static int error_code(int32_t status) {
    switch (status) {
        case FLCOL_OUT_OF_MEMORY: return ERRCODE_OUT_OF_MEMORY;
        case FLCOL_INDEX_OUT_OF_BOUNDS:
        case FLCOL_RANGE_OUT_OF_BOUNDS: return ERRCODE_ARRAY_SUBSCRIPT_ERROR;
        case FLCOL_CAST_OUT_OF_RANGE:
        case FLCOL_NEGATIVE_VALUE: return ERRCODE_NUMERIC_VALUE_OUT_OF_RANGE;
        case FLCOL_NO_MINIMUM: return ERRCODE_NULL_VALUE_NOT_ALLOWED;
        case FLCOL_WIDTH_TOO_LARGE:
        case FLCOL_BAD_SCHEME:
        case FLCOL_BAD_OPERATOR: return ERRCODE_INVALID_PARAMETER_VALUE;
        case FLCOL_LENGTH_OVERFLOW: return ERRCODE_PROGRAM_LIMIT_EXCEEDED;
        default: return ERRCODE_DATA_EXCEPTION;
    }
}

int container_error_code(int32_t status) {
    if (status == FLCOL_OUT_OF_MEMORY || status == FLCOL_LENGTH_OVERFLOW) return error_code(status);
    return ERRCODE_INVALID_BINARY_REPRESENTATION;
}

static void refuse_by(int code, int32_t status) {
    char text[REFUSAL_TEXT];
    refusal_text(status, text);
    ereport(ERROR, (errcode(code), errmsg_internal("%s", text)));
}

void refuse(int32_t status) {
    refuse_by(error_code(status), status);
    pg_unreachable();
}

void check(int32_t status) {
    if (status != FLCOL_OK) refuse(status);
}

/* ---- The library's memory ---- */

void *resize_in(void *context, void *memory, size_t size) {
    if (size > 0) return memory == NULL ? MemoryContextAllocHuge(context, size) : repalloc_huge(memory, size);
    if (memory != NULL) pfree(memory);
    return NULL;
}

void hold(void (*give_back)(void *), void *what) {
    MemoryContextCallback *callback = palloc0(sizeof *callback);
    callback->func = give_back;
    callback->arg = what;
    MemoryContextRegisterResetCallback(CurrentMemoryContext, callback);
}

static void give_back_array(void *array) {
    flcol_free(array);
}

static void give_back_column(void *column) {
    column_close(column);
}

flcol_array *hold_array(void) {
    flcol_array *array = palloc0(sizeof *array);
    hold(give_back_array, array);
    return array;
}

struct column *open_bytes(const void *bytes, size_t len) {
    struct column *column = palloc0(sizeof *column);
    hold(give_back_column, column);
    const int32_t status = column_open(column, bytes, len);
    if (status != FLCOL_OK) refuse_by(container_error_code(status), status);
    return column;
}

struct column *open_value(Datum value) {
    struct varlena *bytes = PG_DETOAST_DATUM_PACKED(value);
    struct column *column = open_bytes(VARDATA_ANY(bytes), VARSIZE_ANY_EXHDR(bytes));
    if (DatumGetPointer(value) != (Pointer)bytes) pfree(bytes);
    return column;
}

Datum array_value(flcol_array *array) {
    size_t len = 0;
    check(flcol_serialized_len(array, &len));
    if (len > MaxAllocSize - VARHDRSZ) refuse(FLCOL_LENGTH_OVERFLOW);
    CHECK_FOR_INTERRUPTS();
    bytea *value = palloc(VARHDRSZ + len);
    SET_VARSIZE(value, VARHDRSZ + len);
    check(flcol_serialize(array, (uint8_t *)VARDATA(value), len, &len));
    flcol_free(array);
    return PointerGetDatum(value);
}

/* ---- Values of text, messages and bytes ---- */

/* Bytes as a value, once they were tried. What they are refused for is an error, or is noted where the caller has asked for
   that by a context. */
static Datum accept(bytea *bytes, try_fn *try_bytes, Node *context) {
    char text[REFUSAL_TEXT];
    const int32_t status = try_bytes(VARDATA_ANY(bytes), VARSIZE_ANY_EXHDR(bytes));
    if (status == FLCOL_OK) return PointerGetDatum(bytes);
    if (status == FLCOL_OUT_OF_MEMORY) refuse(status);
    refusal_text(status, text);
    ereturn(context, (Datum)0, (errcode(container_error_code(status)), errmsg_internal("%s", text)));
}

/* The container of `\x` and hexadecimal digits. */
Datum value_of_text(FunctionCallInfo fcinfo, const char *type, try_fn *try_bytes) {
    const char *text = PG_GETARG_CSTRING(0);
    if (text[0] != '\\' || text[1] != 'x')
        ereturn(fcinfo->context, (Datum)0,
                (errcode(ERRCODE_INVALID_TEXT_REPRESENTATION), errmsg("invalid input syntax for type %s", type),
                 errdetail("A column is written as \\x and the hexadecimal digits of its container.")));
    const size_t digits = strlen(text + 2);
    bytea *bytes = palloc(VARHDRSZ + digits / 2 + 1);
    const uint64 len = hex_decode_safe(text + 2, digits, VARDATA(bytes), fcinfo->context);
    if (SOFT_ERROR_OCCURRED(fcinfo->context)) PG_RETURN_NULL();
    SET_VARSIZE(bytes, VARHDRSZ + len);
    PG_RETURN_DATUM(accept(bytes, try_bytes, fcinfo->context));
}

Datum value_of_message(FunctionCallInfo fcinfo, try_fn *try_bytes) {
    StringInfo message = (StringInfo)PG_GETARG_POINTER(0);
    const int len = message->len - message->cursor;
    bytea *bytes = palloc(VARHDRSZ + len);
    SET_VARSIZE(bytes, VARHDRSZ + len);
    pq_copymsgbytes(message, VARDATA(bytes), len);
    PG_RETURN_DATUM(accept(bytes, try_bytes, NULL));
}

Datum value_of_bytea(FunctionCallInfo fcinfo, try_fn *try_bytes) {
    PG_RETURN_DATUM(accept(PG_GETARG_BYTEA_P_COPY(0), try_bytes, NULL));
}

/* ---- The type's functions ---- */

/* Whether bytes are a container whose column can be asked. */
static int32_t try_column(const void *bytes, size_t len) {
    struct column column;
    const int32_t status = column_open(&column, bytes, len);
    column_close(&column);
    return status;
}

PG_FUNCTION_INFO_V1(sql_flcol_in);
Datum sql_flcol_in(PG_FUNCTION_ARGS) {
    return value_of_text(fcinfo, "flcol", try_column);
}

PG_FUNCTION_INFO_V1(sql_flcol_out);
Datum sql_flcol_out(PG_FUNCTION_ARGS) {
    struct varlena *bytes = PG_GETARG_VARLENA_PP(0);
    const size_t len = VARSIZE_ANY_EXHDR(bytes);
    char *text = palloc_extended(2 * len + 3, MCXT_ALLOC_HUGE);
    text[0] = '\\';
    text[1] = 'x';
    text[2 + hex_encode(VARDATA_ANY(bytes), len, text + 2)] = '\0';
    PG_RETURN_CSTRING(text);
}

PG_FUNCTION_INFO_V1(sql_flcol_recv);
Datum sql_flcol_recv(PG_FUNCTION_ARGS) {
    return value_of_message(fcinfo, try_column);
}

PG_FUNCTION_INFO_V1(sql_flcol_send);
Datum sql_flcol_send(PG_FUNCTION_ARGS) {
    PG_RETURN_BYTEA_P(PG_GETARG_BYTEA_P_COPY(0));
}

/* The container of a bytea. */
PG_FUNCTION_INFO_V1(sql_flcol_of_bytea);
Datum sql_flcol_of_bytea(PG_FUNCTION_ARGS) {
    return value_of_bytea(fcinfo, try_column);
}
