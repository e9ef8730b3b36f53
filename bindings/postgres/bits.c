/* Values of the type `flcol_bits`: the answers of a test, a bit for each item, in a container of booleans. */
#include "value.h"

#include <utils/array.h>

/* ---- Their memory, and what they are read from ---- */

/* Memory of the current context, or NULL: nothing that the library holds is lost by a jump. */
static void *resize(void *owner, void *memory, size_t size) {
    if (size > 0) return MemoryContextAllocExtended(owner, size, MCXT_ALLOC_HUGE | MCXT_ALLOC_NO_OOM);
    pfree(memory);
    return NULL;
}

static void begin(struct answers *answers) {
    *answers = (struct answers){.resize = resize, .owner = CurrentMemoryContext};
}

void read_bits(struct answers *answers, Datum value) {
    struct varlena *bytes = PG_DETOAST_DATUM_PACKED(value);
    begin(answers);
    check(answers_read(answers, VARDATA_ANY(bytes), VARSIZE_ANY_EXHDR(bytes)));
    if (DatumGetPointer(value) != (Pointer)bytes) pfree(bytes);
}

void read_mask(struct answers *answers, Datum value, const struct column *column) {
    read_bits(answers, value);
    check(answers_as_mask(answers, column));
}

/* A value of answers, whose memory is given back. */
static Datum bits_value(struct answers *answers) {
    flcol_array *array = hold_array();
    check(answers_array(answers, array));
    answers_close(answers);
    return array_value(array);
}

/* ---- The type's functions ---- */

/* Whether bytes are a container of booleans. */
static int32_t try_bits(const void *bytes, size_t len) {
    struct answers answers;
    begin(&answers);
    const int32_t status = answers_read(&answers, bytes, len);
    answers_close(&answers);
    return status;
}

PG_FUNCTION_INFO_V1(sql_flcol_bits_in);
Datum sql_flcol_bits_in(PG_FUNCTION_ARGS) {
    return value_of_text(fcinfo, "flcol_bits", try_bits);
}

PG_FUNCTION_INFO_V1(sql_flcol_bits_recv);
Datum sql_flcol_bits_recv(PG_FUNCTION_ARGS) {
    return value_of_message(fcinfo, try_bits);
}

PG_FUNCTION_INFO_V1(sql_flcol_bits_of_bytea);
Datum sql_flcol_bits_of_bytea(PG_FUNCTION_ARGS) {
    return value_of_bytea(fcinfo, try_bits);
}

/* ---- Tests ---- */

/* The answers of a test of each item, or of those of a mask where it is not NULL. */
static Datum tested(struct column *column, const uint8_t *mask, struct answers *answers, gather_fn *gather, void *test) {
    begin(answers);
    check(answers_begin(answers, column, mask == NULL));
    gather_all(column, mask, gather, test);
    column_close(column);
    return bits_value(answers);
}

PG_FUNCTION_INFO_V1(sql_flcol_where);
Datum sql_flcol_where(PG_FUNCTION_ARGS) {
    struct answers answers, asked = {0};
    struct compared compared = {operator_argument(PG_GETARG_DATUM(1)), PG_GETARG_INT64(2), &answers};
    struct column *column = open_value(PG_GETARG_DATUM(0));
    if (PG_NARGS() > 3) read_mask(&asked, PG_GETARG_DATUM(3), column);
    const Datum bits = tested(column, asked.bits, &answers, gather_compared, &compared);
    answers_close(&asked);
    PG_RETURN_DATUM(bits);
}

PG_FUNCTION_INFO_V1(sql_flcol_is_in);
Datum sql_flcol_is_in(PG_FUNCTION_ARGS) {
    ArrayType *list = PG_GETARG_ARRAYTYPE_P_COPY(1);
    if (array_contains_nulls(list))
        ereport(ERROR, (errcode(ERRCODE_NULL_VALUE_NOT_ALLOWED), errmsg("flcol: a list of integers has no nulls")));
    struct answers answers;
    struct column *column = open_value(PG_GETARG_DATUM(0));
    struct listed listed = {(int64_t *)ARR_DATA_PTR(list), ArrayGetNItems(ARR_NDIM(list), ARR_DIMS(list)), &answers};
    column_narrow(column, listed.list, &listed.len);
    PG_RETURN_DATUM(tested(column, NULL, &answers, gather_listed, &listed));
}

/* ---- Bits of bits ---- */

static Datum joined(FunctionCallInfo fcinfo, join_fn *join) {
    struct answers answers, other;
    read_bits(&answers, PG_GETARG_DATUM(0));
    read_bits(&other, PG_GETARG_DATUM(1));
    check(answers_join(&answers, &other, join));
    answers_close(&other);
    PG_RETURN_DATUM(bits_value(&answers));
}

PG_FUNCTION_INFO_V1(sql_flcol_and);
Datum sql_flcol_and(PG_FUNCTION_ARGS) {
    return joined(fcinfo, flcol_and);
}

PG_FUNCTION_INFO_V1(sql_flcol_or);
Datum sql_flcol_or(PG_FUNCTION_ARGS) {
    return joined(fcinfo, flcol_or);
}

PG_FUNCTION_INFO_V1(sql_flcol_not);
Datum sql_flcol_not(PG_FUNCTION_ARGS) {
    struct answers answers;
    read_bits(&answers, PG_GETARG_DATUM(0));
    check(answers_turn(&answers));
    PG_RETURN_DATUM(bits_value(&answers));
}

PG_FUNCTION_INFO_V1(sql_flcol_count_bits);
Datum sql_flcol_count_bits(PG_FUNCTION_ARGS) {
    struct answers answers;
    int64_t total = 0;
    read_bits(&answers, PG_GETARG_DATUM(0));
    check(answers_count(&answers, &total));
    answers_close(&answers);
    PG_RETURN_INT64(total);
}
