/* Functions of a column that is kept as a blob. */
#include "functions.h"

#include <limits.h>
#include <string.h>

/* ---- What a function is passed, and answers ---- */

int32_t open_value(struct column *column, sqlite3_value *value) {
    if (sqlite3_value_type(value) != SQLITE_BLOB) return FLCOL_BAD_CONTAINER;
    const void *bytes = sqlite3_value_blob(value);
    return column_open(column, bytes, (size_t)sqlite3_value_bytes(value));
}

/* The statement is to end early: a status beside those of flcol.h. */
enum { INTERRUPTED = -1 };

void refuse(sqlite3_context *context, int32_t status) {
    if (status == INTERRUPTED) {
        sqlite3_result_error_code(context, SQLITE_INTERRUPT);
        return;
    }
    if (status == FLCOL_OUT_OF_MEMORY) {
        sqlite3_result_error_nomem(context);
        return;
    }
    char text[REFUSAL_TEXT];
    refusal_text(status, text);
    sqlite3_result_error(context, text, -1);
}

/* Writes an array into memory of SQLite. */
static int32_t serialize(flcol_array *array, uint8_t **bytes, size_t *len) {
    int32_t status = flcol_serialized_len(array, len);
    if (status != FLCOL_OK) return status;
    *bytes = sqlite3_malloc64(*len);
    if (*bytes == NULL) return FLCOL_OUT_OF_MEMORY;
    status = flcol_serialize(array, *bytes, *len, len);
    if (status != FLCOL_OK) sqlite3_free(*bytes);
    return status;
}

void answer_array(sqlite3_context *context, int32_t status, flcol_array *array) {
    uint8_t *bytes = NULL;
    size_t len = 0;
    if (status == FLCOL_OK) status = serialize(array, &bytes, &len);
    flcol_free(array);
    if (status == FLCOL_OK) {
        sqlite3_result_blob64(context, bytes, len, sqlite3_free);
    } else {
        refuse(context, status);
    }
}

static void answer_item(sqlite3_context *context, struct item item) {
    if (item.is_null) {
        sqlite3_result_null(context);
    } else {
        sqlite3_result_int64(context, item.value);
    }
}

int32_t integer_value(sqlite3_value *value, int64_t *integer) {
    if (sqlite3_value_type(value) != SQLITE_INTEGER) return FLCOL_NOT_INTEGER;
    *integer = sqlite3_value_int64(value);
    return FLCOL_OK;
}

/* ---- The column of a call ---- */

static void drop_column(void *column) {
    column_close(column);
    sqlite3_free(column);
}

/* Opens the column of a call's first value, which is kept until `drop_column`. */
static int32_t new_column(sqlite3_value *value, struct column **column) {
    *column = sqlite3_malloc(sizeof **column);
    if (*column == NULL) return FLCOL_OUT_OF_MEMORY;
    const int32_t status = open_value(*column, value);
    if (status != FLCOL_OK) sqlite3_free(*column);
    return status;
}

bool has_null(int count, sqlite3_value **values) {
    for (int i = 0; i < count; i++)
        if (sqlite3_value_type(values[i]) == SQLITE_NULL) return true;
    return false;
}

/* Where the blob is the same in each row of a statement, SQLite keeps its column from one row to the next. */
void with_column(sqlite3_context *context, int count, sqlite3_value **values, column_fn *function) {
    if (has_null(count, values)) return;
    struct column *column = sqlite3_get_auxdata(context, 0);
    const bool is_kept = column != NULL;
    int32_t status = is_kept ? FLCOL_OK : new_column(values[0], &column);
    if (status == FLCOL_OK) {
        status = function(context, column, count, values);
        if (!is_kept) sqlite3_set_auxdata(context, 0, column, drop_column);
    }
    if (status != FLCOL_OK) refuse(context, status);
}

/* ---- The functions ---- */

static int32_t answer_len(sqlite3_context *context, struct column *column, int count, sqlite3_value **values) {
    (void)count, (void)values;
    sqlite3_result_int64(context, (sqlite3_int64)column->len);
    return FLCOL_OK;
}

static int32_t answer_get(sqlite3_context *context, struct column *column, int count, sqlite3_value **values) {
    (void)count;
    int64_t index = 0;
    struct item item = {0};
    int32_t status = integer_value(values[1], &index);
    if (status == FLCOL_OK) status = column_get(column, index, &item);
    if (status == FLCOL_OK) answer_item(context, item);
    return status;
}

static int32_t answer_slice(sqlite3_context *context, struct column *column, int count, sqlite3_value **values) {
    (void)count;
    int64_t from = 0, to = 0;
    flcol_array part = FLCOL_EMPTY;
    int32_t status = integer_value(values[1], &from);
    if (status == FLCOL_OK) status = integer_value(values[2], &to);
    if (status == FLCOL_OK) status = column_slice(column, from, to, &part);
    if (status == FLCOL_OK) answer_array(context, status, &part);
    return status;
}

bool is_interrupted(sqlite3 *db) {
#if SQLITE_VERSION_NUMBER >= 3041000
    return sqlite3_libversion_number() >= 3041000 && sqlite3_is_interrupted(db);
#else
    (void)db;
    return false;
#endif
}

int32_t gather_all(sqlite3_context *context, struct column *column, const uint8_t *mask, gather_fn *gather, void *gathered) {
    for (size_t from = 0; from < column->len; from += COLUMN_WINDOW) {
        if (is_interrupted(sqlite3_context_db_handle(context))) return INTERRUPTED;
        const int32_t status = column_gather(column, from, mask, gather, gathered);
        if (status != FLCOL_OK) return status;
    }
    return FLCOL_OK;
}

static int32_t answer_condition(sqlite3_context *context, struct column *column, struct condition condition) {
    struct counted counted = {.condition = condition};
    const int32_t status = gather_all(context, column, NULL, gather_count, &counted);
    if (status == FLCOL_OK) sqlite3_result_int64(context, counted.count);
    return status;
}

static int32_t answer_count(sqlite3_context *context, struct column *column, int count, sqlite3_value **values) {
    (void)count;
    struct condition condition = {.is_between = false};
    const char *text = (const char *)sqlite3_value_text(values[1]);
    if (text == NULL) return FLCOL_OUT_OF_MEMORY;
    int32_t status = operator_of(text, (size_t)sqlite3_value_bytes(values[1]), &condition.op);
    if (status == FLCOL_OK) status = integer_value(values[2], &condition.constant);
    return status == FLCOL_OK ? answer_condition(context, column, condition) : status;
}

static int32_t answer_count_between(sqlite3_context *context, struct column *column, int count, sqlite3_value **values) {
    (void)count;
    struct condition condition = {.is_between = true};
    int32_t status = integer_value(values[1], &condition.lower);
    if (status == FLCOL_OK) status = integer_value(values[2], &condition.upper);
    return status == FLCOL_OK ? answer_condition(context, column, condition) : status;
}

/* ---- What is gathered from all items, or from those whose bits in a second value are true ---- */

/* Gathers from the items of a column that a call asks: those of its second value where it has one. */
static int32_t gather_asked(sqlite3_context *context, struct column *column, int count, sqlite3_value **values,
                            gather_fn *gather, void *gathered) {
    if (count == 1) return gather_all(context, column, NULL, gather, gathered);
    struct answers answers = no_answers();
    int32_t status = read_mask(&answers, values[1], column);
    if (status == FLCOL_OK) status = gather_all(context, column, answers.bits, gather, gathered);
    answers_close(&answers);
    return status;
}

/* The sum, as SQLite's own: null where no item is one, and an error beyond 64 bits. */
static int32_t answer_sum(sqlite3_context *context, struct column *column, int count, sqlite3_value **values) {
    struct summed summed = {0};
    int64_t sum = 0;
    const int32_t status = gather_asked(context, column, count, values, gather_sum, &summed);
    if (status != FLCOL_OK || summed.count == 0) return status;
    if (narrowed(summed.sum, &sum) == FLCOL_OK) {
        sqlite3_result_int64(context, sum);
    } else {
        sqlite3_result_error(context, "integer overflow", -1);
    }
    return FLCOL_OK;
}

/* The mean as a float: what comes before the point is exact until it is rounded at the end. */
static int32_t answer_avg(sqlite3_context *context, struct column *column, int count, sqlite3_value **values) {
    struct summed summed = {0};
    const int32_t status = gather_asked(context, column, count, values, gather_sum, &summed);
    if (status != FLCOL_OK || summed.count == 0) return status;
    const long double whole = (long double)(summed.sum / summed.count), rest = (long double)(summed.sum % summed.count);
    sqlite3_result_double(context, (double)(whole + rest / (long double)summed.count));
    return FLCOL_OK;
}

static int32_t answer_min(sqlite3_context *context, struct column *column, int count, sqlite3_value **values) {
    struct extremes extremes = {0};
    int64_t value = 0;
    int32_t status = gather_asked(context, column, count, values, gather_extremes, &extremes);
    if (status != FLCOL_OK || !extremes.is_some) return status;
    status = narrowed(extremes.least, &value);
    if (status == FLCOL_OK) sqlite3_result_int64(context, value);
    return status;
}

static int32_t answer_max(sqlite3_context *context, struct column *column, int count, sqlite3_value **values) {
    struct extremes extremes = {0};
    int64_t value = 0;
    int32_t status = gather_asked(context, column, count, values, gather_extremes, &extremes);
    if (status != FLCOL_OK || !extremes.is_some) return status;
    status = narrowed(extremes.greatest, &value);
    if (status == FLCOL_OK) sqlite3_result_int64(context, value);
    return status;
}

static int32_t answer_nulls(sqlite3_context *context, struct column *column, int count, sqlite3_value **values) {
    (void)count, (void)values;
    size_t nulls = 0;
    const int32_t status = flcol_null_count(&column->array, &nulls);
    if (status == FLCOL_OK) sqlite3_result_int64(context, (sqlite3_int64)nulls);
    return status;
}

/* A container's text, which no column is opened for: columns of booleans have one too. */
static int32_t inspect(sqlite3_value *value, char **text, size_t *len) {
    if (sqlite3_value_type(value) != SQLITE_BLOB) return FLCOL_BAD_CONTAINER;
    const uint8_t *container = sqlite3_value_blob(value);
    const size_t container_len = (size_t)sqlite3_value_bytes(value);
    int32_t status = flcol_inspect(container, container_len, NULL, 0, len);
    if (status != FLCOL_OK) return status;
    *text = sqlite3_malloc64(*len);
    if (*text == NULL) return FLCOL_OUT_OF_MEMORY;
    status = flcol_inspect(container, container_len, *text, *len, len);
    if (status != FLCOL_OK) sqlite3_free(*text);
    return status;
}

static void flcol_inspect_sql(sqlite3_context *context, int count, sqlite3_value **values) {
    char *text = NULL;
    size_t len = 0;
    if (has_null(count, values)) return;
    const int32_t status = inspect(values[0], &text, &len);
    if (status == FLCOL_OK) {
        sqlite3_result_text64(context, text, len, sqlite3_free, SQLITE_UTF8);
    } else {
        refuse(context, status);
    }
}

#define DEFINE_FUNCTION(NAME)                                                                     \
    static void flcol_##NAME##_sql(sqlite3_context *context, int count, sqlite3_value **values) { \
        with_column(context, count, values, answer_##NAME);                                       \
    }

DEFINE_FUNCTION(len)
DEFINE_FUNCTION(get)
DEFINE_FUNCTION(slice)
DEFINE_FUNCTION(count)
DEFINE_FUNCTION(count_between)
DEFINE_FUNCTION(sum)
DEFINE_FUNCTION(avg)
DEFINE_FUNCTION(min)
DEFINE_FUNCTION(max)
DEFINE_FUNCTION(nulls)

int add_function(sqlite3 *db, const char *name, int count, void (*function)(sqlite3_context *, int, sqlite3_value **)) {
    const int flags = SQLITE_UTF8 | SQLITE_DETERMINISTIC | SQLITE_INNOCUOUS;
    return sqlite3_create_function_v2(db, name, count, flags, NULL, function, NULL, NULL, NULL);
}

int add_functions(sqlite3 *db) {
    static const struct {
        const char *name;
        int count;
        void (*function)(sqlite3_context *, int, sqlite3_value **);
    } functions[] = {{"flcol_len", 1, flcol_len_sql},
                     {"flcol_get", 2, flcol_get_sql},
                     {"flcol_slice", 3, flcol_slice_sql},
                     {"flcol_count", 3, flcol_count_sql},
                     {"flcol_count_between", 3, flcol_count_between_sql},
                     {"flcol_between", 3, flcol_count_between_sql},
                     {"flcol_sum", 1, flcol_sum_sql},
                     {"flcol_sum", 2, flcol_sum_sql},
                     {"flcol_avg", 1, flcol_avg_sql},
                     {"flcol_avg", 2, flcol_avg_sql},
                     {"flcol_min", 1, flcol_min_sql},
                     {"flcol_min", 2, flcol_min_sql},
                     {"flcol_max", 1, flcol_max_sql},
                     {"flcol_max", 2, flcol_max_sql},
                     {"flcol_nulls", 1, flcol_nulls_sql},
                     {"flcol_inspect", 1, flcol_inspect_sql}};
    for (size_t i = 0; i < sizeof functions / sizeof *functions; i++) {
        const int code = add_function(db, functions[i].name, functions[i].count, functions[i].function);
        if (code != SQLITE_OK) return code;
    }
    return SQLITE_OK;
}
