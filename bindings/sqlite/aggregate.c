/* flcol(x) and flcol(x, scheme): the integers of a group as a blob, in the order in which they come. */
#include "functions.h"

/* SQLite gives no greater piece of memory than of so many bytes, whatever there is. */
static const size_t LARGEST_REQUEST = 0x7ffffeff;

/* SQLite's memory. */
static void *resize(void *owner, void *memory, size_t size) {
    (void)owner;
    return sqlite3_realloc64(memory, size);
}

/* A group; SQLite starts it with zeros. */
struct group {
    struct builder builder;
    int32_t status; /* the first refusal, behind which nothing is gathered */
};

/* The scheme of the first row counts. A null leaves the choice to the library. */
static int32_t begin(struct group *group, int count, sqlite3_value **values) {
    group->builder = (struct builder){.type = FLCOL_I64, .most = LARGEST_REQUEST / sizeof(int64_t), .resize = resize};
    if (count < 2 || sqlite3_value_type(values[1]) == SQLITE_NULL) return FLCOL_OK;
    const char *text = (const char *)sqlite3_value_text(values[1]);
    if (text == NULL) return FLCOL_OUT_OF_MEMORY;
    return builder_set_scheme(&group->builder, text, (size_t)sqlite3_value_bytes(values[1]));
}

static int32_t push(struct group *group, sqlite3_value *value) {
    const int type = sqlite3_value_type(value);
    if (type != SQLITE_NULL && type != SQLITE_INTEGER) return FLCOL_NOT_INTEGER;
    const struct item item = {.value = sqlite3_value_int64(value), .is_null = type == SQLITE_NULL};
    return builder_push(&group->builder, item);
}

static void step(sqlite3_context *context, int count, sqlite3_value **values) {
    struct group *group = sqlite3_aggregate_context(context, sizeof *group);
    if (group == NULL) {
        sqlite3_result_error_nomem(context);
        return;
    }
    if (group->status != FLCOL_OK) return;
    if (group->builder.resize == NULL) group->status = begin(group, count, values);
    if (group->status == FLCOL_OK) group->status = push(group, values[0]);
    if (group->status != FLCOL_OK) refuse(context, group->status);
}

static int32_t encode(const struct builder *builder, flcol_array *out) {
    flcol_array plain = FLCOL_EMPTY;
    int32_t status = builder_plain(builder, 0, builder->len, &plain);
    if (status == FLCOL_OK) status = encode_by(&plain, builder->scheme, builder->scheme_len, out);
    flcol_free(&plain);
    return status;
}

/* A group without rows has no column: the answer is null. It is also called behind an error, to give back what is held. */
static void finish(sqlite3_context *context) {
    struct group *group = sqlite3_aggregate_context(context, 0);
    if (group == NULL || group->builder.resize == NULL) return;
    flcol_array array = FLCOL_EMPTY;
    if (group->status == FLCOL_OK) group->status = encode(&group->builder, &array);
    builder_close(&group->builder);
    answer_array(context, group->status, &array);
}

int add_aggregates(sqlite3 *db) {
    const int flags = SQLITE_UTF8 | SQLITE_INNOCUOUS | SQLITE_DETERMINISTIC;
    const int code = sqlite3_create_function_v2(db, "flcol", 1, flags, NULL, NULL, step, finish, NULL);
    return code != SQLITE_OK ? code : sqlite3_create_function_v2(db, "flcol", 2, flags, NULL, NULL, step, finish, NULL);
}
