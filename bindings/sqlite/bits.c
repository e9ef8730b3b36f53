/* Functions of bits: the answers of a test, a bit for each item, in a container of booleans that is kept as a blob. */
#include "functions.h"

/* ---- Their memory, and what they are read from ---- */

static void *resize(void *owner, void *memory, size_t size) {
    (void)owner;
    return sqlite3_realloc64(memory, size);
}

struct answers no_answers(void) {
    return (struct answers){.resize = resize};
}

int32_t read_bits(struct answers *answers, sqlite3_value *value) {
    if (sqlite3_value_type(value) != SQLITE_BLOB) return FLCOL_BAD_CONTAINER;
    const void *bytes = sqlite3_value_blob(value);
    return answers_read(answers, bytes, (size_t)sqlite3_value_bytes(value));
}

int32_t read_mask(struct answers *answers, sqlite3_value *value, const struct column *column) {
    const int32_t status = read_bits(answers, value);
    return status == FLCOL_OK ? answers_as_mask(answers, column) : status;
}

/* Answers as the function's result, or the error of a status, and gives their memory back. */
static void answer_bits(sqlite3_context *context, int32_t status, struct answers *answers) {
    flcol_array array = FLCOL_EMPTY;
    if (status == FLCOL_OK) status = answers_array(answers, &array);
    answers_close(answers);
    answer_array(context, status, &array);
}

/* ---- Tests ---- */

/* The answers of a test of each item, or of those of a mask where it is not NULL. */
static int32_t answer_test(sqlite3_context *context, struct column *column, const uint8_t *mask, struct answers *answers,
                           gather_fn *gather, void *test) {
    int32_t status = answers_begin(answers, column, mask == NULL);
    if (status == FLCOL_OK) status = gather_all(context, column, mask, gather, test);
    answer_bits(context, status, answers);
    return FLCOL_OK;
}

static int32_t answer_where(sqlite3_context *context, struct column *column, int count, sqlite3_value **values) {
    struct answers answers = no_answers(), asked = no_answers();
    struct compared compared = {.answers = &answers};
    const char *text = (const char *)sqlite3_value_text(values[1]);
    if (text == NULL) return FLCOL_OUT_OF_MEMORY;
    int32_t status = operator_of(text, (size_t)sqlite3_value_bytes(values[1]), &compared.op);
    if (status == FLCOL_OK) status = integer_value(values[2], &compared.constant);
    if (status == FLCOL_OK && count > 3) status = read_mask(&asked, values[3], column);
    if (status == FLCOL_OK) status = answer_test(context, column, asked.bits, &answers, gather_compared, &compared);
    answers_close(&asked);
    return status;
}

/* The integers behind the column, of which each is one of the list. */
static int32_t read_list(int count, sqlite3_value **values, struct listed *listed) {
    for (int i = 1; i < count; i++) {
        const int32_t status = integer_value(values[i], &listed->list[i - 1]);
        if (status != FLCOL_OK) return status;
    }
    listed->len = (size_t)count - 1;
    return FLCOL_OK;
}

static int32_t answer_is_in(sqlite3_context *context, struct column *column, int count, sqlite3_value **values) {
    struct answers answers = no_answers();
    struct listed listed = {.list = sqlite3_malloc64(sizeof *listed.list * (size_t)count), .answers = &answers};
    if (listed.list == NULL) return FLCOL_OUT_OF_MEMORY;
    int32_t status = read_list(count, values, &listed);
    if (status == FLCOL_OK) {
        column_narrow(column, listed.list, &listed.len);
        status = answer_test(context, column, NULL, &answers, gather_listed, &listed);
    }
    sqlite3_free(listed.list);
    return status;
}

static void flcol_where_sql(sqlite3_context *context, int count, sqlite3_value **values) {
    with_column(context, count, values, answer_where);
}

static void flcol_is_in_sql(sqlite3_context *context, int count, sqlite3_value **values) {
    if (count == 0) {
        sqlite3_result_error(context, "wrong number of arguments to function flcol_is_in()", -1);
    } else {
        with_column(context, count, values, answer_is_in);
    }
}

/* ---- Bits of bits ---- */

static void answer_joined(sqlite3_context *context, int count, sqlite3_value **values, join_fn *join) {
    if (has_null(count, values)) return;
    struct answers answers = no_answers(), other = no_answers();
    int32_t status = read_bits(&answers, values[0]);
    if (status == FLCOL_OK) status = read_bits(&other, values[1]);
    if (status == FLCOL_OK) status = answers_join(&answers, &other, join);
    answers_close(&other);
    answer_bits(context, status, &answers);
}

static void flcol_and_sql(sqlite3_context *context, int count, sqlite3_value **values) {
    answer_joined(context, count, values, flcol_and);
}

static void flcol_or_sql(sqlite3_context *context, int count, sqlite3_value **values) {
    answer_joined(context, count, values, flcol_or);
}

static void flcol_not_sql(sqlite3_context *context, int count, sqlite3_value **values) {
    if (has_null(count, values)) return;
    struct answers answers = no_answers();
    int32_t status = read_bits(&answers, values[0]);
    if (status == FLCOL_OK) status = answers_turn(&answers);
    answer_bits(context, status, &answers);
}

static void flcol_count_bits_sql(sqlite3_context *context, int count, sqlite3_value **values) {
    if (has_null(count, values)) return;
    struct answers answers = no_answers();
    int64_t total = 0;
    int32_t status = read_bits(&answers, values[0]);
    if (status == FLCOL_OK) status = answers_count(&answers, &total);
    answers_close(&answers);
    if (status == FLCOL_OK) {
        sqlite3_result_int64(context, total);
    } else {
        refuse(context, status);
    }
}

int add_bits(sqlite3 *db) {
    int code = add_function(db, "flcol_where", 3, flcol_where_sql);
    if (code == SQLITE_OK) code = add_function(db, "flcol_where", 4, flcol_where_sql);
    if (code == SQLITE_OK) code = add_function(db, "flcol_is_in", -1, flcol_is_in_sql);
    if (code == SQLITE_OK) code = add_function(db, "flcol_and", 2, flcol_and_sql);
    if (code == SQLITE_OK) code = add_function(db, "flcol_or", 2, flcol_or_sql);
    if (code == SQLITE_OK) code = add_function(db, "flcol_not", 1, flcol_not_sql);
    if (code == SQLITE_OK) code = add_function(db, "flcol_count", 1, flcol_count_bits_sql);
    return code;
}
