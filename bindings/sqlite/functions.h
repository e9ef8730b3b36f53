/* What the files of the extension share. */
#ifndef FLCOL_FUNCTIONS_H
#define FLCOL_FUNCTIONS_H

#include <sqlite3ext.h>

#include "column.h"

extern const sqlite3_api_routines *sqlite3_api;

/* Adds the functions, the aggregates, the table of values, the functions of bits and the table of a file to a connection; each
   answers a code of SQLite. */
int add_functions(sqlite3 *db);
int add_aggregates(sqlite3 *db);
int add_each(sqlite3 *db);
int add_bits(sqlite3 *db);
int add_file(sqlite3 *db);

/* Opens the column of a value. FLCOL_BAD_CONTAINER: it is no blob. */
int32_t open_value(struct column *column, sqlite3_value *value);

/* Ends a function with the error of a status. */
void refuse(sqlite3_context *context, int32_t status);

/* The array as the function's result, in a container, and gives it back; or the error of a status. */
void answer_array(sqlite3_context *context, int32_t status, flcol_array *array);

/* An integer, which no other type is turned into. FLCOL_NOT_INTEGER. */
int32_t integer_value(sqlite3_value *value, int64_t *integer);

/* What a function does with the column of its first value. */
typedef int32_t column_fn(sqlite3_context *context, struct column *column, int count, sqlite3_value **values);

/* Calls a function with the column of its first value; with a null the answer is null. */
void with_column(sqlite3_context *context, int count, sqlite3_value **values, column_fn *function);

/* Whether a value is null. */
bool has_null(int count, sqlite3_value **values);

/* Whether the statement is to end early, which SQLite says from 3.41 on. */
bool is_interrupted(sqlite3 *db);

/* Gathers from all items, or from those of a mask where it is not NULL, unless the statement is to end early, which is a status
   too. */
int32_t gather_all(sqlite3_context *context, struct column *column, const uint8_t *mask, gather_fn *gather, void *gathered);

/* No answers yet, which are to have SQLite's memory. */
struct answers no_answers(void);

/* The answers of a value. FLCOL_BAD_CONTAINER: it is no blob. */
int32_t read_bits(struct answers *answers, sqlite3_value *value);

/* The answers of a value as the mask of a column. FLCOL_BAD_CONTAINER. FLCOL_MASK_LENGTH. */
int32_t read_mask(struct answers *answers, sqlite3_value *value, const struct column *column);

/* Adds a function to a connection; the answer is a code of SQLite. */
int add_function(sqlite3 *db, const char *name, int count, void (*function)(sqlite3_context *, int, sqlite3_value **));

#endif
