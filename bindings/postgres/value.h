/* What the files of the extension share: values of the type `flcol`, and the library's memory. */
#ifndef FLCOL_VALUE_H
#define FLCOL_VALUE_H

#include <postgres.h>

#include <fmgr.h>
#if PG_VERSION_NUM >= 160000
#include <varatt.h>
#endif

#include "column.h"

/* Raises the error of a status. */
extern void refuse(int32_t status) pg_attribute_noreturn();

/* Raises the error of a status, unless it is 0. */
extern void check(int32_t status);

/* The SQLSTATE of what bytes are refused for. */
extern int container_error_code(int32_t status);

/* Has something given back with the current memory context. */
extern void hold(void (*give_back)(void *), void *what);

/* Memory of a context; what there is none for is PostgreSQL's own error. */
extern void *resize_in(void *context, void *memory, size_t size);

/* The column of a value, or of bytes. The library's memory is given back with the current memory context, also where an
   error jumps; `column_close` gives it back before. */
extern struct column *open_value(Datum value);
extern struct column *open_bytes(const void *bytes, size_t len);

/* No array yet. What is put there is given back with the current memory context. */
extern flcol_array *hold_array(void);

/* A value of an array, which is given back. */
extern Datum array_value(flcol_array *array);

/* Gathers from all items of a column, or from those of a mask where it is not NULL. It can be cancelled between two windows. */
extern void gather_all(struct column *column, const uint8_t *mask, gather_fn *gather, void *gathered);

/* The operator of a value of the type `flcol_operator`. */
extern uint8_t operator_argument(Datum value);

/* The answers of a value of the type `flcol_bits`, in memory of the current context. */
extern void read_bits(struct answers *answers, Datum value);

/* The answers of such a value as the mask of a column. */
extern void read_mask(struct answers *answers, Datum value, const struct column *column);

/* How the bytes of a value are tried: a status. */
typedef int32_t try_fn(const void *bytes, size_t len);

/* A value of the text, the message or the bytes of a function's argument, once they were tried. */
extern Datum value_of_text(FunctionCallInfo fcinfo, const char *type, try_fn *try_bytes);
extern Datum value_of_message(FunctionCallInfo fcinfo, try_fn *try_bytes);
extern Datum value_of_bytea(FunctionCallInfo fcinfo, try_fn *try_bytes);

/* The items of a builder by its scheme, as an array that is given back with the current memory context. The statement
   can be cancelled meanwhile. */
extern flcol_array *encoded_items(const struct builder *items);

#endif
