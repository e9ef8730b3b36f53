/* A column as an engine of SQL asks it: each item is null or an integer of 64 bits, whatever the array's own type is.
 *
 * Nothing here knows an engine. A call that answers a status does so as those of flcol.h do: 0 where it did what it is
 * for, else the first refusal. What a call holds while it works it has given back when it answers.
 */
#ifndef FLCOL_COLUMN_H
#define FLCOL_COLUMN_H

#include <stdbool.h>
#include <stddef.h>
#include <stdint.h>

#include "flcol.h"

enum {
    COLUMN_WINDOW = 64 * 1024, /* how many items are read, or compared, at a time */
    COLUMN_SCHEME = 256,       /* how many bytes the text of a scheme has at most: nesting takes the stack */
    REFUSAL_TEXT = 256         /* how many bytes the text of a refusal has at most, with the 0 behind it */
};

/* How many items a value stands for at most. A few bytes can say any number. */
#define COLUMN_ITEMS ((size_t)1 << 28)

/* A null, or an integer. */
struct item {
    int64_t value;
    bool is_null;
};

/* Writes what an error of an engine says of a status: `flcol: `, its name, and its sentence behind a colon. */
void refusal_text(int32_t status, char text[REFUSAL_TEXT]);

/* ---- Columns that are kept ---- */

/* An array of integers. One of zeros holds none. */
struct column {
    flcol_array array;
    size_t len;
    uint8_t type; /* FLCOL_U8 to FLCOL_I64 */
    bool is_nullable;
};

/* The column of a container's bytes, which are copied.
   FLCOL_BAD_CONTAINER, any of 2 to 40: as flcol_deserialize. FLCOL_NOT_INTEGER: a column of booleans.
   FLCOL_LENGTH_OVERFLOW: more than COLUMN_ITEMS items. */
int32_t column_open(struct column *column, const void *bytes, size_t len);

/* Looks at the array that was put into a column, and sets what else there is of it. FLCOL_NOT_INTEGER. FLCOL_LENGTH_OVERFLOW. */
int32_t column_take(struct column *column);

/* Gives the array back, if one is held. */
void column_close(struct column *column);

/* The item at an index. FLCOL_INDEX_OUT_OF_BOUNDS. FLCOL_CAST_OUT_OF_RANGE: it is above 2^63-1. */
int32_t column_get(struct column *column, int64_t index, struct item *item);

/* The items from `from` to below `to`, in the same encodings. FLCOL_RANGE_OUT_OF_BOUNDS. */
int32_t column_slice(struct column *column, int64_t from, int64_t to, flcol_array *out);

/* ---- Items in their order ---- */

/* A window of a column's items, which may be used for one column only. It starts with `from` and `len` 0. */
struct window {
    size_t from;
    size_t len;
    uint64_t values[COLUMN_WINDOW]; /* of the column's own type */
    uint8_t validity[COLUMN_WINDOW / 8];
};

/* The item at an index below the column's length. The window is read anew where it hasn't that item.
   FLCOL_CAST_OUT_OF_RANGE: it is above 2^63-1. */
int32_t column_item(struct column *column, struct window *window, size_t index, struct item *item);

/* ---- All items ---- */

/* An integer of 128 bits, which the sum of a column is. */
__extension__ typedef __int128 wide;

/* Some of a column's items, one behind the other. */
struct part {
    flcol_array array;
    size_t from; /* the index of the first one, a multiple of COLUMN_WINDOW */
    size_t len;
    const uint8_t *mask; /* the bitmap of those that are asked, or NULL: all are */
};

/* Adds to what is gathered from a column what a part of it says. */
typedef int32_t gather_fn(struct column *column, struct part *part, void *gathered);

/* Gathers from the COLUMN_WINDOW items from `from` on, or from as many as there are, so that whoever goes over a column can
   stop in between. Where `mask` is not NULL it is a bitmap of the column's items, of which those are asked whose bits are
   set. */
int32_t column_gather(struct column *column, size_t from, const uint8_t *mask, gather_fn *gather, void *gathered);

/* What items are counted: those that compare so with a constant, or lie between two bounds, which belong to it. */
struct condition {
    bool is_between;
    uint8_t op;
    int64_t constant;
    int64_t lower;
    int64_t upper;
};

/* How many items meet a condition. No null does. */
struct counted {
    struct condition condition;
    int64_t count;
};

/* The sum of the items that are not null, and how many they are; all zeros of none. */
struct summed {
    wide sum;
    int64_t count;
};

/* The least and the greatest of the items that are not null, if there are any; all zeros of none. */
struct extremes {
    bool is_some;
    wide least;
    wide greatest;
};

/* Each gathers to the struct of its name. No mask goes with a condition. */
gather_fn gather_count, gather_sum, gather_extremes;

/* The operator of the text `=`, `<>`, `!=`, `>`, `>=`, `<` or `<=`. FLCOL_BAD_OPERATOR. */
int32_t operator_of(const char *text, size_t len, uint8_t *op);

/* The integer in 64 bits. FLCOL_CAST_OUT_OF_RANGE. */
int32_t narrowed(wide integer, int64_t *value);

/* ---- Answers ---- */

/* Gives memory of `size` bytes in place of `memory`, or NULL. */
typedef void *resize_fn(void *owner, void *memory, size_t size);

/* Answers of a test: a bit for each item, and which of them are known, bitmaps as those of flcol.h. One of zeros but for
   `resize` and `owner` has none. `resize` is asked for new memory and to give it back, and never jumps. */
struct answers {
    resize_fn *resize;
    void *owner; /* handed to `resize` */
    size_t len;
    uint8_t *bits;
    uint8_t *validity; /* NULL where no answer is null */
};

/* The answers of a container of booleans. FLCOL_BAD_CONTAINER, any of 2 to 40: as flcol_deserialize. FLCOL_WRONG_TYPE: a
   column of integers. FLCOL_LENGTH_OVERFLOW: more than COLUMN_ITEMS. */
int32_t answers_read(struct answers *answers, const void *container, size_t len);

/* Room for an answer of each item of a column, which is null at a null where all items are asked. */
int32_t answers_begin(struct answers *answers, const struct column *column, bool is_of_all);

/* The answers as an array of booleans. */
int32_t answers_array(const struct answers *answers, flcol_array *out);

/* Joins others to answers by flcol_and or flcol_or. FLCOL_MASK_LENGTH: they are more or fewer. */
typedef int32_t join_fn(uint8_t *bits, size_t bits_len, uint8_t *validity, size_t validity_len, const uint8_t *other,
                        size_t other_len, const uint8_t *other_validity, size_t other_validity_len);
int32_t answers_join(struct answers *answers, const struct answers *other, join_fn *join);

/* Turns each answer that is not null. */
int32_t answers_turn(struct answers *answers);

/* How many answers are true. */
int32_t answers_count(const struct answers *answers, int64_t *count);

/* Makes the answers the mask of a column: a bit is set where an answer is true. FLCOL_MASK_LENGTH: the column has not as many
   items. */
int32_t answers_as_mask(struct answers *answers, const struct column *column);

/* Gives memory back by `resize` with the size 0. */
void answers_close(struct answers *answers);

/* How items compare with a constant, and the room for the answers of all. Under a mask those of other items and of nulls are
   false. */
struct compared {
    uint8_t op;
    int64_t constant;
    struct answers *answers;
};

/* Which items are one of a list, and the room for the answers of all. */
struct listed {
    int64_t *list; /* which column_narrow has made the column's */
    size_t len;
    struct answers *answers;
};

/* Each writes answers to the struct of its name. No mask goes with a list. */
gather_fn gather_compared, gather_listed;

/* Of the COLUMN_WINDOW items from `from` on, or of as many as there are, clears the bits in a mask of those that don't compare so
   with a constant; a null compares with none. */
int32_t column_keep(struct column *column, size_t from, uint8_t op, int64_t constant, uint8_t mask[COLUMN_WINDOW / 8]);

/* Writes the integers of a list that the column's type has over the list, as integers of that type; `len` becomes how many
   they are. */
void column_narrow(const struct column *column, int64_t *list, size_t *len);

/* ---- Making a column ---- */

/* Items that are gathered to be encoded. One of zeros but for `type`, `most`, `resize` and `owner` has none. */
struct builder {
    uint8_t type; /* FLCOL_I16, FLCOL_I32 or FLCOL_I64, of which each value is */
    size_t most;  /* how many items there are at most: no greater `resize` is asked for than these take */
    resize_fn *resize;
    void *owner; /* handed to `resize` */
    size_t len;
    size_t capacity;
    size_t null_count;
    void *values;
    uint8_t *validity;
    char *scheme; /* NULL: of a few schemes the one with which the column takes the fewest bytes */
    size_t scheme_len;
};

/* Sets the scheme. FLCOL_BAD_SCHEME: the text is longer than COLUMN_SCHEME. */
int32_t builder_set_scheme(struct builder *builder, const char *text, size_t len);

/* Adds an item. FLCOL_LENGTH_OVERFLOW: there are `most` already. */
int32_t builder_push(struct builder *builder, struct item item);

/* Adds items: values of the builder's type, and a bit for each that is not null. FLCOL_LENGTH_OVERFLOW. */
int32_t builder_append(struct builder *builder, const void *values, const uint8_t *validity, size_t len);

/* The bytes that `len` values take. */
size_t builder_value_bytes(const struct builder *builder, size_t len);

/* `len` items from `from` on, a multiple of 8, as a plain array; of a type without nulls where the builder has none. */
int32_t builder_plain(const struct builder *builder, size_t from, size_t len, flcol_array *out);

/* An array by a scheme, or where `scheme` is NULL by the one with the fewest bytes. What flcol_encode refuses. */
int32_t encode_by(flcol_array *plain, const char *scheme, size_t scheme_len, flcol_array *out);

/* Gives memory back by `resize` with the size 0. */
void builder_close(struct builder *builder);

#endif
