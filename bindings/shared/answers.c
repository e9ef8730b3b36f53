/* Answers of tests: bitmaps in memory of an engine, and the containers of booleans that they are kept as. */
#include <string.h>

#include "column.h"

/* The bytes of a bitmap of answers. */
static size_t bytes_of(const struct answers *answers) {
    return (answers->len + 7) / 8;
}

static size_t validity_bytes(const struct answers *answers) {
    return answers->validity == NULL ? 0 : bytes_of(answers);
}

/* Memory for a bitmap of so many bytes, of one at least, all of it zeros. */
static uint8_t *new_bitmap(const struct answers *answers, size_t bytes) {
    uint8_t *bitmap = answers->resize(answers->owner, NULL, bytes + !bytes);
    if (bitmap != NULL) memset(bitmap, 0, bytes + !bytes);
    return bitmap;
}

/* Room for so many answers. */
static int32_t make_room(struct answers *answers, size_t len, bool is_nullable) {
    answers->len = len;
    answers->bits = new_bitmap(answers, bytes_of(answers));
    if (answers->bits == NULL) return FLCOL_OUT_OF_MEMORY;
    if (!is_nullable) return FLCOL_OK;
    answers->validity = new_bitmap(answers, bytes_of(answers));
    return answers->validity == NULL ? FLCOL_OUT_OF_MEMORY : FLCOL_OK;
}

static int32_t read_array(struct answers *answers, flcol_array *array) {
    size_t len = 0;
    uint8_t dtype = 0;
    int32_t status = flcol_len(array, &len);
    if (status == FLCOL_OK) status = flcol_dtype(array, &dtype);
    if (status != FLCOL_OK) return status;
    if (dtype % FLCOL_NULLABLE != FLCOL_BOOL) return FLCOL_WRONG_TYPE;
    if (len > COLUMN_ITEMS) return FLCOL_LENGTH_OVERFLOW;
    status = make_room(answers, len, dtype >= FLCOL_NULLABLE);
    if (status != FLCOL_OK) return status;
    return flcol_read_bool(array, answers->bits, bytes_of(answers), answers->validity, validity_bytes(answers));
}

int32_t answers_read(struct answers *answers, const void *container, size_t len) {
    flcol_array array = FLCOL_EMPTY;
    int32_t status = flcol_deserialize(container, len, &array);
    if (status == FLCOL_OK) status = read_array(answers, &array);
    flcol_free(&array);
    return status;
}

int32_t answers_begin(struct answers *answers, const struct column *column, bool is_of_all) {
    return make_room(answers, column->len, is_of_all && column->is_nullable);
}

int32_t answers_array(const struct answers *answers, flcol_array *out) {
    const size_t bytes = bytes_of(answers);
    /* No bytes of validity at all would make a type without nulls. */
    const size_t validity_len = answers->validity == NULL ? 0 : bytes + !bytes;
    return flcol_from_bool(answers->bits, bytes, answers->len, answers->validity, validity_len, out);
}

int32_t answers_join(struct answers *answers, const struct answers *other, join_fn *join) {
    const size_t bytes = bytes_of(answers);
    if (answers->len != other->len) return FLCOL_MASK_LENGTH;
    if (answers->validity == NULL && other->validity != NULL) {
        answers->validity = new_bitmap(answers, bytes);
        if (answers->validity == NULL) return FLCOL_OUT_OF_MEMORY;
        const int32_t status = flcol_not(answers->validity, bytes, answers->len);
        if (status != FLCOL_OK) return status;
    }
    return join(answers->bits, bytes, answers->validity, validity_bytes(answers), other->bits, bytes, other->validity,
                validity_bytes(other));
}

int32_t answers_turn(struct answers *answers) {
    return flcol_not(answers->bits, bytes_of(answers), answers->len);
}

int32_t answers_count(const struct answers *answers, int64_t *count) {
    size_t total = 0;
    const int32_t status = flcol_count_bits(answers->bits, bytes_of(answers), answers->validity, validity_bytes(answers),
                                            answers->len, &total);
    if (status == FLCOL_OK) *count = (int64_t)total;
    return status;
}

int32_t answers_as_mask(struct answers *answers, const struct column *column) {
    const size_t bytes = bytes_of(answers);
    if (answers->len != column->len) return FLCOL_MASK_LENGTH;
    if (answers->validity == NULL) return FLCOL_OK;
    return flcol_and(answers->bits, bytes, NULL, 0, answers->validity, bytes, NULL, 0);
}

void answers_close(struct answers *answers) {
    uint8_t **bitmaps[] = {&answers->bits, &answers->validity};
    for (size_t i = 0; i < sizeof bitmaps / sizeof *bitmaps; i++) {
        if (*bitmaps[i] != NULL) answers->resize(answers->owner, *bitmaps[i], 0);
        *bitmaps[i] = NULL;
    }
}
