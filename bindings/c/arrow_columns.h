/* What the tests of Arrow share: the types with their calls over untyped values, and columns that a test hands over. */
#ifndef ARROW_COLUMNS_H
#define ARROW_COLUMNS_H

#include "checking.h"

#define OF_TYPE "arrow_type.h"
#include "each_type.h"
#undef OF_TYPE

static int32_t from_bool(const void *bits, size_t len, const uint8_t *validity, size_t validity_len, flcol_array *out) {
    return flcol_from_bool((const uint8_t *)bits, (len + 7) / 8, len, validity, validity_len, out);
}

static int32_t read_bool(flcol_array *array, void *bits, size_t len, uint8_t *validity, size_t validity_len) {
    return flcol_read_bool(array, (uint8_t *)bits, (len + 7) / 8, validity, validity_len);
}

/* The types by their numbers, with how many bits an item takes. */
static const struct type {
    const char *format;
    size_t bits;
    int32_t (*from)(const void *values, size_t len, const uint8_t *validity, size_t validity_len, flcol_array *out);
    int32_t (*read)(flcol_array *array, void *values, size_t len, uint8_t *validity, size_t validity_len);
} TYPES[] = {{"C", 8, from_u8, read_u8},    {"S", 16, from_u16, read_u16}, {"I", 32, from_u32, read_u32},
             {"L", 64, from_u64, read_u64}, {"c", 8, from_i8, read_i8},    {"s", 16, from_i16, read_i16},
             {"i", 32, from_i32, read_i32}, {"l", 64, from_i64, read_i64}, {"b", 1, from_bool, read_bool}};
enum { TYPE_COUNT = sizeof TYPES / sizeof TYPES[0] };

/* The bits of item i of values that take so many bits each. */
static inline uint64_t item(const void *values, size_t bits, size_t i) {
    uint64_t value = 0;
    if (bits == 1) return (uint64_t)bit((const uint8_t *)values, i);
    memcpy(&value, (const uint8_t *)values + i * (bits / 8), bits / 8);
    return value;
}

static inline size_t bytes_of(size_t items, size_t bits) {
    return (items * bits + 7) / 8;
}

/* Memory of a test's own. */
static inline uint8_t *memory_of(size_t len) {
    uint8_t *memory = (uint8_t *)malloc(len + 1);
    CHECK(memory != NULL);
    return memory;
}

/* ---- Columns that are handed over ---- */

/* An array of Arrow with its schema, how often each was released, and the memory of the buffers, of which none has more bytes
   than its items need. */
struct produced {
    struct ArrowArray array;
    struct ArrowSchema schema;
    const void *buffers[2];
    uint8_t *memory[2];
    int arrays_released, schemas_released;
};

static void release_produced_array(struct ArrowArray *array) {
    struct produced *of = (struct produced *)array->private_data;
    of->arrays_released++;
    for (int i = 0; i < 2; i++) free(of->memory[i]), of->memory[i] = NULL;
    array->release = NULL;
}

static void release_produced_schema(struct ArrowSchema *schema) {
    ((struct produced *)schema->private_data)->schemas_released++;
    schema->release = NULL;
}

/* A copy of the first bytes of a buffer, `shift` bytes behind where memory begins. */
static inline void copy_buffer(struct produced *of, int place, const void *bytes, size_t len, size_t shift) {
    of->memory[place] = (uint8_t *)malloc(len + shift);
    CHECK(of->memory[place] != NULL);
    memcpy(of->memory[place] + shift, bytes, len);
    of->buffers[place] = of->memory[place] + shift;
}

/* Hands over `len` items from `offset` on, of values and of validity that may be missing. Buffers begin at odd addresses where
   `shift` is odd; those without bytes are NULL. */
static inline void produce(struct produced *of, const struct type *type, const void *values, const uint8_t *validity, size_t offset,
                           size_t len, size_t shift) {
    memset(of, 0, sizeof *of);
    if (offset + len > 0) copy_buffer(of, 1, values, bytes_of(offset + len, type->bits), shift);
    if (offset + len > 0 && validity != NULL) copy_buffer(of, 0, validity, bytes_of(offset + len, 1), shift);
    of->array.length = (int64_t)len, of->array.offset = (int64_t)offset, of->array.null_count = -1;
    of->array.n_buffers = 2, of->array.buffers = of->buffers;
    of->array.release = release_produced_array, of->array.private_data = of;
    of->schema.format = type->format, of->schema.flags = validity == NULL ? 0 : ARROW_FLAG_NULLABLE;
    of->schema.release = release_produced_schema, of->schema.private_data = of;
}

/* Releases what a refused import left with the test. */
static inline void give_up(struct produced *of) {
    CHECK(of->arrays_released == 0 && of->schemas_released == 0);
    of->array.release(&of->array), of->schema.release(&of->schema);
}

/* Whether an array has the items from `offset` on of values and of validity that may be missing. */
static inline int has_items(flcol_array *array, const struct type *type, const void *values, const uint8_t *validity, size_t offset,
                            size_t len) {
    size_t n = 0, same = 0;
    uint8_t *read = memory_of(bytes_of(len, type->bits)), *valid = memory_of(bytes_of(len, 1));
    CHECK(flcol_len(array, &n) == FLCOL_OK && n == len);
    CHECK(type->read(array, read, len, valid, bytes_of(len, 1)) == FLCOL_OK);
    for (size_t i = 0; i < len; i++) {
        int is_null = !is_valid(validity, offset + i);
        same += is_null ? !bit(valid, i) : bit(valid, i) && item(read, type->bits, i) == item(values, type->bits, offset + i);
    }
    free(read), free(valid);
    return same == len;
}

#endif
