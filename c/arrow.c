/* Arrow's C Data Interface and C Stream Interface, over the calls of flcol.h that make and read plain arrays. */
#include "flcol.h"
#include <errno.h>
#include <stdlib.h>
#include <string.h>

/* Arrow's formats, each at the number of its type. */
static const char *const FORMATS[] = {"C", "S", "I", "L", "c", "s", "i", "l", "b"};
enum { FORMAT_COUNT = sizeof FORMATS / sizeof FORMATS[0] };

/* The buffers of a column, by their places: which items are valid, and the values. */
enum { VALIDITY = 0, VALUES = 1, BUFFER_COUNT = 2 };

/* How many bytes so many bits take. */
static size_t bytes_for(size_t bits) {
    return bits / 8 + (bits % 8 != 0);
}

/* How many bytes an integer of this type takes. */
static size_t width_of(uint8_t type) {
    return (size_t)1 << type % 4;
}

/* ---- By type ---- */

/* Makes an array of values that lie where their type may lie; of booleans, of bits. */
static int32_t make_items(uint8_t type, const void *values, size_t len, const uint8_t *validity, size_t validity_len,
                          flcol_array *out) {
    switch (type) {
    case FLCOL_U8: return flcol_from_u8(values, len, validity, validity_len, out);
    case FLCOL_U16: return flcol_from_u16(values, len, validity, validity_len, out);
    case FLCOL_U32: return flcol_from_u32(values, len, validity, validity_len, out);
    case FLCOL_U64: return flcol_from_u64(values, len, validity, validity_len, out);
    case FLCOL_I8: return flcol_from_i8(values, len, validity, validity_len, out);
    case FLCOL_I16: return flcol_from_i16(values, len, validity, validity_len, out);
    case FLCOL_I32: return flcol_from_i32(values, len, validity, validity_len, out);
    case FLCOL_I64: return flcol_from_i64(values, len, validity, validity_len, out);
    default: return flcol_from_bool(values, bytes_for(len), len, validity, validity_len, out);
    }
}

static int32_t read_items(flcol_array *array, uint8_t type, void *values, size_t len, uint8_t *validity,
                          size_t validity_len) {
    switch (type) {
    case FLCOL_U8: return flcol_read_u8(array, values, len, validity, validity_len);
    case FLCOL_U16: return flcol_read_u16(array, values, len, validity, validity_len);
    case FLCOL_U32: return flcol_read_u32(array, values, len, validity, validity_len);
    case FLCOL_U64: return flcol_read_u64(array, values, len, validity, validity_len);
    case FLCOL_I8: return flcol_read_i8(array, values, len, validity, validity_len);
    case FLCOL_I16: return flcol_read_i16(array, values, len, validity, validity_len);
    case FLCOL_I32: return flcol_read_i32(array, values, len, validity, validity_len);
    case FLCOL_I64: return flcol_read_i64(array, values, len, validity, validity_len);
    default: return flcol_read_bool(array, values, bytes_for(len), validity, validity_len);
    }
}

/* ---- Export ---- */

/* Buffers begin at multiples of so many bytes, and are filled up to one with zeros, as Arrow advises. */
enum { ALIGNMENT = 64 };

/* The most items that are exported. There is no memory for the buffers of more, and the lengths of these don't overflow. */
static const size_t MOST_ITEMS = PTRDIFF_MAX / 16;

/* The buffers of a column that is exported, in one piece of memory with this in front. */
struct exported {
    const void *buffers[BUFFER_COUNT];
    uint8_t *validity;
    uint8_t *values;
};

static size_t padded(size_t len) {
    return (len + ALIGNMENT - 1) / ALIGNMENT * ALIGNMENT;
}

/* Begins a buffer of `len` bytes at `*at`, and sets `*at` behind its padding. */
static uint8_t *begin_buffer(uint8_t **at, size_t len) {
    uint8_t *buffer = *at;
    *at += padded(len);
    memset(buffer + len, 0, padded(len) - len);
    return buffer;
}

/* Memory for both buffers, of which that of validity is missing where it has no bytes. NULL where there is no memory. */
static struct exported *new_exported(size_t validity_len, size_t values_len) {
    size_t room = sizeof(struct exported) + ALIGNMENT - 1 + padded(validity_len) + padded(values_len);
    struct exported *exported = malloc(room);
    if (exported == NULL) return NULL;
    uint8_t *at = (uint8_t *)(exported + 1);
    at += padded((uintptr_t)at) - (uintptr_t)at;
    exported->validity = validity_len > 0 ? begin_buffer(&at, validity_len) : NULL;
    exported->values = begin_buffer(&at, values_len);
    exported->buffers[VALIDITY] = exported->validity;
    exported->buffers[VALUES] = exported->values;
    return exported;
}

static void release_array(struct ArrowArray *array) {
    free(array->private_data);
    array->release = NULL;
}

/* All that a schema leads to is constant. */
static void release_schema(struct ArrowSchema *schema) {
    schema->release = NULL;
}

/* The schema of a column without a name. */
static struct ArrowSchema schema_of(uint8_t dtype) {
    return (struct ArrowSchema){
        .format = FORMATS[dtype % FLCOL_NULLABLE],
        .name = "",
        .flags = dtype & FLCOL_NULLABLE ? ARROW_FLAG_NULLABLE : 0,
        .release = release_schema,
    };
}

/* Decodes an array that is held into new buffers. */
static int32_t export_items(flcol_array *array, uint8_t type, struct ArrowArray *out) {
    size_t len = 0, nulls = 0;
    int32_t status = flcol_len(array, &len);
    if (status == FLCOL_OK) status = flcol_null_count(array, &nulls);
    if (status != FLCOL_OK) return status;
    if (len > MOST_ITEMS) return FLCOL_OUT_OF_MEMORY;
    size_t validity_len = nulls > 0 ? bytes_for(len) : 0;
    struct exported *exported = new_exported(validity_len, type == FLCOL_BOOL ? bytes_for(len) : len * width_of(type));
    if (exported == NULL) return FLCOL_OUT_OF_MEMORY;
    status = read_items(array, type, exported->values, len, exported->validity, validity_len);
    if (status != FLCOL_OK) return free(exported), status;
    *out = (struct ArrowArray){
        .length = (int64_t)len,
        .null_count = (int64_t)nulls,
        .n_buffers = BUFFER_COUNT,
        .buffers = exported->buffers,
        .release = release_array,
        .private_data = exported,
    };
    return FLCOL_OK;
}

int32_t flcol_export_arrow(flcol_array *array, struct ArrowArray *out_array, struct ArrowSchema *out_schema) {
    uint8_t dtype = 0;
    int32_t status = flcol_dtype(array, &dtype);
    if (status == FLCOL_OK) status = export_items(array, dtype % FLCOL_NULLABLE, out_array);
    if (status == FLCOL_OK) *out_schema = schema_of(dtype);
    return status;
}

/* ---- Import ---- */

/* The type that a schema says, or FORMAT_COUNT where it says another one than those of FORMATS. */
static uint8_t type_of(const struct ArrowSchema *schema) {
    uint8_t type = 0;
    if (schema->format == NULL || schema->n_children != 0 || schema->dictionary != NULL) return FORMAT_COUNT;
    while (type < FORMAT_COUNT && strcmp(schema->format, FORMATS[type]) != 0) type++;
    return type;
}

/* Why an array is none of a type, or FLCOL_OK. */
static int32_t fault_of(const struct ArrowArray *array, uint8_t type) {
    int64_t most = type == FLCOL_BOOL ? INT64_MAX : PTRDIFF_MAX / (int64_t)width_of(type);
    if (array->n_children != 0 || array->dictionary != NULL) return FLCOL_WRONG_TYPE;
    if (array->n_buffers != BUFFER_COUNT || array->buffers == NULL) return FLCOL_BUFFER_COUNT;
    if (array->length < 0 || array->offset < 0 || array->offset > most - array->length) return FLCOL_WRONG_LENGTH;
    if (array->null_count < -1 || array->null_count > array->length) return FLCOL_WRONG_LENGTH;
    if (array->length > 0 && array->buffers[VALUES] == NULL) return FLCOL_WRONG_LENGTH;
    return array->null_count > 0 && array->buffers[VALIDITY] == NULL ? FLCOL_VALIDITY_LENGTH : FLCOL_OK;
}

/* The bits from `offset` on in new memory, with more behind them, up to a byte, that may be anything; all are set where there is
   no bitmap. NULL where there is no memory. */
static uint8_t *copy_bits(const void *bitmap, size_t offset, size_t len) {
    size_t bytes = bytes_for(len), shift = offset % 8, i = 0;
    uint8_t *copy = malloc(bytes + 1);
    if (copy == NULL) return NULL;
    memset(copy, 0xFF, bytes + 1);
    if (bitmap == NULL || len == 0) return copy;
    const uint8_t *from = (const uint8_t *)bitmap + offset / 8;
    for (; i + 1 < bytes_for(shift + len); i++) copy[i] = (uint8_t)(from[i] >> shift | from[i + 1] << (8 - shift));
    copy[i] = (uint8_t)(from[i] >> shift);
    return copy;
}

/* The bits of validity in new memory, or no memory where the column is not nullable: the schema doesn't say so, and all
   items are valid. */
static int32_t copy_validity(const struct ArrowArray *array, int is_nullable, uint8_t **validity) {
    size_t len = (size_t)array->length, valid = 0;
    *validity = NULL;
    if (!is_nullable && array->buffers[VALIDITY] == NULL) return FLCOL_OK;
    *validity = copy_bits(array->buffers[VALIDITY], (size_t)array->offset, len);
    if (*validity == NULL) return FLCOL_OUT_OF_MEMORY;
    int32_t status = flcol_count_bits(*validity, bytes_for(len), NULL, 0, len, &valid);
    if (status == FLCOL_OK && (is_nullable || valid < len)) return FLCOL_OK;
    free(*validity);
    *validity = NULL;
    return status;
}

/* Sets `*values` to the values from the offset on. They are copied to `*moved`, else NULL, where they don't lie as their
   type has to, and where they are bits. */
static int32_t find_values(const struct ArrowArray *array, uint8_t type, const void **values, void **moved) {
    size_t len = (size_t)array->length, offset = (size_t)array->offset, width = width_of(type);
    *values = *moved = NULL;
    if (len == 0) return FLCOL_OK;
    *values = (const uint8_t *)array->buffers[VALUES] + (type == FLCOL_BOOL ? 0 : offset * width);
    if (type != FLCOL_BOOL && (uintptr_t)*values % width == 0) return FLCOL_OK;
    *moved = type == FLCOL_BOOL ? copy_bits(*values, offset, len) : malloc(len * width);
    if (*moved == NULL) return FLCOL_OUT_OF_MEMORY;
    if (type != FLCOL_BOOL) memcpy(*moved, *values, len * width);
    *values = *moved;
    return FLCOL_OK;
}

/* Makes an array of the items. A byte behind the needed ones of validity makes an array of no items nullable too. */
static int32_t import_items(const struct ArrowArray *array, uint8_t type, int is_nullable, flcol_array *out) {
    size_t len = (size_t)array->length;
    uint8_t *validity = NULL;
    const void *values = NULL;
    void *moved = NULL;
    int32_t status = copy_validity(array, is_nullable, &validity);
    if (status == FLCOL_OK) status = find_values(array, type, &values, &moved);
    if (status == FLCOL_OK) status = make_items(type, values, len, validity, validity == NULL ? 0 : bytes_for(len) + 1, out);
    free(validity);
    free(moved);
    return status;
}

int32_t flcol_import_arrow(struct ArrowArray *array, struct ArrowSchema *schema, flcol_array *out) {
    if (array->release == NULL || schema->release == NULL) return FLCOL_NO_ARRAY;
    uint8_t type = type_of(schema);
    int32_t status = type == FORMAT_COUNT ? FLCOL_WRONG_TYPE : fault_of(array, type);
    if (status == FLCOL_OK) status = import_items(array, type, (schema->flags & ARROW_FLAG_NULLABLE) != 0, out);
    if (status != FLCOL_OK) return status;
    array->release(array);
    schema->release(schema);
    return FLCOL_OK;
}

/* ---- Streams ---- */

/* The arrays that a stream still has to hand out, from `next` on. */
struct chunks {
    const char *error;
    size_t next;
    size_t count;
    uint8_t dtype;
    flcol_array arrays[];
};

static int get_schema(struct ArrowArrayStream *stream, struct ArrowSchema *out) {
    struct chunks *chunks = stream->private_data;
    chunks->error = NULL;
    *out = schema_of(chunks->dtype);
    return 0;
}

/* The next chunk, or behind the last one a released array. Memory is all that can be lacking; then the same chunk is next. */
static int get_next(struct ArrowArrayStream *stream, struct ArrowArray *out) {
    struct chunks *chunks = stream->private_data;
    chunks->error = NULL;
    if (chunks->next == chunks->count) {
        *out = (struct ArrowArray){.release = NULL};
        return 0;
    }
    int32_t status = export_items(&chunks->arrays[chunks->next], chunks->dtype % FLCOL_NULLABLE, out);
    if (status != FLCOL_OK) {
        chunks->error = flcol_status_message(status);
        return ENOMEM;
    }
    flcol_free(&chunks->arrays[chunks->next++]);
    return 0;
}

static const char *get_last_error(struct ArrowArrayStream *stream) {
    const struct chunks *chunks = stream->private_data;
    return chunks->error;
}

static void release_stream(struct ArrowArrayStream *stream) {
    struct chunks *chunks = stream->private_data;
    while (chunks->next < chunks->count) flcol_free(&chunks->arrays[chunks->next++]);
    free(chunks);
    stream->release = NULL;
}

/* The type that the arrays have together, nullable where one of them is. */
static int32_t joint_dtype(flcol_array *arrays, size_t count, uint8_t *dtype) {
    int32_t status = count > 0 ? FLCOL_OK : FLCOL_NO_ARRAY;
    for (size_t i = 0; i < count; i++) {
        uint8_t one = 0;
        if (flcol_dtype(&arrays[i], &one) != FLCOL_OK) return FLCOL_NO_ARRAY;
        if (i == 0) *dtype = one;
        if (one % FLCOL_NULLABLE != *dtype % FLCOL_NULLABLE) status = FLCOL_TYPE_MISMATCH;
        *dtype |= one & FLCOL_NULLABLE;
    }
    return status;
}

int32_t flcol_export_arrow_stream(flcol_array *arrays, size_t count, struct ArrowArrayStream *out) {
    uint8_t dtype = 0;
    int32_t status = joint_dtype(arrays, count, &dtype);
    if (status != FLCOL_OK) return status;
    struct chunks *chunks = malloc(sizeof *chunks + count * sizeof *arrays);
    if (chunks == NULL) return FLCOL_OUT_OF_MEMORY;
    *chunks = (struct chunks){.count = count, .dtype = dtype};
    memcpy(chunks->arrays, arrays, count * sizeof *arrays);
    for (size_t i = 0; i < count; i++) arrays[i] = FLCOL_EMPTY;
    *out = (struct ArrowArrayStream){get_schema, get_next, get_last_error, release_stream, chunks};
    return FLCOL_OK;
}

/* Imports the next chunk of a stream whose chunks are of a schema. */
static int32_t import_next(struct ArrowArrayStream *stream, struct ArrowSchema *schema, flcol_array *out) {
    struct ArrowArray chunk = {.release = NULL};
    if (type_of(schema) == FORMAT_COUNT) return FLCOL_WRONG_TYPE;
    if (stream->get_next(stream, &chunk) != 0) return FLCOL_STREAM;
    if (chunk.release == NULL) {
        flcol_free(out);
        return FLCOL_OK;
    }
    int32_t status = flcol_import_arrow(&chunk, schema, out);
    if (status != FLCOL_OK) chunk.release(&chunk);
    return status;
}

int32_t flcol_import_arrow_stream(struct ArrowArrayStream *stream, flcol_array *out) {
    struct ArrowSchema schema = {.release = NULL};
    if (stream->release == NULL) return FLCOL_NO_ARRAY;
    if (stream->get_schema(stream, &schema) != 0 || schema.release == NULL) return FLCOL_STREAM;
    int32_t status = import_next(stream, &schema, out);
    if (schema.release != NULL) schema.release(&schema);
    return status;
}
