/* Making a column of items. */
#include <string.h>

#include "column.h"

enum { FIRST_CAPACITY = 1024 };

size_t builder_value_bytes(const struct builder *builder, size_t len) {
    const size_t each = builder->type == FLCOL_I16 ? 2 : builder->type == FLCOL_I32 ? 4 : 8;
    return each * len;
}

int32_t builder_set_scheme(struct builder *builder, const char *text, size_t len) {
    if (len > COLUMN_SCHEME) return FLCOL_BAD_SCHEME;
    char *scheme = builder->resize(builder->owner, builder->scheme, len + 1);
    if (scheme == NULL) return FLCOL_OUT_OF_MEMORY;
    memcpy(scheme, text, len);
    builder->scheme = scheme;
    builder->scheme_len = len;
    return FLCOL_OK;
}

/* Makes room for as many items more. */
static int32_t reserve(struct builder *builder, size_t more) {
    if (more > builder->most - builder->len) return FLCOL_LENGTH_OVERFLOW;
    if (more <= builder->capacity - builder->len) return FLCOL_OK;
    size_t capacity = builder->capacity == 0 ? FIRST_CAPACITY : builder->capacity;
    while (capacity < builder->len + more) capacity *= 2;
    if (capacity > builder->most) capacity = builder->most;
    void *values = builder->resize(builder->owner, builder->values, builder_value_bytes(builder, capacity));
    if (values == NULL) return FLCOL_OUT_OF_MEMORY;
    builder->values = values;
    uint8_t *validity = builder->resize(builder->owner, builder->validity, (capacity + 7) / 8);
    if (validity == NULL) return FLCOL_OUT_OF_MEMORY;
    builder->validity = validity;
    builder->capacity = capacity;
    return FLCOL_OK;
}

/* Writes whether the item behind the last is null, for which there is room. */
static void put_validity(struct builder *builder, bool is_null) {
    uint8_t *byte = &builder->validity[builder->len / 8];
    const unsigned bit = builder->len % 8;
    if (bit == 0) *byte = 0;
    if (!is_null) *byte |= (uint8_t)(1 << bit);
    builder->null_count += is_null;
}

static void put_value(struct builder *builder, int64_t value) {
    switch (builder->type) {
        case FLCOL_I16: ((int16_t *)builder->values)[builder->len] = (int16_t)value; break;
        case FLCOL_I32: ((int32_t *)builder->values)[builder->len] = (int32_t)value; break;
        default: ((int64_t *)builder->values)[builder->len] = value;
    }
}

int32_t builder_push(struct builder *builder, struct item item) {
    const int32_t status = reserve(builder, 1);
    if (status != FLCOL_OK) return status;
    put_value(builder, item.is_null ? 0 : item.value);
    put_validity(builder, item.is_null);
    builder->len++;
    return FLCOL_OK;
}

int32_t builder_append(struct builder *builder, const void *values, const uint8_t *validity, size_t len) {
    const int32_t status = reserve(builder, len);
    if (status != FLCOL_OK || len == 0) return status;
    memcpy((char *)builder->values + builder_value_bytes(builder, builder->len), values,
           builder_value_bytes(builder, len));
    for (size_t i = 0; i < len; i++, builder->len++) put_validity(builder, !(validity[i / 8] >> i % 8 & 1));
    return FLCOL_OK;
}

int32_t builder_plain(const struct builder *builder, size_t from, size_t len, flcol_array *out) {
    const void *values = (const char *)builder->values + builder_value_bytes(builder, from);
    const uint8_t *validity = builder->null_count > 0 ? builder->validity + from / 8 : NULL;
    const size_t validity_len = validity != NULL ? (len + 7) / 8 : 0;
    switch (builder->type) {
        case FLCOL_I16: return flcol_from_i16(values, len, validity, validity_len, out);
        case FLCOL_I32: return flcol_from_i32(values, len, validity, validity_len, out);
        default: return flcol_from_i64(values, len, validity, validity_len, out);
    }
}

int32_t encode_by(flcol_array *plain, const char *scheme, size_t scheme_len, flcol_array *out) {
    return scheme != NULL ? flcol_encode(plain, scheme, scheme_len, out) : flcol_compress(plain, out);
}

void builder_close(struct builder *builder) {
    builder->resize(builder->owner, builder->values, 0);
    builder->resize(builder->owner, builder->validity, 0);
    builder->resize(builder->owner, builder->scheme, 0);
    *builder = (struct builder){
        .type = builder->type, .most = builder->most, .resize = builder->resize, .owner = builder->owner};
}
