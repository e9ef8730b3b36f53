/* The calls of one type of items, over untyped values (each_type.h). */

static int32_t FN(from)(const void *values, size_t len, const uint8_t *validity, size_t validity_len, flcol_array *out) {
    return CALL(from)((const ITEM *)values, len, validity, validity_len, out);
}

static int32_t FN(read)(flcol_array *array, void *values, size_t len, uint8_t *validity, size_t validity_len) {
    return CALL(read)(array, (ITEM *)values, len, validity, validity_len);
}
