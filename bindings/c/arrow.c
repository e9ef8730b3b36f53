/* Columns that are handed over to Arrow and taken from it, for each type, beside plain loops; and all that is refused. It is C11
   and C++17. */
#include "arrow_columns.h"

/* Behind the greatest offset of a test there are so many items. */
enum { GREATEST_OFFSET = 17, LONGEST = 300, ALL = GREATEST_OFFSET + LONGEST };

static const size_t LENGTHS[] = {0, 1, 7, 8, 9, 64, LONGEST};
enum { LENGTH_COUNT = sizeof LENGTHS / sizeof LENGTHS[0] };

/* Values of any type, and which are valid: all, and some. */
static uint8_t pool[ALL * 8], all_valid[(ALL + 7) / 8], some_valid[(ALL + 7) / 8];

static void fill(void) {
    uint64_t state = 5;
    for (size_t i = 0; i < sizeof pool; i++) pool[i] = (uint8_t)random_below(&state, 256);
    for (size_t i = 0; i < sizeof all_valid; i++) all_valid[i] = 0xFF, some_valid[i] = (uint8_t)random_below(&state, 256);
}

static int64_t nulls_in(const uint8_t *validity, size_t offset, size_t len) {
    int64_t nulls = 0;
    for (size_t i = 0; i < len; i++) nulls += !is_valid(validity, offset + i);
    return nulls;
}

/* ---- Import ---- */

static void imports_window(uint8_t number, const uint8_t *validity, size_t offset, size_t len) {
    const struct type *type = &TYPES[number];
    struct produced of;
    flcol_array out = FLCOL_EMPTY;
    uint8_t dtype = 0;
    for (int is_flagged = 0; is_flagged < 2; is_flagged++) {
        int64_t nulls = nulls_in(validity, offset, len);
        produce(&of, type, pool, validity, offset, len, offset % 3);
        of.schema.flags = is_flagged ? ARROW_FLAG_NULLABLE : 0;
        if (len % 2 == 0) of.array.null_count = nulls;
        CHECK(flcol_import_arrow(&of.array, &of.schema, &out) == FLCOL_OK);
        CHECK(of.arrays_released == 1 && of.schemas_released == 1 && of.array.release == NULL && of.schema.release == NULL);
        CHECK(has_items(&out, type, pool, validity, offset, len) && flcol_dtype(&out, &dtype) == FLCOL_OK);
        CHECK(dtype == (is_flagged || nulls > 0 ? number + FLCOL_NULLABLE : number));
    }
    flcol_free(&out);
}

static void imports(uint8_t number) {
    for (size_t offset = 0; offset <= GREATEST_OFFSET; offset++) {
        for (size_t l = 0; l < LENGTH_COUNT; l++) {
            imports_window(number, NULL, offset, LENGTHS[l]);
            imports_window(number, all_valid, offset, LENGTHS[l]);
            imports_window(number, some_valid, offset, LENGTHS[l]);
        }
    }
}

/* ---- Export ---- */

/* Whether a buffer begins at a multiple of 64 bytes, and has zeros behind its bytes up to the next one. */
static int is_padded(const void *buffer, size_t len) {
    const uint8_t *bytes = (const uint8_t *)buffer;
    size_t behind = len;
    while (behind % 64 != 0 && bytes[behind] == 0) behind++;
    return (uintptr_t)bytes % 64 == 0 && behind % 64 == 0;
}

static void is_primitive(const struct ArrowArray *array, size_t bits) {
    const uint8_t *validity = (const uint8_t *)array->buffers[0];
    size_t len = (size_t)array->length;
    CHECK(array->offset == 0 && array->n_buffers == 2 && array->n_children == 0);
    CHECK(array->children == NULL && array->dictionary == NULL && is_padded(array->buffers[1], bytes_of(len, bits)));
    CHECK((validity == NULL) == (array->null_count == 0) && nulls_in(validity, 0, len) == array->null_count);
    if (validity == NULL) return;
    CHECK(is_padded(validity, bytes_of(len, 1)));
    for (size_t i = len; i % 8 != 0; i++) CHECK(!bit(validity, i));
}

/* An array is exported, the structs are moved, and both are released or taken back. */
static void exports_array(flcol_array *array, uint8_t number, const void *values, const uint8_t *validity, size_t len, int is_nullable) {
    const struct type *type = &TYPES[number];
    struct ArrowArray exported, moved;
    struct ArrowSchema schema, moved_schema;
    flcol_array out = FLCOL_EMPTY;
    for (int is_taken_back = 0; is_taken_back < 2; is_taken_back++) {
        memset(&exported, UNWRITTEN, sizeof exported), memset(&schema, UNWRITTEN, sizeof schema);
        CHECK(flcol_export_arrow(array, &exported, &schema) == FLCOL_OK);
        moved = exported, moved_schema = schema;
        memset(&exported, 0, sizeof exported), memset(&schema, 0, sizeof schema);
        CHECK(strcmp(moved_schema.format, type->format) == 0 && moved_schema.flags == (is_nullable ? ARROW_FLAG_NULLABLE : 0));
        CHECK(moved_schema.n_children == 0 && moved_schema.children == NULL && moved_schema.dictionary == NULL);
        CHECK(*moved_schema.name == 0 && moved_schema.metadata == NULL);
        CHECK(moved.length == (int64_t)len && moved.null_count == nulls_in(validity, 0, len));
        is_primitive(&moved, type->bits);
        for (size_t i = 0; i < len; i++)
            CHECK(!is_valid(validity, i) || item(moved.buffers[1], type->bits, i) == item(values, type->bits, i));
        if (is_taken_back) {
            CHECK(flcol_import_arrow(&moved, &moved_schema, &out) == FLCOL_OK);
        } else {
            moved.release(&moved), moved_schema.release(&moved_schema);
        }
        CHECK(moved.release == NULL && moved_schema.release == NULL);
    }
    CHECK(has_items(&out, type, values, validity, 0, len) && has_items(array, type, values, validity, 0, len));
    flcol_free(&out);
}

static void exports(uint8_t number) {
    const struct type *type = &TYPES[number];
    const uint8_t *const validities[] = {NULL, all_valid, some_valid};
    flcol_array plain = FLCOL_EMPTY, array = FLCOL_EMPTY;
    uint8_t small[LONGEST * 8] = {0};
    for (size_t i = 0; i < LONGEST; i++) {
        if (number == FLCOL_BOOL) set_bit(small, i, i % 3 == 1);
        else small[i * type->bits / 8] = (uint8_t)(i / 9);
    }
    for (int v = 0; v < 3; v++) {
        for (size_t l = 0; l < LENGTH_COUNT; l++) {
            size_t len = LENGTHS[l];
            CHECK(type->from(small, len, validities[v], v == 0 ? 0 : sizeof all_valid, &plain) == FLCOL_OK);
            exports_array(&plain, number, small, validities[v], len, v > 0);
            for (size_t s = 0; s < SCHEME_COUNT && number != FLCOL_BOOL; s++) {
                int32_t status = encode(&plain, SCHEMES[s], &array);
                if (status == FLCOL_OK) exports_array(&array, number, small, validities[v], len, v > 0);
                CHECK(status == FLCOL_OK || cannot_keep(status));
            }
        }
    }
    flcol_free(&plain), flcol_free(&array);
}

/* Runs whose values, indices and offsets are encoded again are handed over as plain values. */
static void nested_runs(void) {
    static uint8_t values[MOST * 4];
    flcol_array array = FLCOL_EMPTY, runs = FLCOL_EMPTY;
    for (size_t i = 0; i < MOST; i++) values[4 * i] = (uint8_t)(i / 50), values[4 * i + 1] = 3;
    CHECK(TYPES[FLCOL_U32].from(values, MOST, NULL, 0, &array) == FLCOL_OK);
    CHECK(encode(&array, "rle(for(delta(bitpacked,_)),for(bitpacked),for(bitpacked))", &runs) == FLCOL_OK);
    exports_array(&runs, FLCOL_U32, values, NULL, MOST, 0);
    flcol_free(&array), flcol_free(&runs);
}

/* ---- Refusals ---- */

/* What is wrong with a column of three items of i32. Each of the first has one fault, the last ones have two. */
static void spoil(struct produced *of, int fault) {
    static struct ArrowSchema schema;
    static struct ArrowArray array;
    switch (fault) {
    case 0: of->schema.format = "f"; break;
    case 1: of->schema.format = "ii"; break;
    case 2: of->schema.format = ""; break;
    case 3: of->schema.format = NULL; break;
    case 4: of->schema.n_children = 1; break;
    case 5: of->schema.dictionary = &schema; break;
    case 6: of->array.n_children = 1; break;
    case 7: of->array.dictionary = &array; break;
    case 8: of->array.n_buffers = 1; break;
    case 9: of->array.n_buffers = 3; break;
    case 10: of->array.buffers = NULL; break;
    case 11: of->array.length = -1; break;
    case 12: of->array.offset = -1; break;
    case 13: of->array.length = INT64_MAX; break;
    case 14: of->array.offset = INT64_MAX; break;
    case 15: of->array.offset = INT64_MAX / 4 - 2; break;
    case 16: of->array.null_count = -2; break;
    case 17: of->array.null_count = 4; break;
    case 18: of->buffers[1] = NULL; break;
    case 19: of->array.null_count = 2; break;
    case 20: of->schema.format = "+s", of->array.n_buffers = 1, of->array.length = -1; break;
    case 21: of->array.n_buffers = 1, of->array.length = -1; break;
    default: of->buffers[1] = NULL, of->array.null_count = 2; break;
    }
}

static int32_t status_of(int fault) {
    if (fault <= 7 || fault == 20) return FLCOL_WRONG_TYPE;
    if (fault <= 10 || fault == 21) return FLCOL_BUFFER_COUNT;
    return fault == 19 ? FLCOL_VALIDITY_LENGTH : FLCOL_WRONG_LENGTH;
}

/* Nothing is taken of what is refused, and nothing is written. */
static void refuses_what_is_no_column(void) {
    const int32_t items[] = {1, 2, 3};
    struct produced of;
    flcol_array out = FLCOL_EMPTY;
    CHECK(flcol_from_i32(items, 3, NULL, 0, &out) == FLCOL_OK);
    void *held = out.at;
    for (int fault = 0; fault <= 22; fault++) {
        produce(&of, &TYPES[FLCOL_I32], items, NULL, 0, 3, 0);
        spoil(&of, fault);
        CHECK(flcol_import_arrow(&of.array, &of.schema, &out) == status_of(fault) && out.at == held);
        give_up(&of);
    }
    CHECK(has_items(&out, &TYPES[FLCOL_I32], items, NULL, 0, 3));
    flcol_free(&out);
}

/* The greatest offsets, behind which no item is left. */
static void takes_no_items_from_afar(void) {
    struct produced of;
    flcol_array out = FLCOL_EMPTY;
    for (uint8_t number = 0; number < TYPE_COUNT; number++) {
        produce(&of, &TYPES[number], pool, some_valid, 0, 0, 0);
        of.array.offset = INT64_MAX / 8;
        CHECK(flcol_import_arrow(&of.array, &of.schema, &out) == FLCOL_OK && has_items(&out, &TYPES[number], pool, NULL, 0, 0));
        CHECK(of.arrays_released == 1 && of.schemas_released == 1);
    }
    produce(&of, &TYPES[FLCOL_BOOL], pool, NULL, 0, 9, 0);
    of.array.offset = INT64_MAX - 8;
    CHECK(flcol_import_arrow(&of.array, &of.schema, &out) == FLCOL_WRONG_LENGTH);
    give_up(&of);
    flcol_free(&out);
}

/* A struct that was released is neither read nor released again, and neither is what came with it. */
static void refuses_what_was_released(void) {
    struct produced of;
    struct ArrowArray array;
    struct ArrowSchema schema;
    flcol_array out = FLCOL_EMPTY;
    for (int is_schema = 0; is_schema < 2; is_schema++) {
        produce(&of, &TYPES[FLCOL_BOOL], pool, some_valid, 3, 20, 0);
        if (is_schema) of.schema.release(&of.schema);
        else of.array.release(&of.array);
        CHECK(flcol_import_arrow(&of.array, &of.schema, &out) == FLCOL_NO_ARRAY && out.at == NULL);
        CHECK(of.arrays_released == !is_schema && of.schemas_released == is_schema);
        if (is_schema) of.array.release(&of.array);
    }
    memset(&array, UNWRITTEN, sizeof array), memset(&schema, UNWRITTEN, sizeof schema);
    CHECK(flcol_export_arrow(&out, &array, &schema) == FLCOL_NO_ARRAY);
    CHECK(unwritten(&array, sizeof array) && unwritten(&schema, sizeof schema));
}

/* There is no memory for so many items, of which one value is held. */
static void exports_no_endless_array(void) {
    static const size_t lengths[] = {SIZE_MAX, SIZE_MAX / 8, SIZE_MAX / 8 + 1, SIZE_MAX / 8 + 9};
    struct ArrowArray array;
    struct ArrowSchema schema;
    flcol_array endless = FLCOL_EMPTY;
    memset(&array, UNWRITTEN, sizeof array), memset(&schema, UNWRITTEN, sizeof schema);
    for (size_t l = 0; l < sizeof lengths / sizeof lengths[0]; l++) {
        CHECK(flcol_constant_u64(7, 0, lengths[l], &endless) == FLCOL_OK);
        CHECK(flcol_export_arrow(&endless, &array, &schema) == FLCOL_OUT_OF_MEMORY);
    }
    CHECK(unwritten(&array, sizeof array) && unwritten(&schema, sizeof schema));
    flcol_free(&endless);
}

int main(void) {
    fill();
    for (uint8_t number = 0; number < TYPE_COUNT; number++) imports(number), exports(number);
    nested_runs();
    refuses_what_is_no_column();
    takes_no_items_from_afar();
    refuses_what_was_released();
    exports_no_endless_array();
    return 0;
}
