/* Every call of flcol.h beside plain loops: those of columns for each type of items, in each encoding, with nulls and without,
   and the kernels over whole blocks for each type of words at each width. It is C11 and C++17. */
#include "checking.h"

#define OF_TYPE "columns_of_type.h"
#include "each_type.h"

/* A block's items, and how many blocks the kernels are given. */
enum { BLOCK = 1024, BLOCKS = 3 };

static const size_t ORDER[] = {0, 4, 2, 6, 1, 5, 3, 7};

/* Where a block has the item at row r of lane l. */
static size_t place(size_t r, size_t l) {
    return l + 128 * (r % 8) + 16 * ORDER[r / 8];
}

/* Where a block has the first of the items that are moved to lane l. */
static size_t segment(size_t l) {
    return 64 * (l % 16) + 8 * ORDER[l / 16];
}

#undef OF_TYPE
#define OF_TYPE "blocks_of_type.h"
#define UNSIGNED_ONLY
#include "each_type.h"

/* Each status has a name and a sentence of its own, and every other number those of none. */
static void statuses(void) {
    const char *no_name = flcol_status_name(-1), *no_message = flcol_status_message(-1);
    CHECK(strcmp(no_name, "Unknown") == 0 && strcmp(no_message, "no status has this number") == 0);
    for (int32_t status = -300; status <= 300; status++) {
        const char *name = flcol_status_name(status), *message = flcol_status_message(status);
        int is_refusal = status >= FLCOL_OK && status <= FLCOL_CHILD_MISMATCH;
        int is_own = status == FLCOL_BAD_CONTAINER || (status >= FLCOL_NO_ARRAY && status <= FLCOL_BAD_STATISTICS);
        CHECK((strcmp(name, no_name) != 0) == (is_refusal || is_own) && (strcmp(message, no_message) != 0) == (is_refusal || is_own));
        CHECK(strlen(name) > 1 && strlen(message) > 10 && message[strlen(message) - 1] != '.');
    }
    CHECK(strcmp(flcol_status_name(FLCOL_OK), "Ok") == 0 && strcmp(flcol_status_name(FLCOL_BAD_CONTAINER), "BadContainer") == 0);
    CHECK(strcmp(flcol_status_message(FLCOL_INDEX_OUT_OF_BOUNDS), "an index is not below the number of items") == 0);
    CHECK(strcmp(flcol_status_name(INT32_MIN), no_name) == 0 && strcmp(flcol_status_message(INT32_MAX), no_message) == 0);
}

/* The version in words is the one in numbers. */
static void version(void) {
    char said[40];
    snprintf(said, sizeof said, "%d.%d.%d", FLCOL_VERSION_MAJOR, FLCOL_VERSION_MINOR, FLCOL_VERSION_PATCH);
    CHECK(strcmp(said, FLCOL_VERSION) == 0 && flcol_abi_version() == FLCOL_ABI_VERSION);
}

/* Calls that have no type, on none and with what no call takes. */
static void refusals(void) {
    flcol_array none = {NULL}, out = {NULL};
    const uint32_t items[] = {1, 2, 3};
    size_t number = 0;
    uint8_t byte = 0;
    uint64_t index = 0;
    flcol_range range = {0, 1};
    CHECK(flcol_len(&none, &number) == FLCOL_NO_ARRAY && flcol_dtype(&none, &byte) == FLCOL_NO_ARRAY);
    CHECK(flcol_null_count(&none, &number) == FLCOL_NO_ARRAY && flcol_is_constant(&none, &byte) == FLCOL_NO_ARRAY);
    CHECK(flcol_is_sorted(&none, 1, &byte) == FLCOL_NO_ARRAY);
    CHECK(flcol_scheme_len(&none, &number) == FLCOL_NO_ARRAY && flcol_scheme(&none, (char *)&byte, 1) == FLCOL_NO_ARRAY);
    CHECK(flcol_serialized_len(&none, &number) == FLCOL_NO_ARRAY);
    CHECK(flcol_serialize(&none, &byte, 1, &number) == FLCOL_NO_ARRAY && encode(&none, "?", &out) == FLCOL_NO_ARRAY);
    CHECK(flcol_slice(&none, 2, 1, &out) == FLCOL_NO_ARRAY && flcol_take(&none, &index, 1, NULL, 0, &out) == FLCOL_NO_ARRAY);
    CHECK(flcol_take_ranges(&none, &range, 1, &out) == FLCOL_NO_ARRAY && flcol_filter(&none, &byte, 1, &out) == FLCOL_NO_ARRAY);
    CHECK(flcol_cast(&none, 99, &out) == FLCOL_NO_ARRAY && flcol_to_blocked(&none, &out) == FLCOL_NO_ARRAY);
    CHECK(flcol_sum_unsigned(&none, &index, &index) == FLCOL_NO_ARRAY && flcol_sum_signed(&none, (int64_t *)&index, &index) == FLCOL_NO_ARRAY);
    CHECK(flcol_compress_within(&none, 64, 3, &out) == FLCOL_NO_ARRAY);
    CHECK(flcol_compress(&none, &out) == FLCOL_NO_ARRAY && flcol_nbytes(&none, &index) == FLCOL_NO_ARRAY);
    CHECK(number == 0 && byte == 0 && index == 0 && out.at == NULL);
    flcol_free(&none);

    CHECK(flcol_from_u32(items, 3, NULL, 0, &out) == FLCOL_OK);
    void *held = out.at;
    static const char *const wrong[] = {"", "fore", "for(", "for(_)x", "for(bitpacked", "bitpacked:256", "rle(_,_)", "_"};
    for (size_t i = 0; i < sizeof wrong / sizeof wrong[0]; i++) {
        CHECK(encode(&out, wrong[i], &none) == FLCOL_BAD_SCHEME && none.at == NULL && out.at == held);
    }
    CHECK(encode(&out, "bitpacked:33", &none) == FLCOL_WIDTH_TOO_LARGE && encode(&out, "constant", &none) == FLCOL_CAST_OUT_OF_RANGE);
    CHECK(flcol_deserialize(NULL, 0, &out) == FLCOL_BAD_CONTAINER && out.at == held);
    flcol_free(&out);
}

/* An array that is encoded by a scheme says what it is. */
static void says(flcol_array *plain, const char *scheme, const char *said) {
    flcol_array array = {NULL};
    char text[40];
    size_t len = 0;
    CHECK(encode(plain, scheme, &array) == FLCOL_OK && flcol_scheme_len(&array, &len) == FLCOL_OK && len == strlen(said));
    memset(text, UNWRITTEN, sizeof text);
    CHECK(flcol_scheme(&array, text, len + 1) == FLCOL_WRONG_LENGTH && flcol_scheme(&array, text, len - 1) == FLCOL_WRONG_LENGTH);
    CHECK(unwritten(text, sizeof text) && flcol_scheme(&array, text, len) == FLCOL_OK);
    CHECK(memcmp(text, said, len) == 0 && unwritten(text + len, sizeof text - len));
    flcol_free(&array);
}

static void schemes(void) {
    const int32_t items[] = {-4, 3, 3, 3};
    const uint8_t none[] = {0};
    flcol_array array = {NULL};
    CHECK(flcol_from_i32(items, 4, NULL, 0, &array) == FLCOL_OK);
    says(&array, "primitive", "primitive"), says(&array, "for", "for"), says(&array, "forc", "for"), says(&array, "forw", "for");
    says(&array, "for(bitpacked:3)", "for(bitpacked:3)"), says(&array, "for(blocked)", "for(blocked)");
    says(&array, "delta(for(bitpacked:3),_)", "delta(for(bitpacked:3),_)"), says(&array, "delta(_,primitive)", "delta");
    says(&array, "rle(for(bitpacked:3),bitpacked:1,_)", "rle(for(bitpacked:3),bitpacked:1,_)");
    says(&array, "dict(for(bitpacked:3),bitpacked:1,_)", "rle(for(bitpacked:3),bitpacked:1,_)"), says(&array, "dict", "rle");
    CHECK(flcol_from_i32(items + 1, 3, NULL, 0, &array) == FLCOL_OK);
    says(&array, "constant", "constant"), says(&array, "bitpacked:2", "bitpacked:2"), says(&array, "bitpacked:0", "bitpacked:0");
    CHECK(flcol_from_i32(items, 4, none, 1, &array) == FLCOL_OK);
    says(&array, "forc(bitpacked,_)", "for(constant)"), says(&array, "forcw", "for(constant)");
    flcol_free(&array);
}

/* Booleans, as only containers give them: what they are can be asked, they are sliced and written, and calls on integers refuse
   them. */
static void booleans(void) {
    static const uint8_t container[] = {'F', 'L', 'C', '1', 11, 'v', 'o', 'r', 't', 'e', 'x', '.', 'b', 'o', 'o', 'l', FLCOL_BOOL,
                                        3, 0, 0, 0, 0, 0, 0, 0, 0, 0, 0, 0, 1, 1, 0, 0, 0, 0, 0, 0, 0, 5, 0};
    flcol_array array = {NULL}, out = {NULL};
    const uint64_t index = 0;
    const flcol_range range = {0, 1};
    size_t number = 0, len = 0;
    uint64_t bytes = 0;
    uint8_t byte = 0, bits = 7, written[sizeof container] = {0};
    CHECK(flcol_deserialize(container, sizeof container, &array) == FLCOL_OK);
    CHECK(flcol_len(&array, &number) == FLCOL_OK && number == 3 && flcol_dtype(&array, &byte) == FLCOL_OK && byte == FLCOL_BOOL);
    CHECK(flcol_null_count(&array, &number) == FLCOL_OK && number == 0 && flcol_nbytes(&array, &bytes) == FLCOL_OK && bytes == 1);
    CHECK(flcol_slice(&array, 1, 3, &out) == FLCOL_OK && flcol_len(&out, &number) == FLCOL_OK && number == 2);
    CHECK(flcol_serialize(&array, written, sizeof written, &len) == FLCOL_OK && len == sizeof written);
    CHECK(memcmp(written, container, sizeof written) == 0);
    void *held = out.at;
    CHECK(flcol_scheme_len(&array, &number) == FLCOL_NOT_INTEGER && flcol_scheme(&array, (char *)&byte, 1) == FLCOL_NOT_INTEGER);
    CHECK(encode(&array, "primitive", &out) == FLCOL_NOT_INTEGER && flcol_compress(&array, &out) == FLCOL_NOT_INTEGER);
    CHECK(flcol_compress_within(&array, FLCOL_USE_ALL, 1, &out) == FLCOL_NOT_INTEGER);
    CHECK(flcol_compress_within(&array, 255, 1, &out) == FLCOL_BAD_ENCODINGS);
    CHECK(flcol_is_constant(&array, &byte) == FLCOL_NOT_INTEGER && flcol_is_sorted(&array, 0, &byte) == FLCOL_NOT_INTEGER);
    CHECK(flcol_take(&array, &index, 1, NULL, 0, &out) == FLCOL_NOT_INTEGER && flcol_filter(&array, &bits, 1, &out) == FLCOL_NOT_INTEGER);
    CHECK(flcol_take_ranges(&array, &range, 1, &out) == FLCOL_NOT_INTEGER && flcol_cast(&array, FLCOL_U8, &out) == FLCOL_NOT_INTEGER);
    CHECK(flcol_read_u8(&array, written, 3, NULL, 0) == FLCOL_WRONG_TYPE && flcol_get_u8(&array, 0, written, &byte) == FLCOL_WRONG_TYPE);
    CHECK(flcol_compare_u8(&array, FLCOL_EQ, 1, &byte, 1, NULL, 0) == FLCOL_WRONG_TYPE);
    CHECK(flcol_between_u8(&array, 0, 1, 0, 0, &byte, 1, NULL, 0) == FLCOL_WRONG_TYPE);
    CHECK(flcol_count_u8(&array, FLCOL_EQ, 1, &number) == FLCOL_WRONG_TYPE && flcol_count_between_u8(&array, 0, 1, 0, 0, &number) == FLCOL_WRONG_TYPE);
    CHECK(flcol_min_max_u8(&array, written, written + 1, &byte) == FLCOL_WRONG_TYPE && flcol_sum_unsigned(&array, &bytes, &bytes) == FLCOL_WRONG_TYPE);
    CHECK(flcol_is_in_u8(&array, written, 1, &byte, 1, NULL, 0) == FLCOL_WRONG_TYPE && flcol_lower_bound_u8(&array, 1, &number) == FLCOL_WRONG_TYPE);
    CHECK(flcol_count_under_u8(&array, &bits, 1, FLCOL_EQ, 1, &number) == FLCOL_WRONG_TYPE && flcol_sum_under_signed(&array, &bits, 1, (int64_t *)&bytes, &bytes) == FLCOL_WRONG_TYPE);
    CHECK(flcol_min_max_under_u8(&array, &bits, 1, written, written + 1, &byte) == FLCOL_WRONG_TYPE && flcol_sum_under_unsigned(&array, &bits, 1, &bytes, &bytes) == FLCOL_WRONG_TYPE);
    CHECK(flcol_compare_under_u8(&array, &bits, 1, FLCOL_EQ, 1, &byte, 1) == FLCOL_WRONG_TYPE && flcol_between_under_u8(&array, &bits, 1, 0, 1, 0, 0, &byte, 1) == FLCOL_WRONG_TYPE);
    CHECK(flcol_filter_by_u8(&array, FLCOL_EQ, 1, &out) == FLCOL_WRONG_TYPE && flcol_filter_between_u8(&array, 0, 1, 0, 0, &out) == FLCOL_WRONG_TYPE);
    CHECK(number == 2 && bytes == 1 && byte == FLCOL_BOOL && out.at == held && memcmp(written, container, sizeof written) == 0);
    flcol_free(&array), flcol_free(&out);
}

int main(void) {
    statuses();
    version();
    columns_u8(), columns_u16(), columns_u32(), columns_u64();
    columns_i8(), columns_i16(), columns_i32(), columns_i64();
    blocks_u8(), blocks_u16(), blocks_u32(), blocks_u64();
    schemes();
    booleans();
    refusals();
    return 0;
}
