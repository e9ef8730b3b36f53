/* What containers hold, as text, beside what their arrays say of themselves. It is C11 and C++17. */
#include "arrow_columns.h"

enum { ITEMS = 1000, MOST_TEXT = 200 };

static uint8_t container[60000];

static size_t serialized(flcol_array *array) {
    size_t len = 0;
    CHECK(flcol_serialize(array, container, sizeof container, &len) == FLCOL_OK);
    return len;
}

/* A container of an array says what is expected, whole where there is room, and as much of it as there is room for. */
static void says(flcol_array *array, const char *type_and_scheme) {
    char expected[MOST_TEXT], text[MOST_TEXT];
    size_t len = serialized(array), items = 0, text_len = 0;
    CHECK(flcol_len(array, &items) == FLCOL_OK);
    int put = snprintf(expected, sizeof expected, "%s, %zu items", type_and_scheme, items);
    if (items > 0) put += snprintf(expected + put, sizeof expected - (size_t)put, ", %.2f bits an item", 8.0 * (double)len / (double)items);
    const size_t whole = (size_t)put, rooms[] = {0, 1, whole - 1, whole, whole + 1};
    for (size_t r = 0; r < sizeof rooms / sizeof rooms[0]; r++) {
        size_t written = rooms[r] < whole ? rooms[r] : whole;
        memset(text, UNWRITTEN, sizeof text);
        CHECK(flcol_inspect(container, len, written == 0 ? NULL : text, rooms[r], &text_len) == FLCOL_OK && text_len == whole);
        CHECK(memcmp(text, expected, written) == 0 && unwritten(text + written, sizeof text - written));
    }
}

static void says_of_integers(void) {
    static const char *const names[] = {"u8", "u16", "u32", "u64", "i8", "i16", "i32", "i64"};
    static const uint8_t validity[(ITEMS + 7) / 8] = {0xFD};
    flcol_array plain = FLCOL_EMPTY, array = FLCOL_EMPTY;
    char text[MOST_TEXT], scheme[MOST_TEXT];
    size_t scheme_len = 0;
    uint8_t values[ITEMS * 8] = {0};
    for (int number = FLCOL_U8; number <= FLCOL_I64; number++) {
        for (size_t i = 0; i < ITEMS; i++) values[i * TYPES[number].bits / 8] = (uint8_t)(i % 100);
        for (int is_nullable = 0; is_nullable < 2; is_nullable++) {
            CHECK(TYPES[number].from(values, ITEMS, validity, is_nullable ? sizeof validity : 0, &plain) == FLCOL_OK);
            for (size_t s = 0; s < SCHEME_COUNT; s++) {
                int32_t status = encode(&plain, SCHEMES[s], &array);
                CHECK(status == FLCOL_OK || cannot_keep(status));
                if (status != FLCOL_OK) continue;
                CHECK(flcol_scheme_len(&array, &scheme_len) == FLCOL_OK && flcol_scheme(&array, scheme, scheme_len) == FLCOL_OK);
                snprintf(text, sizeof text, "%s%s %.*s", names[number], is_nullable ? "?" : "", (int)scheme_len, scheme);
                says(&array, text);
            }
        }
        memset(values, 0, sizeof values);
    }
    flcol_free(&plain), flcol_free(&array);
}

static void says_of_few(void) {
    const uint8_t none[] = {0, 0};
    flcol_array array = FLCOL_EMPTY;
    CHECK(flcol_from_i8(NULL, 0, NULL, 0, &array) == FLCOL_OK);
    says(&array, "i8 primitive");
    CHECK(flcol_from_bool(none, 2, 9, NULL, 0, &array) == FLCOL_OK);
    says(&array, "bool");
    CHECK(flcol_from_bool(none, 2, 9, none, 2, &array) == FLCOL_OK);
    says(&array, "bool?");
    flcol_free(&array);
}

/* A container of very few bits an item, and of all items that there may be. */
static void says_of_many(void) {
    flcol_array array = FLCOL_EMPTY;
    CHECK(flcol_constant_u8(7, 0, 3000, &array) == FLCOL_OK);
    says(&array, "u8 constant");
    CHECK(flcol_constant_u8(7, 0, SIZE_MAX, &array) == FLCOL_OK);
    says(&array, "u8 constant");
    flcol_free(&array);
}

static void refuses(void) {
    flcol_array array = FLCOL_EMPTY;
    char text[MOST_TEXT];
    size_t text_len = 3;
    CHECK(flcol_from_u32(NULL, 0, NULL, 0, &array) == FLCOL_OK);
    size_t len = serialized(&array);
    memset(text, UNWRITTEN, sizeof text);
    for (size_t end = 0; end < len; end++)
        CHECK(flcol_inspect(container, end, text, sizeof text, &text_len) == FLCOL_BAD_CONTAINER);
    CHECK(text_len == 3 && unwritten(text, sizeof text));
    flcol_free(&array);
}

int main(void) {
    says_of_integers();
    says_of_few();
    says_of_many();
    refuses();
    return 0;
}
