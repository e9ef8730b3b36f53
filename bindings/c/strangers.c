/* Containers from strangers: each cut and each changed byte of containers in every encoding is refused, or an array that can be
   asked for all that it has. It is C11 and C++17. */
#include "checking.h"

/* The most items of a stranger's array for which there is room here. */
enum { ROOM = 1 << 16 };

/* Whether a call answers; it may find no memory, and nothing else. */
static int answers(int32_t status) {
    CHECK(status == FLCOL_OK || status == FLCOL_OUT_OF_MEMORY);
    return status == FLCOL_OK;
}

static void change_each_byte(flcol_array *array);

#define OF_TYPE "strangers_of_type.h"
#include "each_type.h"

static void (*const ASK[])(flcol_array *array, size_t n) = {ask_u8, ask_u16, ask_u32, ask_u64, ask_i8, ask_i16, ask_i32, ask_i64};

/* Reads a copy of bytes that is as long as they are, so that a look behind them is seen. */
static int32_t read_container(const uint8_t *bytes, size_t len, flcol_array *out) {
    uint8_t *copy = (uint8_t *)malloc(len + !len);
    CHECK(copy != NULL);
    memcpy(copy, bytes, len);
    int32_t status = flcol_deserialize(copy, len, out);
    free(copy);
    return status;
}

static void ask(const uint8_t *bytes, size_t len) {
    flcol_array array = {NULL}, again = {NULL};
    size_t n = 0, more = 0;
    uint8_t dtype = 0, answer = 0;
    int32_t status = read_container(bytes, len, &array);
    if (status != FLCOL_OK) {
        CHECK(array.at == NULL && ((1 <= status && status <= 40) || status == FLCOL_BAD_CONTAINER));
        return;
    }
    CHECK(flcol_len(&array, &n) == FLCOL_OK && flcol_dtype(&array, &dtype) == FLCOL_OK);
    if (n <= ROOM && dtype % FLCOL_NULLABLE < FLCOL_BOOL) {
        ASK[dtype % FLCOL_NULLABLE](&array, n);
        CHECK(!answers(flcol_null_count(&array, &more)) || more <= n);
        CHECK(!answers(flcol_is_sorted(&array, 0, &answer)) || answer <= 1);
        CHECK(!answers(flcol_scheme_len(&array, &more)) || more >= 3);
        answers(flcol_to_blocked(&array, &again));
    }
    flcol_free(&array), flcol_free(&again);
}

static void change_each_byte(flcol_array *array) {
    static const uint8_t changes[] = {1, 2, 16, 128, 255};
    size_t len = 0;
    CHECK(flcol_serialized_len(array, &len) == FLCOL_OK);
    uint8_t *container = (uint8_t *)malloc(len);
    flcol_array out = {NULL};
    CHECK(container != NULL && flcol_serialize(array, container, len, &len) == FLCOL_OK);
    for (size_t end = 0; end < len; end++) CHECK(read_container(container, end, &out) == FLCOL_BAD_CONTAINER);
    for (size_t i = 0; i < len; i++) {
        if (container[i] == 0 && i + 8 < len && container[i + 8] == 0 && i % 16) continue; /* most of the padding of a block */
        for (size_t k = 0; k < sizeof changes; k++) {
            container[i] ^= changes[k];
            ask(container, len);
            container[i] ^= changes[k];
        }
    }
    free(container);
}

int main(void) {
    change_all_u8(), change_all_u16(), change_all_u32(), change_all_u64();
    change_all_i8(), change_all_i16(), change_all_i32(), change_all_i64();
    return 0;
}
