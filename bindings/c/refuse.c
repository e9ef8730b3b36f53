/* Each request for memory of each call refused in turn: the call answers FLCOL_OUT_OF_MEMORY, has written nothing, holds no more
   memory than before, and its array is as it was. It is linked with --wrap=malloc, --wrap=realloc and --wrap=free. */
#include "refusing.h"

enum { LAST_CALL = -1, ITEMS = 2500, ITEM_BYTES = (ITEMS + 7) / 8 };

static flcol_array array = {NULL}, out = {NULL};
static uint8_t validity[ITEM_BYTES], bits[ITEM_BYTES], container[60000], written[60000];
static size_t container_len, scheme_len;
static uint64_t indices[ITEMS];
static struct {
    size_t count;
    uint64_t high, low;
} totals;
static const flcol_range ranges[] = {{9, 900}, {0, 1100}};

#define OF_TYPE "refuse_of_type.h"
#include "each_type.h"

/* A text that says no scheme, and no children, is known to be wrong before memory is asked for. */
static void refuses_texts(void) {
    static const uint32_t items[] = {1, 2, 3};
    static const char *const wrong[] = {"", "_", "fore", "for)", "bitpacked:256", "bitpacked,", "delta "};
    CHECK(flcol_from_u32(items, 3, NULL, 0, &array) == FLCOL_OK);
    granted = 0;
    for (size_t i = 0; i < sizeof wrong / sizeof wrong[0]; i++) CHECK(encode(&array, wrong[i], &out) == FLCOL_BAD_SCHEME);
    CHECK(encode(&array, "for(for,", &out) == FLCOL_OUT_OF_MEMORY && out.at == NULL);
    granted = ALL;
    flcol_free(&array);
}

int main(void) {
    for (size_t i = 0; i < ITEMS; i++) {
        indices[i] = i * 7 % ITEMS;
        set_bit(validity, i, i % 9 != 4);
    }
    refuses_u8(), refuses_u16(), refuses_u32(), refuses_u64();
    refuses_i8(), refuses_i16(), refuses_i32(), refuses_i64();
    refuses_texts();
    CHECK(refusals > 1000);
    printf("%ld requests were refused\n", refusals);
    return 0;
}
