/* What a container holds, as text, over the calls of flcol.h that read it. */
#include "flcol.h"
#include <stdio.h>
#include <stdlib.h>
#include <string.h>

/* Room for a type and three numbers with their words, which is what stands beside a scheme. */
enum { ROOM_BESIDE_SCHEME = 128 };

static const char *const TYPES[] = {"u8", "u16", "u32", "u64", "i8", "i16", "i32", "i64", "bool"};

/* Text in memory of its own. */
struct text {
    char *bytes;
    size_t len;
    size_t room;
};

/* How long the scheme is; booleans have none, which is 0 bytes long. */
static int32_t measure_scheme(flcol_array *array, size_t *len) {
    int32_t status = flcol_scheme_len(array, len);
    if (status != FLCOL_NOT_INTEGER) return status;
    *len = 0;
    return FLCOL_OK;
}

static int32_t put_type_and_scheme(flcol_array *array, size_t scheme_len, struct text *text) {
    uint8_t dtype = 0;
    int32_t status = flcol_dtype(array, &dtype);
    if (status != FLCOL_OK) return status;
    const char *mark = dtype & FLCOL_NULLABLE ? "?" : "", *space = scheme_len > 0 ? " " : "";
    text->len = (size_t)snprintf(text->bytes, text->room, "%s%s%s", TYPES[dtype % FLCOL_NULLABLE], mark, space);
    if (scheme_len > 0) status = flcol_scheme(array, text->bytes + text->len, scheme_len);
    text->len += scheme_len;
    return status;
}

/* Adds the number of items and, of some, how many bits of the container each takes, to two decimals. No container is so
   long that hundredths of its bits overflow. */
static int32_t put_numbers(flcol_array *array, size_t container_len, struct text *text) {
    size_t items = 0;
    int32_t status = flcol_len(array, &items);
    if (status != FLCOL_OK) return status;
    text->len += (size_t)snprintf(text->bytes + text->len, text->room - text->len, ", %zu items", items);
    if (items == 0) return FLCOL_OK;
    size_t hundredths = (800 * container_len + items / 2) / items;
    text->len += (size_t)snprintf(text->bytes + text->len, text->room - text->len, ", %zu.%02zu bits an item",
                                  hundredths / 100, hundredths % 100);
    return FLCOL_OK;
}

/* The whole text, in new memory. */
static int32_t describe(flcol_array *array, size_t container_len, struct text *text) {
    size_t scheme_len = 0;
    int32_t status = measure_scheme(array, &scheme_len);
    if (status != FLCOL_OK) return status;
    text->room = ROOM_BESIDE_SCHEME + scheme_len;
    text->bytes = malloc(text->room);
    if (text->bytes == NULL) return FLCOL_OUT_OF_MEMORY;
    status = put_type_and_scheme(array, scheme_len, text);
    return status == FLCOL_OK ? put_numbers(array, container_len, text) : status;
}

int32_t flcol_inspect(const uint8_t *container, size_t len, char *text, size_t room, size_t *text_len) {
    flcol_array array = FLCOL_EMPTY;
    struct text whole = {NULL, 0, 0};
    int32_t status = flcol_deserialize(container, len, &array);
    if (status == FLCOL_OK) status = describe(&array, len, &whole);
    if (status == FLCOL_OK && room > 0) memcpy(text, whole.bytes, room < whole.len ? room : whole.len);
    if (status == FLCOL_OK) *text_len = whole.len;
    free(whole.bytes);
    flcol_free(&array);
    return status;
}
