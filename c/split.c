/* An array cut into slices for workers, over flcol_slice. */
#include "flcol.h"
#include <stdlib.h>
#include <string.h>

/* The items of a block: workers begin at whole ones, so that no two unpack the same. */
enum { BLOCK = 1024 };

/* Where part `i` of `count` begins. The parts have as many blocks as one another, the first ones one more. */
static size_t beginning(size_t len, size_t count, size_t i) {
    const size_t blocks = len / BLOCK + (len % BLOCK != 0), more = blocks % count;
    const size_t before = blocks / count * i + (i < more ? i : more);
    return before > len / BLOCK ? len : before * BLOCK;
}

/* Slices into words that hold no array. */
static int32_t slice_parts(flcol_array *array, size_t len, flcol_array *parts, size_t count) {
    int32_t status = FLCOL_OK;
    for (size_t i = 0; i < count && status == FLCOL_OK; i++)
        status = flcol_slice(array, beginning(len, count, i), beginning(len, count, i + 1), &parts[i]);
    return status;
}

static void free_all(flcol_array *arrays, size_t count) {
    for (size_t i = 0; i < count; i++) flcol_free(&arrays[i]);
}

int32_t flcol_split(flcol_array *array, flcol_array *out, size_t count) {
    size_t len = 0;
    int32_t status = flcol_len(array, &len);
    if (status != FLCOL_OK || count == 0) return status;
    flcol_array *parts = count <= SIZE_MAX / sizeof *parts ? calloc(count, sizeof *parts) : NULL;
    if (parts == NULL) return FLCOL_OUT_OF_MEMORY;
    status = slice_parts(array, len, parts, count);
    if (status == FLCOL_OK) {
        free_all(out, count);
        memcpy(out, parts, count * sizeof *parts);
    } else {
        free_all(parts, count);
    }
    free(parts);
    return status;
}
