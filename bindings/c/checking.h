/* What the tests share: checks, bits, numbers that look random, and the encodings to try. */
#ifndef CHECKING_H
#define CHECKING_H

#include "flcol.h"
#include <stdio.h>
#include <stdlib.h>
#include <string.h>

/* Ends the program with the place of a check that doesn't hold. */
#define CHECK(holds)                                                                  \
    do {                                                                              \
        if (!(holds)) {                                                               \
            fprintf(stderr, "%s:%d: not so: %s\n", __FILE__, __LINE__, #holds);       \
            exit(1);                                                                  \
        }                                                                             \
    } while (0)

/* The greatest number of items of a test's column. */
enum { MOST = 3000, MOST_BYTES = (MOST + 7) / 8 };

/* Fills memory before a call, so that what is written is seen. */
enum { UNWRITTEN = 0xA5 };

static const char *const SCHEMES[] = {"primitive", "bitpacked", "blocked", "for", "for(bitpacked)", "forc", "forc(blocked,_)",
                                      "forc(delta,_)", "forc(rle,for)", "delta", "delta(for(bitpacked),_)", "rle",
                                      "rle(for(bitpacked),bitpacked,_)"};
enum { SCHEME_COUNT = sizeof SCHEMES / sizeof SCHEMES[0] };

static inline int bit(const uint8_t *bits, size_t i) {
    return bits[i / 8] >> (i % 8) & 1;
}

static inline void set_bit(uint8_t *bits, size_t i, int value) {
    bits[i / 8] = (uint8_t)((bits[i / 8] & ~(1 << i % 8)) | value << i % 8);
}

/* Whether a bit counts, in a bitmap that may be missing. */
static inline int is_valid(const uint8_t *validity, size_t i) {
    return validity == NULL || bit(validity, i);
}

static inline uint64_t random_below(uint64_t *state, uint64_t end) {
    *state = *state * 6364136223846793005u + 1442695040888963407u;
    return (*state >> 33) % end;
}

/* Whether so many bytes have not been written. */
static inline int unwritten(const void *bytes, size_t len) {
    const uint8_t *at = (const uint8_t *)bytes;
    while (len > 0 && *at == UNWRITTEN) at++, len--;
    return len == 0;
}

/* Whether an encoding may refuse a column: a negative item, a width of the whole type, no least item. */
static inline int cannot_keep(int32_t status) {
    return status == FLCOL_NEGATIVE_VALUE || status == FLCOL_WIDTH_TOO_LARGE || status == FLCOL_ALL_BLOCKS_NATIVE ||
           status == FLCOL_NO_MINIMUM;
}

static inline int32_t encode(flcol_array *array, const char *scheme, flcol_array *out) {
    return flcol_encode(array, scheme, strlen(scheme), out);
}

#endif
