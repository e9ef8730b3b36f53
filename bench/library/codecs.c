/* The library beside memcpy, StreamVByte, LZ4, zstd and Blosc on the same columns: how many bits an item takes, and how many MB of
   decoded items a second are encoded, decoded and compared with a constant.

       codecs ROUNDS FILE.u32 FILE.u64 ..

   All codecs take turns within a round, and the best of the rounds counts. What each decodes and answers is looked at. A codec that
   can't compare decodes first. One thread; memory that is there. */
#include "flcol.h"
#include <blosc.h>
#include <lz4.h>
#include <stdio.h>
#include <stdlib.h>
#include <string.h>
#include <streamvbyte.h>
#include <time.h>
#include <zstd.h>

#define MUST(holds) ((holds) ? (void)0 : (fprintf(stderr, "%s:%d: not so: %s\n", __FILE__, __LINE__, #holds), exit(1)))

/* A column, and the memory that a codec works in: its encoded form, decoded items, and a bit for each answer. */
static struct {
    const char *name;
    size_t size, n, bytes; /* of an item, items, bytes of all */
    uint8_t *items, *encoded, *decoded, *answers;
    uint64_t constant; /* that items are compared with */
    size_t encoded_len, room;
} column;

/* ---- The library ---- */

static flcol_array encoded;

static const char *const SCHEMES[] = {"primitive", "bitpacked", "blocked", "for(bitpacked)", "for(blocked)", "forc(bitpacked,_)",
                                      "delta(bitpacked,for(bitpacked))", "rle(for(bitpacked),bitpacked,_)", "rle(bitpacked,bitpacked,for(bitpacked))"};
static const char *scheme;

static void from_items(flcol_array *plain) {
    MUST((column.size == 4 ? flcol_from_u32((const uint32_t *)column.items, column.n, NULL, 0, plain)
                           : flcol_from_u64((const uint64_t *)column.items, column.n, NULL, 0, plain)) == FLCOL_OK);
}

static void choose_scheme(void) {
    flcol_array plain = {NULL};
    size_t least = SIZE_MAX, len;
    from_items(&plain);
    for (size_t s = 0; s < sizeof SCHEMES / sizeof SCHEMES[0]; s++) {
        if (flcol_encode(&plain, SCHEMES[s], strlen(SCHEMES[s]), &encoded) != FLCOL_OK) continue;
        MUST(flcol_serialized_len(&encoded, &len) == FLCOL_OK);
        if (len < least) least = len, scheme = SCHEMES[s];
    }
    flcol_free(&plain);
}

static int flcol_encodes(void) {
    flcol_array plain = {NULL};
    from_items(&plain);
    MUST(flcol_encode(&plain, scheme, strlen(scheme), &encoded) == FLCOL_OK);
    flcol_free(&plain);
    return flcol_serialize(&encoded, column.encoded, column.room, &column.encoded_len) == FLCOL_OK;
}

static void flcol_decodes(void) {
    MUST((column.size == 4 ? flcol_read_u32(&encoded, (uint32_t *)column.decoded, column.n, NULL, 0)
                           : flcol_read_u64(&encoded, (uint64_t *)column.decoded, column.n, NULL, 0)) == FLCOL_OK);
}

static void flcol_compares(void) {
    size_t bytes = (column.n + 7) / 8;
    MUST((column.size == 4 ? flcol_compare_u32(&encoded, FLCOL_LT, (uint32_t)column.constant, column.answers, bytes, NULL, 0)
                           : flcol_compare_u64(&encoded, FLCOL_LT, column.constant, column.answers, bytes, NULL, 0)) == FLCOL_OK);
}

/* ---- The others ---- */

/* Compares plain items, eight to a byte of answers. */
#define COMPARED(ITEM)                                                                                          \
    for (size_t i = 0; i < column.n; i += 8) {                                                                  \
        const ITEM *items = (const ITEM *)plain + i;                                                            \
        uint8_t byte = 0;                                                                                       \
        for (size_t k = 0; k < 8 && i + k < column.n; k++) byte |= (uint8_t)((items[k] < constant) << k);       \
        column.answers[i / 8] = byte;                                                                           \
    }

static void compare_plain(const uint8_t *plain) {
    if (column.size == 4) {
        const uint32_t constant = (uint32_t)column.constant;
        COMPARED(uint32_t)
    } else {
        const uint64_t constant = column.constant;
        COMPARED(uint64_t)
    }
}

static int plain_encodes(void) {
    memcpy(column.encoded, column.items, column.bytes);
    column.encoded_len = column.bytes;
    return 1;
}
static void plain_decodes(void) { memcpy(column.decoded, column.encoded, column.bytes); }
static void plain_compares(void) { compare_plain(column.items); }

static int streamvbyte_encodes(void) {
    if (column.size != 4) return 0;
    column.encoded_len = streamvbyte_encode((const uint32_t *)column.items, (uint32_t)column.n, column.encoded);
    return 1;
}
static void streamvbyte_decodes(void) { streamvbyte_decode(column.encoded, (uint32_t *)column.decoded, (uint32_t)column.n); }

static int lz4_encodes(void) {
    int len = LZ4_compress_default((const char *)column.items, (char *)column.encoded, (int)column.bytes, (int)column.room);
    column.encoded_len = (size_t)len;
    return len > 0;
}
static void lz4_decodes(void) {
    MUST(LZ4_decompress_safe((const char *)column.encoded, (char *)column.decoded, (int)column.encoded_len, (int)column.bytes) >= 0);
}

static int zstd_encodes(void) {
    column.encoded_len = ZSTD_compress(column.encoded, column.room, column.items, column.bytes, 1);
    return !ZSTD_isError(column.encoded_len);
}
static void zstd_decodes(void) {
    MUST(ZSTD_decompress(column.decoded, column.bytes, column.encoded, column.encoded_len) == column.bytes);
}

static int blosc_encodes(void) {
    int len = blosc_compress_ctx(5, BLOSC_BITSHUFFLE, column.size, column.bytes, column.items, column.encoded, column.room, "lz4", 0, 1);
    column.encoded_len = (size_t)len;
    return len > 0;
}
static void blosc_decodes(void) { MUST(blosc_decompress_ctx(column.encoded, column.decoded, column.bytes, 1) == (int)column.bytes); }

static void decode_and_compare(void (*decode)(void)) {
    decode();
    compare_plain(column.decoded);
}
static void streamvbyte_compares(void) { decode_and_compare(streamvbyte_decodes); }
static void lz4_compares(void) { decode_and_compare(lz4_decodes); }
static void zstd_compares(void) { decode_and_compare(zstd_decodes); }
static void blosc_compares(void) { decode_and_compare(blosc_decodes); }

/* ---- The race ---- */

static struct {
    const char *name;
    int (*encodes)(void); /* 0 where it can't */
    void (*decodes)(void), (*compares)(void);
    double best[3]; /* seconds to encode, decode, compare */
    size_t len;     /* of the encoded form; 0 where there is none */
} codecs[] = {{"flcol ", flcol_encodes, flcol_decodes, flcol_compares, {0}, 0},
              {"memcpy", plain_encodes, plain_decodes, plain_compares, {0}, 0},
              {"StreamVByte", streamvbyte_encodes, streamvbyte_decodes, streamvbyte_compares, {0}, 0},
              {"LZ4", lz4_encodes, lz4_decodes, lz4_compares, {0}, 0},
              {"zstd -1", zstd_encodes, zstd_decodes, zstd_compares, {0}, 0},
              {"Blosc lz4 bitshuffle", blosc_encodes, blosc_decodes, blosc_compares, {0}, 0}};
enum { CODECS = sizeof codecs / sizeof codecs[0] };

static double now(void) {
    struct timespec at;
    clock_gettime(CLOCK_THREAD_CPUTIME_ID, &at);
    return (double)at.tv_sec + 1e-9 * (double)at.tv_nsec;
}

static void keep_least(double *best, double begun) {
    double seconds = now() - begun;
    if (*best == 0 || seconds < *best) *best = seconds;
}

/* One round of a codec; its answers are held against those of the plain items. */
static void race(size_t c, const uint8_t *wanted) {
    double begun = now();
    codecs[c].len = 0;
    if (!codecs[c].encodes()) return;
    keep_least(&codecs[c].best[0], begun);
    codecs[c].len = column.encoded_len;
    memset(column.decoded, 0, column.bytes);
    begun = now(), codecs[c].decodes(), keep_least(&codecs[c].best[1], begun);
    MUST(memcmp(column.decoded, column.items, column.bytes) == 0);
    memset(column.answers, 0, (column.n + 7) / 8);
    begun = now(), codecs[c].compares(), keep_least(&codecs[c].best[2], begun);
    MUST(memcmp(column.answers, wanted, (column.n + 7) / 8) == 0);
}

static int by_value(const void *left, const void *right) {
    uint64_t a = *(const uint64_t *)left, b = *(const uint64_t *)right;
    return (a > b) - (a < b);
}

/* The median of a thousand items. */
static uint64_t middle(void) {
    uint64_t some[1000] = {0};
    for (size_t i = 0; i < 1000; i++) memcpy(&some[i], column.items + column.n * i / 1000 * column.size, column.size);
    qsort(some, 1000, sizeof some[0], by_value);
    return some[500];
}

static void *memory(size_t len) {
    void *at = malloc(len);
    MUST(at != NULL);
    memset(at, 1, len);
    return at;
}

static void load(const char *path) {
    FILE *file = fopen(path, "rb");
    MUST(file != NULL && fseek(file, 0, SEEK_END) == 0);
    column.name = strrchr(path, '/') ? strrchr(path, '/') + 1 : path;
    column.size = strstr(path, ".u32") ? 4 : 8;
    column.bytes = (size_t)ftell(file), column.n = column.bytes / column.size;
    column.room = 2 * column.bytes + (1 << 16);
    column.items = (uint8_t *)memory(column.bytes), column.decoded = (uint8_t *)memory(column.bytes);
    column.encoded = (uint8_t *)memory(column.room), column.answers = (uint8_t *)memory(column.n / 8 + 1);
    rewind(file);
    MUST(fread(column.items, 1, column.bytes, file) == column.bytes && fclose(file) == 0);
    column.constant = middle();
}

static void measure(const char *path, int rounds) {
    load(path);
    choose_scheme();
    uint8_t *wanted = (uint8_t *)memory(column.n / 8 + 1);
    plain_compares();
    memcpy(wanted, column.answers, (column.n + 7) / 8);
    for (size_t c = 0; c < CODECS; c++) memset(codecs[c].best, 0, sizeof codecs[c].best);
    for (int round = 0; round < rounds; round++)
        for (size_t c = 0; c < CODECS; c++) race(c, wanted);
    for (size_t c = 0; c < CODECS; c++) {
        if (codecs[c].len == 0) continue;
        printf("| %s | %s%s | %.2f |", column.name, codecs[c].name, c == 0 ? scheme : "", 8.0 * (double)codecs[c].len / (double)column.n);
        for (int k = 0; k < 3; k++) printf(" %.0f |", 1e-6 * (double)column.bytes / codecs[c].best[k]);
        puts("");
    }
    free(column.items), free(column.decoded), free(column.encoded), free(column.answers), free(wanted);
}

int main(int words, char **word) {
    MUST(words > 2);
    puts("| column | codec | bits an item | encode MB/s | decode MB/s | compare MB/s |\n|---|---|---|---|---|---|");
    for (int i = 2; i < words; i++) measure(word[i], atoi(word[1]));
    flcol_free(&encoded);
    return 0;
}
