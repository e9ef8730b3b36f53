/* What the tests of files of chunks share: a file in memory that grows, and checksums. */
#ifndef FILES_H
#define FILES_H

#include "checking.h"

/* The most chunks of a test's file. */
enum { MOST_CHUNKS = 8 };

/* A file in memory, of this type, and the chunks that it has. */
struct file {
    uint8_t *bytes;
    size_t len, count;
    uint8_t dtype;
    flcol_chunk chunks[MOST_CHUNKS];
};

static inline void begun(struct file *file, uint8_t dtype) {
    memset(file, 0, sizeof *file);
    file->dtype = dtype, file->len = 4, file->bytes = (uint8_t *)malloc(4);
    CHECK(file->bytes != NULL);
    memcpy(file->bytes, FLCOL_FILE_MARK, 4);
}

/* Makes room for so many bytes behind those of a file. */
static inline uint8_t *room_behind(struct file *file, size_t room) {
    file->bytes = (uint8_t *)realloc(file->bytes, file->len + room);
    CHECK(file->bytes != NULL);
    return file->bytes + file->len;
}

/* Adds an array. A room that is a byte too short is left as it is. */
static inline void appended(struct file *file, flcol_array *array) {
    size_t len = 0, written = 0;
    CHECK(flcol_serialized_len(array, &len) == FLCOL_OK && file->count < MOST_CHUNKS);
    uint8_t *room = room_behind(file, len + 64);
    flcol_chunk *chunk = &file->chunks[file->count];
    size_t gap = (64 - file->len % 64) % 64;
    memset(room, UNWRITTEN, len + 64), memset(chunk, UNWRITTEN, sizeof *chunk);
    CHECK(flcol_file_append(array, file->len, room, gap + len - 1, &written, chunk) == FLCOL_WRONG_LENGTH);
    CHECK(unwritten(room, len + 64) && unwritten(chunk, sizeof *chunk) && written == 0);
    CHECK(flcol_file_append(array, file->len, room, gap + len, &written, chunk) == FLCOL_OK && written == gap + len);
    CHECK(unwritten(room + written, len + 64 - written) && chunk->offset == file->len + gap && chunk->size == len);
    file->len += written, file->count++;
}

/* Adds the foot. A room that is a byte too short is left as it is. */
static inline void finished(struct file *file) {
    size_t most = FLCOL_FOOT_ROOM(file->count), written = 0, foot = 28 + 96 * file->count;
    size_t needed = foot + (64 - (file->len + foot) % 64) % 64;
    uint8_t *room = room_behind(file, most + 1);
    memset(room, UNWRITTEN, most + 1);
    CHECK(flcol_file_finish(file->dtype, file->chunks, file->count, file->len, room, needed - 1, &written) == FLCOL_WRONG_LENGTH);
    CHECK(unwritten(room, most + 1) && written == 0);
    CHECK(flcol_file_finish(file->dtype, file->chunks, file->count, file->len, room, most, &written) == FLCOL_OK && written == needed);
    CHECK(unwritten(room + written, most + 1 - written));
    file->len += written;
}

/* The CRC-32C of bytes, a bit at a time. */
static inline uint32_t crc32c(const uint8_t *bytes, size_t len) {
    uint32_t remainder = UINT32_MAX;
    for (size_t i = 0; i < len; i++) {
        remainder ^= bytes[i];
        for (int k = 0; k < 8; k++) remainder = remainder >> 1 ^ (remainder & 1 ? 0x82F63B78u : 0);
    }
    return ~remainder;
}

static inline void put_word(uint8_t *at, uint64_t word) {
    for (int i = 0; i < 8; i++) at[i] = (uint8_t)(word >> 8 * i);
}

/* Makes the checksum of the foot at the end of a file that of its bytes, which are so many before it. */
static inline void sealed(struct file *file, size_t body) {
    uint8_t *end = file->bytes + file->len;
    put_word(end - 20, crc32c(end - 20 - body, body));
}

static inline int same(flcol_integer a, flcol_integer b) {
    return a.low == b.low && a.high == b.high;
}

/* The sum of two integers. */
static inline flcol_integer added(flcol_integer a, flcol_integer b) {
    flcol_integer sum = {a.low + b.low, 0};
    sum.high = (int64_t)((uint64_t)a.high + (uint64_t)b.high + (sum.low < a.low));
    return sum;
}

/* A small file of two chunks of i32: 3, null, -4, 9 and 100, 101. */
static inline void small(struct file *file) {
    static const int32_t first[] = {3, 7, -4, 9}, second[] = {100, 101};
    static const uint8_t valid[] = {0x0D}, both[] = {3};
    flcol_array array = FLCOL_EMPTY;
    begun(file, FLCOL_I32 + FLCOL_NULLABLE);
    CHECK(flcol_from_i32(first, 4, valid, 1, &array) == FLCOL_OK);
    appended(file, &array);
    CHECK(flcol_from_i32(second, 2, both, 1, &array) == FLCOL_OK);
    appended(file, &array);
    flcol_free(&array), finished(file);
}

#endif
