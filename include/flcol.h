/* flcol: columns of nullable integers in light encodings, proved. C11 and C++17.
 *
 * Link with -lflcol, or with libflcol.a alone; `pkg-config --cflags --libs flcol` has the words.
 *
 *     const uint32_t prices[] = {1999, 2005, 2010, 1987};
 *     flcol_array plain = FLCOL_EMPTY, packed = FLCOL_EMPTY;
 *     uint8_t cheap;
 *     if (flcol_from_u32(prices, 4, NULL, 0, &plain) == FLCOL_OK &&
 *         flcol_encode(&plain, "for(bitpacked)", 14, &packed) == FLCOL_OK &&
 *         flcol_compare_u32(&packed, FLCOL_LT, 2000, &cheap, 1, NULL, 0) == FLCOL_OK)
 *         printf("%#x\n", cheap);
 *     flcol_free(&plain);
 *     flcol_free(&packed);
 *
 * prints 0x9: the first price and the last one are below 2000.
 *
 * An array is held by a `flcol_array`, one word. What C owes, since nothing can check it:
 *   - each `flcol_array` starts as FLCOL_EMPTY, or in memory of zeros, and is passed by its address, which is never NULL;
 *   - an array that is held is not copied to be kept twice, and its word is neither read nor written but by the calls;
 *   - every pointer with a length points to that many elements; with the length 0 it may be NULL;
 *   - what a call writes (`out`, results, buffers) overlaps nothing else that it is passed: one address is never passed
 *     for two parameters;
 *   - one call at a time works on an array, reads too. An array may be passed to another thread, by what orders the two:
 *     a lock, the start or the end of a thread. Arrays made of one another may be used by different threads.
 *
 * Each call but flcol_free and those that say a version or what a status means answers a status, 0 where it did what it
 * is for. With any other status it has written nothing, and each array is as it was. The first status that applies in the
 * order of a call's list is the answer. FLCOL_OUT_OF_MEMORY may come from any call that makes, decodes, describes
 * or writes an array, and is in no list.
 *
 * A call with `out` makes a new array there, and frees the one that `out` held before.
 *
 * Bitmaps are Arrow's: bit i of a bitmap is bit i % 8 of its byte i / 8, the lowest first. They are passed with their
 * length in bytes. In a validity bitmap a set bit is a valid item; no bytes at all (NULL, 0) say that no item is null.
 */
#ifndef FLCOL_H
#define FLCOL_H

#include <stddef.h>
#include <stdint.h>

#ifdef __cplusplus
extern "C" {
#endif

/* The version of the library. */
#define FLCOL_VERSION_MAJOR 1
#define FLCOL_VERSION_MINOR 4
#define FLCOL_VERSION_PATCH 0
#define FLCOL_VERSION "1.4.0"

/* The version of this interface. */
#define FLCOL_ABI_VERSION 2

/* An array on the heap, or none. */
typedef struct flcol_array {
    void *at;
} flcol_array;

#ifdef __cplusplus
#define FLCOL_EMPTY (flcol_array{nullptr})
#else
#define FLCOL_EMPTY ((flcol_array){NULL})
#endif

/* The items from `start` to below `start + len`. */
typedef struct flcol_range {
    size_t start;
    size_t len;
} flcol_range;

/* An integer of 128 bits in two's complement, high * 2^64 + low: it holds any item of any type, and the sum of fewer than
   2^63 items. */
typedef struct flcol_integer {
    uint64_t low;
    int64_t high;
} flcol_integer;

/* What the foot of a file of chunks says of a chunk: 96 bytes, as they stand there. */
typedef struct flcol_chunk {
    uint64_t offset;        /* where its bytes begin in the file, a multiple of 64 */
    uint64_t size;          /* how many bytes it has */
    uint64_t checksum;      /* the CRC-32C of these bytes */
    uint64_t len;           /* how many items it has */
    uint64_t null_count;    /* how many of them are null */
    uint64_t is_sorted;     /* 1 where no item is above the next and a null is below every integer, else 0 */
    flcol_integer least;    /* of the valid items, 0 where there is none */
    flcol_integer greatest; /* of the valid items, 0 where there is none */
    flcol_integer sum;      /* of the valid items */
} flcol_chunk;

/* Statuses. 1 to 40 are the refusals of the library, 42 that of a container; from 100 on those of this interface.
   flcol_status_message says what each means. */
enum {
    FLCOL_OK = 0,
    FLCOL_OUT_OF_MEMORY = 1,
    FLCOL_NOT_INTEGER = 2,
    FLCOL_NEGATIVE_VALUE = 3,
    FLCOL_WIDTH_TOO_LARGE = 4,
    FLCOL_ALL_BLOCKS_NATIVE = 5,
    FLCOL_BLOCK_COUNT = 6,
    FLCOL_OFFSET_TOO_LARGE = 7,
    FLCOL_LENGTH_OVERFLOW = 8,
    FLCOL_VALIDITY_LENGTH = 9,
    FLCOL_PATCH_TYPE = 10,
    FLCOL_PATCH_LENGTH = 11,
    FLCOL_PATCH_CONTENT = 12,
    FLCOL_PACKED_LENGTH = 13,
    FLCOL_BLOCK_OFFSETS_TYPE = 14,
    FLCOL_BLOCK_OFFSETS_COUNT = 15,
    FLCOL_BLOCK_BOUNDARY = 16,
    FLCOL_BLOCK_SPAN = 17,
    FLCOL_TYPE_MISMATCH = 18,
    FLCOL_NULL_REFERENCE = 19,
    FLCOL_REFERENCE_COUNT = 20,
    FLCOL_NO_MINIMUM = 21,
    FLCOL_CHILD_NULLABLE = 22,
    FLCOL_CHILD_LENGTH = 23,
    FLCOL_RANGE_BEYOND_CHILD = 24,
    FLCOL_RUN_INDEX_TYPE = 25,
    FLCOL_RUN_OFFSETS = 26,
    FLCOL_RUN_INDEX = 27,
    FLCOL_TOO_MANY_WIDTHS = 28,
    FLCOL_NOT_GLOBAL = 29,
    FLCOL_INDEX_OUT_OF_BOUNDS = 30,
    FLCOL_RANGE_OUT_OF_BOUNDS = 31,
    FLCOL_MASK_LENGTH = 32,
    FLCOL_CAST_NULL = 33,
    FLCOL_CAST_OUT_OF_RANGE = 34,
    FLCOL_UNKNOWN_ID = 35,
    FLCOL_BAD_METADATA = 36,
    FLCOL_UNKNOWN_TYPE = 37,
    FLCOL_BUFFER_COUNT = 38,
    FLCOL_CHILD_COUNT = 39,
    FLCOL_CHILD_MISMATCH = 40,
    FLCOL_BAD_CONTAINER = 42,
    FLCOL_NO_ARRAY = 100,     /* a `flcol_array` that is read holds none */
    FLCOL_WRONG_TYPE = 101,   /* the array is not of the integers that the call's name says */
    FLCOL_WRONG_LENGTH = 102, /* a buffer has not the length that is needed */
    FLCOL_BAD_SCHEME = 103,   /* the text says no scheme */
    FLCOL_BAD_OPERATOR = 104, /* no operator has the number */
    FLCOL_STREAM = 105,       /* the stream failed */
    FLCOL_BAD_ENCODINGS = 106, /* a bit stands for no encoding */
    FLCOL_FILE_TOO_SHORT = 107,
    FLCOL_BAD_MARK = 108,
    FLCOL_BAD_FOOT_LENGTH = 109,
    FLCOL_BAD_FOOT_CHECKSUM = 110,
    FLCOL_BAD_FIELD = 111,
    FLCOL_BAD_PLACE = 112,
    FLCOL_BAD_CHUNK = 113,
    FLCOL_FILE_TOO_LONG = 114,
    FLCOL_BAD_STATISTICS = 115
};

/* Types, by the numbers that containers have; with FLCOL_NULLABLE added items may be null. FLCOL_BOOL is the type of
   some arrays that come out of containers, which no call here reads. */
enum {
    FLCOL_U8 = 0,
    FLCOL_U16 = 1,
    FLCOL_U32 = 2,
    FLCOL_U64 = 3,
    FLCOL_I8 = 4,
    FLCOL_I16 = 5,
    FLCOL_I32 = 6,
    FLCOL_I64 = 7,
    FLCOL_BOOL = 8,
    FLCOL_NULLABLE = 16
};

/* Operators of comparisons, the item on the left. */
enum {
    FLCOL_EQ = 0,
    FLCOL_NOT_EQ = 1,
    FLCOL_GT = 2,
    FLCOL_GTE = 3,
    FLCOL_LT = 4,
    FLCOL_LTE = 5
};

/* Encodings that flcol_compress_within may use: the bits of one number. */
enum {
    FLCOL_USE_CONSTANT = 1,
    FLCOL_USE_BITPACKED = 2,
    FLCOL_USE_FOR = 4,
    FLCOL_USE_DELTA = 8,
    FLCOL_USE_RLE = 16,
    FLCOL_USE_DICT = 32,
    FLCOL_USE_ALL = 63
};

/* The version of the interface that the library has. */
uint32_t flcol_abi_version(void);

/* ---- Make ---- */

/* A plain array of these values, of which those are null whose bits are not set. With no bytes of validity it is of a
   type without nulls, else of a nullable one. Bytes of validity behind the needed ones are not looked at.
   FLCOL_VALIDITY_LENGTH: the bitmap has fewer bits than there are values. */
int32_t flcol_from_u8(const uint8_t *values, size_t len, const uint8_t *validity, size_t validity_len,
                       flcol_array *out);
int32_t flcol_from_u16(const uint16_t *values, size_t len, const uint8_t *validity, size_t validity_len,
                       flcol_array *out);
int32_t flcol_from_u32(const uint32_t *values, size_t len, const uint8_t *validity, size_t validity_len,
                       flcol_array *out);
int32_t flcol_from_u64(const uint64_t *values, size_t len, const uint8_t *validity, size_t validity_len,
                       flcol_array *out);
int32_t flcol_from_i8(const int8_t *values, size_t len, const uint8_t *validity, size_t validity_len,
                       flcol_array *out);
int32_t flcol_from_i16(const int16_t *values, size_t len, const uint8_t *validity, size_t validity_len,
                       flcol_array *out);
int32_t flcol_from_i32(const int32_t *values, size_t len, const uint8_t *validity, size_t validity_len,
                       flcol_array *out);
int32_t flcol_from_i64(const int64_t *values, size_t len, const uint8_t *validity, size_t validity_len,
                       flcol_array *out);

/* `len` times the same value, without nulls, or where `is_null` is not 0 a null, and then of a nullable type. It takes
   the memory of one value. */
int32_t flcol_constant_u8(uint8_t value, uint8_t is_null, size_t len, flcol_array *out);
int32_t flcol_constant_u16(uint16_t value, uint8_t is_null, size_t len, flcol_array *out);
int32_t flcol_constant_u32(uint32_t value, uint8_t is_null, size_t len, flcol_array *out);
int32_t flcol_constant_u64(uint64_t value, uint8_t is_null, size_t len, flcol_array *out);
int32_t flcol_constant_i8(int8_t value, uint8_t is_null, size_t len, flcol_array *out);
int32_t flcol_constant_i16(int16_t value, uint8_t is_null, size_t len, flcol_array *out);
int32_t flcol_constant_i32(int32_t value, uint8_t is_null, size_t len, flcol_array *out);
int32_t flcol_constant_i64(int64_t value, uint8_t is_null, size_t len, flcol_array *out);

/* A plain array of booleans: the first `len` bits of a bitmap, of which those are null whose bits of validity are not set.
   Validity as of flcol_from_u8. FLCOL_WRONG_LENGTH: there are fewer bits than booleans. FLCOL_VALIDITY_LENGTH. */
int32_t flcol_from_bool(const uint8_t *bits, size_t bits_len, size_t len, const uint8_t *validity, size_t validity_len,
                        flcol_array *out);

/* The array of a container's bytes, which are copied.
   FLCOL_BAD_CONTAINER: the bytes are none. Any of 2 to 40: its array is not sound. */
int32_t flcol_deserialize(const uint8_t *bytes, size_t len, flcol_array *out);

/* ---- Encode ---- */

/* The same column by a scheme, such as `for(bitpacked)`; the text needs no 0 behind it. The words are `primitive`,
   `constant`, `bitpacked`, `bitpacked:7`, `blocked`, `for`, `forc`, `forw`, `forcw`, `delta`, `rle`, `dict`, in parentheses
   the schemes of the children, `_` for a plain one. At most fourteen words stand in one another, so that what
   is made has a container. What `dict` makes shows as `rle`.
   FLCOL_NO_ARRAY. FLCOL_BAD_SCHEME. FLCOL_NOT_INTEGER: an array of booleans. Then the encoding's own refusal. */
int32_t flcol_encode(flcol_array *array, const char *scheme, size_t scheme_len, flcol_array *out);

/* The smallest array of the same column that any of the library's candidate schemes makes, the first of several, where
   the validity has no bits if no item is null, or each is. FLCOL_NO_ARRAY. FLCOL_NOT_INTEGER. */
int32_t flcol_compress(flcol_array *array, flcol_array *out);

/* The same of the candidates that use no encodings but these, bits of FLCOL_USE_.., and nest at most `depth` of them in one
   another: 0 leaves plain and constant arrays, 1 allows packed ones, 2 frames of reference over packed ones, 3 deltas, runs
   and dictionaries over those, as flcol_compress has them all, and 4 run values that are deltas. Fewer encodings compress
   faster: of random items dictionaries take most of the time. FLCOL_NO_ARRAY. FLCOL_BAD_ENCODINGS. FLCOL_NOT_INTEGER. */
int32_t flcol_compress_within(flcol_array *array, uint8_t encodings, uint8_t depth, flcol_array *out);

/* ---- Look ---- */

/* How many items there are. FLCOL_NO_ARRAY. */
int32_t flcol_len(flcol_array *array, size_t *len);

/* The type: a number of a type, with FLCOL_NULLABLE added where items may be null. FLCOL_NO_ARRAY. */
int32_t flcol_dtype(flcol_array *array, uint8_t *dtype);

/* How many items are null. FLCOL_NO_ARRAY. */
int32_t flcol_null_count(flcol_array *array, size_t *count);

/* How many bytes all buffers of the array take when it is written, UINT64_MAX if there are more; metadata are not
   counted. FLCOL_NO_ARRAY. */
int32_t flcol_nbytes(flcol_array *array, uint64_t *bytes);

/* How many bytes flcol_scheme writes. FLCOL_NO_ARRAY. FLCOL_NOT_INTEGER: no scheme makes booleans. */
int32_t flcol_scheme_len(flcol_array *array, size_t *len);

/* What the array is, as the text of a scheme, in exactly that many bytes, with no 0 behind it: `for(bitpacked:7)`. The
   words are those of flcol_encode, but that a width is always said, that `forw` and `forcw` are read as `for` and `forc`,
   and that `forc` is `for` where one reference serves all chunks. FLCOL_NO_ARRAY. FLCOL_NOT_INTEGER. FLCOL_WRONG_LENGTH. */
int32_t flcol_scheme(flcol_array *array, char *text, size_t len);

/* What a container holds, as text: `u32? for(bitpacked:7), 1000 items, 3.25 bits an item`. The bits are those of the whole
   container; booleans have no scheme, and no items no bits. At most `room` bytes are written, the text's first, with no 0
   behind; `text_len` is how many the whole text has. The statuses of flcol_deserialize. */
int32_t flcol_inspect(const uint8_t *container, size_t len, char *text, size_t room, size_t *text_len);

/* 1 where all items are equal, a null to a null, else 0. FLCOL_NO_ARRAY. FLCOL_NOT_INTEGER. */
int32_t flcol_is_constant(flcol_array *array, uint8_t *answer);

/* 1 where no item is above the next or, where `strict` is not 0, each is below the next, else 0; a null is below every
   integer. FLCOL_NO_ARRAY. FLCOL_NOT_INTEGER. */
int32_t flcol_is_sorted(flcol_array *array, uint8_t strict, uint8_t *answer);

/* ---- Read ---- */

/* The values and which of them are valid. `len` is the array's length; `validity_len` is (len + 7) / 8, or 0 where no
   item is null. A value under a null says nothing; bits behind the last item are 0.
   FLCOL_NO_ARRAY. FLCOL_WRONG_TYPE. FLCOL_WRONG_LENGTH. FLCOL_VALIDITY_LENGTH: no bytes of validity, and an item is
   null. */
int32_t flcol_read_u8(flcol_array *array, uint8_t *values, size_t len, uint8_t *validity, size_t validity_len);
int32_t flcol_read_u16(flcol_array *array, uint16_t *values, size_t len, uint8_t *validity, size_t validity_len);
int32_t flcol_read_u32(flcol_array *array, uint32_t *values, size_t len, uint8_t *validity, size_t validity_len);
int32_t flcol_read_u64(flcol_array *array, uint64_t *values, size_t len, uint8_t *validity, size_t validity_len);
int32_t flcol_read_i8(flcol_array *array, int8_t *values, size_t len, uint8_t *validity, size_t validity_len);
int32_t flcol_read_i16(flcol_array *array, int16_t *values, size_t len, uint8_t *validity, size_t validity_len);
int32_t flcol_read_i32(flcol_array *array, int32_t *values, size_t len, uint8_t *validity, size_t validity_len);
int32_t flcol_read_i64(flcol_array *array, int64_t *values, size_t len, uint8_t *validity, size_t validity_len);

/* The same of an array of booleans, a bit each. `bits_len` is (n + 7) / 8 for n items; the bit at a null says nothing.
   FLCOL_NO_ARRAY. FLCOL_WRONG_TYPE: the array is of integers. FLCOL_WRONG_LENGTH. FLCOL_VALIDITY_LENGTH. */
int32_t flcol_read_bool(flcol_array *array, uint8_t *bits, size_t bits_len, uint8_t *validity, size_t validity_len);

/* The item at an index: `*is_null` is 1 at a null, and `*value` 0 then; else 0.
   FLCOL_NO_ARRAY. FLCOL_WRONG_TYPE. FLCOL_INDEX_OUT_OF_BOUNDS. */
int32_t flcol_get_u8(flcol_array *array, size_t index, uint8_t *value, uint8_t *is_null);
int32_t flcol_get_u16(flcol_array *array, size_t index, uint16_t *value, uint8_t *is_null);
int32_t flcol_get_u32(flcol_array *array, size_t index, uint32_t *value, uint8_t *is_null);
int32_t flcol_get_u64(flcol_array *array, size_t index, uint64_t *value, uint8_t *is_null);
int32_t flcol_get_i8(flcol_array *array, size_t index, int8_t *value, uint8_t *is_null);
int32_t flcol_get_i16(flcol_array *array, size_t index, int16_t *value, uint8_t *is_null);
int32_t flcol_get_i32(flcol_array *array, size_t index, int32_t *value, uint8_t *is_null);
int32_t flcol_get_i64(flcol_array *array, size_t index, int64_t *value, uint8_t *is_null);

/* ---- Operate ---- */

/* The items from `from` to below `to`, in the same encodings. FLCOL_NO_ARRAY. FLCOL_RANGE_OUT_OF_BOUNDS. */
int32_t flcol_slice(flcol_array *array, size_t from, size_t to, flcol_array *out);

/* The array cut into `count` slices, one after another, for as many workers: each begins at a whole block of 1024 items, and
   they have as many blocks as one another, the first ones one more; some are empty where there are fewer blocks. The slices
   share the array's bytes, and each may be used by a thread of its own. FLCOL_NO_ARRAY. */
int32_t flcol_split(flcol_array *array, flcol_array *out, size_t count);

/* The items at these indices, null where an index is null. An index under a null is not looked at.
   FLCOL_NO_ARRAY. FLCOL_VALIDITY_LENGTH. FLCOL_NOT_INTEGER. FLCOL_INDEX_OUT_OF_BOUNDS. */
int32_t flcol_take(flcol_array *array, const uint64_t *indices, size_t len, const uint8_t *validity,
                   size_t validity_len, flcol_array *out);

/* The items of the ranges, one range after another. A range without items is skipped wherever it starts.
   FLCOL_NO_ARRAY. FLCOL_NOT_INTEGER. FLCOL_RANGE_OUT_OF_BOUNDS. FLCOL_LENGTH_OVERFLOW. */
int32_t flcol_take_ranges(flcol_array *array, const flcol_range *ranges, size_t count, flcol_array *out);

/* The items whose bits are set. `mask_len` is (n + 7) / 8 bytes for n items.
   FLCOL_NO_ARRAY. FLCOL_MASK_LENGTH. FLCOL_NOT_INTEGER. */
int32_t flcol_filter(flcol_array *array, const uint8_t *mask, size_t mask_len, flcol_array *out);

/* The same integers in another type.
   FLCOL_NO_ARRAY. FLCOL_UNKNOWN_TYPE. FLCOL_NOT_INTEGER. FLCOL_CAST_NULL. FLCOL_CAST_OUT_OF_RANGE. */
int32_t flcol_cast(flcol_array *array, uint8_t dtype, flcol_array *out);

/* The same array, with a boundary for each block wherever it is bit-packed at one width. FLCOL_NO_ARRAY. */
int32_t flcol_to_blocked(flcol_array *array, flcol_array *out);

/* How each item compares with a constant, a bit each, and which items are valid. `bits_len` is (n + 7) / 8 for n items,
   `validity_len` the same, or 0 where no item is null. The bit at a null says nothing; bits behind the last are 0.
   FLCOL_NO_ARRAY. FLCOL_BAD_OPERATOR. FLCOL_WRONG_TYPE. FLCOL_WRONG_LENGTH. FLCOL_VALIDITY_LENGTH: no bytes of
   validity, and an item is null. */
int32_t flcol_compare_u8(flcol_array *array, uint8_t op, uint8_t constant, uint8_t *bits, size_t bits_len,
                          uint8_t *validity, size_t validity_len);
int32_t flcol_compare_u16(flcol_array *array, uint8_t op, uint16_t constant, uint8_t *bits, size_t bits_len,
                          uint8_t *validity, size_t validity_len);
int32_t flcol_compare_u32(flcol_array *array, uint8_t op, uint32_t constant, uint8_t *bits, size_t bits_len,
                          uint8_t *validity, size_t validity_len);
int32_t flcol_compare_u64(flcol_array *array, uint8_t op, uint64_t constant, uint8_t *bits, size_t bits_len,
                          uint8_t *validity, size_t validity_len);
int32_t flcol_compare_i8(flcol_array *array, uint8_t op, int8_t constant, uint8_t *bits, size_t bits_len,
                          uint8_t *validity, size_t validity_len);
int32_t flcol_compare_i16(flcol_array *array, uint8_t op, int16_t constant, uint8_t *bits, size_t bits_len,
                          uint8_t *validity, size_t validity_len);
int32_t flcol_compare_i32(flcol_array *array, uint8_t op, int32_t constant, uint8_t *bits, size_t bits_len,
                          uint8_t *validity, size_t validity_len);
int32_t flcol_compare_i64(flcol_array *array, uint8_t op, int64_t constant, uint8_t *bits, size_t bits_len,
                          uint8_t *validity, size_t validity_len);

/* Whether each item lies between two bounds, in the same way. A bound is left out where its `strict` is not 0.
   FLCOL_NO_ARRAY. FLCOL_WRONG_TYPE. FLCOL_WRONG_LENGTH. FLCOL_VALIDITY_LENGTH. */
int32_t flcol_between_u8(flcol_array *array, uint8_t lower, uint8_t upper, uint8_t lower_strict, uint8_t upper_strict,
                          uint8_t *bits, size_t bits_len, uint8_t *validity, size_t validity_len);
int32_t flcol_between_u16(flcol_array *array, uint16_t lower, uint16_t upper, uint8_t lower_strict, uint8_t upper_strict,
                          uint8_t *bits, size_t bits_len, uint8_t *validity, size_t validity_len);
int32_t flcol_between_u32(flcol_array *array, uint32_t lower, uint32_t upper, uint8_t lower_strict, uint8_t upper_strict,
                          uint8_t *bits, size_t bits_len, uint8_t *validity, size_t validity_len);
int32_t flcol_between_u64(flcol_array *array, uint64_t lower, uint64_t upper, uint8_t lower_strict, uint8_t upper_strict,
                          uint8_t *bits, size_t bits_len, uint8_t *validity, size_t validity_len);
int32_t flcol_between_i8(flcol_array *array, int8_t lower, int8_t upper, uint8_t lower_strict, uint8_t upper_strict,
                          uint8_t *bits, size_t bits_len, uint8_t *validity, size_t validity_len);
int32_t flcol_between_i16(flcol_array *array, int16_t lower, int16_t upper, uint8_t lower_strict, uint8_t upper_strict,
                          uint8_t *bits, size_t bits_len, uint8_t *validity, size_t validity_len);
int32_t flcol_between_i32(flcol_array *array, int32_t lower, int32_t upper, uint8_t lower_strict, uint8_t upper_strict,
                          uint8_t *bits, size_t bits_len, uint8_t *validity, size_t validity_len);
int32_t flcol_between_i64(flcol_array *array, int64_t lower, int64_t upper, uint8_t lower_strict, uint8_t upper_strict,
                          uint8_t *bits, size_t bits_len, uint8_t *validity, size_t validity_len);

/* Whether each item is one of a list, in the same way; of no item where the list is empty.
   FLCOL_NO_ARRAY. FLCOL_WRONG_TYPE. FLCOL_WRONG_LENGTH. FLCOL_VALIDITY_LENGTH. */
int32_t flcol_is_in_u8(flcol_array *array, const uint8_t *list, size_t list_len, uint8_t *bits, size_t bits_len,
                        uint8_t *validity, size_t validity_len);
int32_t flcol_is_in_u16(flcol_array *array, const uint16_t *list, size_t list_len, uint8_t *bits, size_t bits_len,
                        uint8_t *validity, size_t validity_len);
int32_t flcol_is_in_u32(flcol_array *array, const uint32_t *list, size_t list_len, uint8_t *bits, size_t bits_len,
                        uint8_t *validity, size_t validity_len);
int32_t flcol_is_in_u64(flcol_array *array, const uint64_t *list, size_t list_len, uint8_t *bits, size_t bits_len,
                        uint8_t *validity, size_t validity_len);
int32_t flcol_is_in_i8(flcol_array *array, const int8_t *list, size_t list_len, uint8_t *bits, size_t bits_len,
                        uint8_t *validity, size_t validity_len);
int32_t flcol_is_in_i16(flcol_array *array, const int16_t *list, size_t list_len, uint8_t *bits, size_t bits_len,
                        uint8_t *validity, size_t validity_len);
int32_t flcol_is_in_i32(flcol_array *array, const int32_t *list, size_t list_len, uint8_t *bits, size_t bits_len,
                        uint8_t *validity, size_t validity_len);
int32_t flcol_is_in_i64(flcol_array *array, const int64_t *list, size_t list_len, uint8_t *bits, size_t bits_len,
                        uint8_t *validity, size_t validity_len);

/* ---- Aggregates ---- */

/* How many items are valid and compare so with a constant. FLCOL_NO_ARRAY. FLCOL_BAD_OPERATOR. FLCOL_WRONG_TYPE. */
int32_t flcol_count_u8(flcol_array *array, uint8_t op, uint8_t constant, size_t *count);
int32_t flcol_count_u16(flcol_array *array, uint8_t op, uint16_t constant, size_t *count);
int32_t flcol_count_u32(flcol_array *array, uint8_t op, uint32_t constant, size_t *count);
int32_t flcol_count_u64(flcol_array *array, uint8_t op, uint64_t constant, size_t *count);
int32_t flcol_count_i8(flcol_array *array, uint8_t op, int8_t constant, size_t *count);
int32_t flcol_count_i16(flcol_array *array, uint8_t op, int16_t constant, size_t *count);
int32_t flcol_count_i32(flcol_array *array, uint8_t op, int32_t constant, size_t *count);
int32_t flcol_count_i64(flcol_array *array, uint8_t op, int64_t constant, size_t *count);

/* How many items are valid and lie between two bounds. A bound is left out where its `strict` is not 0.
   FLCOL_NO_ARRAY. FLCOL_WRONG_TYPE. */
int32_t flcol_count_between_u8(flcol_array *array, uint8_t lower, uint8_t upper, uint8_t lower_strict,
                          uint8_t upper_strict, size_t *count);
int32_t flcol_count_between_u16(flcol_array *array, uint16_t lower, uint16_t upper, uint8_t lower_strict,
                          uint8_t upper_strict, size_t *count);
int32_t flcol_count_between_u32(flcol_array *array, uint32_t lower, uint32_t upper, uint8_t lower_strict,
                          uint8_t upper_strict, size_t *count);
int32_t flcol_count_between_u64(flcol_array *array, uint64_t lower, uint64_t upper, uint8_t lower_strict,
                          uint8_t upper_strict, size_t *count);
int32_t flcol_count_between_i8(flcol_array *array, int8_t lower, int8_t upper, uint8_t lower_strict,
                          uint8_t upper_strict, size_t *count);
int32_t flcol_count_between_i16(flcol_array *array, int16_t lower, int16_t upper, uint8_t lower_strict,
                          uint8_t upper_strict, size_t *count);
int32_t flcol_count_between_i32(flcol_array *array, int32_t lower, int32_t upper, uint8_t lower_strict,
                          uint8_t upper_strict, size_t *count);
int32_t flcol_count_between_i64(flcol_array *array, int64_t lower, int64_t upper, uint8_t lower_strict,
                          uint8_t upper_strict, size_t *count);

/* The least and the greatest valid item, and 0; or two zeros and 1, where no item is valid. FLCOL_NO_ARRAY. FLCOL_WRONG_TYPE. */
int32_t flcol_min_max_u8(flcol_array *array, uint8_t *least, uint8_t *greatest, uint8_t *is_none);
int32_t flcol_min_max_u16(flcol_array *array, uint16_t *least, uint16_t *greatest, uint8_t *is_none);
int32_t flcol_min_max_u32(flcol_array *array, uint32_t *least, uint32_t *greatest, uint8_t *is_none);
int32_t flcol_min_max_u64(flcol_array *array, uint64_t *least, uint64_t *greatest, uint8_t *is_none);
int32_t flcol_min_max_i8(flcol_array *array, int8_t *least, int8_t *greatest, uint8_t *is_none);
int32_t flcol_min_max_i16(flcol_array *array, int16_t *least, int16_t *greatest, uint8_t *is_none);
int32_t flcol_min_max_i32(flcol_array *array, int32_t *least, int32_t *greatest, uint8_t *is_none);
int32_t flcol_min_max_i64(flcol_array *array, int64_t *least, int64_t *greatest, uint8_t *is_none);

/* The sum of the valid items, exactly, of an array of a type without a sign, and of one with a sign: high * 2^64 + low.
   FLCOL_NO_ARRAY. FLCOL_WRONG_TYPE: the type is of the other sign, or booleans. */
int32_t flcol_sum_unsigned(flcol_array *array, uint64_t *high, uint64_t *low);
int32_t flcol_sum_signed(flcol_array *array, int64_t *high, uint64_t *low);

/* A plain array of the valid items that compare so with a constant, in their order; its type is that of the array.
   FLCOL_NO_ARRAY. FLCOL_BAD_OPERATOR. FLCOL_WRONG_TYPE. */
int32_t flcol_filter_by_u8(flcol_array *array, uint8_t op, uint8_t constant, flcol_array *out);
int32_t flcol_filter_by_u16(flcol_array *array, uint8_t op, uint16_t constant, flcol_array *out);
int32_t flcol_filter_by_u32(flcol_array *array, uint8_t op, uint32_t constant, flcol_array *out);
int32_t flcol_filter_by_u64(flcol_array *array, uint8_t op, uint64_t constant, flcol_array *out);
int32_t flcol_filter_by_i8(flcol_array *array, uint8_t op, int8_t constant, flcol_array *out);
int32_t flcol_filter_by_i16(flcol_array *array, uint8_t op, int16_t constant, flcol_array *out);
int32_t flcol_filter_by_i32(flcol_array *array, uint8_t op, int32_t constant, flcol_array *out);
int32_t flcol_filter_by_i64(flcol_array *array, uint8_t op, int64_t constant, flcol_array *out);

/* A plain array of the valid items that lie between two bounds, in their order; its type is that of the array. A bound is
   left out where its `strict` is not 0. FLCOL_NO_ARRAY. FLCOL_WRONG_TYPE. */
int32_t flcol_filter_between_u8(flcol_array *array, uint8_t lower, uint8_t upper, uint8_t lower_strict,
                          uint8_t upper_strict, flcol_array *out);
int32_t flcol_filter_between_u16(flcol_array *array, uint16_t lower, uint16_t upper, uint8_t lower_strict,
                          uint8_t upper_strict, flcol_array *out);
int32_t flcol_filter_between_u32(flcol_array *array, uint32_t lower, uint32_t upper, uint8_t lower_strict,
                          uint8_t upper_strict, flcol_array *out);
int32_t flcol_filter_between_u64(flcol_array *array, uint64_t lower, uint64_t upper, uint8_t lower_strict,
                          uint8_t upper_strict, flcol_array *out);
int32_t flcol_filter_between_i8(flcol_array *array, int8_t lower, int8_t upper, uint8_t lower_strict,
                          uint8_t upper_strict, flcol_array *out);
int32_t flcol_filter_between_i16(flcol_array *array, int16_t lower, int16_t upper, uint8_t lower_strict,
                          uint8_t upper_strict, flcol_array *out);
int32_t flcol_filter_between_i32(flcol_array *array, int32_t lower, int32_t upper, uint8_t lower_strict,
                          uint8_t upper_strict, flcol_array *out);
int32_t flcol_filter_between_i64(flcol_array *array, int64_t lower, int64_t upper, uint8_t lower_strict,
                          uint8_t upper_strict, flcol_array *out);

/* ---- Selections ---- */

/* Of the items whose bits are set in a mask, as of flcol_filter, how many are valid and compare so with a constant. A block of
   1024 items without a set bit is not read. FLCOL_NO_ARRAY. FLCOL_BAD_OPERATOR. FLCOL_WRONG_TYPE. FLCOL_MASK_LENGTH. */
int32_t flcol_count_under_u8(flcol_array *array, const uint8_t *mask, size_t mask_len, uint8_t op, uint8_t constant,
                              size_t *count);
int32_t flcol_count_under_u16(flcol_array *array, const uint8_t *mask, size_t mask_len, uint8_t op, uint16_t constant,
                              size_t *count);
int32_t flcol_count_under_u32(flcol_array *array, const uint8_t *mask, size_t mask_len, uint8_t op, uint32_t constant,
                              size_t *count);
int32_t flcol_count_under_u64(flcol_array *array, const uint8_t *mask, size_t mask_len, uint8_t op, uint64_t constant,
                              size_t *count);
int32_t flcol_count_under_i8(flcol_array *array, const uint8_t *mask, size_t mask_len, uint8_t op, int8_t constant,
                              size_t *count);
int32_t flcol_count_under_i16(flcol_array *array, const uint8_t *mask, size_t mask_len, uint8_t op, int16_t constant,
                              size_t *count);
int32_t flcol_count_under_i32(flcol_array *array, const uint8_t *mask, size_t mask_len, uint8_t op, int32_t constant,
                              size_t *count);
int32_t flcol_count_under_i64(flcol_array *array, const uint8_t *mask, size_t mask_len, uint8_t op, int64_t constant,
                              size_t *count);

/* Which of these items are valid and compare so with a constant: a mask in its turn, under which an array of as many items is
   asked. `bits_len` is (n + 7) / 8 for n items; the bit of any other item is 0, as are the bits behind the last.
   FLCOL_NO_ARRAY. FLCOL_BAD_OPERATOR. FLCOL_WRONG_TYPE. FLCOL_WRONG_LENGTH: of `bits_len`. FLCOL_MASK_LENGTH. */
int32_t flcol_compare_under_u8(flcol_array *array, const uint8_t *mask, size_t mask_len, uint8_t op, uint8_t constant,
                                uint8_t *bits, size_t bits_len);
int32_t flcol_compare_under_u16(flcol_array *array, const uint8_t *mask, size_t mask_len, uint8_t op, uint16_t constant,
                                uint8_t *bits, size_t bits_len);
int32_t flcol_compare_under_u32(flcol_array *array, const uint8_t *mask, size_t mask_len, uint8_t op, uint32_t constant,
                                uint8_t *bits, size_t bits_len);
int32_t flcol_compare_under_u64(flcol_array *array, const uint8_t *mask, size_t mask_len, uint8_t op, uint64_t constant,
                                uint8_t *bits, size_t bits_len);
int32_t flcol_compare_under_i8(flcol_array *array, const uint8_t *mask, size_t mask_len, uint8_t op, int8_t constant,
                                uint8_t *bits, size_t bits_len);
int32_t flcol_compare_under_i16(flcol_array *array, const uint8_t *mask, size_t mask_len, uint8_t op, int16_t constant,
                                uint8_t *bits, size_t bits_len);
int32_t flcol_compare_under_i32(flcol_array *array, const uint8_t *mask, size_t mask_len, uint8_t op, int32_t constant,
                                uint8_t *bits, size_t bits_len);
int32_t flcol_compare_under_i64(flcol_array *array, const uint8_t *mask, size_t mask_len, uint8_t op, int64_t constant,
                                uint8_t *bits, size_t bits_len);

/* Which of these items are valid and lie between two bounds, in the same way. A bound is left out where its `strict` is not 0.
   FLCOL_NO_ARRAY. FLCOL_WRONG_TYPE. FLCOL_WRONG_LENGTH. FLCOL_MASK_LENGTH. */
int32_t flcol_between_under_u8(flcol_array *array, const uint8_t *mask, size_t mask_len, uint8_t lower,
                                uint8_t upper, uint8_t lower_strict, uint8_t upper_strict, uint8_t *bits, size_t bits_len);
int32_t flcol_between_under_u16(flcol_array *array, const uint8_t *mask, size_t mask_len, uint16_t lower,
                                uint16_t upper, uint8_t lower_strict, uint8_t upper_strict, uint8_t *bits, size_t bits_len);
int32_t flcol_between_under_u32(flcol_array *array, const uint8_t *mask, size_t mask_len, uint32_t lower,
                                uint32_t upper, uint8_t lower_strict, uint8_t upper_strict, uint8_t *bits, size_t bits_len);
int32_t flcol_between_under_u64(flcol_array *array, const uint8_t *mask, size_t mask_len, uint64_t lower,
                                uint64_t upper, uint8_t lower_strict, uint8_t upper_strict, uint8_t *bits, size_t bits_len);
int32_t flcol_between_under_i8(flcol_array *array, const uint8_t *mask, size_t mask_len, int8_t lower,
                                int8_t upper, uint8_t lower_strict, uint8_t upper_strict, uint8_t *bits, size_t bits_len);
int32_t flcol_between_under_i16(flcol_array *array, const uint8_t *mask, size_t mask_len, int16_t lower,
                                int16_t upper, uint8_t lower_strict, uint8_t upper_strict, uint8_t *bits, size_t bits_len);
int32_t flcol_between_under_i32(flcol_array *array, const uint8_t *mask, size_t mask_len, int32_t lower,
                                int32_t upper, uint8_t lower_strict, uint8_t upper_strict, uint8_t *bits, size_t bits_len);
int32_t flcol_between_under_i64(flcol_array *array, const uint8_t *mask, size_t mask_len, int64_t lower,
                                int64_t upper, uint8_t lower_strict, uint8_t upper_strict, uint8_t *bits, size_t bits_len);

/* Of these items the least and the greatest that is valid, and 0; or two zeros and 1, where none is valid.
   FLCOL_NO_ARRAY. FLCOL_WRONG_TYPE. FLCOL_MASK_LENGTH. */
int32_t flcol_min_max_under_u8(flcol_array *array, const uint8_t *mask, size_t mask_len, uint8_t *least,
                                uint8_t *greatest, uint8_t *is_none);
int32_t flcol_min_max_under_u16(flcol_array *array, const uint8_t *mask, size_t mask_len, uint16_t *least,
                                uint16_t *greatest, uint8_t *is_none);
int32_t flcol_min_max_under_u32(flcol_array *array, const uint8_t *mask, size_t mask_len, uint32_t *least,
                                uint32_t *greatest, uint8_t *is_none);
int32_t flcol_min_max_under_u64(flcol_array *array, const uint8_t *mask, size_t mask_len, uint64_t *least,
                                uint64_t *greatest, uint8_t *is_none);
int32_t flcol_min_max_under_i8(flcol_array *array, const uint8_t *mask, size_t mask_len, int8_t *least,
                                int8_t *greatest, uint8_t *is_none);
int32_t flcol_min_max_under_i16(flcol_array *array, const uint8_t *mask, size_t mask_len, int16_t *least,
                                int16_t *greatest, uint8_t *is_none);
int32_t flcol_min_max_under_i32(flcol_array *array, const uint8_t *mask, size_t mask_len, int32_t *least,
                                int32_t *greatest, uint8_t *is_none);
int32_t flcol_min_max_under_i64(flcol_array *array, const uint8_t *mask, size_t mask_len, int64_t *least,
                                int64_t *greatest, uint8_t *is_none);

/* The sum of the valid ones of these items, exactly, as of flcol_sum_unsigned and flcol_sum_signed.
   FLCOL_NO_ARRAY. FLCOL_WRONG_TYPE. FLCOL_MASK_LENGTH. */
int32_t flcol_sum_under_unsigned(flcol_array *array, const uint8_t *mask, size_t mask_len, uint64_t *high, uint64_t *low);
int32_t flcol_sum_under_signed(flcol_array *array, const uint8_t *mask, size_t mask_len, int64_t *high, uint64_t *low);

/* The first position whose item is not below a value, or the number of items; a null is below every value. Few blocks are read.
   C owes that the array is sorted, as flcol_is_sorted says: a call that looked at it would read all of it.
   FLCOL_NO_ARRAY. FLCOL_WRONG_TYPE. */
int32_t flcol_lower_bound_u8(flcol_array *array, uint8_t value, size_t *position);
int32_t flcol_lower_bound_u16(flcol_array *array, uint16_t value, size_t *position);
int32_t flcol_lower_bound_u32(flcol_array *array, uint32_t value, size_t *position);
int32_t flcol_lower_bound_u64(flcol_array *array, uint64_t value, size_t *position);
int32_t flcol_lower_bound_i8(flcol_array *array, int8_t value, size_t *position);
int32_t flcol_lower_bound_i16(flcol_array *array, int16_t value, size_t *position);
int32_t flcol_lower_bound_i32(flcol_array *array, int32_t value, size_t *position);
int32_t flcol_lower_bound_i64(flcol_array *array, int64_t value, size_t *position);

/* A plain array of u64: the positions of the set bits of the first `len`, in their order, as flcol_take takes them.
   FLCOL_WRONG_LENGTH: `bits_len` is not (len + 7) / 8. */
int32_t flcol_indices_of(const uint8_t *bits, size_t bits_len, size_t len, flcol_array *out);

/* ---- Answers ---- */

/* Bitmaps of answers, joined by SQL's logic, where a null stands for an answer that isn't known: an `and` is false where
   either answer is false, an `or` is true where either is true, and else each is null where either answer is. The result is
   written over the first answers. A bitmap of validity has as many bytes as its answers, or none, where no answer is null.
   FLCOL_WRONG_LENGTH: `other_len` is not `bits_len`, or a validity has another length than these and 0.
   FLCOL_VALIDITY_LENGTH: there is no room for the result's validity, as only the other answers have one. */
int32_t flcol_and(uint8_t *bits, size_t bits_len, uint8_t *validity, size_t validity_len, const uint8_t *other,
                  size_t other_len, const uint8_t *other_validity, size_t other_validity_len);
int32_t flcol_or(uint8_t *bits, size_t bits_len, uint8_t *validity, size_t validity_len, const uint8_t *other,
                 size_t other_len, const uint8_t *other_validity, size_t other_validity_len);
int32_t flcol_xor(uint8_t *bits, size_t bits_len, uint8_t *validity, size_t validity_len, const uint8_t *other,
                  size_t other_len, const uint8_t *other_validity, size_t other_validity_len);

/* The first `len` answers turned, the bits behind them 0. FLCOL_WRONG_LENGTH: `bits_len` is not (len + 7) / 8. */
int32_t flcol_not(uint8_t *bits, size_t bits_len, size_t len);

/* How many of the first `len` answers are true, and not null. FLCOL_WRONG_LENGTH: `bits_len` is not (len + 7) / 8, or
   `validity_len` is neither that nor 0. */
int32_t flcol_count_bits(const uint8_t *bits, size_t bits_len, const uint8_t *validity, size_t validity_len, size_t len,
                         size_t *total);

/* ---- Blocks ---- */

/* For stores with a format of their own: the kernels over whole blocks of 1024 items, which allocate nothing and hold no
   array. A word has T bits: 8, 16, 32 or 64, as the call's name says; a block has L = 1024 / T lanes (128, 64, 32, 16).
   `blocks` and the other counts of that name are of blocks, and every other length of words. Items with a sign are
   passed by a cast of their pointer: the kernels see their bits.

   The item at row r of lane l stands at position l + 128 * (r % 8) + 16 * order[r / 8] of its block, where order is
   {0, 4, 2, 6, 1, 5, 3, 7}. Packed words of a block at a width: bit b of that item is bit (r * width + b) % T of the word
   (r * width + b) / T * L + l, which makes width * L words a block. At width 0 there are none, and all items are 0. */

/* Packs the low `width` bits of each item, block after block; the bits above are not looked at.
   FLCOL_WIDTH_TOO_LARGE: the width is above T. FLCOL_WRONG_LENGTH: `packed_len` is not blocks * width * L. */
int32_t flcol_pack_u8(size_t width, const uint8_t *items, size_t blocks, uint8_t *packed, size_t packed_len);
int32_t flcol_pack_u16(size_t width, const uint16_t *items, size_t blocks, uint16_t *packed, size_t packed_len);
int32_t flcol_pack_u32(size_t width, const uint32_t *items, size_t blocks, uint32_t *packed, size_t packed_len);
int32_t flcol_pack_u64(size_t width, const uint64_t *items, size_t blocks, uint64_t *packed, size_t packed_len);

/* Writes the items of packed blocks, with their bits from `width` on 0. The statuses of flcol_pack. */
int32_t flcol_unpack_u8(size_t width, const uint8_t *packed, size_t packed_len, uint8_t *items, size_t blocks);
int32_t flcol_unpack_u16(size_t width, const uint16_t *packed, size_t packed_len, uint16_t *items, size_t blocks);
int32_t flcol_unpack_u32(size_t width, const uint32_t *packed, size_t packed_len, uint32_t *items, size_t blocks);
int32_t flcol_unpack_u64(size_t width, const uint64_t *packed, size_t packed_len, uint64_t *items, size_t blocks);

/* The same, with a reference added to each item, modulo 2 to the T. */
int32_t flcol_unfor_pack_u8(size_t width, const uint8_t *packed, size_t packed_len, uint8_t reference, uint8_t *items,
                             size_t blocks);
int32_t flcol_unfor_pack_u16(size_t width, const uint16_t *packed, size_t packed_len, uint16_t reference, uint16_t *items,
                             size_t blocks);
int32_t flcol_unfor_pack_u32(size_t width, const uint32_t *packed, size_t packed_len, uint32_t reference, uint32_t *items,
                             size_t blocks);
int32_t flcol_unfor_pack_u64(size_t width, const uint64_t *packed, size_t packed_len, uint64_t reference, uint64_t *items,
                             size_t blocks);

/* Moves the items of each block to the rows at which deltas are taken: L segments of T items that follow each other
   become the lanes, item r of a segment the item at row r. Segment l starts at 64 * (l % 16) + 8 * order[l / 16].
   FLCOL_WRONG_LENGTH: `stored_blocks` is not `blocks`. */
int32_t flcol_transpose_u8(const uint8_t *items, size_t blocks, uint8_t *stored, size_t stored_blocks);
int32_t flcol_transpose_u16(const uint16_t *items, size_t blocks, uint16_t *stored, size_t stored_blocks);
int32_t flcol_transpose_u32(const uint32_t *items, size_t blocks, uint32_t *stored, size_t stored_blocks);
int32_t flcol_transpose_u64(const uint64_t *items, size_t blocks, uint64_t *stored, size_t stored_blocks);

/* Moves the items of each block back. FLCOL_WRONG_LENGTH: `blocks` is not `stored_blocks`. */
int32_t flcol_untranspose_u8(const uint8_t *stored, size_t stored_blocks, uint8_t *items, size_t blocks);
int32_t flcol_untranspose_u16(const uint16_t *stored, size_t stored_blocks, uint16_t *items, size_t blocks);
int32_t flcol_untranspose_u32(const uint32_t *stored, size_t stored_blocks, uint32_t *items, size_t blocks);
int32_t flcol_untranspose_u64(const uint64_t *stored, size_t stored_blocks, uint64_t *items, size_t blocks);

/* The difference of each item from the one a row before in its lane, modulo 2 to the T; at row 0 from the lane's base.
   There are L bases for each block. The items are stored as flcol_transpose leaves them, where neighbours are to be
   subtracted. FLCOL_WRONG_LENGTH: `bases_len` is not blocks * L, or `delta_blocks` is not `blocks`. */
int32_t flcol_delta_u8(const uint8_t *items, size_t blocks, const uint8_t *bases, size_t bases_len, uint8_t *deltas,
                        size_t delta_blocks);
int32_t flcol_delta_u16(const uint16_t *items, size_t blocks, const uint16_t *bases, size_t bases_len, uint16_t *deltas,
                        size_t delta_blocks);
int32_t flcol_delta_u32(const uint32_t *items, size_t blocks, const uint32_t *bases, size_t bases_len, uint32_t *deltas,
                        size_t delta_blocks);
int32_t flcol_delta_u64(const uint64_t *items, size_t blocks, const uint64_t *bases, size_t bases_len, uint64_t *deltas,
                        size_t delta_blocks);

/* The items of such differences: at each row the lane's base and the differences up to it, modulo 2 to the T.
   FLCOL_WRONG_LENGTH: `bases_len` is not delta_blocks * L, or `blocks` is not `delta_blocks`. */
int32_t flcol_undelta_u8(const uint8_t *deltas, size_t delta_blocks, const uint8_t *bases, size_t bases_len, uint8_t *items,
                          size_t blocks);
int32_t flcol_undelta_u16(const uint16_t *deltas, size_t delta_blocks, const uint16_t *bases, size_t bases_len, uint16_t *items,
                          size_t blocks);
int32_t flcol_undelta_u32(const uint32_t *deltas, size_t delta_blocks, const uint32_t *bases, size_t bases_len, uint32_t *items,
                          size_t blocks);
int32_t flcol_undelta_u64(const uint64_t *deltas, size_t delta_blocks, const uint64_t *bases, size_t bases_len, uint64_t *items,
                          size_t blocks);

/* ---- Arrow ---- */

/* The structs of Arrow's C Data Interface and C Stream Interface, for programs that have them from nowhere else. Whoever
   holds one calls its `release`, once; a struct whose `release` is NULL has been released, or moved away. */
#ifndef ARROW_C_DATA_INTERFACE
#define ARROW_C_DATA_INTERFACE

#define ARROW_FLAG_DICTIONARY_ORDERED 1
#define ARROW_FLAG_NULLABLE 2
#define ARROW_FLAG_MAP_KEYS_SORTED 4

struct ArrowSchema {
    const char *format;
    const char *name;
    const char *metadata;
    int64_t flags;
    int64_t n_children;
    struct ArrowSchema **children;
    struct ArrowSchema *dictionary;
    void (*release)(struct ArrowSchema *);
    void *private_data;
};

struct ArrowArray {
    int64_t length;
    int64_t null_count;
    int64_t offset;
    int64_t n_buffers;
    int64_t n_children;
    const void **buffers;
    struct ArrowArray **children;
    struct ArrowArray *dictionary;
    void (*release)(struct ArrowArray *);
    void *private_data;
};

#endif

#ifndef ARROW_C_STREAM_INTERFACE
#define ARROW_C_STREAM_INTERFACE

struct ArrowArrayStream {
    int (*get_schema)(struct ArrowArrayStream *, struct ArrowSchema *out);
    int (*get_next)(struct ArrowArrayStream *, struct ArrowArray *out);
    const char *(*get_last_error)(struct ArrowArrayStream *);
    void (*release)(struct ArrowArrayStream *);
    void *private_data;
};

#endif

/* The column as an array of Arrow, decoded into memory of its own, and its type. Both structs are the caller's to release,
   in either order and by any thread; what they held before is not looked at. The array is as it was. FLCOL_NO_ARRAY. */
int32_t flcol_export_arrow(flcol_array *array, struct ArrowArray *out_array, struct ArrowSchema *out_schema);

/* A plain array of what an array of Arrow holds, at any offset, from buffers at any address. It is nullable where the schema
   says so, or an item is null: the bits of validity decide that. Both structs are then taken: they are released, after all
   was copied. With any other status neither is.
   FLCOL_NO_ARRAY: one of them has been released. FLCOL_WRONG_TYPE: the type is none of integers or booleans, or is of a
   dictionary. FLCOL_BUFFER_COUNT: there are not two buffers. FLCOL_WRONG_LENGTH: a length, an offset or a count of nulls
   that no array has, or items without values. FLCOL_VALIDITY_LENGTH: the nulls that are counted have no bits. */
int32_t flcol_import_arrow(struct ArrowArray *array, struct ArrowSchema *schema, flcol_array *out);

/* A stream of these arrays as chunks, each decoded when it is asked for, and freed then. They must be of one type, but that
   only some may be nullable; the stream's type is nullable then. The stream takes the arrays, whose words are empty from then
   on; it is the caller's to release.
   FLCOL_NO_ARRAY: there is no array, or one of the words holds none. FLCOL_TYPE_MISMATCH. */
int32_t flcol_export_arrow_stream(flcol_array *arrays, size_t count, struct ArrowArrayStream *out);

/* The next chunk of a stream of integers or booleans, as flcol_import_arrow makes it. At the end of the stream `out` is
   freed, and holds none from then on. The stream stays the caller's to release; after a failure nothing more should be read
   from it, as the chunk that failed may be lost.
   FLCOL_NO_ARRAY: the stream has been released. FLCOL_STREAM: it failed; its `get_last_error` may say why. Then the statuses
   of flcol_import_arrow, of which FLCOL_WRONG_TYPE of the schema comes before a chunk is read. */
int32_t flcol_import_arrow_stream(struct ArrowArrayStream *stream, flcol_array *out);

/* ---- Give back ---- */

/* How many bytes flcol_serialize writes; nothing is written for it. FLCOL_NO_ARRAY. FLCOL_BAD_CONTAINER: the array has no
   container, as where more than sixteen arrays stand in one another. */
int32_t flcol_serialized_len(flcol_array *array, size_t *len);

/* The array as a container, in the first of `room` bytes; `len` is how many it has, and those behind it stay as they were.
   FLCOL_NO_ARRAY. FLCOL_BAD_CONTAINER. FLCOL_WRONG_LENGTH: the container is longer. */
int32_t flcol_serialize(flcol_array *array, uint8_t *bytes, size_t room, size_t *len);

/* ---- Files of chunks ---- */

/* A column that is longer than memory is a file of chunks, each the container of a part of it; docs/FILE.md has every byte.
   `bytes` are those of the whole file, in memory or mapped; they are the caller's, and nothing of them is kept behind a call.
   Each call with the bytes of a file but flcol_file_chunk reads the foot, and its first statuses are those of a foot, in the
   order of docs/FILE.md: FLCOL_FILE_TOO_SHORT, FLCOL_BAD_MARK, FLCOL_BAD_FOOT_LENGTH, FLCOL_BAD_FOOT_CHECKSUM,
   FLCOL_BAD_FIELD, FLCOL_BAD_PLACE. A checksum finds accidents, and nobody who made it on purpose. So what is answered from
   statistics is true where they are those of the chunks: `_trusting` says so, and flcol_file_verify compares them. */

/* The mark that a file of chunks begins with. */
#define FLCOL_FILE_MARK "FLC2"

/* A room that is long enough for the end of a file of so many chunks. */
#define FLCOL_FOOT_ROOM(count) (96 * (count) + 91)

/* What the statistics of a chunk say of a test. */
enum {
    FLCOL_SKIP = 0, /* no valid item passes */
    FLCOL_READ = 1, /* some may pass and some not: the chunk has to be read */
    FLCOL_ALL = 2   /* each valid item passes */
};

/* The type of the items, as of flcol_dtype, and how many chunks there are. */
int32_t flcol_file_look(const uint8_t *bytes, size_t len, uint8_t *dtype, size_t *count);

/* What the foot says of each chunk. FLCOL_WRONG_LENGTH: `count` is not the number of chunks. */
int32_t flcol_file_chunks(const uint8_t *bytes, size_t len, flcol_chunk *chunks, size_t count);

/* The array of a chunk, whose bytes are copied. No foot is read: of `chunk` the offset, the size and the checksum are looked
   at. FLCOL_BAD_PLACE: the chunk does not lie in the file. FLCOL_BAD_CHUNK: the checksum is another one.
   FLCOL_BAD_CONTAINER. Any of 2 to 40: its array is not sound. */
int32_t flcol_file_chunk(const uint8_t *bytes, size_t len, const flcol_chunk *chunk, flcol_array *out);

/* The length of the longest beginning of a file that has a foot and ends at a multiple of 64: a file of chunks, which is left
   of one whose end was lost. FLCOL_FILE_TOO_SHORT. FLCOL_BAD_MARK: the file begins in another way, or no beginning has a foot. */
int32_t flcol_file_recover(const uint8_t *bytes, size_t len, size_t *end);

/* Reads each chunk, and compares it with what the foot says. Of the first chunk that has one: FLCOL_BAD_CHUNK,
   FLCOL_BAD_CONTAINER and 2 to 40 as of flcol_file_chunk, FLCOL_TYPE_MISMATCH: its array is of another type than the file,
   FLCOL_BAD_STATISTICS: a statistic is not that of its items. */
int32_t flcol_file_verify(const uint8_t *bytes, size_t len);

/* How many items there are, and how many of them are null. FLCOL_LENGTH_OVERFLOW: 2^64 or more. */
int32_t flcol_file_len_trusting(const uint8_t *bytes, size_t len, uint64_t *items);
int32_t flcol_file_null_count_trusting(const uint8_t *bytes, size_t len, uint64_t *nulls);

/* The sum of the valid items. FLCOL_LENGTH_OVERFLOW: that of the items of the first chunks has more than 128 bits, so that
   there are 2^63 items or more. */
int32_t flcol_file_sum_trusting(const uint8_t *bytes, size_t len, flcol_integer *sum);

/* The least and the greatest valid item, and 0; or two zeros and 1, where no item is valid. */
int32_t flcol_file_min_max_trusting(const uint8_t *bytes, size_t len, flcol_integer *least, flcol_integer *greatest,
                                    uint8_t *is_none);

/* For each chunk FLCOL_SKIP, FLCOL_READ or FLCOL_ALL: what its statistics say of how its items compare with a constant, and
   of whether they lie between two bounds, of which one is left out where its `strict` is not 0. Constants may be of no item's
   type. FLCOL_BAD_OPERATOR, before the foot is read. FLCOL_WRONG_LENGTH: `count` is not the number of chunks. */
int32_t flcol_file_plan(const uint8_t *bytes, size_t len, uint8_t op, const flcol_integer *constant, uint8_t *plan,
                        size_t count);
int32_t flcol_file_plan_between(const uint8_t *bytes, size_t len, const flcol_integer *lower, const flcol_integer *upper,
                                uint8_t lower_strict, uint8_t upper_strict, uint8_t *plan, size_t count);

/* How many items are valid and compare so with a constant, or lie between two bounds. The chunks alone are read that
   flcol_file_plan says FLCOL_READ of. FLCOL_BAD_OPERATOR, before the foot is read. Of the first of these chunks that has one:
   FLCOL_BAD_CHUNK, FLCOL_BAD_CONTAINER and 2 to 40 as of flcol_file_chunk, FLCOL_TYPE_MISMATCH as of flcol_file_verify,
   FLCOL_BAD_STATISTICS: it has another number of items. FLCOL_LENGTH_OVERFLOW: 2^64 or more. */
int32_t flcol_file_count_trusting(const uint8_t *bytes, size_t len, uint8_t op, const flcol_integer *constant,
                                  uint64_t *passing);
int32_t flcol_file_count_between_trusting(const uint8_t *bytes, size_t len, const flcol_integer *lower,
                                          const flcol_integer *upper, uint8_t lower_strict, uint8_t upper_strict,
                                          uint64_t *passing);

/* A file is written from its beginning to its end: FLCOL_FILE_MARK without the 0 behind it, then for each array what
   flcol_file_append writes, with `place` the number of bytes that the file has then, then what flcol_file_finish writes. To
   add to a file that is there, arrays are appended at its end, whose bytes stay, and it is finished with the chunks that its
   foot says and those that came; until then flcol_file_recover finds the file that was there. */

/* The bytes to add to a file of `place` bytes for an array, zeros up to a multiple of 64 and its container, over the first of
   the room's, how many they are, and what is known of the chunk. An array is written as it is encoded.
   FLCOL_NO_ARRAY. FLCOL_NOT_INTEGER. FLCOL_BAD_CONTAINER: it has none. FLCOL_FILE_TOO_LONG: the file would have 2^63 bytes.
   FLCOL_WRONG_LENGTH: there is no room for them; flcol_serialized_len and 63 more are enough. */
int32_t flcol_file_append(flcol_array *array, uint64_t place, uint8_t *bytes, size_t room, size_t *written,
                          flcol_chunk *chunk);

/* The bytes that end a file of `place` bytes, zeros and the foot, over the first of the room's, and how many they are; behind
   them the file ends at a multiple of 64. The arrays of the chunks were of this type, which is not compared.
   FLCOL_UNKNOWN_TYPE: no integer type has the number. FLCOL_BAD_FIELD, FLCOL_BAD_PLACE: no foot says such chunks of a file of
   `place` bytes. FLCOL_FILE_TOO_LONG. FLCOL_WRONG_LENGTH: there is no room for them; FLCOL_FOOT_ROOM(count) is enough. */
int32_t flcol_file_finish(uint8_t dtype, const flcol_chunk *chunks, size_t count, uint64_t place, uint8_t *bytes, size_t room,
                          size_t *written);

/* Frees the array, if one is held, which is none from then on. */
void flcol_free(flcol_array *array);

/* ---- Statuses ---- */

/* The name of a status, as `OutOfMemory`, or `Unknown` where the number is none. */
const char *flcol_status_name(int32_t status);

/* What a status says: a sentence without a capital and a dot, as `an index is not below the number of items`. */
const char *flcol_status_message(int32_t status);

#ifdef __cplusplus
}
#endif

#endif
