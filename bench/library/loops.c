/* The obvious loops over plain items, for the processor that they are compiled for: what a program does that has decoded a column. */
#include <stddef.h>
#include <stdint.h>

static inline int bit(const uint8_t *bits, size_t i) {
    return bits[i / 8] >> i % 8 & 1;
}

/* Sums are below 2^64. */
#define LOOPS(T, ITEM)                                                                                               \
    void compare_##T(const ITEM *items, size_t n, ITEM constant, uint8_t *bits) {                                    \
        for (size_t i = 0; i < n; i += 8) {                                                                          \
            uint8_t byte = 0;                                                                                        \
            for (size_t k = 0; k < 8 && i + k < n; k++) byte |= (uint8_t)((items[i + k] < constant) << k);           \
            bits[i / 8] = byte;                                                                                      \
        }                                                                                                            \
    }                                                                                                                \
    size_t count_##T(const ITEM *items, size_t n, ITEM constant) {                                                   \
        size_t count = 0;                                                                                            \
        for (size_t i = 0; i < n; i++) count += items[i] < constant;                                                 \
        return count;                                                                                                \
    }                                                                                                                \
    size_t count_between_##T(const ITEM *items, size_t n, ITEM lower, ITEM upper) {                                  \
        size_t count = 0;                                                                                            \
        for (size_t i = 0; i < n; i++) count += items[i] >= lower && items[i] <= upper;                              \
        return count;                                                                                                \
    }                                                                                                                \
    uint64_t sum_##T(const ITEM *items, size_t n) {                                                                  \
        uint64_t sum = 0;                                                                                            \
        for (size_t i = 0; i < n; i++) sum += items[i];                                                              \
        return sum;                                                                                                  \
    }                                                                                                                \
    void min_max_##T(const ITEM *items, size_t n, ITEM *extremes) {                                                  \
        ITEM least = items[0], greatest = items[0];                                                                  \
        for (size_t i = 1; i < n; i++) {                                                                             \
            least = items[i] < least ? items[i] : least;                                                             \
            greatest = items[i] > greatest ? items[i] : greatest;                                                    \
        }                                                                                                            \
        extremes[0] = least, extremes[1] = greatest;                                                                 \
    }                                                                                                                \
    size_t filter_by_##T(const ITEM *items, size_t n, ITEM constant, ITEM *chosen) {                                 \
        size_t count = 0;                                                                                            \
        for (size_t i = 0; i < n; i++) {                                                                             \
            chosen[count] = items[i];                                                                                \
            count += items[i] < constant;                                                                            \
        }                                                                                                            \
        return count;                                                                                                \
    }                                                                                                                \
    void is_in_##T(const ITEM *items, size_t n, const ITEM *list, size_t len, uint8_t *bits) {                       \
        for (size_t i = 0; i < n; i += 8) {                                                                          \
            uint8_t byte = 0;                                                                                        \
            for (size_t k = 0; k < 8 && i + k < n; k++)                                                              \
                for (size_t at = 0; at < len; at++) byte |= (uint8_t)((items[i + k] == list[at]) << k);              \
            bits[i / 8] = byte;                                                                                      \
        }                                                                                                            \
    }                                                                                                                \
    void compare_under_##T(const ITEM *items, size_t n, const uint8_t *mask, ITEM constant, uint8_t *bits) {         \
        compare_##T(items, n, constant, bits);                                                                       \
        for (size_t i = 0; i < (n + 7) / 8; i++) bits[i] &= mask[i];                                                 \
    }                                                                                                                \
    size_t count_under_##T(const ITEM *items, size_t n, const uint8_t *mask, ITEM constant) {                        \
        size_t count = 0;                                                                                            \
        for (size_t i = 0; i < n; i++) count += bit(mask, i) & (items[i] < constant);                                \
        return count;                                                                                                \
    }                                                                                                                \
    uint64_t sum_under_##T(const ITEM *items, size_t n, const uint8_t *mask) {                                       \
        uint64_t sum = 0;                                                                                            \
        for (size_t i = 0; i < n; i++) sum += bit(mask, i) ? items[i] : 0;                                           \
        return sum;                                                                                                  \
    }

LOOPS(u32, uint32_t)
LOOPS(u64, uint64_t)
