/* Arrays that are cut for workers: the slices are the column in order, and threads read them at once. */
#include "checking.h"
#include <pthread.h>

enum { MANY = 10 * 1024 + 300, MOST_PARTS = 40 };

static uint32_t items[MANY];

static size_t length(flcol_array *array) {
    size_t len = 0;
    CHECK(flcol_len(array, &len) == FLCOL_OK);
    return len;
}

/* The sum of a slice's items. */
struct worker {
    flcol_array part;
    uint64_t sum;
};

static void *add(void *argument) {
    struct worker *worker = (struct worker *)argument;
    const size_t len = length(&worker->part);
    uint32_t *values = (uint32_t *)malloc((len + 1) * sizeof *values);
    CHECK(values != NULL && flcol_read_u32(&worker->part, values, len, NULL, 0) == FLCOL_OK);
    for (size_t i = 0; i < len; i++) worker->sum += values[i];
    free(values);
    flcol_free(&worker->part);
    return NULL;
}

static void sums_by_threads(const char *scheme) {
    enum { WORKERS = 4 };
    flcol_array plain = FLCOL_EMPTY, array = FLCOL_EMPTY, parts[WORKERS] = {{NULL}, {NULL}, {NULL}, {NULL}};
    struct worker workers[WORKERS];
    pthread_t threads[WORKERS];
    uint64_t sum = 0, wanted = 0;
    CHECK(flcol_from_u32(items, MANY, NULL, 0, &plain) == FLCOL_OK && encode(&plain, scheme, &array) == FLCOL_OK);
    CHECK(flcol_split(&array, parts, WORKERS) == FLCOL_OK);
    for (size_t i = 0; i < WORKERS; i++) {
        workers[i].part = parts[i], workers[i].sum = 0;
        CHECK(pthread_create(&threads[i], NULL, add, &workers[i]) == 0);
    }
    for (size_t i = 0; i < WORKERS; i++) CHECK(pthread_join(threads[i], NULL) == 0);
    for (size_t i = 0; i < WORKERS; i++) sum += workers[i].sum;
    for (size_t i = 0; i < MANY; i++) wanted += items[i];
    CHECK(sum == wanted);
    flcol_free(&plain), flcol_free(&array);
}

/* The parts of the first `len` items follow one another, begin at whole blocks, and are as long as can be equal. */
static void parts_are_the_column(size_t len, size_t count) {
    flcol_array array = FLCOL_EMPTY, parts[MOST_PARTS];
    uint32_t values[MANY];
    size_t at = 0;
    memset(parts, 0, sizeof parts);
    CHECK(flcol_from_u32(items, len, NULL, 0, &array) == FLCOL_OK && flcol_split(&array, parts, count) == FLCOL_OK);
    const size_t least = (len + 1023) / 1024 / count * 1024;
    for (size_t i = 0; i < count; i++) {
        const size_t part = length(&parts[i]);
        CHECK(at % 1024 == 0 || part == 0);
        CHECK(part <= least + 1024 && (part + 1023 >= least || at + part == len));
        CHECK(flcol_read_u32(&parts[i], values, part, NULL, 0) == FLCOL_OK);
        CHECK(memcmp(values, items + at, part * sizeof values[0]) == 0);
        at += part;
        flcol_free(&parts[i]);
    }
    CHECK(at == len);
    flcol_free(&array);
}

static void refuses(void) {
    flcol_array none = FLCOL_EMPTY, array = FLCOL_EMPTY, out = FLCOL_EMPTY;
    CHECK(flcol_split(&none, &out, 1) == FLCOL_NO_ARRAY && out.at == NULL);
    CHECK(flcol_split(&none, NULL, 0) == FLCOL_NO_ARRAY);
    CHECK(flcol_constant_u32(7, 0, SIZE_MAX, &array) == FLCOL_OK);
    CHECK(flcol_split(&array, NULL, 0) == FLCOL_OK);
    CHECK(flcol_split(&array, &out, 1) == FLCOL_OK && length(&out) == SIZE_MAX);
    CHECK(flcol_split(&array, &out, 1) == FLCOL_OK && length(&out) == SIZE_MAX);
    flcol_array three[3] = {{NULL}, {NULL}, {NULL}};
    CHECK(flcol_split(&array, three, 3) == FLCOL_OK);
    CHECK(length(&three[0]) + length(&three[1]) + length(&three[2]) == SIZE_MAX);
    for (size_t i = 0; i < 3; i++) flcol_free(&three[i]);
    CHECK(flcol_split(&array, three, SIZE_MAX) == FLCOL_OUT_OF_MEMORY && three[0].at == NULL);
    flcol_free(&array), flcol_free(&out);
}

int main(void) {
    static const size_t lengths[] = {0, 1, 1023, 1024, 1025, 3000, 10240, MANY};
    for (size_t i = 0; i < MANY; i++) items[i] = (uint32_t)(i / 3 % 700);
    for (size_t i = 0; i < sizeof lengths / sizeof lengths[0]; i++)
        for (size_t count = 1; count <= MOST_PARTS; count++) parts_are_the_column(lengths[i], count);
    for (size_t i = 0; i < SCHEME_COUNT; i++) sums_by_threads(SCHEMES[i]);
    refuses();
    return 0;
}
