/* Threads with arrays of their own, made by the thread, and with slices of one array that the first thread made. */
#include "checking.h"
#include <pthread.h>

enum { THREADS = 2, ROUNDS = 50 };

static uint32_t items[MOST];

static void has(flcol_array *array, size_t from, size_t len) {
    uint32_t values[MOST];
    CHECK(flcol_read_u32(array, values, len, NULL, 0) == FLCOL_OK);
    CHECK(memcmp(values, items + from, len * sizeof values[0]) == 0);
}

static void *work(void *argument) {
    flcol_array plain = {NULL}, own = {NULL}, part = {NULL};
    for (size_t round = 0; round < ROUNDS; round++) {
        CHECK(flcol_from_u32(items, MOST, NULL, 0, &plain) == FLCOL_OK);
        CHECK(encode(&plain, SCHEMES[round % SCHEME_COUNT], &own) == FLCOL_OK);
        CHECK(flcol_slice(&own, round, 2000, &part) == FLCOL_OK);
        has(&own, 0, MOST);
        has(&part, round, 2000 - round);
    }
    flcol_free(&plain), flcol_free(&own), flcol_free(&part);
    return argument;
}

/* Reads and slices an array that another thread made, and frees it. */
static void *take_over(void *argument) {
    flcol_array *given = (flcol_array *)argument, part = {NULL};
    has(given, 0, 2000);
    CHECK(flcol_slice(given, 10, 1500, &part) == FLCOL_OK);
    flcol_free(given);
    has(&part, 10, 1490);
    flcol_free(&part);
    return argument;
}

static void hand_over(const char *scheme) {
    pthread_t threads[THREADS];
    flcol_array plain = {NULL}, own = {NULL}, parts[THREADS] = {{NULL}, {NULL}};
    CHECK(flcol_from_u32(items, MOST, NULL, 0, &plain) == FLCOL_OK && encode(&plain, scheme, &own) == FLCOL_OK);
    for (size_t t = 0; t < THREADS; t++) CHECK(flcol_slice(&own, 0, 2000, &parts[t]) == FLCOL_OK);
    for (size_t t = 0; t < THREADS; t++) CHECK(pthread_create(&threads[t], NULL, take_over, &parts[t]) == 0);
    has(&own, 0, MOST);
    flcol_free(&own);
    for (size_t t = 0; t < THREADS; t++) CHECK(pthread_join(threads[t], NULL) == 0);
    flcol_free(&plain);
}

int main(void) {
    pthread_t threads[THREADS];
    for (size_t i = 0; i < MOST; i++) items[i] = (uint32_t)(i / 4 % 500);
    for (size_t t = 0; t < THREADS; t++) CHECK(pthread_create(&threads[t], NULL, work, NULL) == 0);
    for (size_t t = 0; t < THREADS; t++) CHECK(pthread_join(threads[t], NULL) == 0);
    for (size_t round = 0; round < ROUNDS; round++) hand_over(SCHEMES[round % SCHEME_COUNT]);
    return 0;
}
