/* Columns and streams of Arrow that one thread exports, and others take over while it goes on with the array. */
#include "arrow_columns.h"
#include <pthread.h>

enum { THREADS = 2, ROUNDS = 20, ITEMS = 2000, CHUNKS = 3 };

static uint8_t values[ITEMS * 4];

/* What a thread is given: an array to import, one to release, and a stream of chunks. */
struct given {
    struct ArrowArray array, other;
    struct ArrowSchema schema, other_schema;
    struct ArrowArrayStream stream;
};

static void has_all(flcol_array *array) {
    CHECK(has_items(array, &TYPES[FLCOL_U32], values, NULL, 0, ITEMS));
}

static void *take_over(void *argument) {
    struct given *given = (struct given *)argument;
    flcol_array out = FLCOL_EMPTY;
    CHECK(flcol_import_arrow(&given->array, &given->schema, &out) == FLCOL_OK);
    has_all(&out);
    given->other.release(&given->other), given->other_schema.release(&given->other_schema);
    for (int chunk = 0; chunk < CHUNKS; chunk++) {
        CHECK(flcol_import_arrow_stream(&given->stream, &out) == FLCOL_OK);
        has_all(&out);
    }
    CHECK(flcol_import_arrow_stream(&given->stream, &out) == FLCOL_OK && out.at == NULL);
    given->stream.release(&given->stream);
    return argument;
}

static void give(flcol_array *array, struct given *given) {
    flcol_array chunks[CHUNKS] = {{NULL}, {NULL}, {NULL}};
    for (int chunk = 0; chunk < CHUNKS; chunk++) CHECK(flcol_slice(array, 0, ITEMS, &chunks[chunk]) == FLCOL_OK);
    CHECK(flcol_export_arrow(array, &given->array, &given->schema) == FLCOL_OK);
    CHECK(flcol_export_arrow(array, &given->other, &given->other_schema) == FLCOL_OK);
    CHECK(flcol_export_arrow_stream(chunks, CHUNKS, &given->stream) == FLCOL_OK);
}

static void hand_over(const char *scheme) {
    pthread_t threads[THREADS];
    struct given given[THREADS];
    flcol_array plain = FLCOL_EMPTY, array = FLCOL_EMPTY;
    CHECK(TYPES[FLCOL_U32].from(values, ITEMS, NULL, 0, &plain) == FLCOL_OK && encode(&plain, scheme, &array) == FLCOL_OK);
    for (int t = 0; t < THREADS; t++) {
        give(&array, &given[t]);
        CHECK(pthread_create(&threads[t], NULL, take_over, &given[t]) == 0);
    }
    has_all(&array);
    flcol_free(&plain), flcol_free(&array);
    for (int t = 0; t < THREADS; t++) CHECK(pthread_join(threads[t], NULL) == 0);
}

int main(void) {
    for (size_t i = 0; i < ITEMS; i++) values[4 * i] = (uint8_t)(i / 4 % 200);
    for (size_t round = 0; round < ROUNDS; round++) hand_over(SCHEMES[round % SCHEME_COUNT]);
    return 0;
}
