/* Streams of chunks that are handed over to Arrow and taken from it, with streams that fail, by a program that has Arrow's
   structs from elsewhere. It is C11 and C++17. */
#include "arrow_abi.h"
#include "arrow_columns.h"

enum { CHUNKS = 4, LONGEST = 200 };

static const size_t LENGTHS[CHUNKS] = {LONGEST, 0, 9, 64};
static uint8_t pool[LONGEST * 8], some_valid[(LONGEST + 7) / 8];

static void fill(void) {
    uint64_t state = 9;
    for (size_t i = 0; i < sizeof pool; i++) pool[i] = (uint8_t)random_below(&state, 256);
    for (size_t i = 0; i < sizeof some_valid; i++) some_valid[i] = (uint8_t)random_below(&state, 256);
}

/* The validity of a chunk: each other one has nulls. */
static const uint8_t *validity_of(size_t chunk) {
    return chunk % 2 == 1 ? some_valid : NULL;
}

/* ---- Streams of ours ---- */

static void make_chunks(const struct type *type, flcol_array *chunks) {
    for (size_t c = 0; c < CHUNKS; c++)
        CHECK(type->from(pool, LENGTHS[c], validity_of(c), validity_of(c) == NULL ? 0 : sizeof some_valid, &chunks[c]) == FLCOL_OK);
}

/* A stream that is moved once, and whose arrays are its own. */
static struct ArrowArrayStream stream_of(const struct type *type) {
    flcol_array chunks[CHUNKS] = {{NULL}, {NULL}, {NULL}, {NULL}};
    struct ArrowArrayStream stream, moved;
    make_chunks(type, chunks);
    memset(&stream, UNWRITTEN, sizeof stream);
    CHECK(flcol_export_arrow_stream(chunks, CHUNKS, &stream) == FLCOL_OK);
    for (size_t c = 0; c < CHUNKS; c++) CHECK(chunks[c].at == NULL);
    moved = stream;
    memset(&stream, 0, sizeof stream);
    return moved;
}

/* Chunks are read by Arrow's calls, as many as are asked for, and then the stream is released. */
static void reads_by_callbacks(uint8_t number, size_t count) {
    struct ArrowArrayStream stream = stream_of(&TYPES[number]);
    struct ArrowSchema schema, again;
    struct ArrowArray chunk;
    flcol_array array = FLCOL_EMPTY;
    for (size_t c = 0; c < count; c++) {
        CHECK(stream.get_schema(&stream, &schema) == 0 && stream.get_schema(&stream, &again) == 0);
        CHECK(strcmp(schema.format, TYPES[number].format) == 0 && schema.flags == ARROW_FLAG_NULLABLE);
        memset(&chunk, UNWRITTEN, sizeof chunk);
        CHECK(stream.get_next(&stream, &chunk) == 0 && stream.get_last_error(&stream) == NULL);
        if (c < CHUNKS) {
            CHECK(flcol_import_arrow(&chunk, &schema, &array) == FLCOL_OK);
            CHECK(has_items(&array, &TYPES[number], pool, validity_of(c), 0, LENGTHS[c]));
        } else {
            CHECK(chunk.release == NULL);
            schema.release(&schema);
        }
        again.release(&again);
        CHECK(schema.release == NULL && again.release == NULL);
    }
    stream.release(&stream);
    CHECK(stream.release == NULL);
    flcol_free(&array);
}

/* Chunks are read by our call, to the end and once behind it. */
static void reads_by_import(uint8_t number) {
    struct ArrowArrayStream stream = stream_of(&TYPES[number]);
    flcol_array out = FLCOL_EMPTY;
    uint8_t dtype = 0;
    for (size_t c = 0; c < CHUNKS; c++) {
        CHECK(flcol_import_arrow_stream(&stream, &out) == FLCOL_OK && flcol_dtype(&out, &dtype) == FLCOL_OK);
        CHECK(dtype == number + FLCOL_NULLABLE && has_items(&out, &TYPES[number], pool, validity_of(c), 0, LENGTHS[c]));
    }
    for (int behind = 0; behind < 2; behind++) CHECK(flcol_import_arrow_stream(&stream, &out) == FLCOL_OK && out.at == NULL);
    stream.release(&stream);
    CHECK(flcol_import_arrow_stream(&stream, &out) == FLCOL_NO_ARRAY && out.at == NULL);
}

/* A stream whose chunks have no nulls is of a type without them. */
static void is_not_nullable(void) {
    flcol_array chunks[2] = {{NULL}, {NULL}};
    struct ArrowArrayStream stream;
    struct ArrowSchema schema;
    for (int c = 0; c < 2; c++) CHECK(TYPES[FLCOL_I16].from(pool, 5, NULL, 0, &chunks[c]) == FLCOL_OK);
    CHECK(flcol_export_arrow_stream(chunks, 2, &stream) == FLCOL_OK);
    CHECK(stream.get_schema(&stream, &schema) == 0 && schema.flags == 0 && strcmp(schema.format, "s") == 0);
    schema.release(&schema), stream.release(&stream);
}

/* Nothing is taken of arrays that are no chunks of one type. */
static void refuses_what_is_no_stream(void) {
    flcol_array chunks[CHUNKS] = {{NULL}, {NULL}, {NULL}, {NULL}}, before[CHUNKS];
    struct ArrowArrayStream stream;
    memset(&stream, UNWRITTEN, sizeof stream);
    CHECK(flcol_export_arrow_stream(NULL, 0, &stream) == FLCOL_NO_ARRAY);
    make_chunks(&TYPES[FLCOL_U16], chunks);
    CHECK(TYPES[FLCOL_I16].from(pool, 5, NULL, 0, &chunks[1]) == FLCOL_OK);
    memcpy(before, chunks, sizeof chunks);
    CHECK(flcol_export_arrow_stream(chunks, CHUNKS, &stream) == FLCOL_TYPE_MISMATCH);
    CHECK(memcmp(before, chunks, sizeof chunks) == 0);
    flcol_free(&chunks[3]);
    CHECK(flcol_export_arrow_stream(chunks, CHUNKS, &stream) == FLCOL_NO_ARRAY);
    CHECK(memcmp(before, chunks, 3 * sizeof before[0]) == 0 && chunks[3].at == NULL && unwritten(&stream, sizeof stream));
    for (size_t c = 0; c < CHUNKS; c++) flcol_free(&chunks[c]);
}

/* ---- Streams of another producer ---- */

enum { FAILURE = 5, NEVER = -1 };

/* Two chunks of another producer, which may fail when it is asked for its schema, or for a chunk, or leave a schema released,
   or give a chunk of three buffers; and what it was asked for. */
struct feed {
    const char *format;
    int schema_fails, leaves_schema, fails_at, spoils_at;
    int given, schemas_given;
    struct produced chunks[2], schemas;
};

static int get_schema_of_feed(struct ArrowArrayStream *stream, struct ArrowSchema *out) {
    struct feed *feed = (struct feed *)stream->private_data;
    if (feed->schema_fails) return FAILURE;
    produce(&feed->chunks[0], &TYPES[FLCOL_I64], pool, NULL, 0, 0, 0);
    *out = feed->chunks[0].schema;
    out->format = feed->format, out->private_data = &feed->schemas;
    if (feed->leaves_schema) out->release = NULL;
    else feed->schemas_given++;
    return 0;
}

static int get_next_of_feed(struct ArrowArrayStream *stream, struct ArrowArray *out) {
    struct feed *feed = (struct feed *)stream->private_data;
    if (feed->given == feed->fails_at) return FAILURE;
    memset(out, 0, sizeof *out);
    if (feed->given == 2) return 0;
    struct produced *chunk = &feed->chunks[feed->given];
    produce(chunk, &TYPES[FLCOL_I64], pool, some_valid, 3, 60, 1);
    if (feed->given++ == feed->spoils_at) chunk->array.n_buffers = 3;
    *out = chunk->array;
    return 0;
}

static const char *get_last_error_of_feed(struct ArrowArrayStream *stream) {
    return stream->private_data == NULL ? NULL : "the feed failed";
}

static void release_feed(struct ArrowArrayStream *stream) {
    stream->release = NULL;
}

static struct ArrowArrayStream stream_of_feed(struct feed *feed) {
    struct ArrowArrayStream stream = {get_schema_of_feed, get_next_of_feed, get_last_error_of_feed, release_feed, feed};
    memset(feed, 0, sizeof *feed);
    feed->format = "l", feed->fails_at = feed->spoils_at = NEVER;
    return stream;
}

/* Whether each schema that was given was released once. */
static int schemas_are_back(const struct feed *feed) {
    return feed->schemas.schemas_released == feed->schemas_given;
}

static void imports_a_feed(void) {
    struct feed feed;
    struct ArrowArrayStream stream = stream_of_feed(&feed);
    flcol_array out = FLCOL_EMPTY;
    for (int c = 0; c < 2; c++) {
        CHECK(flcol_import_arrow_stream(&stream, &out) == FLCOL_OK && feed.chunks[c].arrays_released == 1 && schemas_are_back(&feed));
        CHECK(has_items(&out, &TYPES[FLCOL_I64], pool, some_valid, 3, 60));
    }
    CHECK(flcol_import_arrow_stream(&stream, &out) == FLCOL_OK && out.at == NULL && schemas_are_back(&feed));
    stream.release(&stream);
}

/* A failing call writes nothing, and releases what it was given. */
static void refuses(struct ArrowArrayStream *stream, struct feed *feed, int32_t status, int given) {
    flcol_array out = FLCOL_EMPTY;
    CHECK(flcol_from_i64(NULL, 0, NULL, 0, &out) == FLCOL_OK);
    void *held = out.at;
    CHECK(flcol_import_arrow_stream(stream, &out) == status && out.at == held && schemas_are_back(feed) && feed->given == given);
    CHECK(stream->release != NULL);
    flcol_free(&out);
}

static void refuses_feeds_that_fail(void) {
    struct feed feed;
    struct ArrowArrayStream stream = stream_of_feed(&feed);
    feed.schema_fails = 1, refuses(&stream, &feed, FLCOL_STREAM, 0);
    stream = stream_of_feed(&feed), feed.leaves_schema = 1, refuses(&stream, &feed, FLCOL_STREAM, 0);
    stream = stream_of_feed(&feed), feed.format = "+s", refuses(&stream, &feed, FLCOL_WRONG_TYPE, 0);
    stream = stream_of_feed(&feed), feed.fails_at = 0, refuses(&stream, &feed, FLCOL_STREAM, 0);
    stream = stream_of_feed(&feed), feed.spoils_at = 0, refuses(&stream, &feed, FLCOL_BUFFER_COUNT, 1);
    CHECK(feed.chunks[0].arrays_released == 1);
    stream.release(&stream);
}

int main(void) {
    fill();
    for (uint8_t number = 0; number < TYPE_COUNT; number++) {
        for (size_t count = 0; count <= CHUNKS + 2; count++) reads_by_callbacks(number, count);
        reads_by_import(number);
    }
    is_not_nullable();
    refuses_what_is_no_stream();
    imports_a_feed();
    refuses_feeds_that_fail();
    return 0;
}
