/* Each request for memory refused in turn, of arrays and streams that are handed over to Arrow and taken from it: nothing is
   written or taken then, and nothing lost. It is linked with --wrap=malloc, --wrap=realloc and --wrap=free. */
#include "arrow_columns.h"
#include "refusing.h"

enum { ITEMS = 1500, CHUNKS = 2 };

/* The array that is handed over, of a type, and what it was made of. */
static flcol_array array = {NULL};
static const struct type *type;
static uint8_t values[ITEMS * 8], validity[(ITEMS + 7) / 8];

/* Whether a call that was granted so many requests did what it is for, or was refused one of them. */
static int is_done(int32_t status) {
    granted = ALL;
    CHECK(status == FLCOL_OK || status == FLCOL_OUT_OF_MEMORY);
    return status == FLCOL_OK;
}

static int has_all(flcol_array *it) {
    return has_items(it, type, values, validity, 0, ITEMS);
}

static int exports(long requests) {
    struct ArrowArray exported;
    struct ArrowSchema schema;
    memset(&exported, UNWRITTEN, sizeof exported), memset(&schema, UNWRITTEN, sizeof schema);
    granted = requests;
    if (is_done(flcol_export_arrow(&array, &exported, &schema))) return exported.release(&exported), schema.release(&schema), 1;
    CHECK(unwritten(&exported, sizeof exported) && unwritten(&schema, sizeof schema));
    return 0;
}

static int imports_from(size_t address, long requests) {
    struct produced of;
    flcol_array out = FLCOL_EMPTY;
    produce(&of, type, values, validity, 3, ITEMS - 3, address);
    granted = requests;
    int done = is_done(flcol_import_arrow(&of.array, &of.schema, &out));
    if (done) CHECK(has_items(&out, type, values, validity, 3, ITEMS - 3) && of.arrays_released == 1 && of.schemas_released == 1);
    CHECK(done || out.at == NULL);
    if (!done) give_up(&of);
    flcol_free(&out);
    return done;
}

static int imports(long requests) {
    return imports_from(0, requests);
}

static int imports_from_odd_addresses(long requests) {
    return imports_from(1, requests);
}

/* Two arrays of all items. */
static void copy_array(flcol_array *chunks) {
    for (int c = 0; c < CHUNKS; c++) CHECK(flcol_slice(&array, 0, ITEMS, &chunks[c]) == FLCOL_OK);
}

static int exports_stream(long requests) {
    flcol_array chunks[CHUNKS] = {{NULL}, {NULL}}, before[CHUNKS];
    struct ArrowArrayStream stream;
    copy_array(chunks);
    memcpy(before, chunks, sizeof chunks);
    memset(&stream, UNWRITTEN, sizeof stream);
    granted = requests;
    int done = is_done(flcol_export_arrow_stream(chunks, CHUNKS, &stream));
    if (done) stream.release(&stream);
    else CHECK(unwritten(&stream, sizeof stream) && memcmp(before, chunks, sizeof chunks) == 0);
    for (int c = 0; c < CHUNKS; c++) flcol_free(&chunks[c]);
    return done;
}

static struct ArrowArrayStream new_stream(void) {
    flcol_array chunks[CHUNKS] = {{NULL}, {NULL}};
    struct ArrowArrayStream stream;
    copy_array(chunks);
    CHECK(flcol_export_arrow_stream(chunks, CHUNKS, &stream) == FLCOL_OK);
    return stream;
}

/* A stream says that memory ran out, and then still has all its chunks. */
static int gives_next(long requests) {
    struct ArrowArrayStream stream = new_stream();
    struct ArrowArray chunk;
    struct ArrowSchema schema;
    flcol_array out = FLCOL_EMPTY;
    granted = requests;
    int done = stream.get_next(&stream, &chunk) == 0;
    granted = ALL;
    CHECK(done == (stream.get_last_error(&stream) == NULL));
    CHECK(done || strcmp(stream.get_last_error(&stream), flcol_status_message(FLCOL_OUT_OF_MEMORY)) == 0);
    CHECK(done || (stream.get_next(&stream, &chunk) == 0 && stream.get_last_error(&stream) == NULL));
    CHECK(stream.get_schema(&stream, &schema) == 0 && flcol_import_arrow(&chunk, &schema, &out) == FLCOL_OK && has_all(&out));
    CHECK(flcol_import_arrow_stream(&stream, &out) == FLCOL_OK && has_all(&out));
    CHECK(flcol_import_arrow_stream(&stream, &out) == FLCOL_OK && out.at == NULL);
    stream.release(&stream);
    return done;
}

/* A stream of ours is read: where its request is refused it fails. */
static int imports_stream(long requests) {
    struct ArrowArrayStream stream = new_stream();
    flcol_array out = FLCOL_EMPTY;
    granted = requests;
    int32_t status = flcol_import_arrow_stream(&stream, &out);
    granted = ALL;
    CHECK(status == FLCOL_OK || status == FLCOL_OUT_OF_MEMORY || status == FLCOL_STREAM);
    CHECK(status == FLCOL_OK ? has_all(&out) : out.at == NULL);
    stream.release(&stream), flcol_free(&out);
    return status == FLCOL_OK;
}

static int inspects(long requests) {
    static uint8_t container[40000];
    size_t len = 0, text_len = 0, whole_len = 0;
    char text[100], whole[100];
    CHECK(flcol_serialize(&array, container, sizeof container, &len) == FLCOL_OK);
    memset(text, UNWRITTEN, sizeof text), memset(whole, UNWRITTEN, sizeof whole);
    CHECK(flcol_inspect(container, len, whole, sizeof whole, &whole_len) == FLCOL_OK);
    granted = requests;
    int done = is_done(flcol_inspect(container, len, text, sizeof text, &text_len));
    CHECK(done ? text_len == whole_len && memcmp(text, whole, sizeof text) == 0 : text_len == 0 && unwritten(text, sizeof text));
    return done;
}

/* Refuses the first request of what is tried, then the second, up to the try that meets no refusal; and says how many there
   were. */
static long refused_in_turn(int (*try_with)(long requests)) {
    long requests = 0, before = live;
    for (; !try_with(requests); requests++) CHECK(live == before);
    refusals += requests;
    CHECK(live == before && has_all(&array));
    return requests;
}

static void refuses(uint8_t number, const char *scheme) {
    flcol_array plain = FLCOL_EMPTY;
    type = &TYPES[number];
    memset(values, 0, sizeof values);
    for (size_t i = 0; i < ITEMS; i++) {
        if (number == FLCOL_BOOL) set_bit(values, i, i % 5 < 2);
        else values[i * type->bits / 8] = (uint8_t)(i / 50 % 9);
        set_bit(validity, i, i % 9 != 4);
    }
    CHECK(type->from(values, ITEMS, validity, sizeof validity, scheme == NULL ? &array : &plain) == FLCOL_OK);
    if (scheme != NULL) CHECK(encode(&plain, scheme, &array) == FLCOL_OK);
    flcol_free(&plain);
    int (*const tries[])(long requests) = {exports, exports_stream, gives_next, imports_stream, inspects};
    for (size_t t = 0; t < sizeof tries / sizeof tries[0]; t++) refused_in_turn(tries[t]);
    int moves = type->bits > 8; /* values that may not lie at odd addresses take memory of their own */
    CHECK(refused_in_turn(imports_from_odd_addresses) == refused_in_turn(imports) + moves);
    flcol_free(&array);
    CHECK(live == 0);
}

int main(void) {
    for (uint8_t number = 0; number < TYPE_COUNT; number++) refuses(number, NULL);
    refuses(FLCOL_I32, "for(bitpacked)"), refuses(FLCOL_U64, "delta(bitpacked,_)"), refuses(FLCOL_I8, "rle(for(bitpacked),bitpacked,_)");
    printf("%ld requests were refused\n", refusals);
    CHECK(refusals > 100);
    return 0;
}
