/* Texts of schemes on a thread with a stack of 1 MB: the deepest one that is read, and deeper ones, which are refused. Prints
   the most of the stack that each call took. */
#define _DEFAULT_SOURCE
#include "checking.h"
#include <pthread.h>
#include <sys/mman.h>

enum { STACK = 1 << 20, LEVELS = 14, DEEPEST = 300000, LEN = 5000 };

/* What runs on a small stack: one call at a time, whose array stays. */
struct job {
    void (*call)(struct job *);
    const char *scheme;
    size_t scheme_len;
    flcol_array *from;
    flcol_array *made;
    uint8_t *container;
    size_t container_len;
    int32_t status;
};

static void encode_job(struct job *job) {
    job->status = flcol_encode(job->from, job->scheme, job->scheme_len, job->made);
}

static void compress_job(struct job *job) {
    job->status = flcol_compress(job->from, job->made);
}

static void deserialize_job(struct job *job) {
    job->status = flcol_deserialize(job->container, job->container_len, job->made);
}

static void read_job(struct job *job) {
    static uint32_t values[LEN];
    job->status = flcol_read_u32(job->from, values, LEN, NULL, 0);
    for (size_t i = 0; i < LEN; i++) CHECK(job->status != FLCOL_OK || values[i] == i / 3 % 700);
}

static void *start(void *argument) {
    struct job *job = (struct job *)argument;
    job->call(job);
    return NULL;
}

/* Runs a job on a stack of its own, and answers how many bytes of it were written. */
static size_t run(struct job *job) {
    pthread_t thread;
    pthread_attr_t attributes;
    uint8_t *stack = (uint8_t *)mmap(NULL, STACK, PROT_READ | PROT_WRITE, MAP_PRIVATE | MAP_ANONYMOUS | MAP_STACK, -1, 0);
    CHECK(stack != (uint8_t *)MAP_FAILED);
    memset(stack, UNWRITTEN, STACK);
    CHECK(pthread_attr_init(&attributes) == 0 && pthread_attr_setstack(&attributes, stack, STACK) == 0);
    CHECK(pthread_create(&thread, &attributes, start, job) == 0 && pthread_join(thread, NULL) == 0);
    size_t free_bytes = 0;
    while (free_bytes < STACK && stack[free_bytes] == UNWRITTEN) free_bytes++;
    CHECK(pthread_attr_destroy(&attributes) == 0 && munmap(stack, STACK) == 0);
    return STACK - free_bytes;
}

/* The text of so many words in one another, `word(word(.. last ..))` with what stands behind each child. */
static char *nested(const char *open, const char *last, const char *close, size_t levels, size_t *len) {
    const size_t each = strlen(open) + strlen(close);
    char *text = (char *)malloc(levels * each + strlen(last) + 1), *at = text;
    CHECK(text != NULL);
    for (size_t i = 1; i < levels; i++) at = (char *)memcpy(at, open, strlen(open)) + strlen(open);
    at = (char *)memcpy(at, last, strlen(last)) + strlen(last);
    for (size_t i = 1; i < levels; i++) at = (char *)memcpy(at, close, strlen(close)) + strlen(close);
    *len = (size_t)(at - text);
    return text;
}

static void tell(const char *call, const char *text, size_t len, size_t bytes) {
    printf("%-12s %.*s..: %zu KB of the stack\n", call, (int)(len < 20 ? len : 20), text, (bytes + 1023) / 1024);
}

/* Encodes by a text of fourteen words in one another, which is the deepest,, and compresses, writes, reads and decodes what it makes. */
static void goes_through(flcol_array *plain, const char *open, const char *last, const char *close) {
    flcol_array deep = FLCOL_EMPTY, again = FLCOL_EMPTY;
    struct job job = {encode_job, NULL, 0, plain, &deep, NULL, 0, -1};
    char *text = nested(open, last, close, LEVELS, &job.scheme_len);
    job.scheme = text;
    const size_t encoded = run(&job);
    CHECK(job.status == FLCOL_OK);
    tell("encode", text, job.scheme_len, encoded);
    CHECK(flcol_serialized_len(&deep, &job.container_len) == FLCOL_OK);
    job.container = (uint8_t *)malloc(job.container_len);
    CHECK(job.container != NULL && flcol_serialize(&deep, job.container, job.container_len, &job.container_len) == FLCOL_OK);
    job.call = deserialize_job, job.made = &again;
    tell("deserialize", text, job.scheme_len, run(&job));
    CHECK(job.status == FLCOL_OK);
    job.call = read_job, job.from = &again;
    tell("read", text, job.scheme_len, run(&job));
    CHECK(job.status == FLCOL_OK);
    job.call = compress_job, job.made = &deep;
    tell("compress", text, job.scheme_len, run(&job));
    CHECK(job.status == FLCOL_OK);
    free(job.container), free(text);
    flcol_free(&deep), flcol_free(&again);
}

/* Deeper texts are none, from the byte on with which the fifteenth word begins. */
static void is_refused(flcol_array *plain, const char *open, const char *last, const char *close, size_t levels) {
    flcol_array made = FLCOL_EMPTY;
    struct job job = {encode_job, NULL, 0, plain, &made, NULL, 0, -1};
    char *text = nested(open, last, close, levels, &job.scheme_len);
    job.scheme = text;
    run(&job);
    CHECK(job.status == FLCOL_BAD_SCHEME && made.at == NULL);
    free(text);
}

int main(void) {
    static const char *const forms[][3] = {{"for(", "bitpacked", ")"}, {"for(", "for", ")"},
                                           {"forc(", "for", ",_)"},    {"delta(", "delta", ",_)"},
                                           {"delta(_,", "delta", ")"}, {"rle(", "rle", ",_,_)"},
                                           {"rle(_,", "for", ",_)"},   {"rle(_,_,", "for", ")"}};
    static const size_t levels[] = {LEVELS + 1, 64, 300, DEEPEST};
    static uint32_t items[LEN];
    flcol_array plain = FLCOL_EMPTY;
    for (size_t i = 0; i < LEN; i++) items[i] = (uint32_t)(i / 3 % 700);
    CHECK(flcol_from_u32(items, LEN, NULL, 0, &plain) == FLCOL_OK);
    for (size_t form = 0; form < sizeof forms / sizeof forms[0]; form++) {
        goes_through(&plain, forms[form][0], forms[form][1], forms[form][2]);
        for (size_t i = 0; i < sizeof levels / sizeof levels[0]; i++)
            is_refused(&plain, forms[form][0], forms[form][1], forms[form][2], levels[i]);
    }
    flcol_free(&plain);
    return 0;
}
