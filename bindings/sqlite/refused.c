/* Refuses memory at each request that statements over the extension make, one after the other: the statement ends with
   SQLite's error for it, nothing stays taken once the connection is closed, and the next run goes through.

   usage: refused EXTENSION STATEMENT..   says for each statement how many requests were refused. */
#define _GNU_SOURCE
#include <dlfcn.h>
#include <malloc.h>
#include <sqlite3.h>
#include <stdbool.h>
#include <stdio.h>
#include <stdlib.h>
#include <string.h>

/* ---- An allocator that refuses one request, and counts what is taken ---- */

extern void *__libc_malloc(size_t size);
extern void *__libc_calloc(size_t count, size_t size);
extern void *__libc_realloc(void *memory, size_t size);
extern void __libc_free(void *memory);

static bool is_counting, was_refused;
static long requests, to_refuse, taken;

static bool is_refused(void) {
    if (!is_counting || ++requests != to_refuse) return false;
    return was_refused = true;
}

static void *counted(void *memory) {
    taken += memory != NULL;
    return memory;
}

void *malloc(size_t size) {
    return is_refused() ? NULL : counted(__libc_malloc(size));
}

void *calloc(size_t count, size_t size) {
    return is_refused() ? NULL : counted(__libc_calloc(count, size));
}

void *realloc(void *memory, size_t size) {
    if (is_refused()) return NULL;
    return memory == NULL ? counted(__libc_malloc(size)) : __libc_realloc(memory, size);
}

void free(void *memory) {
    taken -= memory != NULL;
    __libc_free(memory);
}

/* ---- Statements ---- */

/* Runs a statement with one request refused; the answer is SQLite's code. */
static int run(const char *extension, const char *statement, long nth) {
    sqlite3 *base = NULL;
    to_refuse = nth;
    requests = 0;
    was_refused = false;
    int code = sqlite3_open(":memory:", &base);
    if (code == SQLITE_OK) code = sqlite3_enable_load_extension(base, 1);
    if (code == SQLITE_OK) code = sqlite3_load_extension(base, extension, NULL, NULL);
    is_counting = true;
    if (code == SQLITE_OK) code = sqlite3_exec(base, statement, NULL, NULL, NULL);
    is_counting = false;
    sqlite3_close(base);
    return code;
}

/* Refuses each request of a statement in turn, and says what was wrong. */
static bool refuse_each(const char *extension, const char *statement) {
    for (long nth = 1;; nth++) {
        const long before = taken;
        const int code = run(extension, statement, nth);
        if (taken != before) return printf("%s: request %ld leaves %ld\n", statement, nth, taken - before), false;
        if (!was_refused && code == SQLITE_OK) return printf("%s: %ld refused\n", statement, nth - 1), true;
        if (!was_refused) return printf("%s: code %d\n", statement, code), false;
        if (code != SQLITE_NOMEM && code != SQLITE_OK) return printf("%s: request %ld, code %d\n", statement, nth, code), false;
    }
}

int main(int count, char **words) {
    bool is_good = true;
    if (count < 3) return 2;
    sqlite3_config(SQLITE_CONFIG_LOOKASIDE, 0, 0);
    /* What is taken once for all, by the loader and by SQLite, is taken now. */
    if (dlopen(words[1], RTLD_NOW) == NULL || run(words[1], "SELECT 1", 0) != SQLITE_OK) return 1;
    for (int i = 2; i < count; i++) is_good &= refuse_each(words[1], words[i]);
    return !is_good;
}
