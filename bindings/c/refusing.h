/* Requests for memory that are refused, of a program that is linked with --wrap=malloc, --wrap=realloc and --wrap=free. */
#ifndef REFUSING_H
#define REFUSING_H

#include "checking.h"

enum { ALL = -1 };

/* How many requests are granted before one is refused, how many pieces of memory are held, how many were refused. */
static long granted = ALL, live, refusals;

static int is_refused(void) {
    if (granted > 0) granted--;
    else if (granted == 0) return 1;
    return 0;
}

#ifdef __cplusplus
extern "C" {
#endif
void *__real_malloc(size_t len);
void *__real_realloc(void *old, size_t len);
void __real_free(void *old);

void *__wrap_malloc(size_t len) {
    if (is_refused()) return NULL;
    live++;
    return __real_malloc(len);
}

void *__wrap_realloc(void *old, size_t len) {
    if (is_refused()) return NULL;
    live += old == NULL;
    return __real_realloc(old, len);
}

void __wrap_free(void *old) {
    live -= old != NULL;
    __real_free(old);
}
#ifdef __cplusplus
}
#endif

#endif
