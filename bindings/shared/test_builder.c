/* Tests of the builder by itself. */
#include <stdio.h>
#include <stdlib.h>
#include <string.h>

#include "column.h"

enum { MOST = 3000, LARGEST = MOST * 8 };

static int failed;

static void expect(bool is_so, const char *what) {
    if (!is_so) failed++, printf("not so: %s\n", what);
}

/* An engine's memory, which is never zeros at first. */
static void *resize(void *owner, void *memory, size_t size) {
    size_t *largest = owner;
    if (size > *largest) *largest = size;
    if (size == 0) return free(memory), NULL;
    if (size > LARGEST) return NULL;
    void *made = realloc(memory, size);
    return made == NULL || memory != NULL ? made : memset(made, 0xff, size);
}

/* Many items find room as long as there is any, though twice the room there was would be too much. */
static void fills_what_there_is(void) {
    size_t largest = 0;
    struct builder builder = {.type = FLCOL_I64, .most = MOST, .resize = resize, .owner = &largest};
    int pushed = 0;
    while (pushed < MOST && builder_push(&builder, (struct item){.value = pushed}) == FLCOL_OK) pushed++;
    expect(pushed == MOST, "there is room for the most items");
    expect(builder_push(&builder, (struct item){.value = 1}) == FLCOL_LENGTH_OVERFLOW, "one item more is refused");
    expect(builder.len == MOST && largest == LARGEST, "no more was asked for than the most items take");
    builder_close(&builder);
    expect(builder.most == MOST && builder.values == NULL && builder.len == 0, "a closed builder may be used again");
}

/* Bits of validity behind the last item are 0, whatever the memory had. */
static void writes_each_bit(void) {
    size_t largest = 0;
    struct builder builder = {.type = FLCOL_I16, .most = MOST, .resize = resize, .owner = &largest};
    for (int i = 0; i < 11; i++) builder_push(&builder, (struct item){.value = i, .is_null = i == 2});
    expect(builder.validity[0] == 0xfb && builder.validity[1] == 0x07, "pushed bits");
    const uint8_t more[] = {0x05};
    builder_append(&builder, (const int16_t[]){1, 2, 3}, more, 3);
    expect(builder.validity[1] == 0x2f && builder.null_count == 2, "appended bits");
    builder_close(&builder);
}

int main(void) {
    fills_what_there_is();
    writes_each_bit();
    return failed != 0;
}
