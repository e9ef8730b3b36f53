/* Each request for memory of each call on files of chunks refused in turn: the call answers FLCOL_OUT_OF_MEMORY, has written
   nothing, and holds no more memory than before. It is linked with --wrap=malloc, --wrap=realloc and --wrap=free. */
#include "refusing.h"

#include "files.h"

enum { LAST_CALL = -1, ROOM = 2000 };

static struct file file;
static flcol_array array = {NULL}, out = {NULL};

/* What the calls write. */
static struct {
    uint8_t room[ROOM], plan[2], dtype, none;
    size_t count, end, written;
    uint64_t number;
    flcol_integer least, greatest, sum;
    flcol_chunk chunk, chunks[2];
} outputs;

/* Makes a call. LAST_CALL is behind the last one. */
static int32_t attempt(int call) {
    static const flcol_integer constant = {4, 0};
    const uint8_t *bytes = file.bytes;
    size_t len = file.len;
    switch (call) {
    case 0: return flcol_file_look(bytes, len, &outputs.dtype, &outputs.count);
    case 1: return flcol_file_chunks(bytes, len, outputs.chunks, 2);
    case 2: return flcol_file_chunk(bytes, len, &file.chunks[0], &out);
    case 3: return flcol_file_recover(bytes, len, &outputs.end);
    case 4: return flcol_file_verify(bytes, len);
    case 5: return flcol_file_len_trusting(bytes, len, &outputs.number);
    case 6: return flcol_file_null_count_trusting(bytes, len, &outputs.number);
    case 7: return flcol_file_sum_trusting(bytes, len, &outputs.sum);
    case 8: return flcol_file_min_max_trusting(bytes, len, &outputs.least, &outputs.greatest, &outputs.none);
    case 9: return flcol_file_plan(bytes, len, FLCOL_GT, &constant, outputs.plan, 2);
    case 10: return flcol_file_plan_between(bytes, len, &constant, &constant, 0, 0, outputs.plan, 2);
    case 11: return flcol_file_count_trusting(bytes, len, FLCOL_GT, &constant, &outputs.number);
    case 12: return flcol_file_count_between_trusting(bytes, len, &constant, &constant, 0, 0, &outputs.number);
    case 13: return flcol_file_append(&array, len, outputs.room, ROOM, &outputs.written, &outputs.chunk);
    case 14: return flcol_file_finish(file.dtype, file.chunks, 2, len, outputs.room, ROOM, &outputs.written);
    default: return LAST_CALL;
    }
}

/* Refuses a call's first request, then its second, up to the call that meets no refusal. */
static void refused_in_turn(int call) {
    for (long requests = 0;; requests++) {
        long before = live;
        void *held = out.at;
        memset(&outputs, UNWRITTEN, sizeof outputs);
        granted = requests;
        int32_t status = attempt(call);
        granted = ALL;
        if (status == FLCOL_OK) {
            CHECK(requests > 0);
            return;
        }
        refusals++;
        CHECK(status == FLCOL_OUT_OF_MEMORY && live == before && out.at == held && unwritten(&outputs, sizeof outputs));
    }
}

/* What is wrong at once is said although there is no memory. */
static void at_once(void) {
    const flcol_integer constant = {4, 0};
    flcol_array none = FLCOL_EMPTY;
    flcol_chunk chunk = file.chunks[0];
    granted = 0;
    CHECK(flcol_file_plan(file.bytes, file.len, 6, &constant, outputs.plan, 2) == FLCOL_BAD_OPERATOR);
    CHECK(flcol_file_count_trusting(file.bytes, file.len, 6, &constant, &outputs.number) == FLCOL_BAD_OPERATOR);
    CHECK(flcol_file_append(&none, 4, outputs.room, ROOM, &outputs.written, &chunk) == FLCOL_NO_ARRAY);
    CHECK(flcol_file_look(file.bytes, file.len - 1, &outputs.dtype, &outputs.count) == FLCOL_BAD_MARK);
    chunk.checksum++;
    CHECK(flcol_file_chunk(file.bytes, file.len, &chunk, &out) == FLCOL_BAD_CHUNK);
    chunk.offset = file.len;
    CHECK(flcol_file_chunk(file.bytes, file.len, &chunk, &out) == FLCOL_BAD_PLACE);
    CHECK(flcol_file_finish(FLCOL_BOOL, file.chunks, 2, file.len, outputs.room, ROOM, &outputs.written) == FLCOL_UNKNOWN_TYPE);
    granted = ALL;
}

int main(void) {
    small(&file);
    CHECK(flcol_file_chunk(file.bytes, file.len, &file.chunks[0], &array) == FLCOL_OK);
    for (int call = 0; attempt(call) != LAST_CALL; call++) refused_in_turn(call);
    at_once();
    flcol_free(&array), flcol_free(&out), free(file.bytes);
    CHECK(refusals > 50 && live == 0);
    printf("%ld requests were refused\n", refusals);
    return 0;
}
