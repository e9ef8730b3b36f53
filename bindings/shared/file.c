/* Files of chunks: what a foot says, which chunks a question leaves, and their rows. */
#define _POSIX_C_SOURCE 200809L
#include "file.h"

#include <errno.h>
#include <string.h>
#include <sys/mman.h>
#include <sys/stat.h>

/* ---- The file ---- */

static struct identity identity_of(const struct stat *said) {
    return (struct identity){.device = said->st_dev,
                             .inode = said->st_ino,
                             .size = (uint64_t)said->st_size,
                             .seconds = said->st_mtim.tv_sec,
                             .nanoseconds = said->st_mtim.tv_nsec};
}

/* Maps all bytes. There is no map of none. */
static int32_t map(struct chunk_file *file, int descriptor) {
    struct stat said;
    if (fstat(descriptor, &said) != 0) return FILE_REFUSED;
    if (!S_ISREG(said.st_mode)) {
        errno = S_ISDIR(said.st_mode) ? EISDIR : ENODEV;
        return FILE_REFUSED;
    }
    file->identity = identity_of(&said);
    if (said.st_size == 0) return FLCOL_FILE_TOO_SHORT;
    void *bytes = mmap(NULL, (size_t)said.st_size, PROT_READ, MAP_PRIVATE, descriptor, 0);
    if (bytes == MAP_FAILED) return FILE_REFUSED;
    file->bytes = bytes;
    file->len = (size_t)said.st_size;
    return FLCOL_OK;
}

/* Adds up the items, so that each has an index. */
static int32_t count_items(struct chunk_file *file) {
    file->items = 0;
    for (size_t i = 0; i < file->count; i++) {
        if (file->chunks[i].len > (uint64_t)(INT64_MAX - file->first - file->items)) return FLCOL_LENGTH_OVERFLOW;
        file->items += (int64_t)file->chunks[i].len;
    }
    return FLCOL_OK;
}

static int32_t read_foot(struct chunk_file *file) {
    int32_t status = flcol_file_look(file->bytes, file->len, &file->dtype, &file->count);
    if (status != FLCOL_OK || file->count == 0) return status;
    file->chunks = file->resize(file->owner, NULL, file->count * sizeof *file->chunks);
    if (file->chunks == NULL) return FLCOL_OUT_OF_MEMORY;
    status = flcol_file_chunks(file->bytes, file->len, file->chunks, file->count);
    return status == FLCOL_OK ? count_items(file) : status;
}

int32_t file_open(struct chunk_file *file, int descriptor) {
    int32_t status = map(file, descriptor);
    if (status == FLCOL_OK) status = read_foot(file);
    const int reason = errno;
    if (status != FLCOL_OK) file_close(file);
    errno = reason;
    return status;
}

void file_close(struct chunk_file *file) {
    file->resize(file->owner, file->chunks, 0);
    if (file->bytes != NULL) munmap((void *)(uintptr_t)file->bytes, file->len);
    file->chunks = NULL;
    file->bytes = NULL;
    file->len = file->count = 0;
}

/* Whether the file is shorter by now: the system ends a process that reads behind the end of a mapped file. One that took its
   place leaves the map as it was. */
static bool was_cut(const struct chunk_file *file) {
    struct stat said;
    if (stat(file->path, &said) != 0) return false;
    const struct identity identity = identity_of(&said);
    return identity.device == file->identity.device && identity.inode == file->identity.inode && identity.size < file->len;
}

int32_t file_verify(const struct chunk_file *file) {
    if (was_cut(file)) return FLCOL_FILE_TOO_SHORT;
    for (size_t i = 0; i < file->count; i++)
        if (file->chunks[i].len > COLUMN_ITEMS) return FLCOL_LENGTH_OVERFLOW;
    return flcol_file_verify(file->bytes, file->len);
}

/* ---- What is asked ---- */

struct asked ask_all(void) {
    return (struct asked){.to = INT64_MAX};
}

static void start_from(struct asked *asked, int64_t least) {
    if (least > asked->from) asked->from = least;
}

static void end_before(struct asked *asked, int64_t end) {
    if (end < asked->to) asked->to = end < 0 ? 0 : end;
}

/* The end is exact up to INT64_MAX, which is no index. */
void ask_index(struct asked *asked, struct test test) {
    const int64_t next = test.constant == INT64_MAX ? INT64_MAX : test.constant + 1;
    switch (test.op) {
        case FLCOL_EQ: start_from(asked, test.constant), end_before(asked, next); break;
        case FLCOL_GT: start_from(asked, next); break;
        case FLCOL_GTE: start_from(asked, test.constant); break;
        case FLCOL_LT: end_before(asked, test.constant); break;
        case FLCOL_LTE: end_before(asked, next); break;
        default: break;
    }
}

void ask_value(struct asked *asked, struct test test) {
    if (asked->count < FILE_TESTS) asked->tests[asked->count++] = test;
}

/* ---- Which chunks are read ---- */

/* Skips the chunks of which the foot says that no item meets a test. `answer` is room for an answer for each chunk. */
static int32_t skip_by(struct scan *scan, struct test test, uint8_t *answer) {
    const struct chunk_file *file = &scan->file;
    const flcol_integer constant = {.low = (uint64_t)test.constant, .high = test.constant < 0 ? -1 : 0};
    const int32_t status = flcol_file_plan(file->bytes, file->len, test.op, &constant, answer, file->count);
    for (size_t i = 0; status == FLCOL_OK && i < file->count; i++)
        if (answer[i] == FLCOL_SKIP) scan->plan[i] = FLCOL_SKIP;
    return status;
}

/* Whether a chunk has an index that is asked, and a null or an item that is none where such are asked alone. */
static bool is_asked(const struct asked *asked, const flcol_chunk *chunk, int64_t first) {
    const bool has_nulls = chunk->null_count > 0, has_others = chunk->null_count < chunk->len;
    return first < asked->to && first + (int64_t)chunk->len > asked->from && (has_nulls || !asked->is_null) &&
           (has_others || !asked->is_not_null) && chunk->len > 0;
}

static int32_t make_plan(struct scan *scan) {
    const struct chunk_file *file = &scan->file;
    int64_t first = file->first;
    int32_t status = FLCOL_OK;
    for (size_t i = 0; i < file->count; i++) {
        scan->plan[i] = is_asked(&scan->asked, &file->chunks[i], first) ? FLCOL_READ : FLCOL_SKIP;
        first += (int64_t)file->chunks[i].len;
    }
    for (size_t i = 0; status == FLCOL_OK && i < scan->asked.count; i++)
        status = skip_by(scan, scan->asked.tests[i], scan->plan + file->count);
    scan->left = 0;
    for (size_t i = 0; i < file->count; i++) scan->left += scan->plan[i] != FLCOL_SKIP;
    return status;
}

/* Gives the open chunk back, if there is one. */
static void drop_chunk(struct scan *scan) {
    column_close(&scan->column);
    scan->file.resize(scan->file.owner, scan->window, 0);
    scan->window = NULL;
    scan->at = scan->end = scan->behind = scan->column.len = 0;
}

int32_t scan_begin(struct scan *scan, const struct asked *asked, atomic_size_t *taken) {
    struct chunk_file *file = &scan->file;
    drop_chunk(scan);
    scan->asked = *asked;
    scan->taken = taken == NULL ? &scan->own : taken;
    atomic_init(&scan->own, 0);
    scan->chunk = 0;
    scan->first = file->first;
    if (was_cut(file)) return FLCOL_FILE_TOO_SHORT;
    if (scan->plan == NULL && file->count > 0) scan->plan = file->resize(file->owner, NULL, 2 * file->count);
    if (scan->plan == NULL && file->count > 0) return FLCOL_OUT_OF_MEMORY;
    return make_plan(scan);
}

void scan_close(struct scan *scan) {
    drop_chunk(scan);
    scan->file.resize(scan->file.owner, scan->plan, 0);
    scan->plan = NULL;
    file_close(&scan->file);
}

/* ---- Rows ---- */

/* Takes the next chunk that is read, if there is one. Its number is above that of the one before. */
static bool take_chunk(struct scan *scan) {
    size_t chunk;
    do {
        chunk = atomic_fetch_add(scan->taken, 1);
    } while (chunk < scan->file.count && scan->plan[chunk] == FLCOL_SKIP);
    if (chunk >= scan->file.count) return false;
    for (; scan->chunk < chunk; scan->chunk++) scan->first += (int64_t)scan->file.chunks[scan->chunk].len;
    return true;
}

static int32_t read_chunk(struct scan *scan) {
    const struct chunk_file *file = &scan->file;
    const flcol_chunk *chunk = &file->chunks[scan->chunk];
    if (was_cut(file)) return FLCOL_FILE_TOO_SHORT;
    int32_t status = flcol_file_chunk(file->bytes, file->len, chunk, &scan->column.array);
    if (status == FLCOL_OK) status = column_take(&scan->column);
    if (status != FLCOL_OK) return status;
    if (scan->column.type != file->dtype % FLCOL_NULLABLE || scan->column.len != chunk->len) return FLCOL_BAD_STATISTICS;
    scan->window = file->resize(file->owner, NULL, sizeof *scan->window);
    if (scan->window == NULL) return FLCOL_OUT_OF_MEMORY;
    scan->window->from = scan->window->len = 0;
    return FLCOL_OK;
}

/* Opens the next chunk that is read. */
static int32_t open_chunk(struct scan *scan, bool *is_end) {
    drop_chunk(scan);
    *is_end = !take_chunk(scan);
    const int32_t status = *is_end ? FLCOL_OK : read_chunk(scan);
    if (status != FLCOL_OK) drop_chunk(scan);
    return status;
}

static size_t within(int64_t index, size_t least, size_t greatest) {
    if (index < 0 || (uint64_t)index < least) return least;
    return (uint64_t)index > greatest ? greatest : (size_t)index;
}

/* Opens the window that begins at an item of the chunk: its items that are asked, and which of them meet the tests. */
static int32_t open_window(struct scan *scan, size_t from) {
    const struct asked *asked = &scan->asked;
    const size_t left = scan->column.len - from, len = left < COLUMN_WINDOW ? left : COLUMN_WINDOW;
    scan->behind = from + len;
    scan->at = within(asked->from - scan->first, from, scan->behind);
    scan->end = within(asked->to - scan->first, scan->at, scan->behind);
    memset(scan->met, 255, sizeof scan->met);
    for (size_t i = 0; scan->at < scan->end && i < asked->count; i++) {
        const int32_t status = column_keep(&scan->column, from, asked->tests[i].op, asked->tests[i].constant, scan->met);
        if (status != FLCOL_OK) return status;
    }
    return FLCOL_OK;
}

int32_t scan_window(struct scan *scan, bool *is_end) {
    *is_end = false;
    scan->at = scan->end;
    const int32_t status = scan->behind < scan->column.len ? FLCOL_OK : open_chunk(scan, is_end);
    return status != FLCOL_OK || *is_end ? status : open_window(scan, scan->behind);
}

int32_t scan_row(struct scan *scan, struct row *row, bool *is_row) {
    size_t at = scan->at;
    for (*is_row = false; at < scan->end && !*is_row; at++) {
        const uint8_t met = scan->met[at % COLUMN_WINDOW / 8];
        if (met == 0) at |= 7; /* none of eight */
        *is_row = met >> at % 8 & 1;
    }
    scan->at = at;
    if (!*is_row) return FLCOL_OK;
    row->index = scan->first + (int64_t)at - 1;
    return column_item(&scan->column, scan->window, at - 1, &row->item);
}
