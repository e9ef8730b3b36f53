/* A file of chunks (docs/FILE.md) as an engine of SQL reads it: rows of an index and an item.
 *
 * As in column.h nothing here knows an engine, and a call that answers a status answers the first refusal. The file is mapped,
 * and one chunk of it is in memory at a time.
 */
#ifndef FLCOL_FILE_H
#define FLCOL_FILE_H

#include <stdatomic.h>

#include "column.h"

/* A status beside those of flcol.h: the system does not give the file, and errno says why. */
enum { FILE_REFUSED = -1 };

/* How many conditions on the value are kept. */
enum { FILE_TESTS = 16 };

/* What tells a file from another one, or from a later state of it. */
struct identity {
    uint64_t device;
    uint64_t inode;
    uint64_t size;
    int64_t seconds; /* when it was written last */
    int64_t nanoseconds;
};

/* A file that is mapped, and what its foot says. One of zeros but for `resize`, `owner`, `first` and `path`, which has to last
   as long, is none. */
struct chunk_file {
    resize_fn *resize;
    void *owner; /* handed to `resize` */
    const char *path;
    struct identity identity;
    const uint8_t *bytes;
    size_t len;
    uint8_t dtype;
    size_t count;
    flcol_chunk *chunks;
    int64_t first; /* the index of the first item, which is set before the file is opened */
    int64_t items; /* how many all chunks have */
};

/* Maps the file, which was opened by its path, and reads its foot. The descriptor may be closed then.
   FILE_REFUSED: it can't be mapped, or is no regular file. The statuses of a foot. FLCOL_LENGTH_OVERFLOW: an index is
   2^63-1 or above. */
int32_t file_open(struct chunk_file *file, int descriptor);

/* Reads each chunk, and compares it with what the foot says: else the statistics are believed.
   FLCOL_FILE_TOO_SHORT: the file was cut. FLCOL_LENGTH_OVERFLOW: a chunk has more than COLUMN_ITEMS items. Else as
   flcol_file_verify. */
int32_t file_verify(const struct chunk_file *file);

/* Gives back what the file holds, if it holds something. */
void file_close(struct chunk_file *file);

/* A condition: the item or the index on the left of an operator, FLCOL_EQ to FLCOL_LTE. */
struct test {
    uint8_t op;
    int64_t constant;
};

/* Which rows are asked: those with an index from `from` to below `to`, whose items meet each test. */
struct asked {
    int64_t from;
    int64_t to;
    size_t count;
    struct test tests[FILE_TESTS];
    bool is_null;     /* a null is asked, and nothing else */
    bool is_not_null; /* no null is asked */
};

/* All rows. */
struct asked ask_all(void);

/* Narrows what is asked to indices that meet a test; to items that do. What is too much to keep is left out, so that more
   rows are asked: an engine looks at its conditions again. */
void ask_index(struct asked *asked, struct test test);
void ask_value(struct asked *asked, struct test test);

/* The rows of a file that are asked, in their order. One of zeros but for the file's `resize`, `owner`, `first` and `path` is
   none. */
struct scan {
    struct chunk_file file;
    struct asked asked;
    uint8_t *plan;        /* for each chunk FLCOL_SKIP, or FLCOL_READ */
    size_t left;          /* how many chunks are read */
    atomic_size_t own;    /* where `taken` points if chunks are not shared */
    atomic_size_t *taken; /* how many chunks were taken by those who share them */
    size_t chunk;         /* the chunk that is open */
    int64_t first;        /* the index of its first item */
    struct column column; /* its items */
    struct window *window;
    size_t at; /* of the window's items those from here to below `end` are not answered yet */
    size_t end;
    size_t behind;                  /* where the next window begins */
    uint8_t met[COLUMN_WINDOW / 8]; /* which items of the window meet the tests */
};

/* A row. */
struct row {
    int64_t index;
    struct item item;
};

/* Begins to answer what is asked of the scan's file, which is open. `taken` is 0 in the beginning, and shared by those who
   answer the rows of one file together; or NULL. FLCOL_FILE_TOO_SHORT: the file was cut. The statuses of a foot, which others
   may have changed. */
int32_t scan_begin(struct scan *scan, const struct asked *asked, atomic_size_t *taken);

/* The next row of the window, if there is one: `is_row` says so. FLCOL_CAST_OUT_OF_RANGE: its item is above 2^63-1. */
int32_t scan_row(struct scan *scan, struct row *row, bool *is_row);

/* Goes on to the next window, behind the last row of the one before; `is_end` says that there is none. An engine can stop
   between two windows.
   FLCOL_FILE_TOO_SHORT: the file was cut. FLCOL_BAD_CHUNK, FLCOL_BAD_CONTAINER, any of 2 to 40: as flcol_file_chunk.
   FLCOL_BAD_STATISTICS: the chunk has another type or another number of items than the foot says.
   FLCOL_LENGTH_OVERFLOW: it has more than COLUMN_ITEMS items. */
int32_t scan_window(struct scan *scan, bool *is_end);

/* Gives back what the scan holds, its file too. */
void scan_close(struct scan *scan);

#endif
