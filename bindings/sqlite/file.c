/* flcol_file: a table of the items of a file of chunks (docs/FILE.md) with their indices, in their order.
 *
 *     SELECT value FROM flcol_file('prices.flf') WHERE value < 500;
 *     CREATE VIRTUAL TABLE prices USING flcol_file('prices.flf');
 *
 * Each statement opens the file anew. It reads the chunks alone that its conditions leave. */
#define _POSIX_C_SOURCE 200809L
#include "functions.h"

#include <errno.h>
#include <fcntl.h>
#include <stdlib.h>
#include <string.h>
#include <unistd.h>

#include "file.h"

/* The table's columns; the last two are the arguments of a function. */
#define COLUMNS "CREATE TABLE x(idx INTEGER, value INTEGER"
enum { ROW_ID = -1, INDEX, VALUE, FILENAME, VERIFY };

/* How many rows a file is taken to have where it is not known yet, and which part of them a condition leaves. */
enum { SOME_ROWS = 1000000, PART_OF_BOUND = 4, PART_OF_EQUAL = 100 };

struct table {
    sqlite3_vtab base;
    sqlite3 *db;
    char *path; /* of a table that was made with one, or NULL */
    bool is_verified;
};

struct cursor {
    sqlite3_vtab_cursor base;
    char *path; /* of the file whose rows are answered, or NULL */
    bool is_verified;
    bool is_end;
    struct row row;
    struct scan scan;
};

static const char usage[] = "flcol_file takes a filename, and behind it whether the file is verified";

/* ---- Errors ---- */

static int say(sqlite3_vtab *table, int code, char *message) {
    sqlite3_free(table->zErrMsg);
    table->zErrMsg = message;
    return message == NULL ? SQLITE_NOMEM : code;
}

/* Says what a status means of a file, for the statement's error. */
static int fail(sqlite3_vtab *table, const char *path, int32_t status) {
    const int reason = errno;
    if (status == FLCOL_OUT_OF_MEMORY || (status == FILE_REFUSED && reason == ENOMEM)) return SQLITE_NOMEM;
    if (status == FILE_REFUSED) {
        return say(table, SQLITE_CANTOPEN, sqlite3_mprintf("flcol: %s: %s", path, strerror(reason)));
    }
    char text[REFUSAL_TEXT];
    refusal_text(status, text);
    return say(table, SQLITE_ERROR, sqlite3_mprintf("%s", text));
}

/* ---- The file ---- */

static void *resize(void *owner, void *memory, size_t size) {
    (void)owner;
    return sqlite3_realloc64(memory, size);
}

/* Opens the file of a path. A pipe is not waited for. */
static int32_t open_path(struct chunk_file *file, const char *path) {
    *file = (struct chunk_file){.resize = resize, .path = path};
    const int descriptor = open(path, O_RDONLY | O_CLOEXEC | O_NONBLOCK);
    if (descriptor < 0) return FILE_REFUSED;
    const int32_t status = file_open(file, descriptor);
    const int reason = errno;
    close(descriptor);
    errno = reason;
    return status;
}

/* How many rows the file has, as far as it can be said. */
static double rows_of(const char *path) {
    struct chunk_file file;
    if (path == NULL || open_path(&file, path) != FLCOL_OK) return SOME_ROWS;
    const double rows = (double)file.items;
    file_close(&file);
    return rows;
}

/* ---- The table ---- */

/* An argument of CREATE VIRTUAL TABLE without its quotes; NULL where memory runs out. */
static char *unquoted(const char *word) {
    const size_t len = strlen(word);
    char *text = sqlite3_malloc64(len + 1), *end = text;
    if (text == NULL) return NULL;
    const char quote = *word == '\'' || *word == '"' ? *word : '\0';
    const bool is_quoted = quote != '\0' && len > 1 && word[len - 1] == quote;
    for (const char *at = word + is_quoted; at < word + len - is_quoted; at++) {
        *end++ = *at;
        if (is_quoted && at[0] == quote && at[1] == quote) at++;
    }
    *end = '\0';
    return text;
}

/* The words behind the table's name: a path, or a path and `verify`. */
static int read_words(struct table *table, int count, const char *const *words, char **message) {
    table->is_verified = count == 2 && sqlite3_stricmp(words[1], "verify") == 0;
    if (count > 2 || (count == 2 && !table->is_verified)) {
        *message = sqlite3_mprintf("%s", usage);
        return SQLITE_ERROR;
    }
    table->path = unquoted(words[0]);
    return table->path == NULL ? SQLITE_NOMEM : SQLITE_OK;
}

static int disconnect(sqlite3_vtab *base) {
    sqlite3_free(((struct table *)base)->path);
    sqlite3_free(base);
    return SQLITE_OK;
}

/* A table that is made with words has no arguments. What reads files is not for schemas from strangers. */
static int connect(sqlite3 *db, void *aux, int argc, const char *const *argv, sqlite3_vtab **out, char **message) {
    (void)aux;
    const bool is_made = argc > 3;
    int code = sqlite3_declare_vtab(db, is_made ? COLUMNS ")" : COLUMNS ", filename HIDDEN, verify HIDDEN)");
    if (code == SQLITE_OK) code = sqlite3_vtab_config(db, SQLITE_VTAB_DIRECTONLY);
    if (code != SQLITE_OK) return code;
    struct table *table = sqlite3_malloc(sizeof *table);
    if (table == NULL) return SQLITE_NOMEM;
    memset(table, 0, sizeof *table);
    table->db = db;
    if (is_made) code = read_words(table, argc - 3, argv + 3, message);
    if (code == SQLITE_OK) *out = &table->base;
    if (code != SQLITE_OK) disconnect(&table->base);
    return code;
}

/* ---- Plans: a text with two letters for each value that is passed, for its column and for how it compares ---- */

static char column_letter(int column) {
    return column == VALUE ? 'v' : column == FILENAME ? 'f' : column == VERIFY ? 'y' : 'i';
}

/* The digit of FLCOL_EQ to FLCOL_LTE, `n` or `o` for a null or none; or 0, where a condition says nothing here. */
static char operator_letter(unsigned char op) {
    switch (op) {
        case SQLITE_INDEX_CONSTRAINT_EQ: return '0' + FLCOL_EQ;
        case SQLITE_INDEX_CONSTRAINT_GT: return '0' + FLCOL_GT;
        case SQLITE_INDEX_CONSTRAINT_GE: return '0' + FLCOL_GTE;
        case SQLITE_INDEX_CONSTRAINT_LT: return '0' + FLCOL_LT;
        case SQLITE_INDEX_CONSTRAINT_LE: return '0' + FLCOL_LTE;
        case SQLITE_INDEX_CONSTRAINT_ISNULL: return 'n';
        case SQLITE_INDEX_CONSTRAINT_ISNOTNULL: return 'o';
        default: return '\0';
    }
}

/* Writes the plan, and has its values passed; `rows` becomes how many rows it is taken to leave. */
static void write_plan(sqlite3_index_info *info, char *plan, double *rows) {
    int passed = 0;
    for (int i = 0; i < info->nConstraint; i++) {
        const struct sqlite3_index_constraint *it = &info->aConstraint[i];
        const char op = operator_letter(it->op);
        if (!it->usable || op == '\0') continue;
        *plan++ = column_letter(it->iColumn);
        *plan++ = op;
        info->aConstraintUsage[i].argvIndex = ++passed;
        if (it->iColumn < FILENAME) *rows /= it->op == SQLITE_INDEX_CONSTRAINT_EQ ? PART_OF_EQUAL : PART_OF_BOUND;
    }
    *plan = '\0';
}

/* SQLite looks at the conditions again, so that what isn't exact here, as a bound that is no integer, is so there. Rows come by
   their indices. */
static int plan_rows(sqlite3_index_info *info, double rows) {
    info->idxStr = sqlite3_malloc64(2 * (size_t)info->nConstraint + 1);
    if (info->idxStr == NULL) return SQLITE_NOMEM;
    info->needToFreeIdxStr = 1;
    write_plan(info, info->idxStr, &rows);
    info->estimatedRows = rows < 1 ? 1 : (sqlite3_int64)rows;
    info->estimatedCost = 1000 + rows;
    info->orderByConsumed = info->nOrderBy == 1 && info->aOrderBy[0].iColumn <= INDEX && !info->aOrderBy[0].desc;
    return SQLITE_OK;
}

/* Each argument has to be known. A plan without a filename, as SQLite looks for where conditions are joined by OR, is dearer
   than all others; it fails where it is the only one. */
static int best_index(sqlite3_vtab *base, sqlite3_index_info *info) {
    const struct table *table = (const struct table *)base;
    bool is_named = table->path != NULL;
    for (int i = 0; i < info->nConstraint; i++) {
        const struct sqlite3_index_constraint *it = &info->aConstraint[i];
        if (it->iColumn < FILENAME || it->op != SQLITE_INDEX_CONSTRAINT_EQ) continue;
        if (!it->usable) return SQLITE_CONSTRAINT;
        is_named |= it->iColumn == FILENAME;
    }
    const int code = plan_rows(info, rows_of(table->path));
    if (!is_named) info->estimatedCost = 1e99;
    return code;
}

/* ---- Rows ---- */

static int open_cursor(sqlite3_vtab *table, sqlite3_vtab_cursor **out) {
    (void)table;
    struct cursor *cursor = sqlite3_malloc(sizeof *cursor);
    if (cursor == NULL) return SQLITE_NOMEM;
    memset(cursor, 0, sizeof *cursor);
    cursor->scan.file.resize = resize;
    *out = &cursor->base;
    return SQLITE_OK;
}

/* Gives back what the cursor holds. It has no rows then. */
static void leave(struct cursor *cursor) {
    scan_close(&cursor->scan);
    sqlite3_free(cursor->path);
    cursor->path = NULL;
    cursor->is_end = true;
}

static int close_cursor(sqlite3_vtab_cursor *base) {
    leave((struct cursor *)base);
    sqlite3_free(base);
    return SQLITE_OK;
}

/* Goes on to the next row. A statement that is interrupted ends between two windows. */
static int next(sqlite3_vtab_cursor *base) {
    struct cursor *cursor = (struct cursor *)base;
    bool is_row = false;
    int32_t status = scan_row(&cursor->scan, &cursor->row, &is_row);
    while (status == FLCOL_OK && !is_row && !cursor->is_end) {
        if (is_interrupted(((struct table *)base->pVtab)->db)) return SQLITE_INTERRUPT;
        status = scan_window(&cursor->scan, &cursor->is_end);
        if (status == FLCOL_OK) status = scan_row(&cursor->scan, &cursor->row, &is_row);
    }
    return status == FLCOL_OK ? SQLITE_OK : fail(base->pVtab, cursor->path, status);
}

/* Narrows what is asked by a value that a column is compared with. Nothing compares with a null; what is no integer narrows
   nothing. */
static void ask(struct asked *asked, const char *letters, sqlite3_value *value) {
    const bool is_value = letters[0] == 'v';
    if (letters[1] == 'n') asked->is_null |= is_value;
    if (letters[1] == 'o') asked->is_not_null |= is_value;
    if (letters[1] == 'n' || letters[1] == 'o') return;
    if (sqlite3_value_type(value) == SQLITE_NULL) asked->to = 0;
    if (sqlite3_value_type(value) != SQLITE_INTEGER) return;
    const struct test test = {.op = (uint8_t)(letters[1] - '0'), .constant = sqlite3_value_int64(value)};
    if (is_value) {
        ask_value(asked, test);
    } else {
        ask_index(asked, test);
    }
}

/* Keeps an argument of the function. A null names no file. */
static int take_argument(struct cursor *cursor, char column, sqlite3_value *value) {
    const int type = sqlite3_value_type(value);
    const bool is_filename = column == 'f';
    if (type != (is_filename ? SQLITE_TEXT : SQLITE_INTEGER)) {
        return type == SQLITE_NULL ? SQLITE_OK : say(cursor->base.pVtab, SQLITE_ERROR, sqlite3_mprintf("%s", usage));
    }
    if (!is_filename) cursor->is_verified = sqlite3_value_int64(value) != 0;
    if (!is_filename) return SQLITE_OK;
    sqlite3_free(cursor->path);
    cursor->path = sqlite3_mprintf("%s", sqlite3_value_text(value));
    return cursor->path == NULL ? SQLITE_NOMEM : SQLITE_OK;
}

/* Takes what the plan's values say. A table without a filename has to be given one. */
static int take_values(struct cursor *cursor, const char *plan, sqlite3_value **values, struct asked *asked) {
    bool is_named = cursor->path != NULL;
    int code = SQLITE_OK;
    for (; *plan != '\0' && code == SQLITE_OK; plan += 2, values++) {
        const bool is_argument = plan[0] == 'f' || plan[0] == 'y';
        if (!is_argument) ask(asked, plan, *values);
        if (is_argument && plan[1] == '0' + FLCOL_EQ) code = take_argument(cursor, plan[0], *values);
        is_named |= plan[0] == 'f';
    }
    return code != SQLITE_OK || is_named ? code : say(cursor->base.pVtab, SQLITE_ERROR, sqlite3_mprintf("%s", usage));
}

/* Begins at the first row that is asked. */
static int filter(sqlite3_vtab_cursor *base, int number, const char *plan, int count, sqlite3_value **values) {
    (void)number, (void)count;
    struct cursor *cursor = (struct cursor *)base;
    const struct table *table = (const struct table *)base->pVtab;
    struct asked asked = ask_all();
    leave(cursor);
    cursor->is_verified = table->is_verified;
    if (table->path != NULL) cursor->path = sqlite3_mprintf("%s", table->path);
    if (table->path != NULL && cursor->path == NULL) return SQLITE_NOMEM;
    const int code = take_values(cursor, plan, values, &asked);
    if (code != SQLITE_OK || cursor->path == NULL) return code;
    struct chunk_file *file = &cursor->scan.file;
    int32_t status = open_path(file, cursor->path);
    if (status == FLCOL_OK && cursor->is_verified) status = file_verify(file);
    if (status == FLCOL_OK) status = scan_begin(&cursor->scan, &asked, NULL);
    if (status != FLCOL_OK) return fail(base->pVtab, cursor->path, status);
    cursor->is_end = false;
    return next(base);
}

static int is_behind(sqlite3_vtab_cursor *base) {
    return ((struct cursor *)base)->is_end;
}

static int column_at(sqlite3_vtab_cursor *base, sqlite3_context *context, int which) {
    const struct cursor *cursor = (struct cursor *)base;
    if (which == INDEX) sqlite3_result_int64(context, cursor->row.index);
    if (which == VALUE && !cursor->row.item.is_null) sqlite3_result_int64(context, cursor->row.item.value);
    if (which == FILENAME) sqlite3_result_text(context, cursor->path, -1, SQLITE_TRANSIENT);
    if (which == VERIFY) sqlite3_result_int(context, cursor->is_verified);
    return SQLITE_OK;
}

static int row_id(sqlite3_vtab_cursor *base, sqlite3_int64 *id) {
    *id = ((struct cursor *)base)->row.index;
    return SQLITE_OK;
}

int add_file(sqlite3 *db) {
    static const sqlite3_module module = {
        .xCreate = connect,
        .xConnect = connect,
        .xBestIndex = best_index,
        .xDisconnect = disconnect,
        .xDestroy = disconnect,
        .xOpen = open_cursor,
        .xClose = close_cursor,
        .xFilter = filter,
        .xNext = next,
        .xEof = is_behind,
        .xColumn = column_at,
        .xRowid = row_id,
    };
    return sqlite3_create_module_v2(db, "flcol_file", &module, NULL, NULL);
}
