/* flcol_each(blob): a table of the items with their indices, in their order. An index is a row's id too. */
#include "functions.h"

#include <string.h>

enum { ROW_ID = -1, INDEX, VALUE, CONTAINER }; /* the table's columns; the last is the argument */

/* What is known of the indices that are asked for, behind the container; or that there is no container. */
enum { EQUAL = 1, LEAST = 2, GREATEST = 4, UNKNOWN = 8 };

struct cursor {
    sqlite3_vtab_cursor base;
    sqlite3_value *container; /* the argument */
    struct column column;
    struct window window;
    size_t index;
    size_t end; /* the rows are those below it */
    struct item item;
};

/* Says what a status means, for the statement's error. */
static int fail(sqlite3_vtab *table, int32_t status) {
    if (status == FLCOL_OUT_OF_MEMORY) return SQLITE_NOMEM;
    sqlite3_free(table->zErrMsg);
    char text[REFUSAL_TEXT];
    refusal_text(status, text);
    table->zErrMsg = sqlite3_mprintf("%s", text);
    return table->zErrMsg == NULL ? SQLITE_NOMEM : SQLITE_ERROR;
}

static int connect(sqlite3 *db, void *aux, int argc, const char *const *argv, sqlite3_vtab **table, char **message) {
    (void)aux, (void)argc, (void)argv, (void)message;
    int code = sqlite3_declare_vtab(db, "CREATE TABLE x(\"index\" INTEGER, value INTEGER, container HIDDEN)");
    if (code != SQLITE_OK) return code;
    *table = sqlite3_malloc(sizeof **table);
    if (*table == NULL) return SQLITE_NOMEM;
    memset(*table, 0, sizeof **table);
    return sqlite3_vtab_config(db, SQLITE_VTAB_INNOCUOUS);
}

static int disconnect(sqlite3_vtab *table) {
    sqlite3_free(table);
    return SQLITE_OK;
}

/* How a constraint narrows the indices, if it does. */
static int narrows(const struct sqlite3_index_constraint *constraint) {
    if (!constraint->usable || (constraint->iColumn != INDEX && constraint->iColumn != ROW_ID)) return 0;
    switch (constraint->op) {
        case SQLITE_INDEX_CONSTRAINT_EQ: return EQUAL;
        case SQLITE_INDEX_CONSTRAINT_GT:
        case SQLITE_INDEX_CONSTRAINT_GE: return LEAST;
        case SQLITE_INDEX_CONSTRAINT_LT:
        case SQLITE_INDEX_CONSTRAINT_LE: return GREATEST;
        default: return 0;
    }
}

/* Has the bounds of the indices passed behind the container, the first of each kind. SQLite looks at them again, so that
   what isn't exact here, as a bound that is no integer, is so there. */
static void narrow(sqlite3_index_info *info) {
    int passed = 1;
    for (int bound = EQUAL; bound <= GREATEST; bound *= 2) {
        for (int i = 0; i < info->nConstraint && !(info->idxNum & bound); i++) {
            if (narrows(&info->aConstraint[i]) != bound) continue;
            info->aConstraintUsage[i].argvIndex = ++passed;
            info->idxNum |= bound;
        }
    }
    info->estimatedRows = info->idxNum & EQUAL ? 1 : info->idxNum != 0 ? 100000 : 1000000;
    info->estimatedCost = 1000 + (double)info->estimatedRows;
    info->orderByConsumed = info->nOrderBy == 1 && info->aOrderBy[0].iColumn <= INDEX && !info->aOrderBy[0].desc;
}

/* The container has to be given. A plan without one, as SQLite looks for where conditions are joined by OR, is dearer than all
   others; it fails where it is the only one. Rows come by their indices. */
static int best_index(sqlite3_vtab *table, sqlite3_index_info *info) {
    (void)table;
    bool is_named = false;
    for (int i = 0; i < info->nConstraint; i++) {
        if (info->aConstraint[i].iColumn != CONTAINER || info->aConstraint[i].op != SQLITE_INDEX_CONSTRAINT_EQ) continue;
        is_named = true;
        if (!info->aConstraint[i].usable) continue;
        info->aConstraintUsage[i].argvIndex = 1;
        info->aConstraintUsage[i].omit = 1;
        narrow(info);
        return SQLITE_OK;
    }
    info->idxNum = UNKNOWN;
    info->estimatedCost = 1e99;
    return is_named ? SQLITE_CONSTRAINT : SQLITE_OK;
}

static int open_cursor(sqlite3_vtab *table, sqlite3_vtab_cursor **out) {
    (void)table;
    struct cursor *cursor = sqlite3_malloc(sizeof *cursor);
    if (cursor == NULL) return SQLITE_NOMEM;
    memset(cursor, 0, offsetof(struct cursor, window));
    *out = &cursor->base;
    return SQLITE_OK;
}

/* Gives back what the cursor holds. It has no rows then. */
static void leave(struct cursor *cursor) {
    column_close(&cursor->column);
    sqlite3_value_free(cursor->container);
    cursor->container = NULL;
    cursor->index = cursor->end = cursor->window.from = cursor->window.len = 0;
}

static int close_cursor(sqlite3_vtab_cursor *base) {
    leave((struct cursor *)base);
    sqlite3_free(base);
    return SQLITE_OK;
}

/* Reads the item at the cursor, if it isn't behind the last. */
static int settle(struct cursor *cursor) {
    if (cursor->index >= cursor->end) return SQLITE_OK;
    const int32_t status = column_item(&cursor->column, &cursor->window, cursor->index, &cursor->item);
    return status == FLCOL_OK ? SQLITE_OK : fail(cursor->base.pVtab, status);
}

/* Narrows the rows to those from a bound on, and to those up to one. */
static void start_from(struct cursor *cursor, sqlite3_value *bound) {
    const int64_t least = sqlite3_value_int64(bound);
    if (sqlite3_value_type(bound) == SQLITE_INTEGER && least > 0) cursor->index = (size_t)least;
}

static void end_behind(struct cursor *cursor, sqlite3_value *bound) {
    const int64_t greatest = sqlite3_value_int64(bound);
    if (sqlite3_value_type(bound) != SQLITE_INTEGER || greatest >= (int64_t)cursor->end) return;
    cursor->end = greatest < 0 ? 0 : (size_t)greatest + 1;
}

/* Begins at the first item of the container that is passed, and within the bounds behind it; a null has none. */
static int filter(sqlite3_vtab_cursor *base, int bounds, const char *text, int count, sqlite3_value **values) {
    (void)text, (void)count;
    struct cursor *cursor = (struct cursor *)base;
    leave(cursor);
    if (bounds == UNKNOWN) return fail(base->pVtab, FLCOL_NO_ARRAY);
    if (sqlite3_value_type(values[0]) == SQLITE_NULL) return SQLITE_OK;
    cursor->container = sqlite3_value_dup(values[0]);
    if (cursor->container == NULL) return SQLITE_NOMEM;
    const int32_t status = open_value(&cursor->column, values[0]);
    if (status != FLCOL_OK) return fail(base->pVtab, status);
    cursor->end = cursor->column.len;
    if (bounds & EQUAL) start_from(cursor, *++values), end_behind(cursor, *values);
    if (bounds & LEAST) start_from(cursor, *++values);
    if (bounds & GREATEST) end_behind(cursor, *++values);
    return settle(cursor);
}

static int next(sqlite3_vtab_cursor *base) {
    struct cursor *cursor = (struct cursor *)base;
    cursor->index++;
    return settle(cursor);
}

static int is_behind(sqlite3_vtab_cursor *base) {
    const struct cursor *cursor = (struct cursor *)base;
    return cursor->index >= cursor->end;
}

static int column_at(sqlite3_vtab_cursor *base, sqlite3_context *context, int which) {
    const struct cursor *cursor = (struct cursor *)base;
    if (which == INDEX) sqlite3_result_int64(context, (sqlite3_int64)cursor->index);
    if (which == VALUE && !cursor->item.is_null) sqlite3_result_int64(context, cursor->item.value);
    if (which == CONTAINER) sqlite3_result_value(context, cursor->container);
    return SQLITE_OK;
}

static int row_id(sqlite3_vtab_cursor *base, sqlite3_int64 *id) {
    *id = (sqlite3_int64)((struct cursor *)base)->index;
    return SQLITE_OK;
}

int add_each(sqlite3 *db) {
    static const sqlite3_module module = {
        .xConnect = connect,
        .xBestIndex = best_index,
        .xDisconnect = disconnect,
        .xOpen = open_cursor,
        .xClose = close_cursor,
        .xFilter = filter,
        .xNext = next,
        .xEof = is_behind,
        .xColumn = column_at,
        .xRowid = row_id,
    };
    return sqlite3_create_module_v2(db, "flcol_each", &module, NULL, NULL);
}
