/* The extension's entry, by the name that SQLite makes of the file's. */
#include "functions.h"

SQLITE_EXTENSION_INIT1

__attribute__((visibility("default"))) int sqlite3_flcol_init(sqlite3 *db, char **message, const sqlite3_api_routines *api) {
    SQLITE_EXTENSION_INIT2(api);
    if (flcol_abi_version() != FLCOL_ABI_VERSION) {
        *message = sqlite3_mprintf("flcol: the library has version %u of its interface, and %d is needed",
                                   flcol_abi_version(), FLCOL_ABI_VERSION);
        return SQLITE_ERROR;
    }
    int code = add_functions(db);
    if (code == SQLITE_OK) code = add_aggregates(db);
    if (code == SQLITE_OK) code = add_each(db);
    if (code == SQLITE_OK) code = add_bits(db);
    if (code == SQLITE_OK) code = add_file(db);
    return code;
}
