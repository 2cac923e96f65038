/* ICU4C's collation of a locale for SQLite, the least that one would write: `SELECT icu_load('sv')` makes the collation `icu`. It is what
   sqlite_sorts.py times beside the extension of this repository. */
#include <sqlite3ext.h>
SQLITE_EXTENSION_INIT1
#include <unicode/ucol.h>

static int compare(void *with, int left_length, const void *left, int right_length, const void *right) {
    UErrorCode status = U_ZERO_ERROR;
    return ucol_strcollUTF8(with, left, left_length, right, right_length, &status);
}

static void drop(void *with) { ucol_close(with); }

static void load(sqlite3_context *call, int count, sqlite3_value **values) {
    (void)count;
    UErrorCode status = U_ZERO_ERROR;
    UCollator *made = ucol_open((const char *)sqlite3_value_text(values[0]), &status);
    if (U_FAILURE(status)) {
        sqlite3_result_error(call, u_errorName(status), -1);
        return;
    }
    int kept = sqlite3_create_collation_v2(sqlite3_context_db_handle(call), "icu", SQLITE_UTF8, made, compare, drop);
    if (kept != SQLITE_OK) {
        ucol_close(made);
        sqlite3_result_error_code(call, kept);
    }
}

int sqlite3_extension_init(sqlite3 *db, char **error, const sqlite3_api_routines *api) {
    SQLITE_EXTENSION_INIT2(api);
    (void)error;
    return sqlite3_create_function(db, "icu_load", 1, SQLITE_UTF8, NULL, load, NULL, NULL);
}
