/* An extension of SQLite: collations by name, sort keys, and search.

     .load ./collate_sqlite
     SELECT name FROM people ORDER BY name COLLATE sv;         -- by FOLDER/sv.table
     SELECT collate_load('sv1', '/folder/sv.table', 'und-u-ks-level1');
     CREATE INDEX by_key ON people(collate_key(name, 'sv'));
     SELECT name FROM people WHERE collate_key(name, 'sv') >= collate_low('mü', 'sv')
       AND collate_key(name, 'sv') < collate_high('mü', 'sv');
     SELECT name FROM people WHERE collate_find(name, 'muller', 'sv1');

   A collation that isn't there yet is looked for as FOLDER/NAME.table, FOLDER being COLLATE_TABLES of the environment,
   or else what this file was compiled with. What a table file says is checked each time one is opened.

   Each name has one handle for a connection, by which SQLite makes one call at a time. */
#include <sqlite3ext.h>
SQLITE_EXTENSION_INIT1
#include "../c/collate.h"
#include <stdio.h>
#include <stdlib.h>
#include <string.h>

#ifndef COLLATE_TABLES
#define COLLATE_TABLES "/usr/share/collate"
#endif

typedef struct named {
    struct named *next;
    collate_handle handle;
    uint8_t fingerprint[COLLATE_FINGERPRINT];
    char name[];
} named;

typedef struct {
    named *first;
    int owners;
} loaded;

/* ---- the collations of a connection */

static named *find(loaded *all, const char *name) {
    named *it = all->first;
    while (it && sqlite3_stricmp(it->name, name)) it = it->next;
    return it;
}

static void release(void *with) {
    loaded *all = with;
    if (--all->owners) return;
    for (named *it = all->first, *next; it; it = next) {
        next = it->next;
        collate_close(&it->handle);
        sqlite3_free(it);
    }
    sqlite3_free(all);
}

static int compare(void *with, int left_length, const void *left, int right_length, const void *right) {
    return collate_compare_utf8(&((named *)with)->handle, collate_text(left), (size_t)left_length, collate_text(right),
                                (size_t)right_length);
}

static uint8_t *file_bytes(const char *path, size_t *length) {
    FILE *file = fopen(path, "rb");
    if (!file) return NULL;
    uint8_t *bytes = NULL;
    long size = -1;
    if (!fseek(file, 0, SEEK_END) && (size = ftell(file)) >= 0 && !fseek(file, 0, SEEK_SET))
        bytes = sqlite3_malloc64((sqlite3_uint64)size + 1);
    if (bytes && fread(bytes, 1, (size_t)size, file) != (size_t)size) {
        sqlite3_free(bytes);
        bytes = NULL;
    }
    fclose(file);
    *length = (size_t)size;
    return bytes;
}

/* Opens a file under a name, or NULL with a message that the caller frees, NULL if memory ran out. */
static named *open_file(const char *name, const char *path, const char *tag, char **fault) {
    size_t length = 0;
    uint8_t *bytes = file_bytes(path, &length);
    *fault = NULL;
    if (!bytes) {
        *fault = sqlite3_mprintf("%s can't be read", path);
        return NULL;
    }
    named *made = sqlite3_malloc64(sizeof *made + strlen(name) + 1);
    int32_t status = COLLATE_NO_MEMORY;
    if (made) {
        memset(made, 0, sizeof *made);
        strcpy(made->name, name);
        status = collate_open(&made->handle, bytes, length, collate_text(tag), strlen(tag));
    }
    sqlite3_free(bytes);
    if (status == COLLATE_DONE) status = collate_fingerprint(&made->handle, made->fingerprint, sizeof made->fingerprint);
    if (status == COLLATE_DONE) return made;
    uint8_t said[128];
    size_t said_length = 0;
    if (status != COLLATE_NO_MEMORY && collate_message(status, said, sizeof said, &said_length) == COLLATE_DONE)
        *fault = sqlite3_mprintf("%s: %.*s", path, (int)said_length, (const char *)said);
    if (made) collate_close(&made->handle);
    sqlite3_free(made);
    return NULL;
}

/* Keeps what was opened, and makes it a collation of the connection. */
static int keep(sqlite3 *db, loaded *all, named *made) {
    int status = sqlite3_create_collation_v2(db, made->name, SQLITE_UTF8, made, compare, NULL);
    if (status != SQLITE_OK) {
        collate_close(&made->handle);
        sqlite3_free(made);
        return status;
    }
    made->next = all->first;
    all->first = made;
    return SQLITE_OK;
}

/* Whether a name may be that of a file of the folder: letters, digits, hyphens and underscores. */
static int is_plain(const char *name) {
    size_t length = strspn(name, "abcdefghijklmnopqrstuvwxyzABCDEFGHIJKLMNOPQRSTUVWXYZ0123456789-_");
    return length && length < 128 && !name[length];
}

/* The collation of a name, opened from the folder if it isn't there yet. */
static named *needed(sqlite3 *db, loaded *all, const char *name, char **fault) {
    *fault = NULL;
    named *it = find(all, name);
    if (it) return it;
    if (!is_plain(name)) {
        *fault = sqlite3_mprintf("no collation %s is loaded", name);
        return NULL;
    }
    const char *folder = getenv("COLLATE_TABLES");
    char *path = sqlite3_mprintf("%s/%s.table", folder ? folder : COLLATE_TABLES, name);
    if (!path) return NULL;
    it = open_file(name, path, "", fault);
    sqlite3_free(path);
    if (it && keep(db, all, it) != SQLITE_OK) {
        *fault = sqlite3_mprintf("%s", sqlite3_errmsg(db));
        return NULL;
    }
    return it;
}

static void on_needed(void *with, sqlite3 *db, int encoding, const char *name) {
    char *fault;
    (void)encoding;
    needed(db, with, name, &fault);
    /* SQLite says itself that there is no such collation. */
    sqlite3_free(fault);
}

/* ---- the functions */

static void fail(sqlite3_context *call, char *fault) {
    if (!fault) {
        sqlite3_result_error_nomem(call);
        return;
    }
    sqlite3_result_error(call, fault, -1);
    sqlite3_free(fault);
}

/* collate_load(name, file[, tag]): the name is a collation from here on. A name that is loaded stays as it is: a statement
   or an index may rest on it. */
static void load(sqlite3_context *call, int count, sqlite3_value **values) {
    loaded *all = sqlite3_user_data(call);
    const char *name = (const char *)sqlite3_value_text(values[0]), *path = (const char *)sqlite3_value_text(values[1]);
    const char *tag = count > 2 ? (const char *)sqlite3_value_text(values[2]) : "";
    if (!name || !*name || !path || !tag) {
        sqlite3_result_error(call, "collate_load(name, file[, tag of settings])", -1);
        return;
    }
    char *fault;
    named *made = open_file(name, path, tag, &fault);
    if (!made) {
        fail(call, fault);
        return;
    }
    named *before = find(all, name);
    int same = before && !memcmp(before->fingerprint, made->fingerprint, sizeof made->fingerprint);
    if (before) {
        collate_close(&made->handle);
        sqlite3_free(made);
        if (!same) {
            fail(call, sqlite3_mprintf("collation %s is loaded already, by other tables or settings: open a new connection",
                                       name));
            return;
        }
    } else if (keep(sqlite3_context_db_handle(call), all, made) != SQLITE_OK) {
        fail(call, sqlite3_mprintf("%s", sqlite3_errmsg(sqlite3_context_db_handle(call))));
        return;
    }
    sqlite3_result_text(call, name, -1, SQLITE_TRANSIENT);
}

/* The collation of a name, or NULL after the call has failed with the reason. */
static named *asked(sqlite3_context *call, const char *name) {
    char *fault = NULL;
    named *with = name ? needed(sqlite3_context_db_handle(call), sqlite3_user_data(call), name, &fault) : NULL;
    if (!with) fail(call, name ? fault : sqlite3_mprintf("no collation is named"));
    return with;
}

typedef int32_t writer(collate_handle *, const uint8_t *, size_t, uint8_t *, size_t, size_t *);

/* What a call writes of a text, as a BLOB; NULL of NULL, and if there is no bound. */
static void write_by(sqlite3_context *call, sqlite3_value **values, writer *write) {
    if (sqlite3_value_type(values[0]) == SQLITE_NULL) return;
    named *with = asked(call, (const char *)sqlite3_value_text(values[1]));
    if (!with) return;
    const uint8_t *text = collate_text(sqlite3_value_text(values[0]));
    size_t length = (size_t)sqlite3_value_bytes(values[0]), takes = 0;
    uint8_t small[512], *out = small;
    int32_t status = write(&with->handle, text, length, small, sizeof small, &takes);
    if (status == COLLATE_TOO_SMALL) {
        out = sqlite3_malloc64(takes);
        status = out ? write(&with->handle, text, length, out, takes, &takes) : COLLATE_NO_MEMORY;
    }
    if (status == COLLATE_DONE)
        sqlite3_result_blob64(call, out, takes, SQLITE_TRANSIENT);
    else if (status != COLLATE_NO_BOUND)
        sqlite3_result_error_nomem(call);
    if (out != small) sqlite3_free(out);
}

static void key(sqlite3_context *call, int count, sqlite3_value **values) {
    (void)count;
    write_by(call, values, collate_key_utf8);
}

static void low(sqlite3_context *call, int count, sqlite3_value **values) {
    (void)count;
    write_by(call, values, collate_lower_bound_utf8);
}

static void high(sqlite3_context *call, int count, sqlite3_value **values) {
    (void)count;
    write_by(call, values, collate_upper_bound_utf8);
}

/* collate_find(text, pattern, name): where the first match begins, in characters from 1 on, as instr has it; 0 if there is none. */
static void place(sqlite3_context *call, int count, sqlite3_value **values) {
    (void)count;
    if (sqlite3_value_type(values[0]) == SQLITE_NULL || sqlite3_value_type(values[1]) == SQLITE_NULL) return;
    named *with = asked(call, (const char *)sqlite3_value_text(values[2]));
    if (!with) return;
    const uint8_t *text = collate_text(sqlite3_value_text(values[0])), *pattern = collate_text(sqlite3_value_text(values[1]));
    size_t length = (size_t)sqlite3_value_bytes(values[0]), pattern_length = (size_t)sqlite3_value_bytes(values[1]), matches = 0;
    /* One that doesn't fit all has the first. */
    collate_match first;
    int32_t status = collate_find_all_utf8(&with->handle, pattern, pattern_length, text, length, &first, 1, &matches);
    if (status != COLLATE_DONE && status != COLLATE_TOO_SMALL) {
        sqlite3_result_error_nomem(call);
        return;
    }
    sqlite3_int64 found = matches > 0;
    for (size_t at = 0; matches && at < first.start; at++) found += (text[at] & 0xC0) != 0x80;
    sqlite3_result_int64(call, found);
}

/* Writes the fingerprint of a collation in hexadecimal digits; 0 after the call has failed with the reason. */
static int digits(sqlite3_context *call, const char *name, char *has) {
    named *with = asked(call, name);
    for (size_t at = 0; with && at < COLLATE_FINGERPRINT; at++) sprintf(has + 2 * at, "%02x", with->fingerprint[at]);
    return with != NULL;
}

/* collate_expect(name, fingerprint): 1 if the collation has this fingerprint, in hexadecimal digits; else an error. */
static void expect(sqlite3_context *call, int count, sqlite3_value **values) {
    (void)count;
    const char *name = (const char *)sqlite3_value_text(values[0]), *wanted = (const char *)sqlite3_value_text(values[1]);
    char has[2 * COLLATE_FINGERPRINT + 1];
    if (!digits(call, name, has)) return;
    if (wanted && !sqlite3_stricmp(wanted, has)) {
        sqlite3_result_int(call, 1);
        return;
    }
    fail(call, sqlite3_mprintf("collation %s has the fingerprint %s, not %s", name, has, wanted ? wanted : "NULL"));
}

/* collate_fingerprint(name): in hexadecimal digits. */
static void fingerprint(sqlite3_context *call, int count, sqlite3_value **values) {
    (void)count;
    char has[2 * COLLATE_FINGERPRINT + 1];
    if (digits(call, (const char *)sqlite3_value_text(values[0]), has)) sqlite3_result_text(call, has, -1, SQLITE_TRANSIENT);
}

int sqlite3_collatesqlite_init(sqlite3 *db, char **error, const sqlite3_api_routines *api) {
    SQLITE_EXTENSION_INIT2(api);
    (void)error;
    if (collate_version() != COLLATE_VERSION) {
        *error = sqlite3_mprintf("the library isn't of version %d", COLLATE_VERSION);
        return SQLITE_ERROR;
    }
    loaded *all = sqlite3_malloc64(sizeof *all);
    if (!all) return SQLITE_NOMEM;
    all->first = NULL;
    all->owners = 1;
    /* A function of a text and a name returns the same again, as a loaded name stays as it is. */
    int keys = SQLITE_UTF8 | SQLITE_DETERMINISTIC | SQLITE_INNOCUOUS, direct = SQLITE_UTF8 | SQLITE_DIRECTONLY;
    struct {
        const char *name;
        int count, flags;
        void (*call)(sqlite3_context *, int, sqlite3_value **);
    } functions[] = {
        { "collate_load", 2, direct, load },
        { "collate_load", 3, direct, load },
        { "collate_expect", 2, direct, expect },
        { "collate_fingerprint", 1, direct, fingerprint },
        { "collate_key", 2, keys, key },
        { "collate_low", 2, keys, low },
        { "collate_high", 2, keys, high },
        { "collate_find", 3, keys, place },
    };
    int status = SQLITE_OK;
    for (size_t at = 0; status == SQLITE_OK && at < sizeof functions / sizeof *functions; at++) {
        all->owners++;
        status = sqlite3_create_function_v2(db, functions[at].name, functions[at].count, functions[at].flags, all,
                                            functions[at].call, NULL, NULL, release);
    }
    if (status == SQLITE_OK) status = sqlite3_collation_needed(db, all, on_needed);
    release(all);
    return status;
}
