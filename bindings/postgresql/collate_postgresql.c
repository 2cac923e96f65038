/* An extension of PostgreSQL: sort keys by table files, and a guard of what is stored by them.

     CREATE EXTENSION collate_tables;
     SELECT collate_use('sv');                                 -- by FOLDER/sv.table
     CREATE INDEX by_key ON people (collate_key(name, 'sv'));
     SELECT name FROM people ORDER BY collate_key(name, 'sv');

   FOLDER is COLLATE_TABLES of the server's environment, or else what this file was compiled with.

   The table collate_names has the fingerprint of the tables by which the keys of a name are made. Calls whose results may
   be stored read it, and refuse other tables. They lock it until their transaction ends, and collate_accept locks it alone:
   so nobody accepts other tables while a transaction that made keys is open. It is read again in each command, as this
   transaction may write it, and in each subtransaction, whose end gives locks back.

   A backend has one thread, and its own handle for each name. */
#include "postgres.h"

#include "../c/collate.h"
#include "access/genam.h"
#include "access/htup_details.h"
#include "access/table.h"
#include "access/xact.h"
#include "access/xlog.h"
#include "catalog/dependency.h"
#include "catalog/pg_proc.h"
#include "fmgr.h"
#include "mb/pg_wchar.h"
#include "miscadmin.h"
#include "nodes/nodeFuncs.h"
#include "storage/fd.h"
#include "storage/proc.h"
#include "utils/builtins.h"
#include "utils/lsyscache.h"
#include "utils/memutils.h"
#include "utils/rel.h"
#include <sys/stat.h>

#ifndef COLLATE_TABLES
#define COLLATE_TABLES "/usr/share/collate"
#endif
/* How many digits a fingerprint has, and how many characters a name may have. */
#define DIGITS (2 * COLLATE_FINGERPRINT)
#define GREATEST_NAME 127
#define GREATEST_KEY (MaxAllocSize - VARHDRSZ)

PG_MODULE_MAGIC;

typedef struct collation {
    struct collation *next;
    collate_handle handle;
    /* The fingerprint of what the handle has, in digits; empty if it is closed. */
    char fingerprint[DIGITS + 1];
    /* When it was last compared with the one in collate_names. */
    LocalTransactionId transaction;
    SubTransactionId part;
    CommandId command;
    char name[GREATEST_NAME + 1];
} collation;

static collation *first;

/* ---- table files */

static const char *folder(void) {
    const char *said = getenv("COLLATE_TABLES");
    return said && *said ? said : COLLATE_TABLES;
}

static uint8_t *file_bytes(const char *path, size_t *length) {
    struct stat about;
    FILE *file = AllocateFile(path, PG_BINARY_R);
    if (!file)
        ereport(ERROR, (errcode_for_file_access(), errmsg("could not open the table file \"%s\": %m", path),
                        errhint("collate-cldr compile writes table files; the server looks for them in the folder that "
                                "COLLATE_TABLES of its environment names.")));
    if (fstat(fileno(file), &about) || !S_ISREG(about.st_mode))
        ereport(ERROR, (errcode(ERRCODE_WRONG_OBJECT_TYPE), errmsg("\"%s\" is no file", path)));
    *length = (size_t)about.st_size;
    uint8_t *bytes = MemoryContextAllocHuge(CurrentMemoryContext, *length + 1);
    if (fread(bytes, 1, *length, file) != *length)
        ereport(ERROR, (errcode_for_file_access(), errmsg("could not read the table file \"%s\"", path)));
    FreeFile(file);
    return bytes;
}

/* Refuses what the library returned, unless it is done. */
static void refuse_unless_done(int32_t status, const char *what) {
    uint8_t said[128];
    size_t length = 0;
    if (status == COLLATE_DONE) return;
    if (status == COLLATE_NO_MEMORY) ereport(ERROR, (errcode(ERRCODE_OUT_OF_MEMORY), errmsg("out of memory")));
    if (collate_message(status, said, sizeof said, &length) != COLLATE_DONE) length = 0;
    ereport(ERROR, (errcode(status == COLLATE_BAD_TABLES ? ERRCODE_DATA_CORRUPTED : ERRCODE_INTERNAL_ERROR),
                    errmsg("%s: %.*s", what, (int)length, (const char *)said)));
}

/* Opens the tables that the folder has of a name. The handle is closed if this doesn't return. */
static void open_tables(const char *name, collate_handle *handle, char *digits) {
    uint8_t fingerprint[COLLATE_FINGERPRINT];
    size_t length;
    char *path = psprintf("%s/%s.table", folder(), name);
    uint8_t *bytes = file_bytes(path, &length);
    int32_t status = collate_open(handle, bytes, length, collate_text(""), 0);
    if (status == COLLATE_DONE) status = collate_fingerprint(handle, fingerprint, sizeof fingerprint);
    if (status != COLLATE_DONE) collate_close(handle);
    refuse_unless_done(status, path);
    hex_encode((const char *)fingerprint, sizeof fingerprint, digits);
    digits[DIGITS] = 0;
    pfree(bytes);
    pfree(path);
}

/* ---- the collations of a backend */

/* Refuses a name that may not be that of a file of the folder: it has letters, digits, hyphens and underscores. */
static void refuse_unless_plain(const char *name, size_t length) {
    static const char plain[] = "abcdefghijklmnopqrstuvwxyzABCDEFGHIJKLMNOPQRSTUVWXYZ0123456789-_";
    size_t at = 0;
    while (at < length && name[at] && strchr(plain, name[at])) at++;
    if (!length || at < length || length > GREATEST_NAME)
        ereport(ERROR, (errcode(ERRCODE_INVALID_PARAMETER_VALUE),
                        errmsg("\"%.*s\" is no name of a collation", (int)Min(length, GREATEST_NAME), name),
                        errhint("A name has letters, digits, hyphens and underscores, such as sv or de-u-co-phonebk.")));
}

static void refuse_unless_served(void) {
    if (GetDatabaseEncoding() != PG_UTF8)
        ereport(ERROR, (errcode(ERRCODE_FEATURE_NOT_SUPPORTED),
                        errmsg("collate_tables needs a database in UTF8, and this one is in %s", GetDatabaseEncodingName()),
                        errhint("CREATE DATABASE .. ENCODING 'UTF8' TEMPLATE template0 makes one.")));
    if (collate_version() != COLLATE_VERSION)
        ereport(ERROR, (errcode(ERRCODE_EXTERNAL_ROUTINE_EXCEPTION),
                        errmsg("the library of collations has version %d, not %d", collate_version(), COLLATE_VERSION)));
}

/* The collation of a name, which may be closed. */
static collation *named(const char *name, size_t length) {
    for (collation *it = first; it; it = it->next)
        if (!strncmp(it->name, name, length) && !it->name[length]) return it;
    refuse_unless_served();
    refuse_unless_plain(name, length);
    collation *made = MemoryContextAllocZero(TopMemoryContext, sizeof *made);
    memcpy(made->name, name, length);
    made->next = first;
    first = made;
    return made;
}

/* Writes the fingerprint by which a name is registered, as this or the last transaction that ended left it. Returns whether
   there is one. The lock stays until the transaction ends. */
static bool read_registered(Oid function, const char *name, char *digits) {
    Oid place = get_relname_relid("collate_names", get_func_namespace(function));
    bool is_there = false;
    if (!OidIsValid(place))
        ereport(ERROR, (errcode(ERRCODE_UNDEFINED_TABLE), errmsg("the table collate_names of collate_tables isn't there")));
    Relation names = table_open(place, AccessShareLock);
    /* Not the statement's snapshot: an older one may not know what was accepted since. */
    SysScanDesc rows = systable_beginscan(names, InvalidOid, false, NULL, 0, NULL);
    for (HeapTuple row; !is_there && HeapTupleIsValid(row = systable_getnext(rows));) {
        bool no_name, no_digits;
        Datum has = heap_getattr(row, 1, RelationGetDescr(names), &no_name);
        Datum fingerprint = heap_getattr(row, 2, RelationGetDescr(names), &no_digits);
        is_there = !no_name && !no_digits && !strcmp(TextDatumGetCString(has), name);
        if (is_there) strlcpy(digits, TextDatumGetCString(fingerprint), DIGITS + 1);
    }
    systable_endscan(rows);
    table_close(names, NoLock);
    return is_there;
}

static void refuse_other_tables(const char *name, const char *wanted, const char *has) {
    ereport(ERROR,
            (errcode(ERRCODE_OBJECT_NOT_IN_PREREQUISITE_STATE),
             errmsg("collation \"%s\" has other tables here than those that its indexes were made by", name),
             errdetail("Registered in collate_names is %s, and %s/%s.table has %s.", wanted, folder(), name, has),
             RecoveryInProgress()
                 ? errhint("This server is a replica: give it the table file of its primary.")
                 : errhint("Put the old file back, or run SELECT collate_accept('%s'), which takes the new tables and runs "
                           "REINDEX on each index of that name.", name)));
}

/* Opens the tables of a name, unless they are open, and refuses others than those that are registered. */
static void compare_with_registered(collation *it, Oid function) {
    char wanted[DIGITS + 1];
    if (!read_registered(function, it->name, wanted))
        ereport(ERROR, (errcode(ERRCODE_OBJECT_NOT_IN_PREREQUISITE_STATE),
                        errmsg("collation \"%s\" isn't registered in this database", it->name),
                        errhint("Run SELECT collate_use('%s') once.", it->name)));
    if (strcmp(it->fingerprint, wanted)) {
        it->fingerprint[0] = 0;
        open_tables(it->name, &it->handle, it->fingerprint);
    }
    if (strcmp(it->fingerprint, wanted)) refuse_other_tables(it->name, wanted, it->fingerprint);
}

/* The open collation of a name, whose tables are those that are registered. */
static collation *registered(text *name, Oid function) {
    collation *it = named(VARDATA_ANY(name), VARSIZE_ANY_EXHDR(name));
    LocalTransactionId transaction = MyProc->lxid;
    SubTransactionId part = GetCurrentSubTransactionId();
    CommandId command = GetCurrentCommandId(false);
    if (it->transaction == transaction && it->part == part && it->command == command) return it;
    it->transaction = InvalidLocalTransactionId;
    compare_with_registered(it, function);
    it->transaction = transaction;
    it->part = part;
    it->command = command;
    return it;
}

/* ---- the functions */

typedef int32_t writer(collate_handle *, const uint8_t *, size_t, uint8_t *, size_t, size_t *);

static void refuse_longer(size_t takes) {
    if (takes > GREATEST_KEY)
        ereport(ERROR, (errcode(ERRCODE_PROGRAM_LIMIT_EXCEEDED), errmsg("a sort key of %zu bytes is too long", takes),
                        errdetail("A value has at most %zu bytes.", (size_t)GREATEST_KEY),
                        errhint("Make the key of the first characters alone: collate_key(left(text, 1000), ..).")));
}

/* What a call writes of a text; NULL if there is no bound. */
static bytea *written_by(writer *write, collation *with, text *of) {
    const uint8_t *at = (const uint8_t *)VARDATA_ANY(of);
    size_t length = VARSIZE_ANY_EXHDR(of), room = Min(3 * length + 64, GREATEST_KEY), takes = 0;
    CHECK_FOR_INTERRUPTS();
    bytea *made = palloc(VARHDRSZ + room);
    int32_t status = write(&with->handle, at, length, (uint8_t *)VARDATA(made), room, &takes);
    if (status == COLLATE_TOO_SMALL) {
        refuse_longer(takes);
        pfree(made);
        made = palloc(VARHDRSZ + takes);
        status = write(&with->handle, at, length, (uint8_t *)VARDATA(made), takes, &takes);
    }
    if (status == COLLATE_NO_BOUND) return NULL;
    refuse_unless_done(status, with->name);
    SET_VARSIZE(made, VARHDRSZ + takes);
    return made;
}

#define RETURN_WRITTEN(write) \
    bytea *made = written_by(write, registered(PG_GETARG_TEXT_PP(1), fcinfo->flinfo->fn_oid), PG_GETARG_TEXT_PP(0)); \
    if (!made) PG_RETURN_NULL(); \
    PG_RETURN_BYTEA_P(made)

/* collate_key(text, name) */
PG_FUNCTION_INFO_V1(collate_key);
Datum collate_key(PG_FUNCTION_ARGS) {
    RETURN_WRITTEN(collate_key_utf8);
}

/* collate_low(text, name) and collate_high(text, name): between which keys those of all texts are that begin so. */
PG_FUNCTION_INFO_V1(collate_low);
Datum collate_low(PG_FUNCTION_ARGS) {
    RETURN_WRITTEN(collate_lower_bound_utf8);
}

PG_FUNCTION_INFO_V1(collate_high);
Datum collate_high(PG_FUNCTION_ARGS) {
    RETURN_WRITTEN(collate_upper_bound_utf8);
}

/* collate_compare(text, text, name) */
PG_FUNCTION_INFO_V1(collate_compare);
Datum collate_compare(PG_FUNCTION_ARGS) {
    text *left = PG_GETARG_TEXT_PP(0), *right = PG_GETARG_TEXT_PP(1);
    collation *with = registered(PG_GETARG_TEXT_PP(2), fcinfo->flinfo->fn_oid);
    CHECK_FOR_INTERRUPTS();
    PG_RETURN_INT32(collate_compare_utf8(&with->handle, (const uint8_t *)VARDATA_ANY(left), VARSIZE_ANY_EXHDR(left),
                                         (const uint8_t *)VARDATA_ANY(right), VARSIZE_ANY_EXHDR(right)));
}

/* collate_fingerprint(name): that of the tables that the folder has now, registered or not. */
PG_FUNCTION_INFO_V1(collate_fingerprint_of);
Datum collate_fingerprint_of(PG_FUNCTION_ARGS) {
    text *name = PG_GETARG_TEXT_PP(0);
    collate_handle handle = COLLATE_CLOSED;
    char digits[DIGITS + 1];
    refuse_unless_served();
    refuse_unless_plain(VARDATA_ANY(name), VARSIZE_ANY_EXHDR(name));
    open_tables(text_to_cstring(name), &handle, digits);
    collate_close(&handle);
    PG_RETURN_TEXT_P(cstring_to_text(digits));
}

/* ---- what is stored by a name */

typedef struct {
    Oid extension;
    text *name;
} asked;

/* Whether a call's last argument may be this name: it is, or isn't known. */
static bool may_name(FuncExpr *call, text *name) {
    Node *last = call->args ? llast(call->args) : NULL;
    if (!last || !IsA(last, Const) || castNode(Const, last)->constisnull) return true;
    text *is = DatumGetTextPP(castNode(Const, last)->constvalue);
    return VARSIZE_ANY_EXHDR(is) == VARSIZE_ANY_EXHDR(name) &&
           !memcmp(VARDATA_ANY(is), VARDATA_ANY(name), VARSIZE_ANY_EXHDR(name));
}

static bool calls_of(Node *node, void *with) {
    asked *of = with;
    if (!node) return false;
    if (IsA(node, Query)) return query_tree_walker(castNode(Query, node), calls_of, with, 0);
    if (IsA(node, FuncExpr) &&
        getExtensionOfObject(ProcedureRelationId, castNode(FuncExpr, node)->funcid) == of->extension &&
        may_name(castNode(FuncExpr, node), of->name))
        return true;
    return expression_tree_walker(node, calls_of, with);
}

/* collate_is_used(tree, name): whether an expression of the catalogue calls functions of this extension by this name, or by
   one that isn't a constant. */
PG_FUNCTION_INFO_V1(collate_is_used);
Datum collate_is_used(PG_FUNCTION_ARGS) {
    asked of = { getExtensionOfObject(ProcedureRelationId, fcinfo->flinfo->fn_oid), PG_GETARG_TEXT_PP(1) };
    PG_RETURN_BOOL(calls_of(stringToNode(TextDatumGetCString(PG_GETARG_DATUM(0))), &of));
}
