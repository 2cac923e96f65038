/* What the extension of PostgreSQL takes from the server, in small: it is compiled against this with all warnings, and its calls are run
   by postgres_calls.c. Nodes of expressions are declared alone. */
#ifndef POSTGRES_STUBS_H
#define POSTGRES_STUBS_H
#include <errno.h>
#include <setjmp.h>
#include <stdarg.h>
#include <stdbool.h>
#include <stddef.h>
#include <stdint.h>
#include <stdio.h>
#include <stdlib.h>
#include <string.h>

typedef uintptr_t Datum;
typedef uint32_t Oid, LocalTransactionId, SubTransactionId, CommandId;
typedef struct varlena {
    uint32_t size;
    char data[];
} text, bytea;
#define InvalidOid 0
#define InvalidLocalTransactionId 0
#define OidIsValid(it) ((it) != InvalidOid)
#define Min(a, b) ((a) < (b) ? (a) : (b))
#define VARHDRSZ ((int32_t)sizeof(uint32_t))
#define VARDATA(it) (((struct varlena *)(it))->data)
#define VARDATA_ANY(it) VARDATA(it)
#define VARSIZE_ANY_EXHDR(it) (((struct varlena *)(it))->size - VARHDRSZ)
#define SET_VARSIZE(it, is) (((struct varlena *)(it))->size = (uint32_t)(is))
#define MaxAllocSize ((size_t)0x3fffffff)
#define PG_BINARY_R "rb"

/* ---- errors */
enum { ERROR = 21 };
enum {
    ERRCODE_DATA_CORRUPTED, ERRCODE_EXTERNAL_ROUTINE_EXCEPTION, ERRCODE_FEATURE_NOT_SUPPORTED, ERRCODE_INTERNAL_ERROR, ERRCODE_INVALID_PARAMETER_VALUE,
    ERRCODE_OBJECT_NOT_IN_PREREQUISITE_STATE, ERRCODE_OUT_OF_MEMORY, ERRCODE_PROGRAM_LIMIT_EXCEEDED, ERRCODE_UNDEFINED_TABLE, ERRCODE_WRONG_OBJECT_TYPE
};
#define printed_as(at, rest) __attribute__((format(printf, at, rest)))
extern jmp_buf refused;
int errcode(int code);
int errcode_for_file_access(void);
int errmsg(const char *form, ...) printed_as(1, 2);
int errdetail(const char *form, ...) printed_as(1, 2);
int errhint(const char *form, ...) printed_as(1, 2);
#define ereport(level, what) ((void)(what), longjmp(refused, level))
#define CHECK_FOR_INTERRUPTS() ((void)0)

/* ---- memory and texts */
typedef struct MemoryContextData *MemoryContext;
extern MemoryContext TopMemoryContext, CurrentMemoryContext;
void *palloc(size_t size);
void *MemoryContextAllocZero(MemoryContext in, size_t size);
void *MemoryContextAllocHuge(MemoryContext in, size_t size);
void pfree(void *it);
char *psprintf(const char *form, ...) printed_as(1, 2);
char *text_to_cstring(const text *it);
text *cstring_to_text(const char *it);
uint64_t hex_encode(const char *bytes, size_t length, char *digits);
#define TextDatumGetCString(it) text_to_cstring((const text *)(it))
#define DatumGetTextPP(it) ((text *)(it))
size_t copied(char *to, const char *from, size_t room);
#define strlcpy copied

/* ---- functions */
typedef struct {
    Oid fn_oid;
} FmgrInfo;
typedef struct {
    FmgrInfo *flinfo;
    bool isnull;
    Datum args[3];
} FunctionCallInfoBaseData, *FunctionCallInfo;
#define PG_MODULE_MAGIC extern int no_magic
#define PG_FUNCTION_ARGS FunctionCallInfo fcinfo
#define PG_FUNCTION_INFO_V1(name) Datum name(PG_FUNCTION_ARGS)
#define PG_GETARG_DATUM(at) (fcinfo->args[at])
#define PG_GETARG_TEXT_PP(at) ((text *)fcinfo->args[at])
#define PG_RETURN_NULL() return fcinfo->isnull = true, (Datum)0
#define PG_RETURN_BYTEA_P(it) return (Datum)(it)
#define PG_RETURN_TEXT_P(it) return (Datum)(it)
#define PG_RETURN_INT32(it) return (Datum)(it)
#define PG_RETURN_BOOL(it) return (Datum)(it)

/* ---- the server */
#define AccessShareLock 1
#define NoLock 0
#define ProcedureRelationId 1255
#define PG_UTF8 6
typedef struct row *HeapTuple;
typedef struct scan *SysScanDesc;
typedef struct relation *Relation;
typedef struct snapshot *Snapshot;
typedef struct keys *ScanKey;
#define HeapTupleIsValid(it) ((it) != NULL)
#define RelationGetDescr(it) (it)
Datum heap_getattr(HeapTuple row, int column, Relation of, bool *is_null);
Relation table_open(Oid place, int lock);
void table_close(Relation it, int lock);
SysScanDesc systable_beginscan(Relation of, Oid index, bool by_index, Snapshot snapshot, int keys, ScanKey key);
HeapTuple systable_getnext(SysScanDesc scan);
void systable_endscan(SysScanDesc scan);
SubTransactionId GetCurrentSubTransactionId(void);
CommandId GetCurrentCommandId(bool used);
extern struct PGPROC {
    LocalTransactionId lxid;
} *MyProc;
bool RecoveryInProgress(void);
int GetDatabaseEncoding(void);
const char *GetDatabaseEncodingName(void);
Oid getExtensionOfObject(Oid kind, Oid it);
Oid get_relname_relid(const char *name, Oid space);
Oid get_func_namespace(Oid function);
FILE *AllocateFile(const char *path, const char *mode);
int FreeFile(FILE *file);

/* ---- expressions */
typedef enum { T_Const, T_FuncExpr, T_Query } NodeTag;
typedef struct {
    NodeTag type;
} Node;
typedef struct List List;
typedef struct {
    NodeTag type;
    Datum constvalue;
    bool constisnull;
} Const;
typedef struct {
    NodeTag type;
    Oid funcid;
    List *args;
} FuncExpr;
typedef struct {
    NodeTag type;
} Query;
#define IsA(it, kind) (((const Node *)(it))->type == T_##kind)
#define castNode(kind, it) ((kind *)(it))
void *llast(List *list);
void *stringToNode(const char *it);
bool expression_tree_walker(Node *node, bool (*walk)(Node *, void *), void *with);
bool query_tree_walker(Query *query, bool (*walk)(Node *, void *), void *with, int flags);
#endif
