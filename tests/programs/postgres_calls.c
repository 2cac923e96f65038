/* Calls the functions of the extension of PostgreSQL, without a server: postgres_calls EXTENSION DIGITS, compiled with its source and
   postgres_stubs.h. A line of its input is a question, whose words are parted by spaces; texts are in hexadecimal digits after a "x":

     key, low, high TEXT NAME; compare TEXT TEXT NAME; fingerprint NAME
     register NAME DIGITS                          the row of collate_names; nothing else than this line begins a new command
     encoding NUMBER; replica

   It prints a line for each: what is returned, or what is said of an error. */
#include SOURCE

jmp_buf refused;
MemoryContext TopMemoryContext, CurrentMemoryContext;
static struct PGPROC process = { 1 };
struct PGPROC *MyProc = &process;
static char said[1 << 12];
static char registered_name[128], registered_digits[128];
static int encoding = PG_UTF8, is_replica, rows_left;
static CommandId command;

#define SAY \
    va_list with; \
    size_t at = strlen(said); \
    va_start(with, form); \
    vsnprintf(said + at, sizeof said - at, form, with); \
    va_end(with); \
    strncat(said, " | ", sizeof said - strlen(said) - 1); \
    return 0

int errcode(int code) { return code; }
int errcode_for_file_access(void) { return 0; }
int errmsg(const char *form, ...) { SAY; }
int errdetail(const char *form, ...) { SAY; }
int errhint(const char *form, ...) { SAY; }

void *palloc(size_t size) { return malloc(size); }
void *MemoryContextAllocZero(MemoryContext in, size_t size) { return (void)in, calloc(1, size); }
void *MemoryContextAllocHuge(MemoryContext in, size_t size) { return (void)in, malloc(size); }
void pfree(void *it) { free(it); }
char *psprintf(const char *form, ...) {
    char *made;
    va_list with;
    va_start(with, form);
    if (vasprintf(&made, form, with) < 0) abort();
    va_end(with);
    return made;
}
static text *text_of(const char *bytes, size_t length) {
    text *made = malloc(sizeof *made + length);
    SET_VARSIZE(made, length + VARHDRSZ);
    memcpy(made->data, bytes, length);
    return made;
}
text *cstring_to_text(const char *it) { return text_of(it, strlen(it)); }
char *text_to_cstring(const text *it) { return strndup(VARDATA_ANY(it), VARSIZE_ANY_EXHDR(it)); }
uint64_t hex_encode(const char *bytes, size_t length, char *digits) {
    for (size_t at = 0; at < length; at++) {
        digits[2 * at] = "0123456789abcdef"[(uint8_t)bytes[at] >> 4];
        digits[2 * at + 1] = "0123456789abcdef"[bytes[at] & 15];
    }
    return 2 * length;
}
size_t copied(char *to, const char *from, size_t room) { return (size_t)snprintf(to, room, "%s", from); }

Datum heap_getattr(HeapTuple row, int column, Relation of, bool *is_null) {
    (void)row, (void)of;
    *is_null = false;
    return (Datum)cstring_to_text(column == 1 ? registered_name : registered_digits);
}
Relation table_open(Oid place, int lock) { return (void)place, (void)lock, NULL; }
void table_close(Relation it, int lock) { (void)it, (void)lock; }
SysScanDesc systable_beginscan(Relation of, Oid index, bool by_index, Snapshot snapshot, int keys, ScanKey key) {
    (void)of, (void)index, (void)by_index, (void)snapshot, (void)keys, (void)key;
    rows_left = *registered_name != 0;
    return NULL;
}
HeapTuple systable_getnext(SysScanDesc scan) { return (void)scan, rows_left-- > 0 ? (HeapTuple)said : NULL; }
void systable_endscan(SysScanDesc scan) { (void)scan; }
SubTransactionId GetCurrentSubTransactionId(void) { return 1; }
CommandId GetCurrentCommandId(bool used) { return (void)used, command; }
bool RecoveryInProgress(void) { return is_replica; }
int GetDatabaseEncoding(void) { return encoding; }
const char *GetDatabaseEncodingName(void) { return "LATIN1"; }
Oid getExtensionOfObject(Oid kind, Oid it) { return (void)kind, it; }
Oid get_relname_relid(const char *name, Oid space) { return (void)name, space; }
Oid get_func_namespace(Oid function) { return function; }
FILE *AllocateFile(const char *path, const char *mode) { return fopen(path, mode); }
int FreeFile(FILE *file) { return fclose(file); }
void *llast(List *list) { return list; }
void *stringToNode(const char *it) { return (void)it, NULL; }
bool expression_tree_walker(Node *node, bool (*walk)(Node *, void *), void *with) { return (void)node, (void)walk, (void)with, false; }
bool query_tree_walker(Query *query, bool (*walk)(Node *, void *), void *with, int flags) { return (void)query, (void)walk, (void)with, (void)flags, false; }

/* ---- questions */

static text *argument(const char *word) {
    if (*word != 'x') return cstring_to_text(word);
    size_t length = strlen(word + 1) / 2;
    char *bytes = malloc(length + 1);
    for (size_t at = 0; at < length; at++) sscanf(word + 1 + 2 * at, "%2hhx", (unsigned char *)bytes + at);
    text *made = text_of(bytes, length);
    free(bytes);
    return made;
}

static void print_bytes(const text *it) {
    for (size_t at = 0; at < VARSIZE_ANY_EXHDR(it); at++) printf("%02x", (uint8_t)it->data[at]);
    puts("");
}

static void call(const char *what, char **words, int count) {
    static const struct {
        const char *name;
        Datum (*call)(PG_FUNCTION_ARGS);
    } functions[] = { { "key", collate_key }, { "low", collate_low }, { "high", collate_high }, { "compare", collate_compare },
                      { "fingerprint", collate_fingerprint_of } };
    FmgrInfo info = { 1 };
    FunctionCallInfoBaseData with = { &info, false, { 0 } };
    for (int at = 0; at < count; at++) with.args[at] = (Datum)argument(words[at]);
    for (size_t at = 0; at < sizeof functions / sizeof *functions; at++) {
        if (strcmp(functions[at].name, what)) continue;
        Datum made = functions[at].call(&with);
        if (with.isnull) puts("NULL");
        else if (!strcmp(what, "compare")) printf("%d\n", (int)made);
        else if (!strcmp(what, "fingerprint")) printf("%s\n", text_to_cstring((text *)made));
        else print_bytes((text *)made);
        return;
    }
    puts("no such question");
}

static void answer(char *line) {
    char *words[5], *next = NULL;
    int count = 0;
    for (char *word = strtok_r(line, " \n", &next); word && count < 5; word = strtok_r(NULL, " \n", &next)) words[count++] = word;
    if (!count) return;
    *said = 0;
    if (!strcmp(words[0], "register")) {
        snprintf(registered_name, sizeof registered_name, "%s", count > 1 ? words[1] : "");
        snprintf(registered_digits, sizeof registered_digits, "%s", count > 2 ? words[2] : "");
        command++;
        puts("registered");
    } else if (!strcmp(words[0], "encoding")) encoding = atoi(words[1]), puts("");
    else if (!strcmp(words[0], "replica")) is_replica = 1, puts("");
    else if (setjmp(refused)) printf("ERROR: %s\n", said);
    else call(words[0], words + 1, count - 1);
}

int main(void) {
    char *line = NULL;
    size_t room = 0;
    while (getline(&line, &room, stdin) >= 0) answer(line);
    free(line);
    return 0;
}
