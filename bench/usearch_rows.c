// What ICU4C's usearch finds: the rows on search of docs/DIFFERENCES.md. Offsets count units of UTF-16.
//
//     cc -O2 bench/usearch_rows.c -o usearch_rows $(pkg-config --cflags --libs icu-i18n icu-uc) && ./usearch_rows
#include <stdio.h>
#include <unicode/ucol.h>
#include <unicode/usearch.h>
#include <unicode/ustring.h>

static int unescaped(const char *from, UChar *to) {
    return u_unescape(from, to, 4096);
}

static void row(const char *locale, UCollationStrength strength, int shifted, int numeric, int cases, const char *pattern,
                const char *text) {
    UErrorCode status = U_ZERO_ERROR;
    UCollator *collator = ucol_open(locale, &status);
    ucol_setStrength(collator, strength);
    if (shifted) ucol_setAttribute(collator, UCOL_ALTERNATE_HANDLING, UCOL_SHIFTED, &status);
    if (numeric) ucol_setAttribute(collator, UCOL_NUMERIC_COLLATION, UCOL_ON, &status);
    if (cases) ucol_setAttribute(collator, UCOL_CASE_LEVEL, UCOL_ON, &status);
    UChar p[4096], t[4096];
    int np = unescaped(pattern, p), nt = unescaped(text, t);
    printf("%s %d%s%s%s | %s | %s |", locale[0] ? locale : "root", (int)strength + 1, shifted ? " shifted" : "",
           numeric ? " numeric" : "", cases ? " case" : "", pattern, text);
    UStringSearch *search = usearch_openFromCollator(p, np, t, nt, collator, NULL, &status);
    if (U_FAILURE(status)) {
        printf(" error %d\n", status);
        ucol_close(collator);
        return;
    }
    int count = 0;
    for (int at = usearch_first(search, &status); at != USEARCH_DONE && count < 40; at = usearch_next(search, &status)) {
        printf(" %d..%d", at, at + usearch_getMatchedLength(search));
        count++;
    }
    if (U_FAILURE(status)) printf(" error %d", status);
    printf(count ? "\n" : " none\n");
    usearch_close(search);
    ucol_close(collator);
}

int main(void) {
    const UCollationStrength one = UCOL_PRIMARY, two = UCOL_SECONDARY, three = UCOL_TERTIARY;
    printf("ICU %s\n", U_ICU_VERSION);
    row("sv", one, 1, 0, 0, "\\u00C5sa", "\\u00D6sa, \\u00C5sa");
    row("sv", one, 1, 0, 0, "\\u00C5sa", "O\\u0308sa, A\\u030Asa");
    row("da", one, 1, 0, 0, "\\u00D8st", "\\u00C6st \\u00D8st Aast");
    row("nb", one, 1, 0, 0, "\\u00F8", "\\u00E5");
    row("fi", one, 1, 0, 0, "\\u00E4", "\\u00F6");
    row("", one, 1, 0, 0, "\\u4E00", "\\u4E01");
    row("", one, 0, 0, 1, "a", "A");
    row("", one, 0, 1, 0, "7", "a007");
    row("ja", one, 0, 0, 0, "\\u30A2", "\\u30AB\\u30FC");
    row("ja", one, 0, 0, 0, "\\u30FC", "\\u30AB\\u30FC");
    row("", three, 0, 0, 0, "\\uAC00", "\\uAC01");
    row("", three, 0, 0, 0, "\\uAC00", "\\u1100\\u1161\\u11A8");
    row("", three, 0, 0, 0, "\\u1100\\u1161", "\\u1100\\u1161\\u11A8");
    row("", three, 0, 0, 0, "a\\u0302\\u0323", "\\u1EAD");
    row("", three, 0, 0, 0, "a\\u0323\\u0302", "\\u1EAD");
    row("", two, 1, 0, 0, "\\u0301", "a");
    row("", three, 0, 0, 0, "\\u0928", "\\u0928\\u093F");
    row("", three, 0, 0, 0, "\\u093F", "\\u0928\\u093F");
    row("", three, 0, 0, 0, "\\U0001F44D", "\\U0001F44D\\u200D\\U0001F44D");
    row("", three, 0, 0, 0, "", "ab");
    row("", one, 0, 0, 0, "\\u00AD", "ab");
    row("", one, 0, 0, 0, "resume", "My r\\u00E9sum\\u00E9, RESUME");
    row("", one, 0, 0, 0, "ss", "stra\\u00DFe");
    row("", one, 1, 0, 0, "ab", "a-b");
    row("", one, 1, 0, 0, "collegi", "col\\u00B7legi");
    row("cs", one, 0, 0, 0, "ch", "chata");
    row("cs", one, 0, 0, 0, "c", "chata");
    row("", one, 1, 0, 0, "a", "--a--");
    row("", one, 0, 0, 0, "\\u0E01", "\\u0E40\\u0E01\\u0E32");
    row("", three, 0, 0, 0, "a", "a\\u0301");
    row("", three, 0, 0, 0, "a", "\\u00E1");
    row("", three, 0, 0, 0, "ab", "a\\u00ADb");
    row("", three, 0, 0, 0, "a\\u00AD", "ab");
    row("fr_CA", two, 0, 0, 0, "c\\u00F4t", "c\\u00F4t\\u00E9");
    row("fr_CA", two, 0, 0, 0, "c\\u00F4t\\u00E9", "cot\\u00E9 c\\u00F4te c\\u00F4t\\u00E9");
    return 0;
}
