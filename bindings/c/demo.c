/* Compares two texts by a table file, and prints their sort keys.
     demo FILE LEFT RIGHT [TAG]
   FILE as `collate-cldr compile -l sv -o sv.table` writes it; TAG has settings, such as und-u-ks-level1. */
#include "collate.h"
#include <stdio.h>
#include <stdlib.h>
#include <string.h>

static uint8_t *bytes_of(const char *name, size_t *length) {
    FILE *file = fopen(name, "rb");
    if (!file) return NULL;
    uint8_t *bytes = NULL;
    long size = -1;
    if (!fseek(file, 0, SEEK_END) && (size = ftell(file)) >= 0 && !fseek(file, 0, SEEK_SET))
        bytes = malloc((size_t)size + 1);
    if (bytes && fread(bytes, 1, (size_t)size, file) != (size_t)size) {
        free(bytes);
        bytes = NULL;
    }
    fclose(file);
    *length = (size_t)size;
    return bytes;
}

static int fail(const char *what, int32_t status) {
    uint8_t said[128];
    size_t length;
    if (collate_message(status, said, sizeof said, &length) != COLLATE_DONE) length = 0;
    fprintf(stderr, "demo: %s: %.*s\n", what, (int)length, (const char *)said);
    return 1;
}

static int print_key(collate_handle *handle, const char *text) {
    size_t length;
    uint8_t small[1], *key;
    /* The first call tells how much room the key takes. */
    int32_t status = collate_key_utf8(handle, (const uint8_t *)text, strlen(text), small, 0, &length);
    if (status != COLLATE_DONE && status != COLLATE_TOO_SMALL) return fail(text, status);
    if (!(key = malloc(length + 1))) return fail(text, COLLATE_NO_MEMORY);
    status = collate_key_utf8(handle, (const uint8_t *)text, strlen(text), key, length, &length);
    if (status == COLLATE_DONE) {
        printf("%s:", text);
        for (size_t at = 0; at < length; at++) printf(" %02X", key[at]);
        puts("");
    }
    free(key);
    return status == COLLATE_DONE ? 0 : fail(text, status);
}

int main(int count, char **words) {
    if (count < 4 || count > 5) {
        fputs("usage: demo FILE LEFT RIGHT [TAG]\n", stderr);
        return 2;
    }
    const char *tag = count > 4 ? words[4] : "";
    size_t length;
    uint8_t *file = bytes_of(words[1], &length);
    if (!file) {
        perror(words[1]);
        return 1;
    }
    collate_handle handle = COLLATE_CLOSED;
    int32_t status = collate_open(&handle, file, length, (const uint8_t *)tag, strlen(tag));
    free(file);
    if (status != COLLATE_DONE) return fail(words[1], status);
    int32_t order = collate_compare_utf8(&handle, (const uint8_t *)words[2], strlen(words[2]), (const uint8_t *)words[3],
                                         strlen(words[3]));
    printf("%s %c %s\n", words[2], "<=>"[order + 1], words[3]);
    int failed = print_key(&handle, words[2]) || print_key(&handle, words[3]);
    collate_close(&handle);
    return failed;
}
