/* Random calls of the library for C, over a few handles: c_calls FILE COUNT SEED.
   Prints what is wrong, and last `N calls`. It is compiled with the sanitizers of the C compiler, which end it. */
#include "collate.h"
#include <pthread.h>
#include <stdio.h>
#include <stdlib.h>
#include <string.h>

enum { HANDLES = 4, UNITS = 40, LONG = 4000 };

static const char *const TAGS[] = { "", "und", "und-u-ks-level1", "und-u-kn", "und-u-ka-shifted-ks-level4", "und-u-ks-identic",
                                    "sv-u-kf-upper", "und-u-ks-level9", "-", "x\xff", "und-u-" };
enum { GOOD = 7, TAG_COUNT = sizeof TAGS / sizeof *TAGS };
static const char *const LETTERS[] = { "a", "b", "A", "z", "\xc3\xa1", "\xcc\x81", "\xcc\xa3", "9", "10", " ", "-", "", "\xff",
                                       "\xe1\x80", "\xf0\x9d", "\0", "\xef\xbf\xbf", "\xc3\xb6", "\xe4\xb8\x80" };

static uint64_t state;
static uint32_t rnd(uint32_t below) {
    state = state * 6364136223846793005u + 1442695040888963407u;
    return (uint32_t)(state >> 33) % below;
}

static void wrong(const char *what, long at) { printf("call %ld: %s\n", at, what); }

static uint8_t *file;
static size_t file_length;

/* A text in UTF-8, damaged or not, in memory of just its length. */
static uint8_t *text(size_t *length) {
    uint8_t made[8 * LONG];
    size_t count = rnd(50) ? rnd(UNITS) : rnd(LONG);
    *length = 0;
    for (size_t at = 0; at < count; at++) {
        const char *unit = LETTERS[rnd(sizeof LETTERS / sizeof *LETTERS)];
        size_t units = *unit ? strlen(unit) : rnd(2);
        memcpy(made + *length, unit, units);
        *length += units;
    }
    uint8_t *exact = malloc(*length ? *length : 1);
    memcpy(exact, made, *length);
    return exact;
}

static int sign(int order) { return (order > 0) - (order < 0); }

static int bytes_order(const uint8_t *a, size_t n, const uint8_t *b, size_t m) {
    int order = memcmp(a, b, n < m ? n : m);
    return order ? sign(order) : (n > m) - (n < m);
}

typedef int32_t writer(collate_handle *, const uint8_t *, size_t, uint8_t *, size_t, size_t *);

/* The bytes that a call writes, after one with too little room. */
static uint8_t *written(writer *call, collate_handle *handle, const uint8_t *of, size_t length, size_t *needed, int32_t *status, long at) {
    size_t room = rnd(3) ? rnd(30) : 20000, again;
    uint8_t *out = malloc(room ? room : 1);
    *status = call(handle, of, length, out, room, needed);
    if (*status == COLLATE_TOO_SMALL) {
        if (*needed <= room) wrong("room that is too small was enough", at);
        free(out);
        out = malloc(*needed);
        *status = call(handle, of, length, out, *needed, &again);
        if (*status == COLLATE_DONE && again != *needed) wrong("two lengths", at);
    }
    if (*status != COLLATE_DONE) *needed = 0;
    return out;
}

static void compare_all(collate_handle *handle, int is_open, long at) {
    size_t n, m, keys[2];
    uint8_t *a = text(&n), *b = text(&m);
    int32_t order = collate_compare_utf8(handle, a, n, b, m), status[2];
    uint8_t *one = written(collate_key_utf8, handle, a, n, &keys[0], &status[0], at);
    uint8_t *other = written(collate_key_utf8, handle, b, m, &keys[1], &status[1], at);
    if (!is_open) {
        if (order != COLLATE_NO_ORDER || status[0] != COLLATE_IS_CLOSED) wrong("a closed handle has an order or a key", at);
    } else {
        if (status[0] || status[1]) wrong("no key", at);
        if (order != bytes_order(one, keys[0], other, keys[1])) wrong("keys order otherwise than texts", at);
        if (order != -collate_compare_utf8(handle, b, m, a, n)) wrong("an order isn't that of the texts swapped", at);
        if (collate_compare_utf8(handle, a, n, a, n)) wrong("a text isn't equal to itself", at);
    }
    free(a);
    free(b);
    free(one);
    free(other);
}

static void compare_wide(collate_handle *handle, int is_open, long at) {
    size_t n = rnd(UNITS), m = rnd(UNITS);
    uint16_t *a = malloc(2 * n + 1), *b = malloc(2 * m + 1);
    for (size_t i = 0; i < n; i++) a[i] = (uint16_t)(rnd(2) ? rnd(128) : rnd(65536));
    for (size_t i = 0; i < m; i++) b[i] = rnd(3) && i < n ? a[i] : (uint16_t)rnd(65536);
    int32_t order = collate_compare_utf16(handle, a, n, b, m);
    uint8_t one[8192], other[8192];
    size_t keys[2];
    int32_t status = collate_key_utf16(handle, a, n, one, sizeof one, &keys[0]);
    if (status == COLLATE_DONE) status = collate_key_utf16(handle, b, m, other, sizeof other, &keys[1]);
    if (status == COLLATE_DONE ? order != bytes_order(one, keys[0], other, keys[1]) : is_open || order != COLLATE_NO_ORDER)
        wrong("texts in UTF-16", at);
    size_t half_n = n / 2, half_m = m / 2;
    int32_t narrow = collate_compare_latin1(handle, (uint8_t *)a, half_n, (uint8_t *)b, half_m);
    if (is_open ? narrow < -1 || narrow > 1 : narrow != COLLATE_NO_ORDER) wrong("texts in Latin-1", at);
    free(a);
    free(b);
}

/* A text that begins as another one has a key between its bounds. */
static void bound(collate_handle *handle, int is_open, long at) {
    size_t n, low_length, high_length, key_length;
    uint8_t *a = text(&n);
    int32_t low_status, high_status, status;
    uint8_t *low = written(collate_lower_bound_utf8, handle, a, n, &low_length, &low_status, at);
    uint8_t *high = written(collate_upper_bound_utf8, handle, a, n, &high_length, &high_status, at);
    uint8_t *key = written(collate_key_utf8, handle, a, n, &key_length, &status, at);
    if (is_open) {
        if (low_status || (high_status && high_status != COLLATE_NO_BOUND)) wrong("no bounds", at);
        if (bytes_order(low, low_length, key, key_length) > 0) wrong("a key below the lower bound", at);
        if (!high_status && bytes_order(key, key_length, high, high_length) >= 0) wrong("a key above the upper bound", at);
    } else if (low_status != COLLATE_IS_CLOSED || high_status != COLLATE_IS_CLOSED) {
        wrong("a closed handle has bounds", at);
    }
    free(a);
    free(low);
    free(high);
    free(key);
}

/* Keys by one call are those by a call for each text; ends out of order give empty texts. */
static void batch(collate_handle *handle, int is_open, long at) {
    size_t length, ends[6], key_ends[6], count = rnd(6), places = rnd(4) ? count : rnd(6), written = 99, begin = 0, filled = 0;
    uint8_t *all = text(&length), out[1200], key[20000];
    for (size_t i = 0; i < count; i++) ends[i] = rnd((uint32_t)(length < 60 ? length : 60) + 3);
    int32_t status = collate_keys_utf8(handle, all, length, ends, count, out, sizeof out, key_ends, places, &written);
    if (!is_open) {
        if (status != COLLATE_IS_CLOSED || written) wrong("a closed handle has keys", at);
    } else if ((status == COLLATE_DONE) != (written == count) || (status && status != COLLATE_TOO_SMALL)) {
        wrong("another number of keys", at);
    }
    for (size_t i = 0; is_open && i < written; i++) {
        size_t to = ends[i] < length ? ends[i] : length, from = begin < to ? begin : to, needed;
        if (collate_key_utf8(handle, all + from, to - from, key, sizeof key, &needed) || key_ends[i] != filled + needed
            || memcmp(key, out + filled, needed))
            wrong("another key by a call for many", at);
        filled = key_ends[i];
        begin = ends[i];
    }
    free(all);
}

/* Matches are apart, from left to right, and equal to the pattern; with less room they are the first of them. */
static void search(collate_handle *handle, int is_open, long at) {
    size_t n, m = 0, needed = 99, again = 99;
    uint8_t *in = text(&n), *pattern;
    if (n && rnd(4)) {
        size_t from = rnd((uint32_t)n);
        m = n - from < 4 ? n - from : rnd(5);
        pattern = memcpy(malloc(m ? m : 1), in + from, m);
    } else {
        pattern = text(&m);
    }
    size_t room = rnd(2) ? rnd(4) : n + 1;
    collate_match *out = malloc((room + 1) * sizeof *out);
    int32_t status = collate_find_all_utf8(handle, pattern, m, in, n, out, room, &needed);
    if (!is_open) {
        if (status != COLLATE_IS_CLOSED) wrong("a closed handle has matches", at);
        needed = 0;
    } else if (status != (needed > room ? COLLATE_TOO_SMALL : COLLATE_DONE) || needed > n + 1) {
        wrong("another status of a search", at);
    }
    collate_match *all = malloc((needed + 1) * sizeof *all);
    if (is_open && (collate_find_all_utf8(handle, pattern, m, in, n, all, needed, &again) || again != needed)) wrong("two counts", at);
    for (size_t i = 0; i < needed; i++) {
        collate_match it = all[i];
        if (it.start > it.end || it.end > n || (i && (it.start < all[i - 1].end || !memcmp(&it, &all[i - 1], sizeof it))))
            wrong("a match out of order", at);
        else if (collate_compare_utf8(handle, in + it.start, it.end - it.start, pattern, m))
            wrong("a match that isn't equal", at);
        if (i < room && memcmp(&it, &out[i], sizeof it)) wrong("another match with less room", at);
    }
    free(in);
    free(pattern);
    free(out);
    free(all);
}

static int open_by(collate_handle *handle, long at) {
    size_t tag = rnd(TAG_COUNT), length = file_length;
    uint8_t *copy = malloc(file_length);
    memcpy(copy, file, file_length);
    int is_damaged = !rnd(4);
    if (is_damaged) {
        copy[rnd((uint32_t)file_length)] ^= (uint8_t)(1 + rnd(255));
        if (!rnd(3)) length = rnd((uint32_t)file_length);
    }
    int32_t status = collate_open(handle, copy, length, (const uint8_t *)TAGS[tag], strlen(TAGS[tag]));
    free(copy);
    int32_t wanted = tag >= GOOD ? COLLATE_BAD_SETTINGS : is_damaged ? COLLATE_BAD_TABLES : COLLATE_DONE;
    if (status != wanted) wrong("another status of an opening", at);
    return status == COLLATE_DONE;
}

/* ---- two threads, each by its own handle over the same tables */

typedef struct { collate_handle handle; long wrong; } share;

static void *work(void *with) {
    share *it = with;
    uint8_t key[64];
    for (int at = 0; at < 2000; at++) {
        size_t length;
        it->wrong += collate_compare_utf8(&it->handle, (const uint8_t *)"ab", 2, (const uint8_t *)"b", 1) != -1;
        it->wrong += collate_key_utf8(&it->handle, (const uint8_t *)"ab", 2, key, sizeof key, &length) != COLLATE_DONE;
    }
    collate_close(&it->handle);
    return NULL;
}

static void threads(void) {
    collate_handle first = COLLATE_CLOSED;
    share shares[2] = { { COLLATE_CLOSED, 0 }, { COLLATE_CLOSED, 0 } };
    pthread_t running[2];
    if (collate_open(&first, file, file_length, collate_text(NULL), 0) || collate_share(&first, &shares[0].handle)
        || collate_share(&first, &shares[1].handle)) {
        wrong("no shared handles", 0);
        return;
    }
    collate_close(&first);
    for (int at = 0; at < 2; at++) pthread_create(&running[at], NULL, work, &shares[at]);
    for (int at = 0; at < 2; at++) pthread_join(running[at], NULL);
    if (shares[0].wrong + shares[1].wrong) wrong("a shared handle", 0);
}

int main(int count, char **words) {
    if (count != 4) return 2;
    FILE *it = fopen(words[1], "rb");
    if (!it || fseek(it, 0, SEEK_END)) return 2;
    file_length = (size_t)ftell(it);
    rewind(it);
    file = malloc(file_length);
    if (fread(file, 1, file_length, it) != file_length) return 2;
    fclose(it);
    long calls = atol(words[2]);
    state = strtoull(words[3], NULL, 10);
    collate_handle handles[HANDLES] = { COLLATE_CLOSED };
    int is_open[HANDLES] = { 0 };
    if (collate_version() != COLLATE_VERSION) wrong("another version", 0);
    for (long at = 1; at <= calls; at++) {
        uint32_t one = rnd(HANDLES), other = (one + 1 + rnd(HANDLES - 1)) % HANDLES;
        uint8_t print[2][COLLATE_FINGERPRINT];
        switch (rnd(24)) {
        case 0:
            is_open[one] = open_by(&handles[one], at);
            break;
        case 1:
            collate_close(&handles[one]);
            is_open[one] = 0;
            break;
        case 2:
            if (collate_share(&handles[one], &handles[other]) != (is_open[one] ? COLLATE_DONE : COLLATE_IS_CLOSED))
                wrong("another status of a share", at);
            is_open[other] = is_open[one];
            if (is_open[one] && (collate_fingerprint(&handles[one], print[0], 32) || collate_fingerprint(&handles[other], print[1], 32)
                                 || memcmp(print[0], print[1], 32)))
                wrong("another fingerprint of a share", at);
            break;
        case 3:
            if (collate_fingerprint(&handles[one], print[0], rnd(32)) != (is_open[one] ? COLLATE_TOO_SMALL : COLLATE_IS_CLOSED))
                wrong("a fingerprint without room", at);
            break;
        case 4:
        case 5:
            bound(&handles[one], is_open[one], at);
            break;
        case 8:
            batch(&handles[one], is_open[one], at);
            break;
        case 9:
            search(&handles[one], is_open[one], at);
            break;
        case 6:
        case 7:
            compare_wide(&handles[one], is_open[one], at);
            break;
        default:
            compare_all(&handles[one], is_open[one], at);
        }
    }
    for (int at = 0; at < HANDLES; at++) {
        collate_close(&handles[at]);
        collate_close(&handles[at]);
    }
    threads();
    free(file);
    printf("%ld calls\n", calls);
    return 0;
}
