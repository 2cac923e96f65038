/* Collation (UTS #10) by a table file, as `collate-cldr compile -o FILE` writes it: the order of texts, and sort keys.

   Whatever its texts, its file and its tag are, a call returns a status or an order, and does nothing else. What nothing
   checks, a caller owes:
   - No pointer is null, that of an empty text neither (`collate_text`). Each has as many units as its length says, which
     is below 2^63 bytes, and what a call writes to (`handle`, `other`, `out`, `needed` and the like) overlaps nothing else that it is
     given.
   - All bytes of a handle are 0 before its first call (COLLATE_CLOSED). Nobody else reads, writes or copies it. It is
     given to one call at a time: calls by several threads are ordered by a lock, a join or the like. For calls at the
     same time each thread has a handle of its own (`collate_share`).
   - No call comes from a signal handler, nor from the forked child of a process with threads. `malloc`, `realloc` and
     `free` are of one allocator. The processor has x86-64-v2 (SSE4.2). */
#ifndef COLLATE_H
#define COLLATE_H
#include <stdbool.h>
#include <stddef.h>
#include <stdint.h>
#ifdef __cplusplus
extern "C" {
#endif

/* The version of these declarations, which `collate_version` returns of the library that runs. */
#define COLLATE_VERSION 1

typedef struct collate_handle {
    bool is_open;
    void *at;
} collate_handle;
#define COLLATE_CLOSED { 0 }

/* A text that may be null if it is empty, as calls take it. */
static inline const uint8_t *collate_text(const void *text) {
    return text ? (const uint8_t *)text : (const uint8_t *)"";
}

/* What calls return. */
enum {
    COLLATE_DONE = 0,
    COLLATE_NO_MEMORY = 1,
    COLLATE_BAD_TABLES = 2,   /* no table file, or a damaged one, or its tables are refused */
    COLLATE_BAD_SETTINGS = 3, /* no language tag, or a keyword with a type that it doesn't have */
    COLLATE_TOO_SMALL = 4,    /* `*needed` says how much room it takes */
    COLLATE_IS_CLOSED = 5,
    COLLATE_NO_BOUND = 6      /* no bytes are above all texts that begin so */
};
/* What a comparison returns of a closed handle. */
#define COLLATE_NO_ORDER 2
/* How many bytes a fingerprint has. */
#define COLLATE_FINGERPRINT 32

/* Opens a handle by the bytes of a table file, which may be freed after the call, and by the keywords of a language tag,
   such as "und-u-ks-level1-kn"; "" sets nothing. Each setting is that of the tag, or else of the file's own tag, or else
   of its tables. What the handle had is dropped. If this returns another status than COLLATE_DONE, it is closed. */
int32_t collate_open(collate_handle *handle, const uint8_t *file, size_t file_length, const uint8_t *tag,
                     size_t tag_length);

/* Closes a handle, which may be closed. What no other handle shares is freed. */
void collate_close(collate_handle *handle);

/* Opens `other` over the tables and settings of `handle`, which both share: nothing is copied or checked again. What
   `other` had is dropped. What they share is only read, but for a count of its owners, which is atomic. Proved is that both
   have the same tables and settings, and that a handle may go to another thread between two calls. That threads may count
   owners at the same time is a statement of the toolchain's, on `Arc`. */
int32_t collate_share(collate_handle *handle, collate_handle *other);

/* The order of two texts: -1, 0 or 1; COLLATE_NO_ORDER of a closed handle. Damaged UTF-8 and unpaired surrogates count
   as U+FFFD. Allocates nothing. Lengths are in units: bytes, or numbers of 16 bits. */
int32_t collate_compare_utf8(collate_handle *handle, const uint8_t *left, size_t left_length, const uint8_t *right,
                             size_t right_length);
int32_t collate_compare_utf16(collate_handle *handle, const uint16_t *left, size_t left_length, const uint16_t *right,
                              size_t right_length);
int32_t collate_compare_latin1(collate_handle *handle, const uint8_t *left, size_t left_length, const uint8_t *right,
                               size_t right_length);

/* Writes the sort key of a text to `out`, if it fits in `room` bytes, and its length to `*needed` (COLLATE_DONE,
   COLLATE_TOO_SMALL, of which the room then may hold a part of the key). Keys order as their texts, by memcmp and then
   by length. Nothing is allocated while each level but the first has at most 32 bytes in the key, as for a name, and no
   piece of the text that is matched as one has more than 64 characters; else COLLATE_NO_MEMORY may come. */
int32_t collate_key_utf8(collate_handle *handle, const uint8_t *text, size_t length, uint8_t *out, size_t room,
                         size_t *needed);
int32_t collate_key_utf16(collate_handle *handle, const uint16_t *text, size_t length, uint8_t *out, size_t room,
                          size_t *needed);

/* Writes the sort keys of many texts. The texts are one after the other in `texts`: the first begins at 0, each ends at
   one of `ends`, and the next begins there; one that would end before it begins is empty. The keys are written one after
   the other to `out`, and their ends to `key_ends`. `*written` is how many were written, the first ones: all of them if
   this returns COLLATE_DONE. */
int32_t collate_keys_utf8(collate_handle *handle, const uint8_t *texts, size_t length, const size_t *ends, size_t count,
                          uint8_t *out, size_t room, size_t *key_ends, size_t key_count, size_t *written);

/* Between which keys all texts stand that begin as this one at the primary level: not below the lower bound, and below
   the upper one, if there is such (else COLLATE_NO_BOUND). Written as keys are. */
int32_t collate_lower_bound_utf8(collate_handle *handle, const uint8_t *text, size_t length, uint8_t *out, size_t room,
                                 size_t *needed);
int32_t collate_upper_bound_utf8(collate_handle *handle, const uint8_t *text, size_t length, uint8_t *out, size_t room,
                                 size_t *needed);

/* A match: the bytes of a text from `start` on, before `end`. */
typedef struct collate_match {
    size_t start, end;
} collate_match;

/* Finds the parts of a text that are equal to a pattern by the handle's tables and settings, as UTS #10 says ("Searching
   and Matching"). Of those that hold no other one, these are the first, and then each time the next that begins where
   the last one ends or after it. No part begins or ends inside a contraction, or between a letter and its marks. A
   pattern that is equal to the empty text is found, empty, at each place. Writes them from left to right to `out`, as
   many as its room has, and how many there are to `*needed` (COLLATE_DONE, COLLATE_TOO_SMALL). Allocates in proportion
   to the text (COLLATE_NO_MEMORY). */
int32_t collate_find_all_utf8(collate_handle *handle, const uint8_t *pattern, size_t pattern_length, const uint8_t *text,
                              size_t length, collate_match *out, size_t room, size_t *needed);

/* Writes COLLATE_FINGERPRINT bytes that determine the keys: tables, settings and versions. Store them beside keys, and
   make the keys anew if they differ. */
int32_t collate_fingerprint(collate_handle *handle, uint8_t *out, size_t room);

/* Writes what is said of a status, in ASCII with no 0 at its end, and its length to `*needed`. */
int32_t collate_message(int32_t status, uint8_t *out, size_t room, size_t *needed);

int32_t collate_version(void);

#ifdef __cplusplus
}
#endif
#endif
