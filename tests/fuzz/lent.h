/* Slices that are lent to the archive by the fuzz drivers. Each lies against an inaccessible page, at its front or at its end, so that
 * a read outside stops the program too; on its other side are guard bytes. */
#ifndef LENT_H
#define LENT_H

#include <stdint.h>
#include <stdio.h>
#include <stdlib.h>
#include <string.h>
#include <sys/mman.h>

#define HOLD(condition)                                                                                                                  \
    do {                                                                                                                                 \
        if (!(condition)) {                                                                                                              \
            fprintf(stderr, "%s:%d: does not hold: %s\n", __FILE__, __LINE__, #condition);                                               \
            abort();                                                                                                                     \
        }                                                                                                                                \
    } while (0)

enum { ROOM = 1 << 16, PAGE = 4096, GUARD = 0xc3 };

/* The bytes watched: the slice and the guards beside it, at most a page of them. */
typedef struct {
    uint8_t *room, *at, *watched, before[ROOM];
    size_t length, watched_length;
} lent;

/* Whether all these bytes are zero. */
static inline int zeros(const void *bytes, size_t length) {
    const uint8_t *at = bytes;
    return length == 0 || (at[0] == 0 && memcmp(at, at + 1, length - 1) == 0);
}

/* libFuzzer counts the first as coverage: the archive is not instrumented, so the drivers mark here what it answered, with a detail.
 * The second counts the answers by their number; they are printed at the end. */
__attribute__((section("__libfuzzer_extra_counters"))) static uint8_t outcomes[1 << 14];
static uint64_t answered[45];

static inline void mark(uint32_t refusal, uint64_t detail) {
    HOLD(refusal < 45);
    answered[refusal]++;
    outcomes[(refusal * 257 + detail * 31) % sizeof outcomes] = 1;
}

__attribute__((destructor)) static void print_answered(void) {
    if (zeros(answered, sizeof answered)) return;
    fprintf(stderr, "answered:");
    for (int number = 0; number < 45; number++)
        if (answered[number]) fprintf(stderr, " %d (%llu)", number, (unsigned long long)answered[number]);
    fprintf(stderr, "\n");
}

/* The content, copied to where it is lent; NULL where it is empty. */
static inline void *lend(lent *slice, const void *content, size_t length, int at_front) {
    HOLD(length <= ROOM);
    if (!slice->room) {
        uint8_t *pages = mmap(NULL, ROOM + 2 * PAGE, PROT_NONE, MAP_PRIVATE | MAP_ANONYMOUS, -1, 0);
        HOLD(pages != MAP_FAILED && mprotect(pages + PAGE, ROOM, PROT_READ | PROT_WRITE) == 0);
        slice->room = pages + PAGE;
    }
    size_t guards = ROOM - length < PAGE ? ROOM - length : PAGE;
    slice->at = at_front ? slice->room : slice->room + ROOM - length;
    slice->length = length;
    slice->watched = at_front ? slice->at : slice->at - guards;
    slice->watched_length = length + guards;
    memset(at_front ? slice->at + length : slice->watched, GUARD, guards);
    if (length) memcpy(slice->at, content, length);
    memcpy(slice->before, slice->watched, slice->watched_length);
    return length ? slice->at : NULL;
}

/* Nothing changed, in the slice and beside it. */
static inline int unchanged(const lent *slice) {
    return memcmp(slice->watched, slice->before, slice->watched_length) == 0;
}

/* Nothing changed beside the slice and in it from a place on. */
static inline int unchanged_from(const lent *slice, size_t from) {
    size_t front = slice->at - slice->watched, after = front + from;
    return memcmp(slice->watched, slice->before, front) == 0 &&
           memcmp(slice->watched + after, slice->before + after, slice->watched_length - after) == 0;
}

/* What the slice holds now is what it is compared with from here on. */
static inline void take_as_before(lent *slice) {
    memcpy(slice->before + (slice->at - slice->watched), slice->at, slice->length);
}

/* The next bytes of an input, little-endian; 0 where it has ended. */
typedef struct {
    const uint8_t *at;
    size_t left;
} input;

static inline uint64_t next(input *from, size_t bytes) {
    uint64_t number = 0;
    for (size_t i = 0; i < bytes && from->left; i++, from->at++, from->left--) number |= (uint64_t)*from->at << (8 * i);
    return number;
}

/* An area of K slots of this capacity: bytes with no zero among them, so that a written zero shows, and the input's headers over them. Each
 * has its slot, its page, its shift in the page (2 bytes) and the 12 bytes. */
static inline void read_area(uint8_t *bytes, size_t length, uint64_t capacity, input *from) {
    static uint8_t dirty[ROOM];
    for (size_t at = 0; at < ROOM && !dirty[ROOM - 1]; at++) dirty[at] = 0x80 | at % 113;
    memcpy(bytes, dirty, length);
    while (from->left >= 16) {
        uint64_t slot = next(from, 1), page = next(from, 1), shift = next(from, 2), at = slot * capacity + page * PAGE + shift;
        for (size_t i = 0; i < 12; i++) {
            uint8_t byte = next(from, 1);
            if (at + i < length) bytes[at + i] = byte;
        }
    }
}

#endif
