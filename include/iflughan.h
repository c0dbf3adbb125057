/* Iflughan: a segment log and a rollback delta codec, proved. C interface of libiflughan.a.
 *
 * The archive is for x86-64 Linux: the System V calling convention, 64-bit pointers, little-endian. It calls memcpy and memset and
 * nothing else, allocates nothing, and keeps nothing between calls.
 *
 * A log lies in an area that the caller lends: K slots of C bytes, each slot for one segment image. A record has an id, 1, 2, .. in the
 * order of the appends; a segment of M bytes or more takes no further record. s..e are the ids of the first and the last record wanted.
 *
 *     #include <iflughan.h>
 *     #include <stdio.h>
 *
 *     enum { K = 2, C = 8192, M = 8192 };
 *     static uint8_t area[K * C];
 *
 *     static int refused(uint32_t number) {
 *         if (number != IFLUGHAN_ACCEPTED) printf("refused %u: %s\n", (unsigned)number, iflughan_refusal_text(number));
 *         return number != IFLUGHAN_ACCEPTED;
 *     }
 *
 *     int main(void) {
 *         iflughan_logged made = iflughan_new(K, C, M, area, sizeof area);
 *         iflughan_appended one = iflughan_append(made.log, area, sizeof area, (const uint8_t *)"abc", 3);
 *         if (refused(made.refusal) || refused(one.refusal)) return 1;
 *
 *         // after a restart: one image, segment 1 in slot 0 with one page, and record 1 is wanted
 *         iflughan_image image = {1, 0, IFLUGHAN_PAGE_LENGTH};
 *         iflughan_index_row row;
 *         iflughan_recovered back = iflughan_recover(K, C, M, area, sizeof area, &image, 1, 1, 1, (uint64_t *)&row, IFLUGHAN_ROW_WORDS);
 *         if (refused(back.refusal)) return 1;
 *         iflughan_part part = iflughan_payload(back.log, area, sizeof area, row.id, row.slot, row.offset, row.length);
 *         printf("record %u: %.*s\n", (unsigned)row.id, (int)part.length, (const char *)&area[part.at]);
 *         return refused(part.refusal);
 *     }
 *
 * It writes `record 1: abc`. With the folder that `./iflughan build` wrote:
 *     cc example.c $(PKG_CONFIG_PATH=FOLDER pkg-config --cflags --libs iflughan)
 *
 * What the caller keeps, for every function: a pointer is good for its length (it may be NULL where the length is 0), lent slices
 * do not overlap, and `images` and `index` are aligned for their types. Everything else is tested: no argument can stop a function
 * or make it reach outside what it was lent. The thread has the stack that the call takes (IFLUGHAN_STACK_..).
 *
 * Every answer begins with `refusal`: 0 where accepted, else the number of a refusal (REFUSALS.md, beside this file: when, and what to
 * do); the row question answers the number alone. A refused call changes no lent byte. Beside its number stand zeros, but for `log` of
 * append and of the prunes, which is the log given. Fields called reserved name what would be padding: they are 0 in answers and are
 * not looked at in arguments.
 *
 * There is no checksum and no durability: a changed payload byte is delivered as it stands, and nothing is written to a disk.
 *
 * Papers: document 01 is the customer's paper of exact rules, a specimen one of its worked cases. Demands 1 to 3 are what the customer asks
 * for: 1, nothing can stop the library or make it reach outside its memory; 2, it answers as the Rust that it rewrites; 3, a recovery
 * delivers the payloads last appended. These papers are not in the repository, their content is: the bytes in docs/FORMAT.md, the refusals
 * in docs/REFUSALS.md, each sentence, demand and specimen beside what proves it in docs/PROMISES.md. */
#ifndef IFLUGHAN_H
#define IFLUGHAN_H

#include <stddef.h>
#include <stdint.h>

#ifdef __cplusplus
extern "C" {
#endif

/* ---- version: also what `pkg-config --modversion iflughan` says */
#define IFLUGHAN_VERSION_MAJOR 0
#define IFLUGHAN_VERSION_MINOR 2
#define IFLUGHAN_VERSION_PATCH 0
#define IFLUGHAN_VERSION "0.2.0"

/* ---- limits */
#define IFLUGHAN_MOST_SLOTS 64                /* K, and the image rows of a recovery */
#define IFLUGHAN_PAGE_LENGTH 4096             /* a record begins on a page; C is a multiple of it */
#define IFLUGHAN_MOST_CAPACITY 2147483648u    /* C: 2^31 */
#define IFLUGHAN_HEADER_LENGTH 12             /* before a payload: its length (4 bytes), the record id (8) */
#define IFLUGHAN_MOST_PAYLOAD 1073741824u     /* 2^30 */
#define IFLUGHAN_MOST_KEYS 256                /* of a delta */
#define IFLUGHAN_KEY_LENGTH 32
#define IFLUGHAN_NAME_TAIL 15                 /* a name is its prefix and these bytes: a dot, ten digits, .log */
#define IFLUGHAN_ROW_WORDS 4                  /* of the index, for each record of s..e */

/* ---- stack: what a call takes at most, in bytes, its arguments by value and its answer included; measured (tests/abi), not proved */
#define IFLUGHAN_STACK_NEW 8192
#define IFLUGHAN_STACK_APPEND 16384
#define IFLUGHAN_STACK_PRUNE_OLDEST 16384
#define IFLUGHAN_STACK_PRUNE_RECENT 16384
#define IFLUGHAN_STACK_RECOVER 16384
#define IFLUGHAN_STACK_ROW_QUESTION 8192
#define IFLUGHAN_STACK_PAYLOAD 8192
#define IFLUGHAN_STACK_NAME_WRITE 1024
#define IFLUGHAN_STACK_NAME_PARSE 1024
#define IFLUGHAN_STACK_DELTA_DECODE 90112 /* 88 KiB: copies of the table */
#define IFLUGHAN_STACK_DELTA_ENCODE 90112 /* 88 KiB: copies of the table */

/* ---- refusals, in words: iflughan_refusal_text, at the end */
enum {
    IFLUGHAN_ACCEPTED = 0,
    IFLUGHAN_OUTSIDE_RULES = 1,
    IFLUGHAN_NOT_WELL_SHAPED = 2,
    IFLUGHAN_PAYLOAD_TOO_LONG = 3,
    IFLUGHAN_LIVE_END_AT_LIMIT = 4,
    IFLUGHAN_SEGMENT_ID_AT_LIMIT = 5,
    IFLUGHAN_SLOTS_TAKEN = 6,
    IFLUGHAN_RECORD_TOO_LONG = 7,
    IFLUGHAN_PRUNE_ABOVE_LIVE_END = 8,
    IFLUGHAN_PRUNE_BELOW_LIVE_START = 9,
    IFLUGHAN_CUT_NOT_FOUND = 10,
    IFLUGHAN_ONE_END_ZERO = 11,
    IFLUGHAN_START_ABOVE_END = 12,
    IFLUGHAN_IMAGE_ROWS_WRONG = 13,
    IFLUGHAN_SEGMENT_ID_ZERO = 14,
    IFLUGHAN_SEGMENT_IDS_APART = 15,
    IFLUGHAN_IMAGE_AFTER_EMPTY_ONE = 16,
    IFLUGHAN_SHORT_HEADER = 17,
    IFLUGHAN_HEADER_LENGTH_TOO_LONG = 18,
    IFLUGHAN_OUT_OF_SEQUENCE = 19,
    IFLUGHAN_SHORT_LIVE_PAYLOAD = 20,
    IFLUGHAN_START_NOT_FOUND = 21,
    IFLUGHAN_END_NOT_FOUND = 22,
    IFLUGHAN_INDEX_SHORT = 23,
    IFLUGHAN_ROW_OUTSIDE = 24,
    IFLUGHAN_EMPTY_PREFIX = 30,
    IFLUGHAN_PREFIX_MISSING = 31,
    IFLUGHAN_SUFFIX_MISSING = 32,
    IFLUGHAN_DOT_MISSING = 33,
    IFLUGHAN_NOT_TEN_BYTES = 34,
    IFLUGHAN_NOT_U32 = 35,
    IFLUGHAN_NAME_BUFFER_SHORT = 36,
    IFLUGHAN_INPUT_ENDS_EARLY = 40,
    IFLUGHAN_TOO_MANY_KEYS = 41,
    IFLUGHAN_DUPLICATE_KEY = 42,
    IFLUGHAN_TABLE_OUTSIDE = 43,
    IFLUGHAN_OUTPUT_SHORT = 44
};

/* ---- structs */

/* A listed segment: its image is the first `size` bytes of its slot; `min` and `max` are its lowest and highest record id. The header
 * of the record `max`, its newest, starts at `newest_at` in the slot: a multiple of 4096, with its 12 bytes below `size`. 40 bytes. */
typedef struct { uint32_t id, slot; uint64_t size, min, max, newest_at; } iflughan_segment;

/* The log: K slots of C bytes, soft size M, the live range, and the listed segments, `count` of them, oldest first; unused entries
 * are zero. 2,608 bytes. */
typedef struct {
    uint64_t slots, capacity, soft_size;
    uint64_t start_live, end_live, count;
    iflughan_segment segments[64];
} iflughan_log;

/* An image row: the slot that holds the image of a segment, and its size in bytes. */
typedef struct { uint32_t id, slot; uint64_t size; } iflughan_image;

/* Four words of recovery's index: the record `id` has its payload in `slot`, `length` bytes from `offset` on. Lend an array of rows as
 * (uint64_t *)rows and four words for each. */
typedef struct { uint64_t id, slot, offset, length; } iflughan_index_row;

typedef struct { uint32_t refusal, reserved; iflughan_log log; } iflughan_logged;
typedef struct { uint32_t refusal, reserved; uint64_t id; iflughan_log log; } iflughan_appended;
typedef struct { uint32_t refusal, reserved; uint64_t rows; iflughan_log log; } iflughan_recovered;
typedef struct { uint32_t refusal, reserved; uint64_t at, length; } iflughan_part;
typedef struct { uint32_t refusal, reserved; uint64_t length; } iflughan_written;
typedef struct { uint32_t refusal, id; } iflughan_parsed;

/* A row of a delta: `present` is 0 for a key to erase; any other value counts as present, and the library answers 1. Offset and
 * length lead to the prior value in a slice of the caller's. */
typedef struct {
    uint8_t key[32];
    uint8_t present;
    uint8_t reserved[7];
    uint64_t offset;
    uint32_t length;
    uint32_t reserved_too;
} iflughan_delta_row;
typedef struct { uint64_t count; iflughan_delta_row rows[256]; } iflughan_delta;
typedef struct { uint32_t refusal, reserved; uint64_t consumed; iflughan_delta table; } iflughan_decoded;

/* ---- functions */

/* An empty log over an area of exactly k x c bytes: 1 <= k <= 64, c a multiple of 4096 from 4096 to 2^31, m <= c. Refuses with 1.
 * No byte of the area is read or changed. */
iflughan_logged iflughan_new(uint64_t k, uint64_t c, uint64_t m, uint8_t *area, size_t area_len);

/* Appends a record under the id after the live end. Refuses with 2, 3, 4, 5, 6, 7, in this order. Changes only the bytes of the
 * head's slot from its old size, its newest_at from then on, to its new, padded size. */
iflughan_appended iflughan_append(iflughan_log log, uint8_t *area, size_t area_len, const uint8_t *payload, size_t payload_len);

/* Drops leading segments whose max is below new_start_live, never the last, and sets the live start. 0 gives the empty log; on an
 * empty log any argument gives the same log. Refuses with 2, 8, 9, in this order. Changes no byte. */
iflughan_logged iflughan_prune_oldest(iflughan_log log, uint8_t *area, size_t area_len, uint64_t new_start_live);

/* Takes back what is newer than new_end_live: drops trailing segments, cuts the last kept one behind that record and sets the live
 * end. Where that record is the segment's max, its header at newest_at is all that is read of the image: a record with another id, a
 * length above 2^30 or a payload past the size is 10 there. Any other record is looked for from the image's front on. 0 gives the
 * empty log; on an empty log any argument gives the same log. Refuses with 2, 8, 9, 10, in this order. Writes zeros where the kept
 * record's padding was missing, and changes no other byte. */
iflughan_logged iflughan_prune_recent(iflughan_log log, uint8_t *area, size_t area_len, uint64_t new_end_live);

/* The log of the records s..e from the images in the area, which `images` lists in any order. Refuses with 1, 11, 12, 13, 14, 15,
 * then by the walk (16 before an image's first header; 17, 18, 19, 20 per record), 21, 22, 23. The walk stops once e's record is read:
 * the rest of its image and later images are not looked at, and 16 to 20 speak only of what stands up to e; where e is not met, of
 * all images. On acceptance the index begins with `rows` rows of four words (record id, slot, offset of the payload in the slot,
 * length), one for each of s..e in order; its later words stay. Needs 4 x (e - s + 1) words. Writes zeros to the area where e's
 * padding was missing, and changes no other byte. A kept segment's min, max and newest_at are those of the records read in it. The
 * range (0, 0) gives the empty log and no rows. */
iflughan_recovered iflughan_recover(uint64_t k, uint64_t c, uint64_t m, uint8_t *area, size_t area_len, const iflughan_image *images,
                                    size_t image_count, uint64_t s, uint64_t e, uint64_t *index, size_t index_words);

/* Whether an index row is good for this log and area: 0, 2 or 24. The id is not looked at. */
uint32_t iflughan_row_question(iflughan_log log, const uint8_t *area, size_t area_len, uint64_t id, uint64_t slot, uint64_t offset,
                               uint64_t length);

/* The place of a row's payload in the area: `length` bytes from `at` on. Refuses with 2, 24; then `at` and `length` are 0. */
iflughan_part iflughan_payload(iflughan_log log, const uint8_t *area, size_t area_len, uint64_t id, uint64_t slot, uint64_t offset,
                               uint64_t length);

/* Writes the name of a segment at the front of `out`: prefix, dot, ten digits, .log; needs prefix_len + 15 bytes and answers that
 * length. Refuses with 30, 36. Later bytes of `out` stay. */
iflughan_written iflughan_name_write(const uint8_t *prefix, size_t prefix_len, uint32_t id, uint8_t *out, size_t out_len);

/* The segment id that a name says: the one for which iflughan_name_write writes these bytes, and where none does, a refusal. So two
 * names never say one id. Refuses with 30, 31, 32, 33, 34, 35, in this order. */
iflughan_parsed iflughan_name_parse(const uint8_t *prefix, size_t prefix_len, const uint8_t *name, size_t name_len);

/* The delta at the front of `input`: rows in ascending key order, offsets into `input`, and the bytes it takes; what follows is
 * not read. Refuses with 40, 41, 42, in reading order. */
iflughan_decoded iflughan_delta_decode(const uint8_t *input, size_t input_len);

/* Writes a delta at the front of `out`, each group in ascending key order, and answers its length; `values` is what the rows'
 * offsets lead into. Rows beyond the count, and an absent row's offset and length, are not looked at. Refuses with 43, 42, 44, in
 * this order. Later bytes of `out` stay. */
iflughan_written iflughan_delta_encode(iflughan_delta table, const uint8_t *values, size_t values_len, uint8_t *out, size_t out_len);

/* Document 01's words for a refusal, 10 with what newest_at adds; a number that no function answers is "unknown refusal". */
static inline const char *iflughan_refusal_text(uint32_t number) {
    switch (number) {
    case IFLUGHAN_ACCEPTED: return "accepted";
    case IFLUGHAN_OUTSIDE_RULES: return "K, C, M or area length outside the rules";
    case IFLUGHAN_NOT_WELL_SHAPED: return "log value not well shaped, or area length not K x C";
    case IFLUGHAN_PAYLOAD_TOO_LONG: return "payload above 2^30";
    case IFLUGHAN_LIVE_END_AT_LIMIT: return "live end is 2^64 - 1";
    case IFLUGHAN_SEGMENT_ID_AT_LIMIT: return "new segment wanted, last id is 2^32 - 1";
    case IFLUGHAN_SLOTS_TAKEN: return "new segment wanted, all K slots listed";
    case IFLUGHAN_RECORD_TOO_LONG: return "padded record above C minus the size (C for a new segment)";
    case IFLUGHAN_PRUNE_ABOVE_LIVE_END: return "prune above live end";
    case IFLUGHAN_PRUNE_BELOW_LIVE_START: return "prune below live start";
    case IFLUGHAN_CUT_NOT_FOUND:
        return "cut not found: another id at newest_at, short header, length above 2^30, payload past the size, or end of image first";
    case IFLUGHAN_ONE_END_ZERO: return "exactly one of s, e is 0";
    case IFLUGHAN_START_ABOVE_END: return "s > e";
    case IFLUGHAN_IMAGE_ROWS_WRONG: return "over 64 rows, slot >= K, slot twice, or size > C";
    case IFLUGHAN_SEGMENT_ID_ZERO: return "lowest segment id 0";
    case IFLUGHAN_SEGMENT_IDS_APART: return "neighbours not 1 apart (equal too)";
    case IFLUGHAN_IMAGE_AFTER_EMPTY_ONE: return "image of size above 0 directly after one of size 0";
    case IFLUGHAN_SHORT_HEADER: return "short header";
    case IFLUGHAN_HEADER_LENGTH_TOO_LONG: return "header length above 2^30";
    case IFLUGHAN_OUT_OF_SEQUENCE: return "record id 0 or out of sequence";
    case IFLUGHAN_SHORT_LIVE_PAYLOAD: return "short live payload";
    case IFLUGHAN_START_NOT_FOUND: return "s not found";
    case IFLUGHAN_END_NOT_FOUND: return "e not found";
    case IFLUGHAN_INDEX_SHORT: return "fewer than 4 index words for each live record";
    case IFLUGHAN_ROW_OUTSIDE: return "row asked for: slot >= K, or offset + length above C as whole numbers";
    case IFLUGHAN_EMPTY_PREFIX: return "empty prefix";
    case IFLUGHAN_PREFIX_MISSING: return "prefix missing";
    case IFLUGHAN_SUFFIX_MISSING: return ".log missing";
    case IFLUGHAN_DOT_MISSING: return "dot missing";
    case IFLUGHAN_NOT_TEN_BYTES: return "not 10 bytes";
    case IFLUGHAN_NOT_U32: return "not a u32";
    case IFLUGHAN_NAME_BUFFER_SHORT: return "name buffer short";
    case IFLUGHAN_INPUT_ENDS_EARLY: return "delta input ends early";
    case IFLUGHAN_TOO_MANY_KEYS: return "over 256 keys";
    case IFLUGHAN_DUPLICATE_KEY: return "duplicate key";
    case IFLUGHAN_TABLE_OUTSIDE: return "table over 256 rows or a value outside its slice";
    case IFLUGHAN_OUTPUT_SHORT: return "output short";
    default: return "unknown refusal";
    }
}

#ifdef __cplusplus
}
#endif

#endif
