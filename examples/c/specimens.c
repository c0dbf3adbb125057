/* Specimens 13 and 14 of document 01 over libiflughan.a: K 2, C = M = 8192, one page a record.
 *
 *     specimens       runs both; the last line is `ok ..`, or what came instead of document 01's answer: `refused N ..`, `wrong ..`
 *     specimens 13    writes specimen 13's three lines and nothing else
 *
 * `./iflughan examples` builds and runs it. By hand, with the folder that `./iflughan build` wrote:
 *     cc specimens.c $(PKG_CONFIG_PATH=FOLDER pkg-config --cflags --libs iflughan) */
#include <inttypes.h>
#include <iflughan.h>
#include <stdio.h>
#include <stdlib.h>
#include <string.h>

enum { K = 2, C = 8192, M = C, PAGE = IFLUGHAN_PAGE_LENGTH, ROWS = K * C / PAGE };

static uint8_t area[K * C];
static iflughan_index_row rows[ROWS];

/* Ends the program where a call did not answer the wanted number. */
static void answered(uint32_t refusal, uint32_t wanted, const char *call) {
    if (refusal == wanted) return;
    printf("refused %" PRIu32 " (%s) where %" PRIu32 " was wanted: %s\n", refusal, iflughan_refusal_text(refusal), wanted, call);
    exit(1);
}

static void holds(int fact, const char *what) {
    if (fact) return;
    printf("wrong: %s\n", what);
    exit(1);
}

static iflughan_log new_log(void) {
    iflughan_logged answer = iflughan_new(K, C, M, area, sizeof area);
    answered(answer.refusal, 0, "new");
    return answer.log;
}

static iflughan_log append(iflughan_log log, const char *payload) {
    iflughan_appended answer = iflughan_append(log, area, sizeof area, (const uint8_t *)payload, strlen(payload));
    answered(answer.refusal, 0, "append");
    holds(answer.id == log.end_live + 1, "an append answers the id after the live end");
    return answer.log;
}

static iflughan_log prune_oldest(iflughan_log log, uint64_t new_start_live) {
    iflughan_logged answer = iflughan_prune_oldest(log, area, sizeof area, new_start_live);
    answered(answer.refusal, 0, "prune oldest");
    return answer.log;
}

/* Recovers s..e from the images of the log's segments. */
static iflughan_recovered recover(const iflughan_log *log, uint64_t s, uint64_t e) {
    iflughan_image images[K];
    for (size_t i = 0; i < log->count; i++) {
        const iflughan_segment *segment = &log->segments[i];
        images[i] = (iflughan_image){segment->id, segment->slot, segment->size};
    }
    return iflughan_recover(K, C, M, area, sizeof area, images, log->count, s, e, (uint64_t *)rows, ROWS * IFLUGHAN_ROW_WORDS);
}

/* A line for the log and one for each index row: record id, slot, offset of the payload, its length. */
static void print_recovered(const iflughan_recovered *answer) {
    const iflughan_log *log = &answer->log;
    printf("kept %" PRIu64 " live %" PRIu64 " %" PRIu64 "\n", log->count, log->start_live, log->end_live);
    for (size_t i = 0; i < answer->rows; i++) {
        const iflughan_index_row *row = &rows[i];
        printf("%" PRIu64 " %" PRIu64 " %" PRIu64 " %" PRIu64 "\n", row->id, row->slot, row->offset, row->length);
    }
}

/* Records 1 and 2, nothing and abc; recovers them and prints the three lines. */
static iflughan_log specimen_13_lines(void) {
    iflughan_log log = append(append(new_log(), ""), "abc");
    iflughan_recovered answer = recover(&log, 1, 2);
    answered(answer.refusal, 0, "recover 1..2");
    print_recovered(&answer);
    return answer.log;
}

/* The bytes at 4096, the third append and the fifth. Answers the log of the records 1-2 and 3-4. */
static iflughan_log specimen_13_rest(iflughan_log log) {
    static const uint8_t second_record[] = {3, 0, 0, 0, 2, 0, 0, 0, 0, 0, 0, 0, 'a', 'b', 'c'};
    holds(memcmp(area + PAGE, second_record, sizeof second_record) == 0, "the bytes of record 2 at 4096");
    printf("at 4096:");
    for (size_t i = 0; i < sizeof second_record; i++) printf(" %02x", area[PAGE + i]);
    printf("\n");

    log = append(log, "");
    holds(log.count == 2 && log.segments[1].slot == 1, "the third append opens slot 1");
    printf("third append: slot %" PRIu32 "\n", log.segments[1].slot);
    log = append(log, "");
    iflughan_appended fifth = iflughan_append(log, area, sizeof area, NULL, 0);
    answered(fifth.refusal, IFLUGHAN_SLOTS_TAKEN, "fifth append");
    printf("fifth append: refused %" PRIu32 "\n", fifth.refusal);
    return log;
}

/* On segments that hold 1-2 and 3-4. */
static void specimen_14(iflughan_log log) {
    uint64_t kept_to_2 = prune_oldest(log, 2).count;
    uint64_t kept_to_3 = prune_oldest(log, 3).count;
    holds(kept_to_2 == 2, "prune oldest to 2 drops nothing");
    holds(kept_to_3 == 1, "prune oldest to 3 drops the first");
    printf("prune oldest to 2: kept %" PRIu64 "\nprune oldest to 3: kept %" PRIu64 "\n", kept_to_2, kept_to_3);

    iflughan_recovered middle = recover(&log, 2, 3);
    answered(middle.refusal, 0, "recover 2..3");
    holds(middle.log.count == 2 && middle.log.segments[1].size == PAGE, "recovering 2..3 keeps both, head size 4096");
    holds(middle.log.segments[0].newest_at == PAGE && middle.log.segments[1].newest_at == 0, "records 2 and 3 start at 4096 and at 0");
    print_recovered(&middle);
    printf("head size %" PRIu64 "\n", middle.log.segments[1].size);

    answered(recover(&log, 3, 5).refusal, IFLUGHAN_END_NOT_FOUND, "recover 3..5");
    answered(recover(&log, 0, 3).refusal, IFLUGHAN_ONE_END_ZERO, "recover 0..3");
    printf("recover 3..5: refused 22\nrecover 0..3: refused 11\n");
}

int main(int argc, char **argv) {
    iflughan_log log = specimen_13_lines();
    if (argc > 1 && strcmp(argv[1], "13") == 0) return 0;
    specimen_14(specimen_13_rest(log));
    printf("ok specimens 13 and 14\n");
    return 0;
}
