/* Fuzz driver for recovery: small K, C and M, made-up image rows and headers; an accepted log must be as good as it says.
 * Input: K, pages of C, M in half pages, rows, index words, flags (3 bytes), s and e (8 each); each row: id (4), slot, unused, size (2);
 * then headers to lay into the area (lent.h). */
#include "iflughan.h"
#include "lent.h"

typedef struct {
    uint64_t k, c, m, s, e;
    size_t rows, words, area_length;
    int at_front;
    iflughan_image images[6];
    uint8_t bytes[ROOM];
} asked;

static void read_rows(asked *it, input *from) {
    for (size_t i = 0; i < it->rows; i++) {
        it->images[i].id = next(from, 4);
        it->images[i].slot = next(from, 1);
        next(from, 1);
        it->images[i].size = next(from, 2);
    }
}

static void read_asked(asked *it, input from) {
    uint64_t k = next(&from, 1), pages = next(&from, 1), halves = next(&from, 1);
    it->k = k == 255 ? 0 : k % 5 + 1;
    it->c = pages == 255 ? 0 : (pages % 3 + 1) * PAGE;
    it->m = halves == 255 ? it->c + 1 : halves % (it->c / (PAGE / 2) + 1) * (PAGE / 2);
    it->rows = next(&from, 1) % 7;
    it->words = next(&from, 1);
    uint64_t flags = next(&from, 3);
    it->at_front = flags & 1;
    it->area_length = it->k * it->c + ((flags & 30) == 30);
    it->s = next(&from, 8);
    it->e = next(&from, 8);
    read_rows(it, &from);
    read_area(it->bytes, it->area_length, it->c, &from);
}

static lent area, rows, index_words;

static iflughan_recovered recover(const asked *it, const iflughan_image *images, size_t count, const uint8_t *bytes) {
    static uint64_t untouched[256];
    memset(untouched, 0x5a, sizeof untouched);
    uint8_t *lent_area = lend(&area, bytes, it->area_length, it->at_front);
    iflughan_image *lent_rows = lend(&rows, images, count * sizeof *images, it->at_front);
    uint64_t *lent_index = lend(&index_words, untouched, it->words * 8, it->at_front);
    return iflughan_recover(it->k, it->c, it->m, lent_area, it->area_length, lent_rows, count, it->s, it->e, lent_index, it->words);
}

/* Zeros stand where the head's padding was missing, and nothing else changed. */
static void only_padding_written(const asked *it, const uint8_t *bytes, const iflughan_log *log) {
    static uint8_t expected[ROOM];
    memcpy(expected, bytes, it->area_length);
    if (log->count) {
        iflughan_segment head = log->segments[log->count - 1];
        for (size_t i = 0; i < it->rows; i++)
            if (it->images[i].id == head.id && it->images[i].size < head.size)
                memset(expected + head.slot * it->c + it->images[i].size, 0, head.size - it->images[i].size);
    }
    HOLD(memcmp(area.at, expected, it->area_length) == 0);
    take_as_before(&area);
    HOLD(unchanged(&area));
}

/* One row for each of s..e in order, each good, with its payload's place inside its slot. */
static void rows_good(const asked *it, const iflughan_recovered *answer) {
    HOLD(answer->rows == (it->s ? it->e - it->s + 1 : 0));
    HOLD(unchanged_from(&index_words, answer->rows * 32));
    for (uint64_t i = 0; i < answer->rows; i++) {
        const uint64_t *row = (const uint64_t *)index_words.at + 4 * i;
        HOLD(row[0] == it->s + i);
        HOLD(iflughan_row_question(answer->log, area.at, area.length, row[0], row[1], row[2], row[3]) == 0);
        iflughan_part part = iflughan_payload(answer->log, area.at, area.length, row[0], row[1], row[2], row[3]);
        HOLD(part.refusal == 0 && part.at == row[1] * it->c + row[2] && part.length == row[3]);
        HOLD(row[1] < it->k && row[2] >= 12 && row[2] + row[3] <= it->c);
    }
    HOLD(unchanged(&area));
}

/* The newest record of each segment starts where the segment says, twelve bytes before its row's payload. */
static void newest_good(const asked *it, const iflughan_log *log) {
    for (uint64_t i = 0; i < log->count; i++) {
        const iflughan_segment *segment = &log->segments[i];
        const uint64_t *row = (const uint64_t *)index_words.at + 4 * (segment->max - it->s);
        HOLD(row[0] == segment->max && row[1] == segment->slot && row[2] == segment->newest_at + IFLUGHAN_HEADER_LENGTH);
    }
}

/* Recovering again from a log's own images gives the same log and the same rows. */
static void same_again(const asked *it, const iflughan_recovered *answer, const iflughan_log *log, const uint8_t *bytes) {
    static uint8_t index_before[256 * 8];
    memcpy(index_before, index_words.at, index_words.length);
    iflughan_image own[64];
    for (uint64_t i = 0; i < log->count; i++) {
        iflughan_segment segment = log->segments[log->count - 1 - i];
        own[i] = (iflughan_image){segment.id, segment.slot, segment.size};
    }
    iflughan_recovered again = recover(it, own, log->count, bytes);
    HOLD(memcmp(&again, answer, sizeof again) == 0);
    HOLD(memcmp(index_before, index_words.at, index_words.length) == 0);
    HOLD(unchanged(&area) && unchanged(&rows) && unchanged_from(&index_words, answer->rows * 32));
}

/* What stands behind e is not looked at: with every byte there overwritten the answer, the index and what is written are the same. */
static void behind_unseen(const asked *it, const iflughan_recovered *answer) {
    static uint8_t bytes[ROOM], index_before[256 * 8];
    iflughan_segment head = answer->log.segments[answer->log.count - 1];
    memcpy(bytes, it->bytes, it->area_length);
    memcpy(index_before, index_words.at, index_words.length);
    for (size_t i = 0; i < it->rows; i++) {
        iflughan_image image = it->images[i];
        uint64_t from = image.id == head.id ? head.size : image.id > head.id ? 0 : image.size;
        if (from < image.size) memset(bytes + image.slot * it->c + from, 0xff, image.size - from);
    }
    iflughan_recovered again = recover(it, it->images, it->rows, bytes);
    HOLD(memcmp(&again, answer, sizeof again) == 0);
    HOLD(memcmp(index_before, index_words.at, index_words.length) == 0);
    only_padding_written(it, bytes, &again.log);
}

/* The log takes a cut to its own end, a recovery from its own images, and an append that a recovery does not see. */
static void log_good(const asked *it, const iflughan_recovered *answer) {
    static uint8_t bytes[ROOM];
    iflughan_log log = answer->log;
    memcpy(bytes, area.at, area.length);
    iflughan_logged pruned = iflughan_prune_recent(log, area.at, area.length, log.end_live);
    HOLD(pruned.refusal == 0 && memcmp(&pruned.log, &log, sizeof log) == 0 && unchanged(&area));
    if (!it->s) return;
    same_again(it, answer, &log, bytes);
    iflughan_appended more = iflughan_append(log, area.at, area.length, (const uint8_t *)"later", 5);
    mark(more.refusal, 64 + answer->rows);
    if (more.refusal) {
        HOLD(unchanged(&area));
        return;
    }
    HOLD(more.id == log.end_live + 1);
    memcpy(bytes, area.at, area.length);
    same_again(it, answer, &more.log, bytes);
}

int LLVMFuzzerTestOneInput(const uint8_t *data, size_t size) {
    static asked it;
    read_asked(&it, (input){data, size});
    iflughan_recovered answer = recover(&it, it.images, it.rows, it.bytes);
    HOLD(unchanged(&rows) && answer.reserved == 0);
    if (answer.refusal) {
        HOLD(answer.refusal == 1 || (11 <= answer.refusal && answer.refusal <= 23));
        HOLD(unchanged(&area) && unchanged(&index_words));
        HOLD(answer.rows == 0 && zeros(&answer.log, sizeof answer.log));
        mark(answer.refusal, it.rows);
        return 0;
    }
    only_padding_written(&it, it.bytes, &answer.log);
    rows_good(&it, &answer);
    newest_good(&it, &answer.log);
    mark(0, 8 * answer.log.count + answer.rows);
    log_good(&it, &answer);
    if (it.s) behind_unseen(&it, &answer);
    return 0;
}
