/* Fuzz driver for prune recent: made-up logs over made-up bytes, every other one cut at the newest record of a segment. Number, log and
 * area are held to documents 01 and 02 as they stand below, in a few lines; a cut at a newest record is made again with its header alone.
 * Input: K, pages of C, segments, the first one's slot, how the cut is chosen, what is not well shaped, the first record's id (8), the live
 * start behind it; each segment: records, page of newest_at, shift of it (2), size (2); then headers to lay into the area (lent.h). */
#include "iflughan.h"
#include "lent.h"

/* What may be as it stands in the input, or wrong; nothing of it where the byte is below 192. */
enum { ANY_SIZE = 1, ANY_PLACE = 2, ANY_START = 4, OTHER_END = 8, SHORT_AREA = 16, DIRTY_ENTRY = 32 };

typedef struct {
    iflughan_log log;
    uint64_t cut;
    size_t area_length;
    uint64_t wrong;
    uint8_t bytes[ROOM];
} asked;

/* Entry i, from record `min` on. */
static void read_segment(asked *it, input *from, uint64_t i, uint64_t slot, uint64_t min) {
    iflughan_segment *segment = &it->log.segments[i];
    uint64_t c = it->log.capacity, records = next(from, 1), page = next(from, 1), shift = next(from, 2), size = next(from, 2);
    if (!(it->wrong & ANY_SIZE)) {
        size = size % c < 12 ? c : size % c;
        if (i + 1 == it->log.count) size = (size + PAGE - 1) / PAGE * PAGE;
    }
    if (!(it->wrong & ANY_PLACE)) {
        page %= (size - 12) / PAGE + 1;
        shift = 0;
    }
    *segment = (iflughan_segment){i + 1, slot % it->log.slots, size, min, min + records % 4, page * PAGE + shift};
}

static uint64_t chosen_cut(const iflughan_log *log, uint64_t choice) {
    if (choice == 0 || log->count == 0) return choice;
    return choice % 2 ? log->segments[choice / 2 % log->count].max : log->start_live + choice / 2 - 3;
}

static void read_asked(asked *it, input from) {
    memset(&it->log, 0, sizeof it->log);
    it->log.slots = next(&from, 1) % 3 + 1;
    it->log.capacity = (next(&from, 1) % 4 + 1) * PAGE;
    it->log.count = next(&from, 1) % (it->log.slots + 1);
    uint64_t slot = next(&from, 1), choice = next(&from, 1);
    it->wrong = next(&from, 1);
    if (it->wrong < 192) it->wrong = 0;
    uint64_t min = next(&from, 8), start = next(&from, 1);
    for (uint64_t i = 0; i < it->log.count; i++) {
        read_segment(it, &from, i, slot + i, min);
        min = it->log.segments[i].max + 1;
    }
    if (it->log.count) {
        const iflughan_segment *first = &it->log.segments[0];
        it->log.start_live = first->min + (it->wrong & ANY_START ? start : start % (first->max - first->min + 1));
        it->log.end_live = min - 1 + !!(it->wrong & OTHER_END);
    }
    if (it->wrong & DIRTY_ENTRY) it->log.segments[it->log.count].newest_at = PAGE;
    it->cut = chosen_cut(&it->log, choice);
    it->area_length = it->log.slots * it->log.capacity - !!(it->wrong & SHORT_AREA);
    read_area(it->bytes, it->area_length, it->log.capacity, &from);
}

/* What read_asked leaves open of document 01's rules for a well-shaped log, and document 02's two for newest_at. */
static int well_shaped(const asked *it) {
    const iflughan_log *log = &it->log;
    if (it->wrong & (SHORT_AREA | DIRTY_ENTRY)) return 0;
    if (log->count == 0) return 1;
    for (uint64_t i = 0; i < log->count; i++) {
        const iflughan_segment *segment = &log->segments[i];
        if (segment->size < 1 || segment->size > log->capacity || segment->min < 1 || segment->min > segment->max) return 0;
        if (segment->newest_at % PAGE || segment->newest_at > segment->size || segment->size - segment->newest_at < 12) return 0;
    }
    const iflughan_segment *first = &log->segments[0], *head = &log->segments[log->count - 1];
    if (log->start_live < first->min || log->start_live > first->max) return 0;
    return head->size % PAGE == 0 && head->max == log->end_live;
}

typedef struct {
    int whole;
    uint64_t id, end;
} record;

/* The record at a place of an image; not whole where its header is short, its length above 2^30 or its payload past the size. */
static record record_at(const uint8_t *image, uint64_t size, uint64_t at) {
    record found = {0, 0, 0};
    uint32_t length;
    if (at + 12 > size) return found;
    memcpy(&length, image + at, 4);
    memcpy(&found.id, image + at + 4, 8);
    found.whole = length <= 1u << 30 && at + 12 + length <= size;
    found.end = (at + 12 + length + PAGE - 1) / PAGE * PAGE;
    return found;
}

/* Prune recent, on the log and the bytes; its number. */
static uint32_t prune_recent(const asked *it, iflughan_log *log, uint8_t *bytes) {
    if (!well_shaped(it)) return 2;
    if (it->cut == 0 || log->count == 0) {
        *log = (iflughan_log){.slots = log->slots, .capacity = log->capacity};
        return 0;
    }
    if (it->cut > log->end_live) return 8;
    if (it->cut < log->start_live) return 9;
    while (log->segments[log->count - 1].min > it->cut) log->segments[--log->count] = (iflughan_segment){0};
    iflughan_segment *last = &log->segments[log->count - 1];
    int by_newest = it->cut == last->max;
    uint8_t *image = bytes + last->slot * log->capacity;
    uint64_t at = by_newest ? last->newest_at : 0;
    record found = record_at(image, last->size, at);
    while (!by_newest && found.whole && found.id != it->cut) found = record_at(image, last->size, at = found.end);
    if (!found.whole || found.id != it->cut) return 10;
    if (found.end > last->size) memset(image + last->size, 0, found.end - last->size);
    *last = (iflughan_segment){last->id, last->slot, found.end, last->min, it->cut, at};
    log->end_live = it->cut;
    return 0;
}

static lent area;

/* The call over these bytes, held to what is expected. */
static void held(const asked *it, const uint8_t *bytes, uint32_t number, const iflughan_log *log, const uint8_t *after) {
    uint8_t *lent_area = lend(&area, bytes, it->area_length, it->cut & 1);
    iflughan_logged answer = iflughan_prune_recent(it->log, lent_area, it->area_length, it->cut);
    HOLD(answer.refusal == number && answer.reserved == 0);
    HOLD(memcmp(&answer.log, log, sizeof *log) == 0);
    HOLD(memcmp(area.at, after, it->area_length) == 0 && unchanged_from(&area, area.length));
}

/* A cut at a newest record, over bytes of which nothing but its header is left: the same log, and the same bytes written. */
static void by_its_header_alone(const asked *it, const iflughan_log *log) {
    static uint8_t bytes[ROOM], after[ROOM];
    const iflughan_segment *given = &it->log.segments[log->count - 1], *cut = &log->segments[log->count - 1];
    size_t at = given->slot * log->capacity;
    memset(bytes, 0xff, it->area_length);
    memcpy(bytes + at + given->newest_at, it->bytes + at + given->newest_at, 12);
    memcpy(after, bytes, it->area_length);
    if (cut->size > given->size) memset(after + at + given->size, 0, cut->size - given->size);
    held(it, bytes, 0, log, after);
}

int LLVMFuzzerTestOneInput(const uint8_t *data, size_t size) {
    static asked it;
    static uint8_t after[ROOM];
    read_asked(&it, (input){data, size});
    iflughan_log log = it.log;
    memcpy(after, it.bytes, it.area_length);
    uint32_t number = prune_recent(&it, &log, after);
    if (number) log = it.log;
    held(&it, it.bytes, number, &log, after);
    if (number) {
        mark(number, it.log.count);
        return 0;
    }
    const iflughan_segment *last = log.count ? &log.segments[log.count - 1] : NULL;
    int by_newest = last && it.cut == it.log.segments[log.count - 1].max;
    mark(0, 64 * by_newest + 8 * log.count + (last ? last->newest_at / PAGE : 0));
    if (by_newest) by_its_header_alone(&it, &log);
    return 0;
}
