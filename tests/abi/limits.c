/* The header's limits are the archive's: each is accepted, and one more is refused. Writes what is not so; exits 1 then. */
#include <iflughan.h>
#include <stdio.h>
#include <string.h>
#include <sys/mman.h>

enum { PAGE = IFLUGHAN_PAGE_LENGTH, PREFIX = 3 };

static uint8_t area[2 * PAGE];
static int wrong;

static void answers(uint32_t refusal, uint32_t wanted, const char *what) {
    if (refusal == wanted) return;
    printf("%s: %s, not %s\n", what, iflughan_refusal_text(refusal), iflughan_refusal_text(wanted));
    wrong = 1;
}

static void holds(int fact, const char *what) {
    if (fact) return;
    printf("%s\n", what);
    wrong = 1;
}

/* Memory that is lent and never looked at. */
static uint8_t *lent(uint64_t length) {
    void *start = mmap(NULL, length, PROT_READ | PROT_WRITE, MAP_PRIVATE | MAP_ANONYMOUS | MAP_NORESERVE, -1, 0);
    return start == MAP_FAILED ? NULL : (uint8_t *)start;
}

static uint32_t new_log(uint64_t k, uint64_t c) {
    uint8_t *start = lent(k * c);
    uint32_t refusal = start == NULL ? 99 : iflughan_new(k, c, 0, start, k * c).refusal;
    if (start != NULL) munmap(start, k * c);
    return refusal;
}

static void slots_and_capacity(void) {
    answers(new_log(IFLUGHAN_MOST_SLOTS, PAGE), IFLUGHAN_ACCEPTED, "the most slots");
    answers(new_log(IFLUGHAN_MOST_SLOTS + 1, PAGE), IFLUGHAN_OUTSIDE_RULES, "a slot more");
    answers(new_log(1, IFLUGHAN_MOST_CAPACITY), IFLUGHAN_ACCEPTED, "the largest capacity");
    answers(new_log(1, (uint64_t)IFLUGHAN_MOST_CAPACITY + PAGE), IFLUGHAN_OUTSIDE_RULES, "a page more");
    answers(new_log(1, PAGE + 1), IFLUGHAN_OUTSIDE_RULES, "a capacity that is no multiple of the page");
    holds(sizeof((iflughan_log *)0)->segments / sizeof(iflughan_segment) == IFLUGHAN_MOST_SLOTS, "a log has other slots");
    holds(sizeof(iflughan_segment) == 40 && sizeof(iflughan_log) == 2608, "a segment or a log has another size than the header says");
}

/* A payload that fills its page, one that does not fit it, the longest and one more: 3 comes before 7. */
static void records(void) {
    static uint8_t payload[PAGE];
    iflughan_log log = iflughan_new(2, PAGE, 0, area, sizeof area).log;
    iflughan_appended full = iflughan_append(log, area, sizeof area, payload, PAGE - IFLUGHAN_HEADER_LENGTH);
    answers(full.refusal, IFLUGHAN_ACCEPTED, "a payload that fills its page");
    holds(full.log.segments[0].size == PAGE, "a payload that fills its page takes more");
    uint64_t more = PAGE - IFLUGHAN_HEADER_LENGTH + 1;
    answers(iflughan_append(log, area, sizeof area, payload, more).refusal, IFLUGHAN_RECORD_TOO_LONG, "a byte more than a page");
    uint8_t *longest = lent((uint64_t)IFLUGHAN_MOST_PAYLOAD + 1);
    holds(longest != NULL, "no memory to lend");
    more = (uint64_t)IFLUGHAN_MOST_PAYLOAD + 1;
    answers(iflughan_append(log, area, sizeof area, longest, more - 1).refusal, IFLUGHAN_RECORD_TOO_LONG, "the longest payload");
    answers(iflughan_append(log, area, sizeof area, longest, more).refusal, IFLUGHAN_PAYLOAD_TOO_LONG, "a byte more");
}

/* Where the newest record starts: what an append says, what a well-shaped log asks, and that a cut there reads nothing else. */
static void newest(void) {
    iflughan_log log = iflughan_new(1, 2 * PAGE, 2 * PAGE, area, sizeof area).log;
    log = iflughan_append(log, area, sizeof area, NULL, 0).log;
    log = iflughan_append(log, area, sizeof area, NULL, 0).log;
    holds(log.segments[0].newest_at == PAGE, "the newest record starts elsewhere");
    memset(area, 0xff, PAGE);
    answers(iflughan_prune_recent(log, area, sizeof area, 2).refusal, IFLUGHAN_ACCEPTED, "a cut at the newest record");
    answers(iflughan_prune_recent(log, area, sizeof area, 1).refusal, IFLUGHAN_CUT_NOT_FOUND, "a cut in a damaged page");
    log.segments[0].newest_at = PAGE + 1;
    answers(iflughan_prune_recent(log, area, sizeof area, 2).refusal, IFLUGHAN_NOT_WELL_SHAPED, "newest_at a byte behind a page");
    log.segments[0].newest_at = 2 * PAGE;
    answers(iflughan_prune_recent(log, area, sizeof area, 2).refusal, IFLUGHAN_NOT_WELL_SHAPED, "newest_at at the size");
}

/* A row's words, in the order of iflughan_index_row. */
static void rows(void) {
    iflughan_log log = iflughan_new(2, PAGE, 0, area, sizeof area).log;
    log = iflughan_append(log, area, sizeof area, NULL, 0).log;
    log = iflughan_append(log, area, sizeof area, (const uint8_t *)"abc", 3).log;
    iflughan_image image = {2, 1, PAGE};
    iflughan_index_row row;
    memset(&row, 0, sizeof row);
    uint64_t *words = (uint64_t *)&row;
    uint32_t less = iflughan_recover(2, PAGE, 0, area, sizeof area, &image, 1, 2, 2, words, IFLUGHAN_ROW_WORDS - 1).refusal;
    answers(less, IFLUGHAN_INDEX_SHORT, "a word less than a row");
    uint32_t enough = iflughan_recover(2, PAGE, 0, area, sizeof area, &image, 1, 2, 2, words, IFLUGHAN_ROW_WORDS).refusal;
    answers(enough, IFLUGHAN_ACCEPTED, "a row");
    holds(row.id == 2 && row.slot == 1 && row.offset == IFLUGHAN_HEADER_LENGTH && row.length == 3, "a row's words stand in another order");
}

static uint32_t decoded(uint32_t count) {
    uint8_t input[4] = {(uint8_t)count, (uint8_t)(count >> 8), (uint8_t)(count >> 16), (uint8_t)(count >> 24)};
    return iflughan_delta_decode(input, sizeof input).refusal;
}

static void deltas_and_names(void) {
    answers(decoded(IFLUGHAN_MOST_KEYS), IFLUGHAN_INPUT_ENDS_EARLY, "the most keys");
    answers(decoded(IFLUGHAN_MOST_KEYS + 1), IFLUGHAN_TOO_MANY_KEYS, "a key more");
    holds(sizeof((iflughan_delta *)0)->rows / sizeof(iflughan_delta_row) == IFLUGHAN_MOST_KEYS, "a table has other rows");
    holds(sizeof((iflughan_delta_row *)0)->key == IFLUGHAN_KEY_LENGTH, "a key has another length");
    uint8_t name[PREFIX + IFLUGHAN_NAME_TAIL];
    const uint8_t *prefix = (const uint8_t *)"abc";
    answers(iflughan_name_write(prefix, PREFIX, 1, name, sizeof name).refusal, IFLUGHAN_ACCEPTED, "a name");
    answers(iflughan_name_write(prefix, PREFIX, 1, name, sizeof name - 1).refusal, IFLUGHAN_NAME_BUFFER_SHORT, "a byte less than a name");
}

int main(void) {
    slots_and_capacity();
    records();
    newest();
    rows();
    deltas_and_names();
    return wrong;
}
