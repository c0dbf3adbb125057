/* Fuzz driver for decoding: what is accepted is a table in order, encodes to as many bytes, and decodes to the same rows again.
 * Input: flags, then the delta. */
#include "iflughan.h"
#include "lent.h"

static lent delta, out;
static const uint8_t empty[ROOM];

static void table_good(const iflughan_decoded *answer) {
    const iflughan_delta *table = &answer->table;
    HOLD(answer->consumed <= delta.length && table->count <= 256);
    for (uint64_t i = 0; i < table->count; i++) {
        const iflughan_delta_row *row = &table->rows[i];
        HOLD(i == 0 || memcmp(row[-1].key, row->key, 32) < 0);
        HOLD(row->present <= 1 && zeros(row->reserved, 7) && row->reserved_too == 0);
        HOLD(row->present ? row->offset + row->length <= answer->consumed : row->offset == 0 && row->length == 0);
    }
    HOLD(zeros(table->rows + table->count, (256 - table->count) * sizeof *table->rows));
}

/* The same keys and marks, and the same value bytes, each in its own slice. */
static void same_rows(const iflughan_delta *one, const uint8_t *values, const iflughan_delta *other, const uint8_t *other_values) {
    HOLD(one->count == other->count);
    for (uint64_t i = 0; i < one->count; i++) {
        const iflughan_delta_row *row = &one->rows[i], *twin = &other->rows[i];
        HOLD(memcmp(row->key, twin->key, 32) == 0 && row->present == twin->present && row->length == twin->length);
        HOLD(memcmp(values + row->offset, other_values + twin->offset, row->length) == 0);
    }
}

/* Encodes the rows in the reverse order, into a buffer that is as long as the delta was, and into one that is a byte short. */
static void encodes_back(const iflughan_decoded *answer, int at_front) {
    static iflughan_delta reversed;
    memset(&reversed, 0, sizeof reversed);
    reversed.count = answer->table.count;
    for (uint64_t i = 0; i < reversed.count; i++) reversed.rows[i] = answer->table.rows[reversed.count - 1 - i];
    uint8_t *buffer = lend(&out, empty, answer->consumed - 1, at_front);
    iflughan_written written = iflughan_delta_encode(reversed, delta.at, delta.length, buffer, out.length);
    HOLD(written.refusal == 44 && written.length == 0 && unchanged(&out) && unchanged(&delta));
    buffer = lend(&out, empty, answer->consumed, at_front);
    written = iflughan_delta_encode(reversed, delta.at, delta.length, buffer, out.length);
    HOLD(written.refusal == 0 && written.length == answer->consumed && unchanged_from(&out, out.length) && unchanged(&delta));
    iflughan_decoded again = iflughan_delta_decode(out.at, out.length);
    HOLD(again.refusal == 0 && again.consumed == answer->consumed);
    same_rows(&answer->table, delta.at, &again.table, out.at);
}

/* What follows is not read, and every byte of the delta is needed. */
static void front_decides(const iflughan_decoded *answer, const uint8_t *bytes, int at_front) {
    iflughan_decoded front = iflughan_delta_decode(lend(&delta, bytes, answer->consumed, at_front), answer->consumed);
    HOLD(memcmp(&front, answer, sizeof front) == 0 && unchanged(&delta));
    front = iflughan_delta_decode(lend(&delta, bytes, answer->consumed - 1, at_front), answer->consumed - 1);
    HOLD(front.refusal == 40);
}

int LLVMFuzzerTestOneInput(const uint8_t *data, size_t size) {
    input from = {data, size};
    int at_front = next(&from, 1) & 1;
    iflughan_decoded answer = iflughan_delta_decode(lend(&delta, from.at, from.left, at_front), from.left);
    HOLD(unchanged(&delta) && answer.reserved == 0);
    if (answer.refusal) {
        HOLD(40 <= answer.refusal && answer.refusal <= 42);
        HOLD(answer.consumed == 0 && zeros(&answer.table, sizeof answer.table));
        mark(answer.refusal, 0);
        return 0;
    }
    mark(0, answer.table.count + answer.consumed / 16);
    table_good(&answer);
    encodes_back(&answer, at_front);
    front_decides(&answer, from.at, at_front);
    return 0;
}
