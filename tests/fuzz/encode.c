/* Fuzz driver for encoding: rows in any order, with any places; what is accepted decodes to the same keys, marks and values.
 * Input: flags, count (2 bytes), length of the values, length of the output (2); each row: key, mark, offset, length. */
#include "iflughan.h"
#include "lent.h"

static lent values, out, fresh;
static const uint8_t empty[ROOM];

/* Keys that differ in one byte of 32, the place of which also comes from the input. */
static void read_rows(iflughan_delta *table, input *from) {
    memset(table->rows, 0, sizeof table->rows);
    for (int i = 0; i < 256 && from->left; i++) {
        iflughan_delta_row *row = &table->rows[i];
        uint64_t key = next(from, 1);
        row->key[key % 32] = key / 32;
        row->present = next(from, 1);
        row->offset = next(from, 1);
        row->length = next(from, 1);
        if (row->offset >= 0xf0) row->offset -= 0x100;
        if (row->length >= 0xf0) row->length -= 0x100;
    }
}

static const iflughan_delta_row *row_with_key(const iflughan_delta *table, const uint8_t *key) {
    for (uint64_t i = 0; i < table->count; i++)
        if (memcmp(table->rows[i].key, key, 32) == 0) return &table->rows[i];
    return NULL;
}

static void decodes_back(const iflughan_delta *table, uint64_t length) {
    iflughan_decoded back = iflughan_delta_decode(lend(&fresh, out.at, length, 0), length);
    HOLD(back.refusal == 0 && back.consumed == length && back.table.count == table->count);
    for (uint64_t i = 0; i < back.table.count; i++) {
        const iflughan_delta_row *row = &back.table.rows[i], *given = row_with_key(table, row->key);
        HOLD(given && row->present == (given->present != 0));
        if (!row->present) continue;
        HOLD(row->length == given->length);
        HOLD(memcmp(fresh.at + row->offset, values.at + given->offset, row->length) == 0);
    }
}

int LLVMFuzzerTestOneInput(const uint8_t *data, size_t size) {
    static iflughan_delta table;
    input from = {data, size};
    int at_front = next(&from, 1) & 1;
    table.count = next(&from, 2) % 260;
    uint8_t bytes[256];
    size_t value_length = next(&from, 1), room = next(&from, 2);
    for (int i = 0; i < 256; i++) bytes[i] = i ^ 0x5a;
    read_rows(&table, &from);
    uint8_t *lent_values = lend(&values, bytes, value_length, at_front), *buffer = lend(&out, empty, room, at_front);
    iflughan_written written = iflughan_delta_encode(table, lent_values, value_length, buffer, room);
    HOLD(unchanged(&values) && written.reserved == 0);
    if (written.refusal) {
        HOLD(42 <= written.refusal && written.refusal <= 44);
        HOLD(written.length == 0 && unchanged(&out));
        mark(written.refusal, table.count / 8);
        return 0;
    }
    HOLD(written.length <= room && unchanged_from(&out, written.length));
    mark(0, table.count + written.length / 16);
    decodes_back(&table, written.length);
    return 0;
}
