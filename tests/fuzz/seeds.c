/* Writes the first inputs of the fuzz drivers, one file each: a few images that are recovered, logs that are cut, deltas and names that are
 * accepted. The folders recover, cut, decode, encode and parse must be there, in the folder it is run in. */
#include "iflughan.h"
#include "lent.h"

static void save(const char *file, const void *bytes, size_t length) {
    FILE *out = fopen(file, "wb");
    HOLD(out && fwrite(bytes, 1, length, out) == length && fclose(out) == 0);
}

/* Two segments of two one-page records, ids from `first` on; asked for this many records from the second on. */
static void images(const char *file, uint64_t first, uint64_t wanted, uint16_t last_size, uint32_t length) {
    uint8_t bytes[24 + 2 * 8 + 4 * 16] = {2, 1, 4, 2, 200, 0, 0, 0}, *at = bytes + 8;
    uint64_t s = first + 1, e = first + wanted;
    memcpy(at, &s, 8);
    memcpy(at + 8, &e, 8);
    at += 16;
    for (uint8_t i = 0; i < 2; i++, at += 8) {
        uint16_t size = i ? last_size : 8192;
        memcpy(at, (uint8_t[]){7 + i, 0, 0, 0, 2 - i, 0, size & 255, size >> 8}, 8);
    }
    for (uint8_t i = 0; i < 4; i++, at += 16) {
        uint64_t id = first + i;
        memcpy(at, (uint8_t[]){2 - i / 2, i % 2, 0, 0}, 4);
        memcpy(at + 4, &length, 4);
        memcpy(at + 8, &id, 8);
    }
    save(file, bytes, sizeof bytes);
}

/* Two segments of three records, which take one page, two and one, ids from `first` on; how the cut is chosen, what may be wrong, and the
 * first segment's size. */
static void log_to_cut(const char *file, uint64_t first, uint8_t choice, uint8_t wrong, uint16_t first_size) {
    uint8_t bytes[15 + 2 * 6 + 6 * 16] = {2, 3, 2, 1, choice, wrong}, *at = bytes + 15;
    memcpy(bytes + 6, &first, 8);
    for (uint8_t i = 0; i < 2; i++, at += 6) {
        uint16_t size = i ? 16384 : first_size;
        memcpy(at, (uint8_t[]){2, 3, 0, 0, size & 255, size >> 8}, 6);
    }
    for (uint8_t i = 0; i < 6; i++, at += 16) {
        uint32_t length = i % 3 == 1 ? 5000 : 3;
        uint64_t id = first + i;
        memcpy(at, (uint8_t[]){1 + i / 3, i % 3 == 2 ? 3 : i % 3, 0, 0}, 4);
        memcpy(at + 4, &length, 4);
        memcpy(at + 8, &id, 8);
    }
    save(file, bytes, sizeof bytes);
}

/* A delta of as many keys, every other one erased; a flag before it. */
static void delta(const char *file, uint64_t count) {
    static iflughan_delta table;
    static uint8_t bytes[ROOM];
    memset(&table, 0, sizeof table);
    table.count = count;
    for (uint64_t i = 0; i < count; i++) {
        memcpy(table.rows[i].key, &(uint64_t){count - i}, 8);
        table.rows[i].present = i % 2;
        table.rows[i].length = i % 2 ? i % 5 : 0;
    }
    iflughan_written written = iflughan_delta_encode(table, (const uint8_t *)"value", 5, bytes + 1, sizeof bytes - 1);
    HOLD(written.refusal == 0);
    save(file, bytes, 1 + written.length);
}

/* Rows for encoding; every third is erased. */
static void rows(const char *file, uint8_t count, uint16_t room) {
    uint8_t bytes[6 + 4 * 256] = {0, count, 0, 200, room & 255, room >> 8};
    for (int i = 0; i < count; i++) memcpy(bytes + 6 + 4 * i, (uint8_t[]){32 * (i / 32 + 1) + i % 32, i % 3, i, i % 7}, 4);
    save(file, bytes, 6 + 4 * (size_t)count);
}

static void name(const char *file, const char *prefix, const char *rest) {
    uint8_t bytes[128] = {0, strlen(prefix), 1, 0, 0, 0, 40};
    int length = snprintf((char *)bytes + 7, sizeof bytes - 7, "%s%s%s", prefix, prefix, rest);
    save(file, bytes, 7 + length);
}

int main(void) {
    images("recover/whole", 1, 3, 8192, 3);
    images("recover/torn", 6, 3, 4096 + 15, 3);
    images("recover/torn-first-byte", 6, 2, 4096 + 1, 3);
    images("recover/torn-header", 6, 2, 4096 + 5, 3);
    images("recover/torn-last-byte", 6, 2, 4096 + 11, 3);
    images("recover/torn-next-image", 6, 1, 5, 3);
    images("recover/torn-before-e", 6, 3, 4096 + 5, 3);
    images("recover/last-ids", UINT64_MAX - 3, 3, 8192, 4084);
    log_to_cut("cut/newest", 1, 3, 0, 16384);
    log_to_cut("cut/newest-of-the-first", 1, 1, 0, 16384);
    log_to_cut("cut/walked", 1, 8, 0, 16384);
    log_to_cut("cut/odd-size", 1, 1, 0, 12288 + 15);
    log_to_cut("cut/short-size", 1, 1, 0, 12288 + 14);
    log_to_cut("cut/header-at-the-size", 1, 1, 192 + 3, 12288 + 12);
    log_to_cut("cut/header-past-the-size", 1, 1, 192 + 3, 12288 + 11);
    log_to_cut("cut/last-ids", UINT64_MAX - 5, 3, 0, 16384);
    delta("decode/empty", 0);
    delta("decode/two", 2);
    delta("decode/many", 40);
    delta("decode/full", 256);
    rows("encode/three", 3, 200);
    rows("encode/many", 200, 60000);
    name("parse/digits", "rollback", ".0000000001.log");
    name("parse/plus", "a", ".+000000001.log");
    name("parse/highest", ".log", ".4294967295.log");
    return 0;
}
