/* Fuzz driver for names: parsing accepts exactly what writing some id gives, and what is written reads back.
 * Input: flags, length of the prefix (modulo 32), an id (4 bytes), length of the output; the prefix, then the name. */
#include "iflughan.h"
#include "lent.h"

static lent lent_prefix, lent_name, out;
static const uint8_t empty[256];

/* Whether these bytes are the prefix, and then this text. */
static int is(const uint8_t *name, size_t length, const uint8_t *prefix, size_t prefix_length, const char *text) {
    size_t rest = strlen(text);
    return length == prefix_length + rest && memcmp(name, prefix, prefix_length) == 0 && memcmp(name + prefix_length, text, rest) == 0;
}

static void write(const uint8_t *prefix, size_t length, uint32_t id, size_t room, int at_front) {
    uint8_t *given = lend(&lent_prefix, prefix, length, at_front), *buffer = lend(&out, empty, room, at_front);
    iflughan_written written = iflughan_name_write(given, length, id, buffer, room);
    HOLD(unchanged(&lent_prefix) && written.reserved == 0);
    HOLD(written.refusal == (length == 0 ? 30 : room < length + 15 ? 36 : 0));
    mark(written.refusal, 1);
    if (written.refusal) {
        HOLD(unchanged(&out) && written.length == 0);
        return;
    }
    char text[32];
    snprintf(text, sizeof text, ".%010u.log", id);
    HOLD(written.length == length + 15 && unchanged_from(&out, written.length));
    HOLD(is(out.at, written.length, prefix, length, text));
    iflughan_parsed back = iflughan_name_parse(given, length, out.at, written.length);
    HOLD(back.refusal == 0 && back.id == id);
}

/* Whether a name of this many bytes is the one that this id writes. */
static int written_by(const uint8_t *name, const uint8_t *prefix, size_t length, uint32_t id) {
    char text[32];
    snprintf(text, sizeof text, ".%010u.log", id);
    return is(name, length + 15, prefix, length, text);
}

/* The id that ten bytes would spell if they were digits. */
static uint32_t spelled(const uint8_t *ten) {
    uint64_t id = 0;
    for (int i = 0; i < 10; i++) id = id * 10 + (uint8_t)(ten[i] - '0');
    return (uint32_t)id;
}

static void parse(const uint8_t *prefix, size_t length, const uint8_t *name, size_t name_length, int at_front) {
    uint8_t *given = lend(&lent_prefix, prefix, length, at_front), *read = lend(&lent_name, name, name_length, at_front);
    iflughan_parsed parsed = iflughan_name_parse(given, length, read, name_length);
    HOLD(unchanged(&lent_prefix) && unchanged(&lent_name));
    mark(parsed.refusal, 0);
    if (parsed.refusal) {
        HOLD(30 <= parsed.refusal && parsed.refusal <= 35 && parsed.id == 0);
        HOLD(!length || name_length != length + 15 || !written_by(name, prefix, length, spelled(name + length + 1)));
        return;
    }
    HOLD(length > 0 && name_length == length + 15 && written_by(name, prefix, length, parsed.id));
}

int LLVMFuzzerTestOneInput(const uint8_t *data, size_t size) {
    input from = {data, size};
    int at_front = next(&from, 1) & 1;
    size_t length = next(&from, 1) % 32;
    uint32_t id = next(&from, 4);
    size_t room = next(&from, 1);
    if (length > from.left) length = from.left;
    parse(from.at, length, from.at + length, from.left - length, at_front);
    write(from.at, length, id, room, at_front);
    return 0;
}
