/* Runs a fuzz driver with no fuzzer at hand: mutates the inputs of a folder for so many rounds, and keeps those that lead to an outcome
 * that was not met before. The same rounds each time. Built with -DDRIVER='"FILE.c"', started as PROGRAM ROUNDS FOLDER. */
#include DRIVER

#include <dirent.h>

enum { LONGEST = 16384, MOST_KEPT = 4096 };

static struct {
    uint8_t *bytes;
    size_t length;
} kept[MOST_KEPT];
static size_t kept_count;

static uint64_t state = 1;

/* splitmix64 */
static uint64_t below(uint64_t end) {
    uint64_t z = state += 0x9e3779b97f4a7c15;
    z = (z ^ z >> 30) * 0xbf58476d1ce4e5b9;
    z = (z ^ z >> 27) * 0x94d049bb133111eb;
    return (z ^ z >> 31) % end;
}

static void keep(const uint8_t *bytes, size_t length) {
    if (kept_count == MOST_KEPT) return;
    kept[kept_count].bytes = malloc(length + 1);
    memcpy(kept[kept_count].bytes, bytes, length);
    kept[kept_count++].length = length;
}

static int by_name(const struct dirent **one, const struct dirent **other) { return strcmp((*one)->d_name, (*other)->d_name); }

static void read_seeds(const char *folder) {
    static uint8_t bytes[LONGEST];
    struct dirent **files;
    int count = scandir(folder, &files, NULL, by_name);
    for (int i = 0; i < count; i++) {
        char path[4096];
        snprintf(path, sizeof path, "%s/%s", folder, files[i]->d_name);
        FILE *file = files[i]->d_name[0] == '.' ? NULL : fopen(path, "rb");
        if (file) keep(bytes, fread(bytes, 1, sizeof bytes, file)), fclose(file);
    }
    HOLD(kept_count > 0);
}

/* One edit: a bit, a byte or a number at a border, a piece moved, cut out or doubled. */
static size_t edit(uint8_t *bytes, size_t length) {
    static const uint64_t borders[] = {0, 1, 11, 12, 255, 256, 257, 4084, 4096, 1 << 30, (1 << 30) + 1, 0xffffffff, UINT64_MAX};
    size_t at = below(length + 1), width = 1 + below(8), piece = 1 + below(64);
    if (at + width > length || at + piece > length) {
        if (length + piece > LONGEST) return length;
        memset(bytes + length, below(256), piece);
        return length + piece;
    }
    uint64_t number = borders[below(sizeof borders / sizeof *borders)];
    switch (below(6)) {
    case 0: bytes[at] ^= 1 << below(8); break;
    case 1: bytes[at] = below(256); break;
    case 2: memcpy(bytes + at, &number, width); break;
    case 3: memmove(bytes + at, bytes + below(length - piece + 1), piece); break;
    case 4: return memmove(bytes + at, bytes + at + piece, length - at - piece), length - piece;
    default:
        if (length + piece > LONGEST) return length;
        memmove(bytes + at + piece, bytes + at, length - at);
        return length + piece;
    }
    return length;
}

int main(int count, char **words) {
    HOLD(count == 3);
    static uint8_t bytes[LONGEST], before[sizeof outcomes];
    read_seeds(words[2]);
    uint64_t rounds = strtoull(words[1], NULL, 10);
    for (uint64_t round = 0; round < rounds; round++) {
        size_t from = round < kept_count ? round : below(kept_count), length = kept[from].length;
        memcpy(bytes, kept[from].bytes, length);
        for (uint64_t edits = round < kept_count ? 0 : 1 + below(6); edits; edits--) length = edit(bytes, length);
        memcpy(before, outcomes, sizeof before);
        LLVMFuzzerTestOneInput(bytes, length);
        if (memcmp(before, outcomes, sizeof before)) keep(bytes, length);
    }
    printf("%llu rounds, %zu inputs kept\n", (unsigned long long)rounds, kept_count);
    return 0;
}
