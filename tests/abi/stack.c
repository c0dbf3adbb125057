/* What each call takes of the stack, its arguments by value and its answer included: the call runs on a painted stack, and the lowest
 * byte that lost its paint is looked for. Writes a line for each call; exits 1 where one takes more than the header says. */
#include <iflughan.h>
#include <stdio.h>
#include <string.h>

enum { K = 2, C = 8192, M = 4096, AREA = K * C, STACK = 1 << 20, PAINT = 0xa5 };

static uint8_t stack[STACK] __attribute__((aligned(64)));
static uint8_t area[AREA], other_area[AREA], bytes[IFLUGHAN_MOST_KEYS * 64];
static iflughan_log log_value, one_segment;
static iflughan_delta table;
static iflughan_index_row rows[2];
static uint32_t refusal;

/* Sixty-four images of a page, their ids in an order that makes a quicksort nest deeply. */
static const uint8_t deep[IFLUGHAN_MOST_SLOTS] = {
    61, 16, 15, 34, 56, 1, 31, 49, 44, 12, 35, 27, 20, 11, 4, 2, 62, 41, 37, 5, 22, 10, 51, 28, 32, 8, 46, 48, 38, 21, 53, 23, 63, 47, 55,
    19, 50, 13, 7, 59, 33, 39, 9, 30, 3, 29, 26, 52, 40, 36, 42, 45, 43, 24, 14, 17, 25, 64, 18, 54, 6, 60, 57, 58};
static uint8_t many_area[IFLUGHAN_MOST_SLOTS * 4096];
static iflughan_image many[IFLUGHAN_MOST_SLOTS];
static iflughan_index_row many_rows[IFLUGHAN_MOST_SLOTS];

static void call_new(void) { refusal = iflughan_new(K, C, M, area, AREA).refusal; }
static void call_append(void) {
    iflughan_appended answer = iflughan_append(log_value, area, AREA, (const uint8_t *)"abc", 3);
    refusal = answer.refusal;
    log_value = answer.log;
}
static void call_prune_oldest(void) { refusal = iflughan_prune_oldest(log_value, area, AREA, 2).refusal; }
static void call_prune_recent(void) { refusal = iflughan_prune_recent(log_value, area, AREA, 1).refusal; }
static void call_prune_recent_walked(void) { refusal = iflughan_prune_recent(one_segment, other_area, AREA, 1).refusal; }
static void call_recover(void) {
    iflughan_image images[] = {{2, 1, 4096}, {1, 0, 4096}};
    refusal = iflughan_recover(K, C, M, area, AREA, images, 2, 1, 2, (uint64_t *)rows, 2 * IFLUGHAN_ROW_WORDS).refusal;
}
static void call_recover_many(void) {
    enum { N = IFLUGHAN_MOST_SLOTS };
    refusal = iflughan_recover(N, 4096, 0, many_area, sizeof many_area, many, N, 1, N, (uint64_t *)many_rows, N * IFLUGHAN_ROW_WORDS).refusal;
}
static void call_row_question(void) {
    refusal = iflughan_row_question(log_value, area, AREA, rows[1].id, rows[1].slot, rows[1].offset, rows[1].length);
}
static void call_payload(void) {
    refusal = iflughan_payload(log_value, area, AREA, rows[1].id, rows[1].slot, rows[1].offset, rows[1].length).refusal;
}
static void call_name_write(void) { refusal = iflughan_name_write((const uint8_t *)"a", 1, 4294967295u, bytes, 16).refusal; }
static void call_name_parse(void) { refusal = iflughan_name_parse((const uint8_t *)"a", 1, bytes, 16).refusal; }
static void call_delta_encode(void) { refusal = iflughan_delta_encode(table, area, AREA, bytes, sizeof bytes).refusal; }
static void call_delta_decode(void) { refusal = iflughan_delta_decode(bytes, sizeof bytes).refusal; }

/* As many keys as there can be, half of them with a value. */
static void fill_table(void) {
    table.count = IFLUGHAN_MOST_KEYS;
    for (unsigned i = 0; i < IFLUGHAN_MOST_KEYS; i++) {
        table.rows[i].key[0] = (uint8_t)(i * 37);
        table.rows[i].present = i % 2;
        table.rows[i].length = 3;
    }
}

/* A record in each segment. */
static void fill_many(void) {
    iflughan_log log = iflughan_new(IFLUGHAN_MOST_SLOTS, 4096, 0, many_area, sizeof many_area).log;
    for (unsigned i = 0; i < IFLUGHAN_MOST_SLOTS; i++) log = iflughan_append(log, many_area, sizeof many_area, (const uint8_t *)"abc", 3).log;
    for (unsigned i = 0; i < IFLUGHAN_MOST_SLOTS; i++) {
        iflughan_segment segment = log.segments[deep[i] - 1];
        many[i] = (iflughan_image){segment.id, segment.slot, segment.size};
    }
}

/* Two records in one segment: a cut at the first is walked. */
static void fill_one_segment(void) {
    one_segment = iflughan_new(K, C, C, other_area, AREA).log;
    for (int i = 0; i < 2; i++) one_segment = iflughan_append(one_segment, other_area, AREA, NULL, 0).log;
}

/* Runs a call on the painted stack, and answers the bytes that it took. */
static size_t taken(void (*call)(void)) {
    memset(stack, PAINT, STACK);
    void *top = stack + STACK;
    __asm__ volatile("movq %%rsp, %%rbx\n\tmovq %[top], %%rsp\n\tcall *%[call]\n\tmovq %%rbx, %%rsp"
                     : [top] "+r"(top), [call] "+r"(call)
                     :
                     : "rbx", "rax", "rcx", "rdx", "rsi", "rdi", "r8", "r9", "r10", "r11", "xmm0", "xmm1", "xmm2", "xmm3", "xmm4", "xmm5",
                       "xmm6", "xmm7", "xmm8", "xmm9", "xmm10", "xmm11", "xmm12", "xmm13", "xmm14", "xmm15", "cc", "memory");
    size_t clean = 0;
    while (clean < STACK && stack[clean] == PAINT) clean++;
    return STACK - clean;
}

static int wrong(const char *name, void (*call)(void), size_t said) {
    call(); /* once before: what is linked at its first use takes stack of its own */
    size_t took = taken(call);
    int fails = took > said || refusal != IFLUGHAN_ACCEPTED;
    printf("%s takes %zu bytes of stack, the header says %zu%s\n", name, took, said, fails ? ": WRONG" : "");
    if (refusal != IFLUGHAN_ACCEPTED) printf("%s was refused: %s\n", name, iflughan_refusal_text(refusal));
    return fails;
}

int main(void) {
    fill_table();
    fill_one_segment();
    fill_many();
    log_value = iflughan_new(K, C, M, area, AREA).log;
    return wrong("new", call_new, IFLUGHAN_STACK_NEW) |
           wrong("append", call_append, IFLUGHAN_STACK_APPEND) | /* twice: records 1 and 2, each in a segment of its own */
           wrong("prune_oldest", call_prune_oldest, IFLUGHAN_STACK_PRUNE_OLDEST) |
           wrong("prune_recent", call_prune_recent, IFLUGHAN_STACK_PRUNE_RECENT) | /* at a segment's newest record */
           wrong("prune_recent", call_prune_recent_walked, IFLUGHAN_STACK_PRUNE_RECENT) |
           wrong("recover", call_recover, IFLUGHAN_STACK_RECOVER) |
           wrong("recover", call_recover_many, IFLUGHAN_STACK_RECOVER) |
           wrong("row_question", call_row_question, IFLUGHAN_STACK_ROW_QUESTION) |
           wrong("payload", call_payload, IFLUGHAN_STACK_PAYLOAD) |
           wrong("name_write", call_name_write, IFLUGHAN_STACK_NAME_WRITE) |
           wrong("name_parse", call_name_parse, IFLUGHAN_STACK_NAME_PARSE) |
           wrong("delta_encode", call_delta_encode, IFLUGHAN_STACK_DELTA_ENCODE) |
           wrong("delta_decode", call_delta_decode, IFLUGHAN_STACK_DELTA_DECODE);
}
