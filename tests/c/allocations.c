/* Calls that allocate nothing: those for spans, and those for lines after the first one with a pattern. None calls malloc, calloc,
 * realloc or free. Linked with --wrap of these four. */
#include "check.h"

static long calls;

void *__real_malloc(size_t);
void *__real_calloc(size_t, size_t);
void *__real_realloc(void *, size_t);
void __real_free(void *);
void *__wrap_malloc(size_t);
void *__wrap_calloc(size_t, size_t);
void *__wrap_realloc(void *, size_t);
void __wrap_free(void *);
void *__wrap_malloc(size_t size) { return calls++, __real_malloc(size); }
void *__wrap_calloc(size_t count, size_t size) { return calls++, __real_calloc(count, size); }
void *__wrap_realloc(void *at, size_t size) { return calls++, __real_realloc(at, size); }
void __wrap_free(void *at) { calls++, __real_free(at); }

enum { SIZE = 60000 };
static uint8_t block[SIZE];

/* the call allocates nothing */
#define TAKES_NONE(what) \
    do { \
        long before = calls; \
        (void)(what); \
        CHECK(0, calls - before); \
    } while (0)

/* Each call, over the lines of the block and over parts of them. */
static void search(cs_pattern *slot) {
    enum { ROOM = 16 };
    cs_line line, lines[ROOM];
    cs_span span = {0, 0}, last, spans[ROOM];
    size_t count, reached, newlines;
    uint64_t number;
    TAKES_NONE(cs_pattern_count(slot, block, SIZE, &number));
    TAKES_NONE(cs_pattern_lines(slot, block, SIZE, lines, ROOM, &count));
    for (size_t from = 0; from < SIZE; from += 997) {
        size_t len = SIZE - from < 120 ? SIZE - from : 120;
        const uint8_t *some = block + from;
        TAKES_NONE(cs_pattern_is_match(slot, some, len));
        TAKES_NONE(cs_pattern_next(slot, block, SIZE, from, &line));
        TAKES_NONE(cs_pattern_next_within(slot, block, SIZE, from, 100, &line, &reached));
        TAKES_NONE(cs_pattern_count_within(slot, block, SIZE, from, 1000, &number, &reached));
        TAKES_NONE(cs_pattern_find(slot, some, len, 0, &span));
        last = span;
        TAKES_NONE(cs_pattern_find_after(slot, some, len, &last, &span));
        TAKES_NONE(cs_pattern_find_word(slot, some, len, 0, &span));
        TAKES_NONE(cs_pattern_find_word_after(slot, some, len, &last, &span));
        TAKES_NONE(cs_pattern_spans(slot, some, len, 1000, spans, ROOM, &count));
        TAKES_NONE(cs_pattern_word_spans(slot, some, len, 1000, spans, ROOM, &count));
        TAKES_NONE(cs_count_lines(block, SIZE, from, from + len, &newlines));
    }
}

int main(void) {
    static const char *const patterns[] = {"b", "abc", "[a-c]+x", "(a|b)*c$", "^", "\\bab", "a.{0,30}b", "[^\303\251]+\\Bx", "(?i)abcd|dcba", ".*"};
    unsigned chance = 1;
    for (size_t i = 0; i < SIZE; i++) {
        chance = chance * 1103515245u + 12345u;
        block[i] = (uint8_t)"abcdx \n\303\251\377ab"[(chance >> 16) % 12];
    }
    for (size_t i = 0; i < sizeof patterns / sizeof *patterns; i++) {
        cs_pattern slot = CS_EMPTY;
        size_t at;
        cs_line line;
        cs_span span;
        CHECK(CS_OK, cs_pattern_compile(BYTES(patterns[i]), false, &slot, &at));
        /* a call for spans has the memory of the pattern, also the first one */
        TAKES_NONE(cs_pattern_find(&slot, block, 100, 0, &span));
        long before = calls;
        cs_pattern_next(&slot, block, SIZE, 0, &line);
        CHECK(1, calls > before);
        search(&slot);
        cs_pattern_free(&slot);
    }
    return summary();
}
