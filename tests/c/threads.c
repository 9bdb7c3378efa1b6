/* Four threads with slots of their own search the same index bytes at once, and each finds what one alone finds. Then patterns go
 * from thread to thread. */
#include "check.h"
#include <pthread.h>

enum { NAMES = 200, ROUNDS = 50, THREADS = 4 };
static uint8_t *index_bytes;
static size_t index_len;
static char texts[NAMES][32];

static int32_t read_text(void *context, uint32_t id, const uint8_t **text, size_t *len) {
    (void)context;
    *text = (const uint8_t *)texts[id];
    *len = strlen(texts[id]);
    return 1;
}

static int32_t count_line(void *context, uint32_t id, size_t number, const uint8_t *text, cs_line line) {
    (void)id, (void)number, (void)text, (void)line;
    ++*(long *)context;
    return 0;
}

static void *search(void *result) {
    long found = 0;
    for (int round = 0; round < ROUNDS; round++) {
        char text[32];
        cs_pattern slot = CS_EMPTY;
        size_t at;
        sprintf(text, "word%d[0-9]", round % 20);
        if (cs_pattern_compile(BYTES(text), false, &slot, &at)) found = -1000000;
        if (cs_search(&slot, index_bytes, index_len, read_text, count_line, &found)) found = -1000000;
        cs_pattern_free(&slot);
    }
    *(long *)result = found;
    return 0;
}

/* A pattern that another thread has made and used. */
typedef struct {
    cs_pattern slot;
    int32_t found;
} passed;

static void *use(void *context) {
    passed *with = (passed *)context;
    size_t at;
    cs_line line;
    cs_span span;
    uint64_t count = 0;
    with->found = 0;
    if (!with->slot.filled && cs_pattern_compile(BYTES("o[a-z]*"), false, &with->slot, &at)) return 0;
    with->found += cs_pattern_next(&with->slot, BYTES("a\none\n"), 0, &line);
    with->found += cs_pattern_find(&with->slot, BYTES("two one"), 0, &span);
    if (cs_pattern_count(&with->slot, BYTES("a\none\nto"), &count) == CS_OK) with->found += (int32_t)count;
    return 0;
}

static void *drop(void *context) {
    cs_pattern_free(&((passed *)context)->slot);
    return 0;
}

static void pass_around(void) {
    passed with = {CS_EMPTY, 0};
    pthread_t thread;
    for (int i = 0; i < 8; i++) {
        CHECK(0, pthread_create(&thread, 0, use, &with));
        pthread_join(thread, 0);
        CHECK(4, with.found);
        use(&with);
        CHECK(4, with.found);
        if (i % 3) continue;
        CHECK(0, pthread_create(&thread, 0, drop, &with));
        pthread_join(thread, 0);
        CHECK(0, with.slot.filled);
    }
    cs_pattern_free(&with.slot);
}

int main(void) {
    cs_builder builder = CS_EMPTY;
    cs_bytes bytes = CS_EMPTY;
    CHECK(CS_OK, cs_builder_new((const uint8_t *)"/", 2, &builder));
    for (int i = 0; i < NAMES; i++) {
        char name[32];
        sprintf(name, "/%03d", i);
        sprintf(texts[i], "line\nword%d\n", i);
        CHECK(CS_OK, cs_builder_add(&builder, BYTES(name), BYTES(texts[i])));
    }
    CHECK(CS_OK, cs_builder_finish(&builder, &bytes));
    CHECK(CS_OK, cs_bytes_len(&bytes, &index_len));
    index_bytes = (uint8_t *)malloc(index_len);
    CHECK(CS_OK, cs_bytes_copy(&bytes, 0, index_bytes, index_len));
    cs_bytes_free(&bytes);

    long alone, found[THREADS];
    pthread_t threads[THREADS];
    search(&alone);
    CHECK(1, alone > 0);
    for (int i = 0; i < THREADS; i++) CHECK(0, pthread_create(&threads[i], 0, search, &found[i]));
    for (int i = 0; i < THREADS; i++) pthread_join(threads[i], 0);
    for (int i = 0; i < THREADS; i++) CHECK(alone, found[i]);
    free(index_bytes);
    pass_around();
    return summary();
}
