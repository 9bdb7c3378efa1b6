/* Worked rows for each call: results, codes, empty and filled slots, buffers with room and with one byte too few. */
#include "check.h"

/* the index of some texts */
static uint8_t *built(const char *paths, size_t paths_len, const char *const *names, const char *const *texts, int count,
                      size_t *len) {
    cs_builder builder = CS_EMPTY;
    cs_bytes bytes = CS_EMPTY;
    CHECK(CS_OK, cs_builder_new((const uint8_t *)paths, paths_len, &builder));
    CHECK(1, builder.filled);
    for (int i = 0; i < count; i++) CHECK(CS_OK, cs_builder_add(&builder, BYTES(names[i]), BYTES(texts[i])));
    CHECK(CS_OK, cs_builder_finish(&builder, &bytes));
    CHECK(0, builder.filled);
    CHECK(CS_OK, cs_bytes_len(&bytes, len));
    uint8_t *index = (uint8_t *)malloc(*len);
    CHECK(CS_OK, cs_bytes_copy(&bytes, 0, index, *len));
    CHECK(CS_NO_ENTRY, cs_bytes_copy(&bytes, 1, index, *len));
    CHECK(CS_NO_ENTRY, cs_bytes_copy(&bytes, *len + 1, index, 0));
    CHECK(CS_OK, cs_bytes_copy(&bytes, *len, index, 0));
    cs_bytes_free(&bytes);
    CHECK(0, bytes.filled);
    return index;
}

/* a copy in which some bytes are others */
static uint8_t *changed(const uint8_t *index, size_t len, const char *from, const char *to, size_t size) {
    uint8_t *copy = (uint8_t *)malloc(len);
    int found = 0;
    memcpy(copy, index, len);
    for (size_t i = 0; i + size <= len; i++)
        if (!memcmp(index + i, from, size)) memcpy(copy + i, to, size), found++;
    CHECK(1, found > 0);
    return copy;
}

static void patterns(void) {
    static const struct {
        const char *text;
        int32_t code;
        size_t at;
    } rows[] = {
        {"*a", CS_P_NO_OPERAND, 0},      {"ab**", CS_P_STACKED_REPEAT, 3}, {"a{2,1}", CS_P_BAD_REPEAT, 1},
        {"x(a", CS_P_OPEN_GROUP, 1},     {"a)", CS_P_STRAY_CLOSE, 1},      {"(?z)", CS_P_BAD_GROUP, 0},
        {"[a", CS_P_OPEN_CLASS, 0},      {"[b-a]", CS_P_BAD_RANGE, 1},     {"a\\8", CS_P_BAD_ESCAPE, 1},
        {"a\\", CS_P_LONE_BACKSLASH, 1}, {"\\A", CS_P_NOT_IN_PROFILE, 0},  {"\xff", CS_NOT_UTF8, 0},
    };
    for (size_t i = 0; i < sizeof rows / sizeof *rows; i++) {
        cs_pattern slot = CS_EMPTY;
        size_t at = 99;
        CHECK(rows[i].code, cs_pattern_compile(BYTES(rows[i].text), false, &slot, &at));
        CHECK(rows[i].at, at);
        CHECK(0, slot.filled);
    }
    char deep[202];
    char large[10002];
    cs_pattern slot = CS_EMPTY;
    size_t at = 99;
    memset(deep, '(', 201);
    deep[201] = 0;
    CHECK(CS_P_TOO_DEEP, cs_pattern_compile(BYTES(deep), false, &slot, &at));
    CHECK(200, at);
    memset(large, 'a', 10001);
    large[10001] = 0;
    CHECK(CS_P_TOO_LARGE, cs_pattern_compile(BYTES(large), false, &slot, &at));
    CHECK(0, at);
    at = 99;
    CHECK(CS_OK, cs_pattern_compile(BYTES("a(b|c)+$"), false, &slot, &at));
    CHECK(99, at);
    CHECK(1, slot.filled);
    CHECK(CS_MISUSE, cs_pattern_compile(BYTES("x"), false, &slot, &at));
    CHECK(1, cs_pattern_is_match(&slot, BYTES("xabcb")));
    CHECK(0, cs_pattern_is_match(&slot, BYTES("abd")));
    CHECK(0, cs_pattern_is_match(&slot, BYTES("")));
    CHECK(0, cs_pattern_is_match(&slot, BYTES("ABC")));
    cs_pattern_free(&slot);
    CHECK(0, slot.filled);
    cs_pattern_free(&slot);
    CHECK(CS_OK, cs_pattern_compile(BYTES("a(b|c)+$"), true, &slot, &at));
    CHECK(1, cs_pattern_is_match(&slot, BYTES("ABC")));
    cs_pattern_free(&slot);
}

static void lines(void) {
    cs_pattern slot = CS_EMPTY;
    size_t at, count = 99;
    uint64_t number = 99;
    cs_line line = {7, 7}, few[2] = {{7, 7}, {7, 7}}, all[4];
    CHECK(CS_MISUSE, cs_pattern_next(&slot, BYTES("a"), 0, &line));
    CHECK(CS_MISUSE, cs_pattern_lines(&slot, BYTES("a"), few, 2, &count));
    CHECK(CS_MISUSE, cs_pattern_count(&slot, BYTES("a"), &number));
    CHECK(99, count);
    CHECK(99, number);
    CHECK(CS_OK, cs_pattern_compile(BYTES("b"), false, &slot, &at));
    const char *block = "ab\nxx\nb\n\nbb";
    CHECK(1, cs_pattern_next(&slot, BYTES(block), 0, &line));
    CHECK(0, line.start);
    CHECK(2, line.end);
    CHECK(1, cs_pattern_next(&slot, BYTES(block), line.end + 1, &line));
    CHECK(6, line.start);
    CHECK(7, line.end);
    CHECK(1, cs_pattern_next(&slot, BYTES(block), line.end + 1, &line));
    CHECK(9, line.start);
    CHECK(11, line.end);
    CHECK(0, cs_pattern_next(&slot, BYTES(block), 11, &line));
    CHECK(0, cs_pattern_next(&slot, BYTES(block), 12, &line));
    CHECK(0, cs_pattern_next(&slot, BYTES(block), SIZE_MAX, &line));
    CHECK(9, line.start);
    CHECK(CS_ROOM, cs_pattern_lines(&slot, BYTES(block), few, 2, &count));
    CHECK(3, count);
    CHECK(6, few[1].start);
    CHECK(CS_OK, cs_pattern_lines(&slot, BYTES(block), all, 3, &count));
    CHECK(9, all[2].start);
    CHECK(CS_OK, cs_pattern_lines(&slot, BYTES(block), all, 4, &count));
    CHECK(CS_OK, cs_pattern_count(&slot, BYTES(block), &number));
    CHECK(3, number);
    CHECK(CS_OK, cs_pattern_count(&slot, BYTES("b\n"), &number));
    CHECK(1, number);
    CHECK(CS_OK, cs_pattern_count(&slot, BYTES(""), &number));
    CHECK(0, number);
    cs_pattern_free(&slot);
    CHECK(CS_OK, cs_pattern_compile(BYTES("^$"), false, &slot, &at));
    CHECK(CS_OK, cs_pattern_lines(&slot, BYTES("\na\n\n"), all, 4, &count));
    CHECK(2, count);
    CHECK(0, all[0].end);
    CHECK(3, all[1].start);
    cs_pattern_free(&slot);
}

/* budgets that end before, in and after lines */
static void budgets(void) {
    cs_pattern slot = CS_EMPTY;
    size_t at, reached = 99;
    uint64_t number = 99;
    cs_line line = {7, 7};
    const char *block = "ab\nxx\nb\n\nbb";
    CHECK(CS_MISUSE, cs_pattern_next_within(&slot, BYTES(block), 0, 9, &line, &reached));
    CHECK(CS_MISUSE, cs_pattern_count_within(&slot, BYTES(block), 0, 9, &number, &reached));
    CHECK(99, reached);
    CHECK(99, number);
    CHECK(CS_OK, cs_pattern_compile(BYTES("b"), false, &slot, &at));
    CHECK(1, cs_pattern_next_within(&slot, BYTES(block), 0, 1, &line, &reached));
    CHECK(2, line.end);
    CHECK(99, reached);
    CHECK(CS_STOPPED, cs_pattern_next_within(&slot, BYTES(block), 0, 0, &line, &reached));
    CHECK(0, reached);
    for (size_t budget = 1; budget < 4; budget++) {
        CHECK(CS_STOPPED, cs_pattern_next_within(&slot, BYTES(block), 3, budget, &line, &reached));
        CHECK(6, reached);
    }
    CHECK(2, line.end);
    CHECK(1, cs_pattern_next_within(&slot, BYTES(block), 3, 4, &line, &reached));
    CHECK(6, line.start);
    CHECK(CS_STOPPED, cs_pattern_next_within(&slot, BYTES(block), 8, 1, &line, &reached));
    CHECK(9, reached);
    CHECK(1, cs_pattern_next_within(&slot, BYTES(block), reached, 1, &line, &reached));
    CHECK(11, line.end);
    CHECK(0, cs_pattern_next_within(&slot, BYTES(block), 11, 0, &line, &reached));
    CHECK(0, cs_pattern_next_within(&slot, BYTES(block), SIZE_MAX, SIZE_MAX, &line, &reached));
    CHECK(0, cs_pattern_next_within(&slot, BYTES("x\n"), 0, 1, &line, &reached));
    CHECK(9, reached);
    CHECK(CS_STOPPED, cs_pattern_count_within(&slot, BYTES(block), 0, 3, &number, &reached));
    CHECK(1, number);
    CHECK(3, reached);
    CHECK(CS_STOPPED, cs_pattern_count_within(&slot, BYTES(block), 0, 7, &number, &reached));
    CHECK(2, number);
    CHECK(8, reached);
    CHECK(CS_STOPPED, cs_pattern_count_within(&slot, BYTES(block), 6, 0, &number, &reached));
    CHECK(0, number);
    CHECK(6, reached);
    CHECK(CS_OK, cs_pattern_count_within(&slot, BYTES(block), 6, 4, &number, &reached));
    CHECK(2, number);
    CHECK(CS_OK, cs_pattern_count_within(&slot, BYTES(block), SIZE_MAX, 1, &number, &reached));
    CHECK(0, number);
    CHECK(6, reached);
    cs_pattern_free(&slot);
}

/* blocks of more than one part, with lines that are longer than a part, and none at their end */
static void long_blocks(void) {
    enum { LONG = 300000, SIZE = 3 * LONG };
    cs_pattern slot = CS_EMPTY;
    size_t at;
    cs_line line = {7, 7};
    uint8_t *block = (uint8_t *)malloc(SIZE);
    memset(block, 'x', SIZE);
    CHECK(CS_OK, cs_pattern_compile(BYTES("b"), false, &slot, &at));
    for (int newlines = 0; newlines < 4; newlines++) {
        if (newlines) block[newlines * LONG - 1] = '\n';
        CHECK(0, cs_pattern_next(&slot, block, SIZE, 0, &line));
        for (size_t from = 0; from < SIZE; from += LONG) {
            size_t start = newlines > (int)(from / LONG) ? from : (size_t)newlines * LONG;
            size_t end = newlines > (int)(from / LONG) ? from + LONG - 1 : SIZE;
            size_t of = from + LONG / 2;
            block[of] = 'b';
            CHECK(1, cs_pattern_next(&slot, block, SIZE, 0, &line));
            CHECK(start, line.start);
            CHECK(end, line.end);
            CHECK(1, cs_pattern_next(&slot, block, SIZE, of, &line));
            CHECK(of, line.start);
            CHECK(end, line.end);
            CHECK(0, cs_pattern_next(&slot, block, SIZE, end + 1, &line));
            block[of] = 'x';
        }
    }
    free(block);
    cs_pattern_free(&slot);
}

/* the matches of a line, as offsets */
static const char *spans_of(const char *text, const char *line, bool whole) {
    static char out[400];
    cs_pattern slot = CS_EMPTY;
    size_t at;
    cs_span span = {99, 99};
    CHECK(CS_OK, cs_pattern_compile(BYTES(text), false, &slot, &at));
    int32_t found = (whole ? cs_pattern_find_word : cs_pattern_find)(&slot, BYTES(line), 0, &span);
    for (out[0] = 0; found == 1;) {
        cs_span last = span;
        sprintf(out + strlen(out), "%zu-%zu ", span.start, span.end);
        found = (whole ? cs_pattern_find_word_after : cs_pattern_find_after)(&slot, BYTES(line), &last, &span);
    }
    CHECK(0, found);
    cs_pattern_free(&slot);
    return out;
}

static void spans(void) {
    static const struct {
        const char *text, *line, *all, *words;
    } rows[] = {
        {"a|ab|aab", "xaab aab", "1-4 5-8 ", "5-8 "},
        {"x*", "axxb", "0-0 1-3 4-4 ", ""},
        {"x*", "", "0-0 ", "0-0 "},
        {"^", "ab", "0-0 ", ""},
        {"$", "ab ", "3-3 ", "3-3 "},
        {"\\b", "ab c", "0-0 2-2 3-3 4-4 ", ""},
        {"\xc3\xa9|.", "\xc3\xa9\xff" "b", "0-2 3-4 ", "0-2 3-4 "},
        {"a+?", "aaa", "0-3 ", "0-3 "},
        {"a|a-b", "a-bc", "0-3 ", "0-1 "},
        {"-", " - a-a", "1-2 4-5 ", "1-2 "},
        {"[a-z]+", "ab_c de", "0-2 3-4 5-7 ", "5-7 "},
    };
    for (size_t i = 0; i < sizeof rows / sizeof *rows; i++) {
        CHECK(0, strcmp(rows[i].all, spans_of(rows[i].text, rows[i].line, false)));
        CHECK(0, strcmp(rows[i].words, spans_of(rows[i].text, rows[i].line, true)));
    }

    cs_pattern slot = CS_EMPTY;
    size_t at, count = 99;
    cs_span span = {7, 8}, other = {1, 4}, many[4] = {{9, 9}, {9, 9}, {9, 9}, {9, 9}};
    CHECK(CS_MISUSE, cs_pattern_find(&slot, BYTES("a"), 0, &span));
    CHECK(CS_MISUSE, cs_pattern_find_after(&slot, BYTES("a"), &other, &span));
    CHECK(CS_MISUSE, cs_pattern_spans(&slot, BYTES("a"), 9, many, 4, &count));
    CHECK(99, count);
    CHECK(CS_OK, cs_pattern_compile(BYTES("b$"), false, &slot, &at));
    CHECK(1, cs_pattern_find(&slot, BYTES("abab"), 0, &span));
    CHECK(3, span.start);
    CHECK(4, span.end);
    CHECK(0, cs_pattern_find(&slot, BYTES("abab"), 4, &span));
    CHECK(CS_MISUSE, cs_pattern_find(&slot, BYTES("abab"), 5, &span));
    CHECK(CS_MISUSE, cs_pattern_find_word(&slot, BYTES("abab"), SIZE_MAX, &span));
    other.end = 5;
    CHECK(CS_MISUSE, cs_pattern_find_after(&slot, BYTES("abab"), &other, &span));
    other.end = SIZE_MAX;
    CHECK(CS_MISUSE, cs_pattern_find_word_after(&slot, BYTES("abab"), &other, &span));
    CHECK(3, span.start);
    cs_pattern_free(&slot);

    CHECK(CS_OK, cs_pattern_compile(BYTES("a"), false, &slot, &at));
    CHECK(CS_OK, cs_pattern_spans(&slot, BYTES("a aba"), SIZE_MAX, many, 4, &count));
    CHECK(3, count);
    CHECK(4, many[2].start);
    CHECK(9, many[3].start);
    CHECK(CS_STOPPED, cs_pattern_spans(&slot, BYTES("a aba"), SIZE_MAX, many, 2, &count));
    CHECK(2, count);
    CHECK(CS_STOPPED, cs_pattern_spans(&slot, BYTES("a aba"), 0, many, 4, &count));
    CHECK(0, count);
    CHECK(CS_STOPPED, cs_pattern_spans(&slot, BYTES("a aba"), 1, many, 4, &count));
    CHECK(1, count);
    CHECK(CS_OK, cs_pattern_word_spans(&slot, BYTES("a aba"), SIZE_MAX, many, 4, &count));
    CHECK(1, count);
    CHECK(1, many[0].end);
    cs_pattern_free(&slot);

    CHECK(CS_OK, cs_count_lines(BYTES("a\n\nb\n"), 0, 5, &count));
    CHECK(3, count);
    CHECK(CS_OK, cs_count_lines(BYTES("a\n\nb\n"), 2, 4, &count));
    CHECK(1, count);
    CHECK(CS_OK, cs_count_lines(BYTES("a"), 1, 1, &count));
    CHECK(0, count);
    CHECK(CS_MISUSE, cs_count_lines(BYTES("a"), 1, 2, &count));
    CHECK(CS_MISUSE, cs_count_lines(BYTES("ab"), 2, 1, &count));
    CHECK(0, count);
}

static const char *const texts[] = {"alpha\nmarker here\n", "beta\n", "gamma\nmarker\nmarkers"};

static int32_t read_text(void *context, uint32_t id, const uint8_t **text, size_t *len) {
    (void)context;
    *text = (const uint8_t *)texts[id];
    *len = strlen(texts[id]);
    return 1;
}

static int32_t note_line(void *context, uint32_t id, size_t number, const uint8_t *text, cs_line line) {
    char *out = (char *)context;
    sprintf(out + strlen(out), "%u:%zu:%.*s;", id, number, (int)(line.end - line.start), (const char *)text + line.start);
    return number == 99;
}

static void indexes(void) {
    static const char *const names[] = {"/a/1", "/a/2", "/b/3"};
    size_t len = 0, count = 99, name_len = 99, at;
    uint8_t *index = built("/a\0/b", 6, names, texts, 3, &len);
    uint32_t number = 99, ids[3] = {9, 9, 9};
    uint8_t name[8];
    CHECK(CS_OK, cs_index_check(index, len));
    CHECK(CS_I_TRAILER, cs_index_check(index, len - 1));
    CHECK(CS_I_MAGIC, cs_index_check(index + 1, len - 1));
    CHECK(CS_I_MAGIC, cs_index_check(index, 0));
    CHECK(CS_OK, cs_index_names(index, len, &number));
    CHECK(3, number);
    memset(name, 'x', sizeof name);
    CHECK(CS_OK, cs_index_name(index, len, 2, name, 4, &name_len));
    CHECK(4, name_len);
    CHECK(0, memcmp(name, "/b/3xxxx", 8));
    CHECK(CS_ROOM, cs_index_name(index, len, 0, name, 3, &name_len));
    CHECK(0, memcmp(name, "/b/3xxxx", 8));
    CHECK(4, name_len);
    CHECK(CS_NO_ENTRY, cs_index_name(index, len, 3, name, 8, &name_len));
    CHECK(CS_OK, cs_index_path(index, len, 1, name, 2, &name_len));
    CHECK(0, memcmp(name, "/b/3", 4));
    CHECK(2, name_len);
    CHECK(CS_NO_ENTRY, cs_index_path(index, len, 2, name, 8, &name_len));
    CHECK(2, name_len);

    cs_pattern slot = CS_EMPTY;
    CHECK(CS_MISUSE, cs_pattern_candidates(&slot, index, len, ids, 3, &count));
    CHECK(CS_MISUSE, cs_pattern_candidates_from(&slot, index, len, 0, ids, 3, &count));
    CHECK(99, count);
    CHECK(CS_OK, cs_pattern_compile(BYTES("marker"), false, &slot, &at));
    CHECK(CS_ROOM, cs_pattern_candidates(&slot, index, len, ids, 1, &count));
    CHECK(2, count);
    CHECK(9, ids[0]);
    CHECK(CS_OK, cs_pattern_candidates(&slot, index, len, ids, 2, &count));
    CHECK(0, ids[0]);
    CHECK(2, ids[1]);
    CHECK(9, ids[2]);
    count = 99;
    CHECK(CS_STOPPED, cs_pattern_candidates_from(&slot, index, len, 0, ids, 0, &count));
    CHECK(0, count);
    ids[0] = ids[1] = 9;
    CHECK(CS_STOPPED, cs_pattern_candidates_from(&slot, index, len, 0, ids, 1, &count));
    CHECK(1, count);
    CHECK(0, ids[0]);
    CHECK(9, ids[1]);
    CHECK(CS_OK, cs_pattern_candidates_from(&slot, index, len, 0, ids, 2, &count));
    CHECK(2, count);
    CHECK(2, ids[1]);
    CHECK(CS_OK, cs_pattern_candidates_from(&slot, index, len, 1, ids, 3, &count));
    CHECK(1, count);
    CHECK(2, ids[0]);
    CHECK(2, ids[1]);
    CHECK(CS_OK, cs_pattern_candidates_from(&slot, index, len, 3, ids, 3, &count));
    CHECK(CS_OK, cs_pattern_candidates_from(&slot, index, len, UINT32_MAX, ids, 0, &count));
    CHECK(0, count);
    char found[200] = "";
    CHECK(0, cs_search(&slot, index, len, read_text, note_line, found));
    CHECK(0, strcmp(found, "0:2:marker here;2:2:marker;2:3:markers;"));

    uint8_t *damaged = changed(index, len, "mar\1\2", "mar\1\310", 5);
    CHECK(CS_OK, cs_index_check(damaged, len));
    count = 99;
    CHECK(CS_I_LIST, cs_pattern_candidates(&slot, damaged, len, ids, 3, &count));
    CHECK(CS_I_LIST, cs_pattern_candidates_from(&slot, damaged, len, 0, ids, 0, &count));
    CHECK(99, count);
    cs_pattern_free(&slot);
    free(damaged);

    free(index);
}

static void building(void) {
    cs_builder builder = CS_EMPTY;
    cs_bytes bytes = CS_EMPTY;
    size_t len = 99;
    static uint8_t many[2002];
    memset(many, 'a', sizeof many);
    CHECK(CS_MISUSE, cs_builder_add(&builder, BYTES("/a"), BYTES("a")));
    CHECK(CS_MISUSE, cs_builder_finish(&builder, &bytes));
    CHECK(CS_MISUSE, cs_bytes_len(&bytes, &len));
    CHECK(CS_MISUSE, cs_bytes_copy(&bytes, 0, many, 1));
    CHECK(99, len);
    CHECK(CS_B_PATHS, cs_builder_new((const uint8_t *)"/b\0/a", 6, &builder));
    CHECK(CS_B_PATHS, cs_builder_new((const uint8_t *)"/a\0/a/b", 8, &builder));
    CHECK(CS_B_PATHS, cs_builder_new((const uint8_t *)"\0", 1, &builder));
    CHECK(CS_NOT_UTF8, cs_builder_new((const uint8_t *)"/\xff", 3, &builder));
    CHECK(0, builder.filled);
    CHECK(CS_OK, cs_builder_new((const uint8_t *)"/a", 3, &builder));
    CHECK(CS_MISUSE, cs_builder_new((const uint8_t *)"/a", 3, &builder));
    CHECK(CS_B_NAME, cs_builder_add(&builder, BYTES(""), BYTES("a")));
    CHECK(CS_B_NAME, cs_builder_add(&builder, (const uint8_t *)"a\0b", 3, BYTES("a")));
    CHECK(CS_NOT_UTF8, cs_builder_add(&builder, BYTES("\xff"), BYTES("a")));
    CHECK(CS_SKIP_NUL, cs_builder_add(&builder, BYTES("/a/1"), (const uint8_t *)"a\0", 2));
    CHECK(CS_SKIP_UTF8, cs_builder_add(&builder, BYTES("/a/1"), BYTES("a\xff")));
    CHECK(CS_SKIP_LONG_LINE, cs_builder_add(&builder, BYTES("/a/1"), many, sizeof many));
    CHECK(CS_OK, cs_builder_add(&builder, BYTES("/a/1"), BYTES("a")));
    CHECK(CS_B_ORDER, cs_builder_add(&builder, BYTES("/a/1"), BYTES("a")));
    /* a slot of another kind is reported */
    cs_pattern *other = (cs_pattern *)&builder;
    CHECK(CS_MISUSE, cs_pattern_is_match(other, BYTES("a")));
    CHECK(CS_OK, cs_builder_finish(&builder, &bytes));
    CHECK(CS_MISUSE, cs_builder_add((cs_builder *)&bytes, BYTES("/a/2"), BYTES("a")));
    CHECK(CS_MISUSE, cs_builder_finish((cs_builder *)&bytes, (cs_bytes *)&builder));
    CHECK(CS_OK, cs_bytes_len(&bytes, &len));
    cs_bytes_free(&bytes);
    CHECK(CS_OK, cs_builder_new((const uint8_t *)"", 0, &builder));
    cs_builder_free(&builder);
    CHECK(0, builder.filled);
    CHECK(CS_OK, cs_text_scan(BYTES("a text\n")));
    CHECK(CS_SKIP_NUL, cs_text_scan((const uint8_t *)"a\0", 2));
    CHECK(CS_SKIP_UTF8, cs_text_scan(BYTES("\xe9" "a")));
    CHECK(CS_SKIP_LONG_LINE, cs_text_scan(many, sizeof many));
}

typedef struct {
    const uint8_t *bytes;
    size_t len;
} bytes_of;

/* a merge into an empty slot, which then has the wanted bytes; or the code is another one, and it stays empty */
#define MERGES(code, older, newer, wanted) merges(__LINE__, code, older, newer, wanted)
static void merges(int line, int32_t code, bytes_of older, bytes_of newer, bytes_of wanted) {
    cs_bytes slot = CS_EMPTY;
    size_t len = 0;
    check_at(line, "the merge", code, cs_index_merge(older.bytes, older.len, newer.bytes, newer.len, &slot));
    check_at(line, "the flag", code == CS_OK, slot.filled);
    if (!slot.filled) return;
    CHECK(CS_OK, cs_bytes_len(&slot, &len));
    uint8_t *came = (uint8_t *)malloc(len);
    CHECK(CS_OK, cs_bytes_copy(&slot, 0, came, len));
    check_at(line, "the length", (long long)wanted.len, (long long)len);
    check_at(line, "the bytes", 1, wanted.len == len && !memcmp(came, wanted.bytes, len));
    free(came);
    cs_bytes_free(&slot);
}

static void merging(void) {
    static const char *const names[] = {"/a/1", "/a/2", "/b/3"}, *const newer_names[] = {"/a/2", "/a/4"};
    static const char *const newer_texts[] = {"no marked line\n", "delta marker\n"}, *const both_names[] = {"/a/2", "/a/4", "/b/3"};
    const char *const both_texts[] = {newer_texts[0], newer_texts[1], texts[2]};
    bytes_of older, newer, both, empty, outside, three_paths, none = {0, 0};
    older.bytes = built("/a\0/b", 6, names, texts, 3, &older.len);
    newer.bytes = built("/a", 3, newer_names, newer_texts, 2, &newer.len);
    both.bytes = built("/a\0/b", 6, both_names, both_texts, 3, &both.len);
    empty.bytes = built("", 0, names, texts, 0, &empty.len);
    outside.bytes = built("/c", 3, names, texts, 1, &outside.len);
    three_paths.bytes = built("/a\0/b\0/c", 9, names, texts, 3, &three_paths.len);
    MERGES(CS_OK, older, newer, both);
    MERGES(CS_OK, newer, older, older);
    MERGES(CS_OK, older, older, older);
    MERGES(CS_OK, older, empty, older);
    MERGES(CS_OK, empty, older, older);
    MERGES(CS_OK, outside, older, three_paths);

    bytes_of short_one = {older.bytes, older.len - 1}, late = {newer.bytes + 1, newer.len - 1};
    MERGES(CS_I_TRAILER, short_one, newer, none);
    MERGES(CS_I_TRAILER, short_one, late, none);
    MERGES(CS_I_MAGIC, late, short_one, none);
    MERGES(CS_I_MAGIC, older, late, none);

    bytes_of damaged = {changed(older.bytes, older.len, "mar\1\2", "mar\1\310", 5), older.len};
    bytes_of twice = {changed(older.bytes, older.len, "/a/1\0/a/2", "/a/1\0/a/1", 9), older.len};
    MERGES(CS_I_LIST, damaged, newer, none);
    MERGES(CS_I_LIST, newer, damaged, none);
    MERGES(CS_M_UNCOVERED, older, outside, none);
    MERGES(CS_M_UNCOVERED, damaged, outside, none);
    MERGES(CS_M_UNSORTED, twice, outside, none);
    MERGES(CS_M_UNSORTED, damaged, twice, none);

    /* a filled slot stays */
    cs_bytes slot = CS_EMPTY;
    size_t len = 0;
    CHECK(CS_OK, cs_index_merge(empty.bytes, empty.len, newer.bytes, newer.len, &slot));
    CHECK(CS_MISUSE, cs_index_merge(older.bytes, older.len, newer.bytes, newer.len, &slot));
    CHECK(CS_MISUSE, cs_index_merge(late.bytes, late.len, newer.bytes, newer.len, &slot));
    CHECK(CS_OK, cs_bytes_len(&slot, &len));
    CHECK(newer.len, len);
    cs_bytes_free(&slot);
    const bytes_of all[] = {older, newer, both, empty, outside, three_paths, damaged, twice};
    for (size_t i = 0; i < sizeof all / sizeof *all; i++) free((void *)all[i].bytes);
}

/* a report of all styles, into a buffer of its size and of one byte less */
static void reports(void) {
    static const char *const lines[] = {"n:ab\nn:b\n", "n:1:ab\nn:3:b\n", "ab\nb\n", "1:ab\n3:b\n"};
    static const char *const same[] = {"ab\nx\nb", "ab\nx\nb\n"};
    cs_pattern slot = CS_EMPTY;
    cs_builder builder = CS_EMPTY;
    size_t at, len = 99;
    uint8_t out[64], before[64];
    memset(before, 'x', sizeof before);
    memset(out, 'x', sizeof out);
    CHECK(CS_MISUSE, cs_grep(&slot, BYTES("n"), BYTES("b"), 0, out, 64, &len));
    CHECK(CS_OK, cs_builder_new(BYTES(""), &builder));
    CHECK(CS_MISUSE, cs_grep((cs_pattern *)&builder, BYTES("n"), BYTES("b"), 0, out, 64, &len));
    cs_builder_free(&builder);
    CHECK(CS_OK, cs_pattern_compile(BYTES("b"), false, &slot, &at));
    CHECK(CS_NOT_UTF8, cs_grep(&slot, BYTES("\xff"), BYTES("b"), 0, out, 64, &len));
    CHECK(99, len);
    CHECK(0, memcmp(out, before, 64));
    for (uint32_t style = 0; style < 32; style++) {
        const char *wanted = style & CS_LIST ? "n\n" : style & CS_COUNT ? "n: 2\n" : lines[style / 4 % 4];
        size_t size = strlen(wanted);
        for (int i = 0; i < 2; i++) {
            memset(out, 'x', sizeof out);
            CHECK(CS_ROOM, cs_grep(&slot, BYTES("n"), BYTES(same[i]), style, out, size - 1, &len));
            CHECK(size, len);
            CHECK(0, memcmp(out, before, 64));
            CHECK(CS_OK, cs_grep(&slot, BYTES("n"), BYTES(same[i]), style, out, size, &len));
            CHECK(size, len);
            CHECK(0, memcmp(out, wanted, size));
            CHECK(0, memcmp(out + size, before, 64 - size));
        }
        CHECK(CS_OK, cs_grep(&slot, BYTES("n"), BYTES("a\n\nc"), style, out, 0, &len));
        CHECK(0, len);
        len = 99;
        CHECK(CS_OK, cs_grep(&slot, BYTES("n"), BYTES(""), style, out, 0, &len));
        CHECK(0, len);
    }
    CHECK(CS_OK, cs_grep(&slot, BYTES(""), (const uint8_t *)"\0b\xff", 3, 0, out, 64, &len));
    CHECK(5, len);
    CHECK(0, memcmp(out, ":\0b\xff\n", 5));
    cs_pattern_free(&slot);
    CHECK(CS_OK, cs_pattern_compile(BYTES("^$"), false, &slot, &at));
    CHECK(CS_OK, cs_grep(&slot, BYTES("n"), BYTES("\na\n\n"), CS_NUMBER, out, 64, &len));
    CHECK(10, len);
    CHECK(0, memcmp(out, "n:1:\nn:3:\n", 10));
    cs_pattern_free(&slot);
}

int main(void) {
    patterns();
    lines();
    budgets();
    long_blocks();
    spans();
    indexes();
    building();
    merging();
    reports();
    for (int32_t code = -100; code < 10; code++) CHECK(1, cs_error_text(code)[0] != 0);
    return summary();
}
