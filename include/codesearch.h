/* codesearch.h - search trees of source code by regular expressions, through an index of trigrams.
 *
 * The library is the part of codesearch that is proved, without its tools: patterns, lines and the matches in them, reports,
 * candidates of an index, the scan of a text, and the building and merging of indexes. It opens no file, prints nothing and
 * starts no thread.
 *
 * Bytes    An index, a pattern, a name, a line, a block, a text are a pointer and a length, and belong to the caller.
 *          The library keeps nothing of them after a call. No pointer is null, also where the length is 0.
 * Slots    cs_pattern, cs_builder and cs_bytes are slots in memory of the caller. CS_EMPTY is an empty slot. A call that
 *          fills a slot wants an empty one, and each other call a filled one of its kind; else the answer is CS_MISUSE and
 *          nothing changes. cs_*_free empties a slot, and does nothing to an empty one. A slot may be moved; a copy of a
 *          filled slot is not a second one, and only one of them may be used.
 * Results  0 or more: done. Below 0: a code. Each call says what it then leaves as it was.
 * Buffers  A call that copies says how much there is, and copies if all fits. Else the answer is CS_ROOM, and the buffer
 *          stays as it was: call again with enough room. A call with a budget copies what it has found; CS_STOPPED says that
 *          there may be more.
 * Threads  There is no state outside slots. Any number of threads may use the same index bytes at once. A slot is in one call at
 *          a time. Between two calls it may go to another thread, which a lock, a start or a join puts in order: it is proved
 *          that what a slot holds may. Threads that search at once compile patterns of their own (48 us on average).
 * Memory   malloc, realloc and free of the process. A call that is refused memory answers CS_MEMORY. The calls for spans take
 *          none: theirs is that of the pattern. Of the calls for lines (cs_pattern_is_match to cs_pattern_count_within) only the
 *          first one with a pattern takes some, which the pattern keeps. No call may be made in a signal handler.
 * Aliasing What a call writes (slots, buffers, counts) overlaps nothing else that the call is given.
 *
 * Proved   Each call that is given what it wants ends, stays within its buffers, and answers and leaves what is said at it:
 *          docs/PROMISES.md has each promise. The functions in C below are tested only, and so is that a list of spans is
 *          CS_STOPPED only if room or budget are used up, and which calls take no memory. Of what a call wants, it tests slots
 *          alone.
 * Trusted  This header against those contracts, the static inline functions below, malloc (blocks aligned to 16), a stack
 *          of 256 KB or more, and index bytes that do not change after cs_index_check.
 */
#ifndef CODESEARCH_H
#define CODESEARCH_H

#include <stdbool.h>
#include <stddef.h>
#include <stdint.h>
#include <stdlib.h>
#include <string.h>

#ifdef __cplusplus
extern "C" {
#endif

#define CS_VERSION_NUMBER 1

enum {
    CS_OK = 0,
    CS_MEMORY = -1,   /* memory was refused */
    CS_NOT_UTF8 = -2, /* a pattern, a name or a path is not UTF-8 */
    CS_ROOM = -3,     /* the buffer is too small: the length says how much is wanted */
    CS_NO_ENTRY = -4, /* no name, path or byte has this number */
    CS_MISUSE = -5,   /* the slot is empty, is filled, or holds something of another kind; or an offset is after the line */
    CS_STOPPED = -6,  /* the budget or the room is used up: what is answered is right, and there may be more */
    /* a text is no pattern: the offset says where */
    CS_P_NO_OPERAND = -20,     /* *a */
    CS_P_STACKED_REPEAT = -21, /* a** */
    CS_P_BAD_REPEAT = -22,     /* a{2,1} */
    CS_P_OPEN_GROUP = -23,     /* (a */
    CS_P_STRAY_CLOSE = -24,    /* a) */
    CS_P_BAD_GROUP = -25,      /* (?z) */
    CS_P_OPEN_CLASS = -26,     /* [a */
    CS_P_BAD_RANGE = -27,      /* [b-a] */
    CS_P_BAD_ESCAPE = -28,     /* \8 */
    CS_P_LONE_BACKSLASH = -29, /* a\ */
    CS_P_NOT_IN_PROFILE = -30, /* \A */
    CS_P_TOO_DEEP = -31,       /* more than 200 open groups */
    CS_P_TOO_LARGE = -32,      /* a weight above 10000 */
    /* bytes are no index */
    CS_I_MAGIC = -40,
    CS_I_TRAILER = -41,
    CS_I_OFFSETS = -42,
    CS_I_PATHS = -43,
    CS_I_NAMES = -44,
    CS_I_NAME_INDEX = -45,
    CS_I_LIST_INDEX = -46,
    CS_I_LIST = -47, /* a posting list is damaged; only what reads lists finds it */
    /* an index is not built */
    CS_B_NAME = -60,      /* the name is empty or has a NUL */
    CS_B_ORDER = -61,     /* the name is not greater than the last one */
    CS_B_PATHS = -62,     /* a path is empty, or the paths do not ascend, or one covers another */
    CS_B_TOO_LARGE = -63, /* 2^30 names, or an index of 2^32 bytes */
    /* two indexes are not merged */
    CS_M_UNSORTED = -80, /* an index holds a name twice */
    CS_M_UNCOVERED = -81 /* no path of the newer index covers one of its names */
};

/* why an index leaves a text out, by its first byte that has a reason: the answers of cs_text_scan and cs_builder_add above 0.
 * Some texts that are not UTF-8 pass */
enum {
    CS_SKIP_NUL = 1,           /* a byte 0 */
    CS_SKIP_UTF8 = 2,          /* a byte that may not follow the one before it in UTF-8 (docs/FORMAT.md) */
    CS_SKIP_TOO_LONG = 3,      /* more than 2^30 bytes */
    CS_SKIP_LONG_LINE = 4,     /* a line of more than 2000 bytes with its newline */
    CS_SKIP_MANY_TRIGRAMS = 5  /* more than 20000 different trigrams, and no other reason */
};

/* how cs_grep prints: the options of cgrep */
enum { CS_COUNT = 1 /* -c */, CS_LIST = 2 /* -l */, CS_NUMBER = 4 /* -n */, CS_BARE = 8 /* -h */ };

/* The bytes of a line are those from start to before end. The newline is not one of them. */
typedef struct cs_line {
    size_t start, end;
} cs_line;

/* The bytes of a match are those from start to before end. A match may be empty. */
typedef struct cs_span {
    size_t start, end;
} cs_span;

/* Slots. The two fields are the library's own: a caller sets them by CS_EMPTY, and may read `filled`. */
typedef struct cs_pattern {
    void *at;
    bool filled;
} cs_pattern;
typedef struct cs_builder {
    void *at;
    bool filled;
} cs_builder;
typedef struct cs_bytes {
    void *at;
    bool filled;
} cs_bytes;
#define CS_EMPTY {0, 0}

/* ---- an index
 * cs_index_check reads the whole index but its posting lists, once. All other calls but cs_index_merge want bytes for which
 * it has answered CS_OK and that have not changed since, and take constant time to open them: map a file privately, and
 * replace an index by renaming a new file. */

/* CS_OK, or a code CS_I_*, of the first part that is not as it should be. */
int32_t cs_index_check(const uint8_t *index, size_t len);

/* CS_OK, and the number of names. Their ids are the numbers below it. */
int32_t cs_index_names(const uint8_t *index, size_t len, uint32_t *count);

/* The name with an id, as cindex stored it: a path without NUL. CS_OK, CS_ROOM, or CS_NO_ENTRY, which leaves name_len. */
int32_t cs_index_name(const uint8_t *index, size_t len, uint32_t id, uint8_t *name, size_t room, size_t *name_len);

/* The indexed path at a position, from 0. CS_OK, CS_ROOM, or CS_NO_ENTRY, which leaves path_len. */
int32_t cs_index_path(const uint8_t *index, size_t len, uint32_t at, uint8_t *path, size_t room, size_t *path_len);

/* ---- patterns
 * The syntax is RE2's, with the differences in docs/PATTERNS.md. A pattern is matched against a line. */

/* Fills an empty slot. With `fold` an ASCII letter matches both of its cases. CS_OK leaves `offset`. CS_NOT_UTF8, a code
 * CS_P_* and CS_MEMORY leave the slot empty, and set the offset in bytes where the error is (0 for CS_NOT_UTF8, CS_MEMORY
 * and CS_P_TOO_LARGE). CS_MISUSE: the slot was filled. */
int32_t cs_pattern_compile(const uint8_t *text, size_t len, bool fold, cs_pattern *slot, size_t *offset);

void cs_pattern_free(cs_pattern *slot);

/* 1 if some part of the line matches, 0 if none does, or CS_MEMORY, CS_MISUSE. A newline is a byte like another. */
int32_t cs_pattern_is_match(cs_pattern *slot, const uint8_t *line, size_t len);

/* 1 and the first matching line of the bytes from `from` on, or 0 if none of their lines matches, which leaves `line`. A line
 * begins at `from` and after each newline, and the last one needs no newline; from `len` on there is none. To find all of them,
 * begin at 0, and go on at line.end + 1. CS_MEMORY and CS_MISUSE leave `line` too. */
int32_t cs_pattern_next(cs_pattern *slot, const uint8_t *block, size_t len, size_t from, cs_line *line);

/* The matching lines of a block in their order, and how many there are. CS_ROOM writes the first `room` lines of them.
 * CS_MEMORY and CS_MISUSE leave all. */
int32_t cs_pattern_lines(cs_pattern *slot, const uint8_t *block, size_t len, cs_line *lines, size_t room, size_t *count);

/* The number of matching lines of a block: faster than cs_pattern_lines. CS_MEMORY and CS_MISUSE leave the count. */
int32_t cs_pattern_count(cs_pattern *slot, const uint8_t *block, size_t len, uint64_t *count);

/* The same two of the lines that begin in the `budget` bytes from `from` on. CS_STOPPED: more lines follow, `reached` is where the
 * first of them begins, and no line before it matches, or `count` is the number of those that do. Go on from there. The last line
 * is read to its end, however long it is. Any other answer leaves `reached`: cs_pattern_next_within gives 1 and the first matching
 * line, or 0, which leaves `line`, if no line of the block from `from` on matches; cs_pattern_count_within gives CS_OK and the
 * number of all. A budget of 0 stops at `from`. */
int32_t cs_pattern_next_within(cs_pattern *slot, const uint8_t *block, size_t len, size_t from, size_t budget, cs_line *line,
                               size_t *reached);
int32_t cs_pattern_count_within(cs_pattern *slot, const uint8_t *block, size_t len, size_t from, size_t budget, uint64_t *count,
                                size_t *reached);

/* ---- where in a line a pattern matches
 * The first match is the leftmost one, and of those that begin there the longest (POSIX, grep -o). The line is bytes without its
 * newline, and look-around (^, $, \b) sees all of it, whatever the offset. To find all matches, begin at 0 and go on with
 * cs_pattern_find_after, which leaves out an empty match at the end of the last one: x* in axxb is 0-0, 1-3 and 4-4.
 * A search reads a line of n bytes at most log2(n) + 4 times; all matches of a line may take n searches, so cs_pattern_spans has
 * a budget. No call takes memory. */

/* 1 and the first match that begins at `from` or later; 0 if there is none, which leaves `span`. CS_MISUSE leaves it too: the slot,
 * or `from` is above `len`. */
int32_t cs_pattern_find(cs_pattern *slot, const uint8_t *line, size_t len, size_t from, cs_span *span);

/* The same of the first match that begins at the end of `last` or later, and ends after it. `last` and `span` are two variables.
 * CS_MISUSE: the slot, or last->end is above `len`. */
int32_t cs_pattern_find_after(cs_pattern *slot, const uint8_t *line, size_t len, const cs_span *last, cs_span *span);

/* All matches of a line in their order, and how many there are. CS_OK; or CS_STOPPED, and the first `count` of them: the room is
 * used up, or the search has read `budget` bytes, and has finished the match that it was at. So there may be no more where the
 * matches fill the room exactly, and a budget of 0 finds none. To go on without a budget, call cs_pattern_find_after with the
 * last one, or cs_pattern_find at 0 if there is none (after cs_pattern_word_spans, the calls for words). CS_MISUSE leaves all. */
int32_t cs_pattern_spans(cs_pattern *slot, const uint8_t *line, size_t len, size_t budget, cs_span *spans, size_t room,
                         size_t *count);

/* The same three of matches that are whole words: no word byte (an ASCII letter or digit, or _) stands before the match, and none
 * after it (grep -w). The first one is the leftmost such match, and of those that begin there the longest. */
int32_t cs_pattern_find_word(cs_pattern *slot, const uint8_t *line, size_t len, size_t from, cs_span *span);
int32_t cs_pattern_find_word_after(cs_pattern *slot, const uint8_t *line, size_t len, const cs_span *last, cs_span *span);
int32_t cs_pattern_word_spans(cs_pattern *slot, const uint8_t *line, size_t len, size_t budget, cs_span *spans, size_t room,
                              size_t *count);

/* The ids of the names whose text may have a matching line, ascending, and how many there are. No text that was indexed under
 * another name has one. CS_OK, CS_ROOM; CS_I_LIST, CS_MEMORY and CS_MISUSE leave all. */
int32_t cs_pattern_candidates(cs_pattern *slot, const uint8_t *index, size_t len, uint32_t *ids, size_t room,
                              size_t *count);

/* The same ids from an id on, a page of them: CS_OK and all of them, or CS_STOPPED and the first `room`. The next page begins at the
 * last one + 1. A posting list is read from its start to its end, so that any damage is found; ids are made for the page alone.
 * CS_I_LIST, CS_MEMORY and CS_MISUSE leave all. */
int32_t cs_pattern_candidates_from(cs_pattern *slot, const uint8_t *index, size_t len, uint32_t from, uint32_t *ids, size_t room,
                                   size_t *count);

/* The number of newlines of a text from one offset to another: the number of the line at `to`, if `from` begins line 0. CS_OK, or
 * CS_MISUSE, which leaves the count: not from <= to <= len. */
int32_t cs_count_lines(const uint8_t *text, size_t len, size_t from, size_t to, size_t *count);

/* ---- reports */

/* The lines that cgrep prints for an input with this name and text, which may have any length: `style` is a sum of CS_COUNT,
 * CS_LIST, CS_NUMBER and CS_BARE, and there are no bytes if no line matches. CS_OK, CS_ROOM; CS_NOT_UTF8 (of the name),
 * CS_MEMORY and CS_MISUSE leave all. */
int32_t cs_grep(cs_pattern *slot, const uint8_t *name, size_t name_len, const uint8_t *text, size_t len, uint32_t style,
                uint8_t *out, size_t room, size_t *out_len);

/* ---- texts */

/* 0 if an index takes the text, a reason CS_SKIP_* if it does not, or CS_MEMORY. */
int32_t cs_text_scan(const uint8_t *text, size_t len);

/* ---- building
 * Names are added in ascending order of their bytes. */

/* Fills an empty slot with a builder over paths, which ascend, and none of which covers another. A NUL ends each path, and the
 * last one may lack it. CS_OK, or CS_NOT_UTF8, CS_B_PATHS, CS_MEMORY, which leave the slot empty, or CS_MISUSE. */
int32_t cs_builder_new(const uint8_t *paths, size_t len, cs_builder *slot);

/* Adds a name with the trigrams of its text. CS_OK; a reason CS_SKIP_*; or CS_NOT_UTF8 (of the name), CS_B_NAME,
 * CS_B_ORDER, CS_B_TOO_LARGE, CS_MEMORY, CS_MISUSE. After any other answer than CS_OK the index stays as it was. */
int32_t cs_builder_add(cs_builder *slot, const uint8_t *name, size_t name_len, const uint8_t *text, size_t len);

/* Fills an empty slot with the bytes of the index, and empties the builder. CS_B_TOO_LARGE and CS_MEMORY empty the builder
 * and leave `index` empty. CS_MISUSE. */
int32_t cs_builder_finish(cs_builder *slot, cs_bytes *index);

void cs_builder_free(cs_builder *slot);

/* CS_OK and the number of bytes, or CS_MISUSE. */
int32_t cs_bytes_len(cs_bytes *slot, size_t *len);

/* Fills a buffer with the bytes from an offset on. CS_NO_ENTRY, which leaves the buffer: there are not as many. CS_MISUSE. */
int32_t cs_bytes_copy(cs_bytes *slot, size_t from, uint8_t *out, size_t room);

void cs_bytes_free(cs_bytes *slot);

/* ---- merging */

/* Fills an empty slot with the bytes of the index that an older index and a newer one merge to. At a name that a newer path
 * covers the newer index takes precedence, other names stay as they are, and the paths are those of both that no other path
 * covers. The two are any bytes, and nothing is kept of them: they are checked first, as by cs_index_check.
 * CS_OK; or a code that leaves the slot empty: CS_I_* of the older bytes, or else of the newer ones, or else, in this order,
 * CS_M_UNSORTED, CS_M_UNCOVERED, CS_I_LIST (of either), CS_B_TOO_LARGE; or CS_MEMORY. CS_MISUSE: the slot was filled. */
int32_t cs_index_merge(const uint8_t *older, size_t older_len, const uint8_t *newer, size_t newer_len, cs_bytes *index);

#ifdef __cplusplus
}
#endif

/* ---- in C, not proved */

/* A short English text for a code, never null. */
static inline const char *cs_error_text(int32_t code) {
    switch (code) {
    case CS_MEMORY: return "out of memory";
    case CS_NOT_UTF8: return "not UTF-8";
    case CS_ROOM: return "the buffer is too small";
    case CS_NO_ENTRY: return "no such entry";
    case CS_MISUSE: return "the slot is empty, filled, or of another kind, or an offset is after the line";
    case CS_STOPPED: return "the budget or the room is used up";
    case CS_P_NO_OPERAND: return "nothing to repeat";
    case CS_P_STACKED_REPEAT: return "a repeat of a repeat";
    case CS_P_BAD_REPEAT: return "a bad count of a repeat";
    case CS_P_OPEN_GROUP: return "a group is not closed";
    case CS_P_STRAY_CLOSE: return "a parenthesis closes no group";
    case CS_P_BAD_GROUP: return "a bad head of a group";
    case CS_P_OPEN_CLASS: return "a class is not closed";
    case CS_P_BAD_RANGE: return "a bad range or name in a class";
    case CS_P_BAD_ESCAPE: return "a bad escape";
    case CS_P_LONE_BACKSLASH: return "a backslash at the end";
    case CS_P_NOT_IN_PROFILE: return "not in this profile";
    case CS_P_TOO_DEEP: return "nested too deep";
    case CS_P_TOO_LARGE: return "the pattern is too large";
    case CS_I_MAGIC: return "bad index: magic";
    case CS_I_TRAILER: return "bad index: trailer";
    case CS_I_OFFSETS: return "bad index: offsets";
    case CS_I_PATHS: return "bad index: paths";
    case CS_I_NAMES: return "bad index: names";
    case CS_I_NAME_INDEX: return "bad index: name index";
    case CS_I_LIST_INDEX: return "bad index: list index";
    case CS_I_LIST: return "bad index: list";
    case CS_B_NAME: return "bad name";
    case CS_B_ORDER: return "name out of order";
    case CS_B_PATHS: return "bad paths";
    case CS_B_TOO_LARGE: return "too large";
    case CS_M_UNSORTED: return "index holds a name twice";
    case CS_M_UNCOVERED: return "name outside the paths";
    default: return code < 0 ? "unknown code" : "no error";
    }
}

/* The caller's reading, for cs_search: 1 and the text of the name with this id, which stays valid until the next call; 0 to
 * pass over it; below 0 to end the search with this answer. */
typedef int32_t (*cs_read)(void *context, uint32_t id, const uint8_t **text, size_t *len);

/* A matching line, for cs_search, with its number from 1. 0 to go on; anything else ends the search with this answer. */
typedef int32_t (*cs_visit)(void *context, uint32_t id, size_t number, const uint8_t *text, cs_line line);

/* Searches the candidates of an index, in the order of their ids. 0 at the end; else what `read` or `visit` answered, or a code
 * of cs_pattern_candidates or cs_pattern_next. */
static inline int32_t cs_search(cs_pattern *slot, const uint8_t *index, size_t len, cs_read read, cs_visit visit, void *context) {
    uint32_t names = 0;
    size_t count = 0;
    int32_t code = cs_index_names(index, len, &names);
    if (code < 0) return code;
    uint32_t *ids = (uint32_t *)malloc(names ? (size_t)names * sizeof *ids : 1);
    if (!ids) return CS_MEMORY;
    code = cs_pattern_candidates(slot, index, len, ids, names, &count);
    for (size_t i = 0; code == 0 && i < count; i++) {
        const uint8_t *text = 0;
        size_t size = 0, from = 0, number = 1;
        int32_t found;
        cs_line line;
        code = read(context, ids[i], &text, &size);
        if (code <= 0) continue;
        code = 0;
        while (code == 0 && (found = cs_pattern_next(slot, text, size, from, &line)) != 0) {
            if (found < 0) {
                code = found;
                break;
            }
            const uint8_t *at = text + from, *end = text + line.start;
            while (at < end && (at = (const uint8_t *)memchr(at, '\n', (size_t)(end - at)))) at++, number++;
            code = visit(context, ids[i], number, text, line);
            number++;
            from = line.end + 1;
            if (from > size) break;
        }
    }
    free(ids);
    return code;
}

#endif
