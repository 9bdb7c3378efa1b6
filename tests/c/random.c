/* Random patterns, texts and styles, by the library and by the program: the same report, or a syntax error in both.
 * usage: random PROGRAM FILE COUNT [SEED]    FILE is written, and gets each text */
#include "check.h"
#include <fcntl.h>
#include <spawn.h>
#include <sys/wait.h>
#include <unistd.h>

extern char **environ;
static uint64_t state;

static unsigned below(unsigned n) {
    state ^= state << 13, state ^= state >> 7, state ^= state << 17;
    return (unsigned)((state >> 33) % n);
}

static const char *const of_patterns[] = {"a", "b", "ab", "err", "x", " ", ".", "[a-c]", "[^a]", "(", ")", "|", "*", "+",
                                          "?", "{2}", "{1,3}", "^", "$", "\\b", "\\w", "\\d", "\\s", "(?i)", "(?:",
                                          "\xc3\xa9", "\\.", "[[:alpha:]]", "\\pL", "[", "\\8", "=", "0"};
static const char *const of_texts[] = {"a", "b", "ab", "err", "x", " ", "\n", "\n", "\n", "A", "E", "0", "=", "(b)",
                                       "\xc3\xa9", "\xff", "\t", "."};
#define PARTS(list) list, sizeof list / sizeof *list

/* a text of so many random parts */
static size_t random_text(char *out, const char *const *parts, size_t kinds, unsigned count) {
    size_t len = 0;
    for (; count; count--) {
        const char *part = parts[below((unsigned)kinds)];
        memcpy(out + len, part, strlen(part));
        len += strlen(part);
    }
    out[len] = 0;
    return len;
}

/* a file with these bytes */
static void write_file(const char *name, const void *bytes, size_t len) {
    int file = open(name, O_WRONLY | O_CREAT | O_TRUNC, 0600);
    if (file < 0 || write(file, bytes, len) != (ssize_t)len || close(file)) exit(2);
}

/* runs the program, reads what it prints, and returns its status */
static int run(char *const *words, uint8_t *out, size_t room, size_t *len) {
    int ends[2], status;
    pid_t pid;
    posix_spawn_file_actions_t actions;
    ssize_t got;
    if (pipe(ends)) exit(2);
    posix_spawn_file_actions_init(&actions);
    posix_spawn_file_actions_adddup2(&actions, ends[1], 1);
    posix_spawn_file_actions_addclose(&actions, ends[0]);
    posix_spawn_file_actions_addopen(&actions, 2, "/dev/null", O_WRONLY, 0);
    if (posix_spawn(&pid, words[0], &actions, 0, words, environ)) exit(2);
    posix_spawn_file_actions_destroy(&actions);
    close(ends[1]);
    *len = 0;
    while (*len < room && (got = read(ends[0], out + *len, room - *len)) > 0) *len += (size_t)got;
    close(ends[0]);
    waitpid(pid, &status, 0);
    return WIFEXITED(status) ? WEXITSTATUS(status) : -1;
}

/* the matching lines of a text, by calls with random budgets: the same as without, and no line is searched that begins later */
static void check_budgets(cs_pattern *slot, const uint8_t *text, size_t size) {
    size_t from = 0, at = 0, searched;
    uint64_t counted = 0, some, all;
    cs_line line, next;
    int32_t code, more = cs_pattern_next(slot, text, size, 0, &line);
    unsigned most = below(4) ? 20 : 2000;
    do {
        size_t budget = below(most);
        code = cs_pattern_next_within(slot, text, size, from, budget, &next, &searched);
        if (code == 1) {
            CHECK(1, more == 1 && next.start == line.start && next.end == line.end && next.start < from + budget);
            from = line.end + 1;
            more = cs_pattern_next(slot, text, size, from, &line);
        } else if (code == CS_STOPPED) {
            CHECK(1, from + budget <= searched && searched < size && (more == 0 || searched <= line.start));
            CHECK(1, searched == from || text[searched - 1] == '\n');
            for (size_t k = from + budget; k < searched; k++) CHECK(1, k > from ? text[k - 1] != '\n' : k < from);
            from = searched;
        } else {
            CHECK(0, code);
            CHECK(0, more);
        }
    } while (code == 1 || code == CS_STOPPED);
    do {
        code = cs_pattern_count_within(slot, text, size, at, below(most), &some, &at);
        counted += some;
    } while (code == CS_STOPPED);
    CHECK(CS_OK, code);
    CHECK(CS_OK, cs_pattern_count(slot, text, size, &all));
    CHECK(all, counted);
}

int main(int argc, char **argv) {
    enum { ROOM = 1 << 18 };
    if (argc < 4) return 2;
    static uint8_t text[ROOM], ours[ROOM], theirs[ROOM];
    state = argc > 4 ? strtoull(argv[4], 0, 0) : 88172645463325252ull;
    long matched = 0, refused = 0;
    for (long i = 0; i < atol(argv[3]); i++) {
        char pattern[128];
        size_t pattern_len = random_text(pattern, PARTS(of_patterns), 1 + below(9)), len = 0, their_len = 0, at;
        size_t size = random_text((char *)text, PARTS(of_texts), below(4) ? below(200) : below(10000));
        bool fold = below(4) == 0;
        uint32_t style = below(4) ? CS_NUMBER : below(16);
        cs_pattern slot = CS_EMPTY;
        int32_t code = cs_pattern_compile((const uint8_t *)pattern, pattern_len, fold, &slot, &at);
        if (!code) code = cs_grep(&slot, BYTES(argv[2]), text, size, style, ours, ROOM, &len);
        if (!code) {
            uint64_t count = 0;
            cs_line line;
            size_t from = 0, lines = 0, reported = 0;
            CHECK(0, cs_pattern_count(&slot, text, size, &count));
            while (cs_pattern_next(&slot, text, size, from, &line) == 1) from = line.end + 1, lines++;
            CHECK(count, lines);
            check_budgets(&slot, text, size);
            for (size_t k = 0; k < len; k++) reported += ours[k] == '\n';
            CHECK(style & (CS_LIST | CS_COUNT) ? lines > 0 : lines, reported);
        }
        cs_pattern_free(&slot);
        static char *const options[] = {"-c", "-l", "-n", "-h"};
        char *words[11] = {argv[1], "cgrep"};
        int used = 2;
        for (int k = 0; k < 4; k++)
            if (style >> k & 1) words[used++] = options[k];
        if (fold) words[used++] = "-i";
        words[used++] = "--", words[used++] = pattern, words[used] = argv[2];
        write_file(argv[2], text, size);
        int status = run(words, theirs, ROOM, &their_len);
        long before = failures;
        if (code < 0) {
            refused++;
            CHECK(2, status);
        } else {
            matched += len > 0;
            CHECK(len == 0, status);
            CHECK(len, their_len);
            CHECK(0, len == their_len ? memcmp(ours, theirs, len) : 1);
        }
        if (failures != before) printf("  the pattern: %s%s, the style: %u\n", fold ? "(folded) " : "", pattern, style);
    }
    printf("%ld matched, %ld refused\n", matched, refused);
    return summary();
}
