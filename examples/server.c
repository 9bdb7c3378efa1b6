/* Answers patterns from standard input, over an index that stays open: for each line of input the matching lines of the
 * indexed files, as csearch -n prints them, with each match between brackets, and then how many lines there are.
 *
 *     cc server.c $(pkg-config --cflags --libs codesearch) -o server
 *     ./server ~/.csearchindex
 */
#include <codesearch.h>
#include <fcntl.h>
#include <stdio.h>
#include <sys/mman.h>
#include <sys/stat.h>
#include <unistd.h>

/* What is mapped of a file, or no bytes. */
typedef struct {
    uint8_t *bytes;
    size_t len;
} mapped;

static mapped map_file(const char *name) {
    mapped file = {0, 0};
    struct stat status;
    int fd = open(name, O_RDONLY | O_CLOEXEC);
    if (fd < 0) return file;
    if (fstat(fd, &status) == 0 && S_ISREG(status.st_mode) && status.st_size > 0) {
        void *at = mmap(0, (size_t)status.st_size, PROT_READ, MAP_PRIVATE, fd, 0);
        if (at != MAP_FAILED) {
            file.bytes = at;
            file.len = (size_t)status.st_size;
        }
    }
    close(fd);
    return file;
}

static void unmap_file(mapped *file) {
    if (file->bytes) munmap(file->bytes, file->len);
    file->bytes = 0;
    file->len = 0;
}

/* A search: the index, the pattern, the file that is searched, its name, and how many lines have matched. */
typedef struct {
    mapped index, file;
    cs_pattern pattern;
    char name[4096];
    size_t matches;
} search;

/* Maps the file with this id. One that is gone is skipped. */
static int32_t read_file(void *context, uint32_t id, const uint8_t **text, size_t *len) {
    search *now = context;
    size_t name_len = 0;
    int32_t code;
    unmap_file(&now->file);
    code = cs_index_name(now->index.bytes, now->index.len, id, (uint8_t *)now->name, sizeof now->name - 1, &name_len);
    if (code == CS_ROOM) return 0;
    if (code < 0) return code;
    now->name[name_len] = 0;
    now->file = map_file(now->name);
    *text = now->file.bytes;
    *len = now->file.len;
    return now->file.bytes != 0;
}

/* Prints a line. A search for its matches that reads 64 KB ends there, and the rest of the line has no brackets. */
static int32_t print_line(void *context, uint32_t id, size_t number, const uint8_t *text, cs_line line) {
    enum { ROOM = 64, BUDGET = 1 << 16 };
    search *now = context;
    cs_span spans[ROOM];
    size_t count = 0, from = 0, len = line.end - line.start;
    const uint8_t *bytes = text + line.start;
    int32_t code = cs_pattern_spans(&now->pattern, bytes, len, BUDGET, spans, ROOM, &count);
    (void)id;
    if (code < 0 && code != CS_STOPPED) return code;
    now->matches++;
    printf("%s:%zu:", now->name, number);
    for (size_t i = 0; i < count; i++) {
        if (spans[i].start == spans[i].end) continue;
        fwrite(bytes + from, 1, spans[i].start - from, stdout);
        putchar('[');
        fwrite(bytes + spans[i].start, 1, spans[i].end - spans[i].start, stdout);
        putchar(']');
        from = spans[i].end;
    }
    fwrite(bytes + from, 1, len - from, stdout);
    putchar('\n');
    return 0;
}

/* Answers one pattern. */
static void answer(search *now, const char *pattern, size_t len) {
    size_t at = 0;
    int32_t code = cs_pattern_compile((const uint8_t *)pattern, len, false, &now->pattern, &at);
    if (code < 0) {
        printf("error: %s, at byte %zu\n", cs_error_text(code), at);
        return;
    }
    now->matches = 0;
    code = cs_search(&now->pattern, now->index.bytes, now->index.len, read_file, print_line, now);
    cs_pattern_free(&now->pattern);
    unmap_file(&now->file);
    if (code < 0)
        printf("error: %s\n", cs_error_text(code));
    else
        printf("%zu lines\n", now->matches);
}

int main(int argc, char **argv) {
    search now = {{0, 0}, {0, 0}, CS_EMPTY, "", 0};
    char *line = 0;
    size_t room = 0;
    ssize_t len;
    int32_t code;
    if (argc != 2) {
        fprintf(stderr, "usage: server INDEX\n");
        return 2;
    }
    now.index = map_file(argv[1]);
    code = now.index.bytes ? cs_index_check(now.index.bytes, now.index.len) : CS_I_MAGIC;
    if (code < 0) {
        fprintf(stderr, "%s: %s\n", argv[1], cs_error_text(code));
        return 2;
    }
    while ((len = getline(&line, &room, stdin)) > 0) {
        if (line[len - 1] == '\n') len--;
        answer(&now, line, (size_t)len);
        fflush(stdout);
    }
    free(line);
    unmap_file(&now.index);
    return 0;
}
