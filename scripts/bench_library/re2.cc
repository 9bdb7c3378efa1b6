// The same as codesearch.c, by RE2. A pattern matches bytes, and no newline.
#include "measure.h"
#include <re2/re2.h>

int main(int argc, char **argv) {
    text file = argc == 3 ? read_text(argv[1]) : text{0, 0};
    re2::StringPiece all(reinterpret_cast<const char *>(file.bytes), file.len), match;
    size_t from = 0;
    unsigned long long count = 0;
    double start = processor_time();
    RE2::Options options(RE2::Latin1);
    options.set_never_nl(true);
    options.set_max_mem(64 << 20);
    RE2 pattern(std::string("(?m)") + argv[2], options);
    if (!pattern.ok()) return 1;
    while (from < file.len && pattern.Match(all, from, file.len, RE2::UNANCHORED, &match, 1)) {
        size_t at = static_cast<size_t>(match.data() - all.data());
        const void *end = memchr(file.bytes + at, '\n', file.len - at);
        count++;
        from = end ? static_cast<size_t>(static_cast<const uint8_t *>(end) - file.bytes) + 1 : file.len;
    }
    printf("%llu %.2f\n", count, processor_time() - start);
    return 0;
}
