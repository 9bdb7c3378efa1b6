/* Counts the lines of a file in which a pattern matches, by libcodesearch. Prints the number, and the processor time of
 * compiling and counting in ms.
 * usage: codesearch FILE PATTERN */
#include "measure.h"
#include <codesearch.h>

int main(int argc, char **argv) {
    text file = argc == 3 ? read_text(argv[1]) : (text){0, 0};
    cs_pattern slot = CS_EMPTY;
    uint64_t count = 0;
    size_t at = 0;
    double start = processor_time();
    if (cs_pattern_compile((const uint8_t *)argv[2], strlen(argv[2]), false, &slot, &at) < 0) return 1;
    if (cs_pattern_count(&slot, file.bytes, file.len, &count) < 0) return 1;
    cs_pattern_free(&slot);
    printf("%llu %.2f\n", (unsigned long long)count, processor_time() - start);
    return 0;
}
