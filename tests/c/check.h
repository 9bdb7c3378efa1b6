/* What the C tests of the library share: checks that say where they fail, and bytes as pointer and length. */
#ifndef CHECK_H
#define CHECK_H
#include "codesearch.h"
#include <stdio.h>

static long checks, failures;

#define CHECK(wanted, came) check_at(__LINE__, #came, (long long)(wanted), (long long)(came))
static inline void check_at(int line, const char *text, long long wanted, long long came) {
    checks++;
    if (wanted == came) return;
    failures++;
    printf("line %d: %s is %lld, not %lld\n", line, text, came, wanted);
}

/* the bytes of a string, and their number */
#define BYTES(s) (const uint8_t *)(s), strlen(s)

static inline int summary(void) {
    printf("%ld checks, %ld failures\n", checks, failures);
    return failures != 0;
}

#endif
