/* What the programs of this folder share. */
#include <stdint.h>
#include <stdio.h>
#include <stdlib.h>
#include <string.h>
#include <sys/resource.h>

typedef struct {
    uint8_t *bytes;
    size_t len;
} text;

/* Reads a file. */
static inline text read_text(const char *name) {
    text file = {0, 0};
    FILE *from = fopen(name, "rb");
    if (!from || fseek(from, 0, SEEK_END) != 0) exit(2);
    file.len = (size_t)ftell(from);
    file.bytes = (uint8_t *)malloc(file.len + 1);
    rewind(from);
    if (!file.bytes || fread(file.bytes, 1, file.len, from) != file.len) exit(2);
    fclose(from);
    return file;
}

/* The user and system time of this process in ms. */
static inline double processor_time(void) {
    struct rusage used;
    getrusage(RUSAGE_SELF, &used);
    return 1e3 * (double)(used.ru_utime.tv_sec + used.ru_stime.tv_sec)
        + 1e-3 * (double)(used.ru_utime.tv_usec + used.ru_stime.tv_usec);
}
