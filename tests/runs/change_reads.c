/* Changes what a program reads by offset, as if another process wrote into the file meanwhile (LD_PRELOAD). From the Nth call of pread
 * on, N in the variable FROM, the bytes of each call are changed in the way that CHANGE names, differently at each call. The file that
 * COUNTED names gets a byte for each call. */
#define _GNU_SOURCE
#include <dlfcn.h>
#include <fcntl.h>
#include <stdlib.h>
#include <string.h>
#include <unistd.h>

static ssize_t (*next_pread)(int, void *, size_t, off_t);
static long calls, from;
static int counted = -1, other = -1;
static const char *change = "";

__attribute__((constructor)) static void begin(void)
{
    next_pread = (ssize_t (*)(int, void *, size_t, off_t))dlsym(RTLD_NEXT, "pread");
    from = getenv("FROM") ? atol(getenv("FROM")) : 0;
    change = getenv("CHANGE") ? getenv("CHANGE") : "";
    if (getenv("OTHER"))
        other = open(getenv("OTHER"), O_RDONLY | O_CLOEXEC);
    if (getenv("COUNTED"))
        counted = open(getenv("COUNTED"), O_CREAT | O_WRONLY | O_APPEND | O_CLOEXEC, 0666);
}

ssize_t pread(int file, void *buffer, size_t size, off_t at)
{
    unsigned char *bytes = buffer;
    ssize_t n;

    calls++;
    if (counted >= 0 && write(counted, ".", 1) != 1)
        abort();
    if (from == 0 || calls < from)
        return next_pread(file, buffer, size, at);
    if (!strcmp(change, "end"))
        return 0;
    n = next_pread(!strcmp(change, "other") && calls % 2 ? other : file, buffer, size, at);
    if (!strcmp(change, "grow") && n < (ssize_t)size) {
        memset(bytes + n, 1, size - n);
        n = size;
    }
    for (ssize_t i = 0; i < n; i++) {
        unsigned long mixed = (at + i + 1) * 2654435761ul + calls * 40503ul;
        if (!strcmp(change, "zeros"))
            bytes[i] = 0;
        else if (!strcmp(change, "ones"))
            bytes[i] = 255;
        else if (!strcmp(change, "bits") && mixed % 61 == 0)
            bytes[i] ^= 1 << mixed / 61 % 8;
        else if (!strcmp(change, "byte") && (unsigned long)i == mixed % n)
            bytes[i] += 1 + calls % 3;
        else if (!strcmp(change, "texts") && mixed % 5 == 0 && bytes[i] >= 'a')
            bytes[i] = 'a' + mixed / 5 % 26;
    }
    return n;
}
