/* Lets allocations fail in a program that it is loaded into (LD_PRELOAD): the Nth call of malloc, calloc or realloc if the
 * variable FAIL is N, and each call from the Nth on if it is N+. The file that FAILED names is made at the first failure.
 * The file that COUNTED names gets a byte for each call. Calls are counted from the start of main. */
#define _GNU_SOURCE
#include <dlfcn.h>
#include <errno.h>
#include <fcntl.h>
#include <stdlib.h>
#include <unistd.h>

static void *(*next_malloc)(size_t);
static void *(*next_calloc)(size_t, size_t);
static void *(*next_realloc)(void *, size_t);
static long calls, fail;
static int on, counted = -1;
static const char *failed;

__attribute__((constructor)) static void begin(void)
{
    char *end = "";
    const char *number = getenv("FAIL");
    fail = number ? strtol(number, &end, 10) : 0;
    on = *end == '+';
    failed = getenv("FAILED");
    if (getenv("COUNTED"))
        counted = open(getenv("COUNTED"), O_CREAT | O_WRONLY | O_APPEND | O_CLOEXEC, 0666);
    calls = 0;
}

static int fails(void)
{
    calls++;
    if (counted >= 0 && write(counted, ".", 1) != 1)
        abort();
    if (fail == 0 || (on ? calls < fail : calls != fail))
        return 0;
    if (calls == fail && failed)
        close(open(failed, O_CREAT | O_WRONLY | O_CLOEXEC, 0666));
    errno = ENOMEM;
    return 1;
}

void *malloc(size_t size)
{
    if (!next_malloc)
        next_malloc = (void *(*)(size_t))dlsym(RTLD_NEXT, "malloc");
    return fails() ? NULL : next_malloc(size);
}

void *calloc(size_t count, size_t size)
{
    if (!next_calloc)
        next_calloc = (void *(*)(size_t, size_t))dlsym(RTLD_NEXT, "calloc");
    return fails() ? NULL : next_calloc(count, size);
}

void *realloc(void *old, size_t size)
{
    if (!next_realloc)
        next_realloc = (void *(*)(void *, size_t))dlsym(RTLD_NEXT, "realloc");
    return fails() ? NULL : next_realloc(old, size);
}
