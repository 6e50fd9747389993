/* Loaded before the C library: refuses one request for memory, or fails one write, and lets all others pass.
 *
 * REFUSE_REQUEST=N refuses the N-th call of malloc or realloc, counted from 1 and from the program's start.
 * FAIL_WRITE=N fails the N-th write to standard output or standard error.
 * A byte goes to the descriptor MARK where that call was reached.
 */
#define _GNU_SOURCE
#include <dlfcn.h>
#include <errno.h>
#include <stdlib.h>
#include <unistd.h>

static unsigned long wanted_request, wanted_write, requests, writes;
static int mark;
static void *(*real_malloc)(size_t);
static void *(*real_realloc)(void *, size_t);
static ssize_t (*real_write)(int, const void *, size_t);

static unsigned long number_in(const char *name)
{
    const char *text = getenv(name);
    return text ? strtoul(text, NULL, 10) : 0;
}

__attribute__((constructor)) static void begin(void)
{
    real_malloc = dlsym(RTLD_NEXT, "malloc");
    real_realloc = dlsym(RTLD_NEXT, "realloc");
    real_write = dlsym(RTLD_NEXT, "write");
    wanted_request = number_in("REFUSE_REQUEST");
    wanted_write = number_in("FAIL_WRITE");
    mark = (int)number_in("MARK");
    requests = 0;
}

static int is_wanted(unsigned long *count, unsigned long wanted)
{
    *count += 1;
    if (*count != wanted)
        return 0;
    real_write(mark, "!", 1);
    return 1;
}

void *malloc(size_t size)
{
    if (!real_malloc)
        real_malloc = dlsym(RTLD_NEXT, "malloc");
    if (real_write && is_wanted(&requests, wanted_request)) {
        errno = ENOMEM;
        return NULL;
    }
    return real_malloc(size);
}

void *realloc(void *old, size_t size)
{
    if (!real_realloc)
        real_realloc = dlsym(RTLD_NEXT, "realloc");
    if (real_write && is_wanted(&requests, wanted_request)) {
        errno = ENOMEM;
        return NULL;
    }
    return real_realloc(old, size);
}

ssize_t write(int file, const void *bytes, size_t count)
{
    if (!real_write)
        real_write = dlsym(RTLD_NEXT, "write");
    if ((file == 1 || file == 2) && is_wanted(&writes, wanted_write)) {
        errno = EIO;
        return -1;
    }
    return real_write(file, bytes, count);
}

ssize_t __write(int file, const void *bytes, size_t count)
{
    return write(file, bytes, count);
}
