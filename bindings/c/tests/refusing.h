/* Requests for memory of which one is refused. Linked with -Wl,--wrap=malloc -Wl,--wrap=realloc. */
#ifndef REFUSING_H
#define REFUSING_H

#include <stdio.h>
#include <stdlib.h>

static long left = -1; /* requests before the one that is refused; below 0: none is */
static int was_refused;

static int is_refused(void)
{
    if (left < 0 || left-- > 0)
        return 0;
    was_refused = 1;
    return 1;
}

#ifdef __cplusplus
extern "C" {
#endif
void *__real_malloc(size_t size);
void *__real_realloc(void *old, size_t size);
void *__wrap_malloc(size_t size);
void *__wrap_realloc(void *old, size_t size);

void *__wrap_malloc(size_t size)
{
    return is_refused() ? NULL : __real_malloc(size);
}

void *__wrap_realloc(void *old, size_t size)
{
    return is_refused() ? NULL : __real_realloc(old, size);
}
#ifdef __cplusplus
}
#endif

/* Refuses each request in turn, until there are no more, of those that `made_with` asks for: it refuses the one of this
 * number (none below 0), and returns how many calls returned VAST_MEMORY, or -1 where one returned what it must not. The last
 * line counts. The status of the program. */
static int refuse_each(int (*made_with)(long request))
{
    long request = 0, told = 0;
    if (made_with(-1) != 0)
        return 1;
    for (;; request++) {
        was_refused = 0;
        int refused = made_with(request);
        if (refused < 0 || refused > was_refused) {
            printf("request %ld: another answer\n", request);
            return 1;
        }
        if (!was_refused)
            break;
        told += refused;
    }
    printf("refused: %ld requests in turn, %ld told by VAST_MEMORY\n", request, told);
    return told == 0;
}

#endif
