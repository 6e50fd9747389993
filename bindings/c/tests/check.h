/* What the tests say where something does not hold. */
#ifndef CHECK_H
#define CHECK_H

#include <stdio.h>

/* In a function that returns 0 where all holds: tells the line of the first condition that does not, and returns 1. */
#define CHECK(condition)                                                            \
    do {                                                                            \
        if (!(condition)) {                                                         \
            fprintf(stderr, "%s:%d: %s does not hold\n", __FILE__, __LINE__, #condition); \
            return 1;                                                               \
        }                                                                           \
    } while (0)

#endif
