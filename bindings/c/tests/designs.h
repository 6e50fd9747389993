/* The designs of examples/, for those that build them more than once. */
#ifndef DESIGNS_H
#define DESIGNS_H

#define main fifo_main
#include "../examples/fifo.c"
#undef main
#define main registers_main
#include "../examples/registers.c"
#undef main

#endif
