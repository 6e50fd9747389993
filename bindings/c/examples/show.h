/* What each example ends with. */
#ifndef SHOW_H
#define SHOW_H

#include "vast_words.h"

#include <stdio.h>

/* Prints the text of the file that is built, or tells what is wrong with it: the status of the program. */
static inline int show(void (*build)(vast_file *file))
{
    vast_file file = VAST_CLOSED_FILE;
    vast_file_open(&file, VAST_SYSTEMVERILOG);
    build(&file);
    vast_string text = v_emit(&file);
    int failed = file.fault != VAST_OK;
    if (failed)
        fprintf(stderr, "%s\n", vast_file_message(&file).bytes);
    else
        failed = fwrite(text.bytes, 1, text.length, stdout) != text.length;
    vast_file_close(&file);
    return failed;
}

#endif
