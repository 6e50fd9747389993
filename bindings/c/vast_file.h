/* A file in the making, and what the functions of vast_calls.h do beneath their names: they write
 * their call as docs/use/LISTS.md says, hand it to the library, and read what it returned. Programs include vast_calls.h, and use of this header `vast_file`, the functions that
 * begin with `vast_file_`, `vast_emit` and `vast_next_port`.
 *
 * Ownership. A `vast_file` owns its memory: the library's session, the buffer of the call and that
 * of the last text. Make it VAST_CLOSED_FILE once, before its first use; `vast_file_open` opens it,
 * `vast_file_close` gives all back, and either may be done again. Copy none that is open, and
 * change none of its fields but `fault`. What a function is given, as texts and arrays, stays the
 * caller's, and is read until the function returns. A text that a function gives is the file's: it
 * has a NUL after it, and stays until the file is asked again (for an answer, a message, the
 * warnings, the file's text), or closed.
 *
 * Handles. A handle is a number and the file whose it is. It is copied freely, and is nothing to be
 * freed. One of another file that is open, one that no call gave (of all zeros, as after a fault),
 * and one that the same `vast_file` gave before it was last opened are refused with VAST_CONDITION.
 * A handle whose file is closed must not be given to the calls of another `vast_file`: the address
 * by which files are told apart may be used again.
 *
 * Threads. As in vast.h: a file may go from one thread to another, no two calls with the same file
 * may overlap, different files may be used by different threads at once, and nothing is global.
 *
 * Faults. Each call returns its status; any but VAST_OK leaves the file and its handles as they
 * were, and sets the handle that it should have given to one of all zeros. `vast_file_message` says
 * what was wrong. After VAST_MEMORY, from the library or from a buffer of the file, the same call
 * may be made again.
 */
#ifndef VAST_FILE_H
#define VAST_FILE_H

#include "vast_answer.h"

/* Gives back all that the file owns; nothing where it is closed. */
static inline void vast_file_close(vast_file *file)
{
    vast_close(&file->session);
    vast_buffer_free(&file->lines);
    vast_buffer_free(&file->text);
    file->first += file->count;
    file->count = 0;
    file->start = 0;
}

/* Opens an empty file of the dialect, VAST_VERILOG or VAST_SYSTEMVERILOG; one that was open is
 * closed first.
 * VAST_OK; VAST_NO_DIALECT, VAST_MEMORY: it is closed. */
static inline int32_t vast_file_open(vast_file *file, int32_t dialect)
{
    vast_file_close(file);
    file->status = vast_open(&file->session, dialect);
    file->call = "vast_file_open";
    file->words = NULL;
    file->fault = file->status;
    file->dialect = dialect;
    file->keeps_lines = false;
    return file->status;
}

/* The same; its calls are written as lines, which are kept for `vast_file_warnings`. */
static inline int32_t vast_file_open_with_lint(vast_file *file, int32_t dialect)
{
    int32_t status = vast_file_open(file, dialect);
    file->keeps_lines = true;
    return status;
}

/* Question, `emit`: the text of the file.
 * VAST_REFUSED where an index or a slice of a named scalar has a bound that is no literal 0. */
static inline int32_t vast_emit(vast_file *file, vast_string *answer)
{
    *answer = vast_str("");
    vast_call_start(file, "?Emit");
    if (file->status == VAST_OK)
        file->status = vast_print(&file->session);
    return file->status == VAST_OK ? vast_file_copy(file, VAST_FILE, answer) : file->status;
}

/* The words of a fault that is not told by the library; NULL of others. */
static inline const char *vast_file_words(const vast_file *file)
{
    switch (file->status) {
    case VAST_OK:
        return "";
    case VAST_MEMORY:
        return "out of memory";
    case VAST_NOT_OPEN:
        return "the file is not open";
    case VAST_NO_DIALECT:
        return "no dialect";
    default:
        return file->words;
    }
}

/* What was wrong in the last call, as `12: AddInput: the name "clk" is taken in the module` with
 * the number of the call among all calls and questions, or without one where the library did not
 * tell it, and the words alone of a file that is closed; empty after VAST_OK. */
static inline vast_string vast_file_message(vast_file *file)
{
    vast_string told = vast_str(vast_file_words(file));
    if (file->status == VAST_OK)
        return told;
    if (told.bytes == NULL) {
        int32_t status = vast_file_copy(file, VAST_MESSAGE, &told);
        return status == VAST_OK ? told : vast_str("out of memory");
    }
    size_t call = strlen(file->call);
    if (file->session == NULL || !vast_buffer_reserve(&file->text, call + told.length + 3))
        return told;
    memcpy(file->text.bytes, file->call, call);
    memcpy(file->text.bytes + call, ": ", 2);
    memcpy(file->text.bytes + call + 2, told.bytes, told.length + 1);
    told.bytes = file->text.bytes;
    told.length += call + 2;
    return told;
}

/* Copies the start of the warnings, of so many bytes at least; `*all` becomes the length of all. */
static inline void vast_file_copy_warnings(vast_file *file, size_t wanted, size_t *all)
{
    vast_buffer *room = &file->text;
    const uint8_t *lines = (const uint8_t *)file->lines.bytes;
    if (!vast_buffer_reserve(room, wanted)) {
        vast_call_fault(file, VAST_MEMORY, NULL);
        return;
    }
    uint8_t *out = (uint8_t *)room->bytes;
    file->status = vast_warnings(file->dialect, lines, file->start, out, room->capacity, all);
}

/* What the calls so far print that is no SystemVerilog or Verilog, or that Icarus, Verilator or
 * Yosys refuses, of a file that `vast_file_open_with_lint` opened: lines as `vast_warnings` tells
 * them, with the number of the call among all calls and questions, from 1. The calls are made anew,
 * on a file of their own, so it takes as long as they did.
 * VAST_OK; VAST_MEMORY; VAST_CONDITION: the file keeps no lines; VAST_NOT_OPEN. */
static inline int32_t vast_file_warnings(vast_file *file, vast_string *warnings)
{
    size_t all = 0;
    *warnings = vast_str("");
    vast_call_start(file, "vast_file_warnings");
    if (!file->keeps_lines)
        vast_call_fault(file, VAST_CONDITION, "the file is opened without a lint");
    if (file->status == VAST_OK)
        vast_file_copy_warnings(file, 256, &all);
    if (file->status == VAST_OK && all >= file->text.capacity)
        vast_file_copy_warnings(file, all + 1, &all);
    if (file->status != VAST_OK)
        return file->status;
    file->text.bytes[all] = '\0';
    warnings->bytes = file->text.bytes;
    warnings->length = all;
    return VAST_OK;
}

#endif
