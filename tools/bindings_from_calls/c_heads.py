"""What the headers of the C binding begin with."""

KINDS_HEAD = """/* Handles, each kind a type of its own, the enums and the groups of calls. They come with
 * vast_calls.h.
 *
 * {written}
 */
#ifndef VAST_KINDS_H
#define VAST_KINDS_H

#ifndef __cplusplus
#include <stdbool.h>
#endif
#include <stddef.h>
#include <stdint.h>
#include <string.h>

/* A text of UTF-8 of so many bytes, which needs no NUL after it and may hold some. Where there may
 * be none, none has NULL for its bytes. */
typedef struct {{
    const char *bytes;
    size_t length;
}} vast_string;

/* The text that ends before a NUL, as that of a literal; of NULL no text. */
static inline vast_string vast_str(const char *string)
{{
    vast_string text = {{string, string == NULL ? 0 : strlen(string)}};
    return text;
}}

/* Whose handle it is, and its number. */
typedef struct {{
    uintptr_t file;
    size_t step;
}} vast_handle;

"""

CALLS_HEAD = """/* Each call as a function: `vast_make_add(&file, a, b, &sum)` makes `sum` of `a` and `b`.
 *
 * vast_file.h says how a file is opened and closed, who owns what, and what a handle is. A function
 * returns the status of its call; what it makes or is asked for comes by its last pointer, `made`
 * or `answer`. Where the handle is not wanted `made` may be NULL. Beside what the comment of a
 * function says, VAST_CONDITION is returned for a handle that is none of the file, VAST_FORM for a
 * text that is not UTF-8 and a number that is no variant of its enum, VAST_MEMORY and VAST_NOT_OPEN
 * by all.
 *
 * A list is a pointer and how many items it has; where it has none the pointer may be NULL. What
 * may be missing is a pointer, NULL where it is, or a text without bytes, `vast_str(NULL)`.
 *
 * A handle is taken of its own kind alone. `vast_expression_of(clk)` is any handle that may stand
 * for an expression as one, and `vast_signal_expression(clk)` is the same for a kind that is named;
 * so are `vast_indexable_of` and `vast_scope_of`. vast_values.h has the calls by value.
 *
 * {written}
 */
#ifndef VAST_CALLS_H
#define VAST_CALLS_H

#include "vast_file.h"

"""

VALUES_HEAD = """/* The calls of vast_calls.h by value: `v_make_add(&file, a, b)` is the sum, so calls stand in
 * calls.
 *
 * `v_NAME` makes the call that `vast_NAME` makes, and returns what that makes or is asked for. The
 * first call at fault leaves its status in `file.fault`; from then on no call here is made, and
 * each returns nothing: a handle of all zeros, no text, 0. So it is enough to look at `file.fault`
 * at the end, and `vast_file_message` then tells what was wrong. Who goes on sets it to VAST_OK.
 *
 * Texts end before a NUL. Where an expression, an indexable or a scope is wanted, each kind of
 * handle that may stand for one is taken, but for lists, whose items are of the kind. C doesn't
 * tell in which order arguments are evaluated, so a call that adds something stands in a statement
 * of its own.
 *
 * {written}
 */
#ifndef VAST_VALUES_H
#define VAST_VALUES_H

#include "vast_calls.h"

"""
