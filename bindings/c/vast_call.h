/* A file in the making, and the call that is made on it, written as docs/use/LISTS.md says: packed,
 * or as a line in a file that keeps its lines. vast_file.h says who owns what; the functions here
 * are used by those of vast_calls.h alone.
 */
#ifndef VAST_CALL_H
#define VAST_CALL_H

#include "vast.h"
#include "vast_kinds.h"

#include <stdlib.h>

/* Bytes that grow. */
typedef struct {
    char *bytes;
    size_t length;
    size_t capacity;
} vast_buffer;

typedef struct {
    vast_session session; /* NULL while it is closed */
    int32_t dialect;
    bool keeps_lines;   /* for its warnings */
    size_t first;       /* the number of its first handle: lower ones are of an earlier file */
    size_t count;       /* how many numbers are given */
    vast_buffer lines;  /* the lines that are kept, and after them the call */
    size_t start;       /* where that begins */
    vast_buffer text;   /* the last text that was asked for */
    int32_t status;     /* what the last call returned */
    const char *call;   /* its name */
    const char *words;  /* what was wrong, where it is told here and not by the library */
    int32_t fault;      /* the status of the first call of vast_values.h that was at fault */
} vast_file;

/* A file that is not open: all zeros. */
#define VAST_CLOSED_FILE \
    {NULL, 0, false, 0, 0, {NULL, 0, 0}, 0, {NULL, 0, 0}, 0, NULL, NULL, 0}

/* Buffers */

/* Whether the buffer has room for so many bytes; a larger block is asked for where it has not. */
static inline bool vast_buffer_reserve(vast_buffer *buffer, size_t wanted)
{
    if (wanted <= buffer->capacity)
        return true;
    if (wanted > SIZE_MAX / 2)
        return false;
    size_t capacity = wanted < 256 ? 256 : wanted + wanted / 2;
    char *bytes = (char *)realloc(buffer->bytes, capacity);
    if (bytes == NULL)
        return false;
    buffer->bytes = bytes;
    buffer->capacity = capacity;
    return true;
}

static inline void vast_buffer_free(vast_buffer *buffer)
{
    free(buffer->bytes);
    buffer->bytes = NULL;
    buffer->length = 0;
    buffer->capacity = 0;
}

/* The call. Where something is wrong before it is whole, the rest is passed over and the call is
 * not sent. */

static inline void vast_call_fault(vast_file *file, int32_t status, const char *words)
{
    if (file->status != VAST_OK)
        return;
    file->status = status;
    file->words = words;
}

static inline void vast_call_bytes(vast_file *file, const char *bytes, size_t length)
{
    vast_buffer *lines = &file->lines;
    if (file->status != VAST_OK || length == 0)
        return;
    if (length > SIZE_MAX / 2 || !vast_buffer_reserve(lines, lines->length + length)) {
        vast_call_fault(file, VAST_MEMORY, NULL);
        return;
    }
    memcpy(lines->bytes + lines->length, bytes, length);
    lines->length += length;
}

/* A word of a line, after a space. */
static inline void vast_call_word(vast_file *file, const char *word)
{
    vast_call_bytes(file, " ", 1);
    vast_call_bytes(file, word, strlen(word));
}

/* The digits of a number of a packed call, in base 128, the least first; how many they are. */
static inline size_t vast_packed_digits(char digits[10], uint64_t number)
{
    size_t length = 0;
    for (; number >= 128; number /= 128)
        digits[length++] = (char)(number % 128 + 128);
    digits[length++] = (char)number;
    return length;
}

/* A number of a packed call. */
static inline void vast_call_packed(vast_file *file, uint64_t number)
{
    char digits[10];
    vast_call_bytes(file, digits, vast_packed_digits(digits, number));
}

/* A number of a line. */
static inline void vast_call_digits(vast_file *file, const char *sign, uint64_t number)
{
    char digits[20];
    size_t at = sizeof digits;
    do {
        digits[--at] = (char)('0' + number % 10);
        number /= 10;
    } while (number > 0);
    vast_call_word(file, sign);
    vast_call_bytes(file, digits + at, sizeof digits - at);
}

/* Forgets the call before. */
static inline void vast_call_start(vast_file *file, const char *call)
{
    file->status = VAST_OK;
    file->words = NULL;
    file->call = call;
    file->lines.length = file->start;
    if (file->session == NULL)
        vast_call_fault(file, VAST_NOT_OPEN, NULL);
}

/* Begins the call of this name and number. Of a packed one its length comes first, of one digit until
 * it is sent. */
static inline void vast_call_begin(vast_file *file, const char *call, uint64_t number)
{
    vast_call_start(file, call);
    if (file->keeps_lines) {
        vast_call_bytes(file, call, strlen(call));
    } else {
        vast_call_bytes(file, "", 1);
        vast_call_packed(file, number);
    }
}

/* Arguments */

/* One of some words, by its place. */
static inline void vast_call_choice(vast_file *file, const char *word, uint64_t place)
{
    if (file->keeps_lines)
        vast_call_word(file, word);
    else
        vast_call_packed(file, place);
}

/* A variant of an enum; its word is NULL where it is none. */
static inline void vast_call_variant(vast_file *file, const char *word, uint64_t variant)
{
    if (word == NULL)
        vast_call_fault(file, VAST_FORM, "a number of no variant");
    else
        vast_call_choice(file, word, variant);
}

static inline void vast_call_truth(vast_file *file, bool truth)
{
    vast_call_choice(file, truth ? "true" : "false", truth);
}

/* Whether a value stands next. */
static inline void vast_call_option(vast_file *file, bool is_there)
{
    vast_call_choice(file, is_there ? "+" : "-", is_there);
}

static inline void vast_call_natural(vast_file *file, uint64_t number)
{
    if (file->keeps_lines)
        vast_call_digits(file, "", number);
    else
        vast_call_packed(file, number);
}

/* A number with a sign; packed 0, -1, 1, -2 are 0, 1, 2, 3. */
static inline void vast_call_integer(vast_file *file, int64_t number)
{
    uint64_t size = number < 0 ? 0 - (uint64_t)number : (uint64_t)number;
    if (file->keeps_lines)
        vast_call_digits(file, number < 0 ? "-" : "", size);
    else
        vast_call_packed(file, number < 0 ? 2 * size - 1 : 2 * size);
}

static inline void vast_call_handle(vast_file *file, vast_handle handle)
{
    size_t number = handle.step - file->first;
    if (handle.file != (uintptr_t)file->session || number >= file->count)
        vast_call_fault(file, VAST_CONDITION, "a handle that is none of this file");
    else
        vast_call_natural(file, number);
}

/* The first byte of a group, and its last: of a line alone. */
static inline void vast_call_bracket(vast_file *file, const char *bracket)
{
    if (file->keeps_lines)
        vast_call_word(file, bracket);
}

/* Begins a list of so many items, which a bracket ends. */
static inline void vast_call_items(vast_file *file, size_t count)
{
    vast_call_choice(file, "[", count);
}

/* What stands for a byte of a text that must not stand in a line as it is; NULL for other bytes. */
static inline const char *vast_escape(char byte)
{
    switch (byte) {
    case '"':
        return "\\\"";
    case '\\':
        return "\\\\";
    case '\n':
        return "\\n";
    case '\r':
        return "\\r";
    default:
        return NULL;
    }
}

/* A text between quotes. */
static inline void vast_call_quoted(vast_file *file, vast_string text)
{
    size_t copied = 0;
    vast_call_bytes(file, " \"", 2);
    for (size_t at = 0; at < text.length; at++) {
        const char *escape = vast_escape(text.bytes[at]);
        if (escape == NULL)
            continue;
        vast_call_bytes(file, text.bytes + copied, at - copied);
        vast_call_bytes(file, escape, 2);
        copied = at + 1;
    }
    if (text.length > copied)
        vast_call_bytes(file, text.bytes + copied, text.length - copied);
    vast_call_bytes(file, "\"", 1);
}

static inline void vast_call_text(vast_file *file, vast_string text)
{
    if (file->keeps_lines) {
        vast_call_quoted(file, text);
    } else {
        vast_call_packed(file, text.length);
        vast_call_bytes(file, text.bytes, text.length);
    }
}

static inline void vast_call_optional_text(vast_file *file, vast_string text)
{
    vast_call_option(file, text.bytes != NULL);
    if (text.bytes != NULL)
        vast_call_text(file, text);
}

/* Sending */

/* Writes how long a packed call is, which may have more digits than there is room for. */
static inline void vast_call_measure(vast_file *file)
{
    char digits[10];
    vast_buffer *call = &file->lines;
    size_t length = call->length - 1;
    size_t count = vast_packed_digits(digits, length);
    vast_call_bytes(file, digits, count - 1);
    if (file->status != VAST_OK)
        return;
    if (count > 1)
        memmove(call->bytes + count, call->bytes + 1, length);
    memcpy(call->bytes, digits, count);
}

/* Hands the call to the library. */
static inline void vast_call_send(vast_file *file)
{
    size_t taken = 0;
    if (file->keeps_lines)
        vast_call_bytes(file, "\n", 1);
    else if (file->status == VAST_OK)
        vast_call_measure(file);
    if (file->status != VAST_OK)
        return;
    const uint8_t *call = (const uint8_t *)file->lines.bytes + file->start;
    size_t length = file->lines.length - file->start;
    if (file->keeps_lines)
        file->status = vast_lines(&file->session, call, length, &taken);
    else
        file->status = vast_packed(&file->session, call, length, &taken);
    if (file->status == VAST_OK && file->keeps_lines)
        file->start = file->lines.length;
}

/* Makes the call, and counts it. */
static inline int32_t vast_call_make(vast_file *file, vast_handle *made)
{
    vast_handle none = {0, 0};
    vast_call_send(file);
    if (file->status == VAST_OK) {
        none.file = (uintptr_t)file->session;
        none.step = file->first + file->count;
        file->count++;
    }
    if (made != NULL)
        *made = none;
    return file->status;
}

#endif
