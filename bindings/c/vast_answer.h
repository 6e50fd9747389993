/* What the library returns for a question, as values of C. Of these functions programs
 * use `vast_next_port`. */
#ifndef VAST_ANSWER_H
#define VAST_ANSWER_H

#include "vast_call.h"

/* The ports of a module, which `vast_next_port` takes one by one. They are the file's, as a text
 * is. */
typedef struct {
    size_t count; /* how many are left */
    vast_string rest;
} vast_ports;

/* Copies a text of the session, with a NUL after it. */
static inline int32_t vast_file_copy(vast_file *file, int32_t which, vast_string *text)
{
    vast_buffer *room = &file->text;
    size_t length = 0;
    bool has_room = vast_buffer_reserve(room, 256);
    if (has_room)
        length = vast_text(&file->session, which, (uint8_t *)room->bytes, room->capacity);
    if (has_room && length >= room->capacity) {
        has_room = length < SIZE_MAX && vast_buffer_reserve(room, length + 1);
        if (has_room)
            vast_text(&file->session, which, (uint8_t *)room->bytes, length);
    }
    if (!has_room) {
        vast_call_fault(file, VAST_MEMORY, NULL);
        return file->status;
    }
    room->bytes[length] = '\0';
    room->length = length;
    text->bytes = room->bytes;
    text->length = length;
    return VAST_OK;
}

/* Asks the question that is written. Of lines that are kept it is an empty one, since it prints
 * nothing. */
static inline int32_t vast_ask_text(vast_file *file, vast_string *answer)
{
    size_t start = file->start;
    *answer = vast_str("");
    vast_call_send(file);
    if (file->status == VAST_OK && file->keeps_lines) {
        file->lines.bytes[start] = '\n';
        file->start = start + 1;
    }
    return file->status == VAST_OK ? vast_file_copy(file, VAST_ANSWER, answer) : file->status;
}

/* The same where there may be no text, which is `-`. */
static inline int32_t vast_ask_optional_text(vast_file *file, vast_string *answer)
{
    int32_t status = vast_ask_text(file, answer);
    if (status != VAST_OK || (answer->length == 1 && answer->bytes[0] == '-'))
        *answer = vast_str(NULL);
    return status;
}

static inline int32_t vast_ask_truth(vast_file *file, bool *answer)
{
    vast_string text;
    int32_t status = vast_ask_text(file, &text);
    *answer = text.length > 0 && text.bytes[0] == 't';
    return status;
}

/* The number at the start of the text, which then begins after it. */
static inline uint64_t vast_read_natural(vast_string *text)
{
    uint64_t number = 0;
    while (text->length > 0 && *text->bytes >= '0' && *text->bytes <= '9') {
        number = number * 10 + (uint64_t)(*text->bytes - '0');
        text->bytes++;
        text->length--;
    }
    return number;
}

static inline int64_t vast_read_integer(vast_string *text)
{
    bool is_negative = text->length > 0 && *text->bytes == '-';
    if (is_negative) {
        text->bytes++;
        text->length--;
    }
    uint64_t magnitude = vast_read_natural(text);
    if (!is_negative)
        return (int64_t)magnitude;
    return magnitude == 0 ? 0 : -(int64_t)(magnitude - 1) - 1;
}

static inline int32_t vast_ask_natural(vast_file *file, uint64_t *answer)
{
    vast_string text;
    int32_t status = vast_ask_text(file, &text);
    *answer = vast_read_natural(&text);
    return status;
}

static inline int32_t vast_ask_integer(vast_file *file, int64_t *answer)
{
    vast_string text;
    int32_t status = vast_ask_text(file, &text);
    *answer = vast_read_integer(&text);
    return status;
}

static inline int32_t vast_ask_ports(vast_file *file, vast_ports *answer)
{
    int32_t status = vast_ask_text(file, &answer->rest);
    answer->count = (size_t)vast_read_natural(&answer->rest);
    return status;
}

/* Whether the text begins so; it then begins after that. */
static inline bool vast_read_bytes(vast_string *text, vast_string wanted)
{
    if (text->length < wanted.length || memcmp(text->bytes, wanted.bytes, wanted.length) != 0)
        return false;
    text->bytes += wanted.length;
    text->length -= wanted.length;
    return true;
}

static inline bool vast_read_direction(vast_string *text, vast_module_port_direction *direction)
{
    for (int variant = 0;; variant++) {
        *direction = (vast_module_port_direction)variant;
        const char *word = vast_module_port_direction_word(*direction);
        if (word == NULL || vast_read_bytes(text, vast_str(word)))
            return word != NULL;
    }
}

/* Reads ` DIRECTION WIDTH SIGNED NAME` and the end of the row, after the port's name. */
static inline bool vast_read_port(vast_string *text, vast_port *port)
{
    if (!vast_read_bytes(text, vast_str(" ")) || !vast_read_direction(text, &port->direction))
        return false;
    if (!vast_read_bytes(text, vast_str(" ")))
        return false;
    port->width = vast_read_integer(text);
    port->is_signed = vast_read_bytes(text, vast_str(" true "));
    if (!port->is_signed && !vast_read_bytes(text, vast_str(" false ")))
        return false;
    port->reference.bytes = text->bytes;
    port->reference.length = port->name.length;
    return vast_read_bytes(text, port->name) && (text->length == 0 || *text->bytes == '\n');
}

/* Takes the next port; false where there is none. Its name stands at both ends of its row, so it may
 * have spaces and line breaks. */
static inline bool vast_next_port(vast_ports *ports, vast_port *port)
{
    if (ports->count == 0 || !vast_read_bytes(&ports->rest, vast_str("\n")))
        return false;
    for (size_t length = 0; length < ports->rest.length; length++) {
        vast_string rest = {ports->rest.bytes + length, ports->rest.length - length};
        port->name.bytes = ports->rest.bytes;
        port->name.length = length;
        if (!vast_read_port(&rest, port))
            continue;
        ports->rest = rest;
        ports->count--;
        return true;
    }
    return false;
}

#endif
