/* Packed calls that are cut off or damaged, each in a block of just its length: what is read past it is seen by memcheck,
 * or by the address sanitizer where the library has its marks.
 *
 *     damaged FILE STEP    each front of the packed list, and each byte in turn as values that lie STEP apart
 *
 * Each must be taken or told, and the file printed or refused after it. The last line says how many there were; the status
 * is 0 where all held. */
#include <stdbool.h>
#include <stdio.h>
#include <stdlib.h>
#include <string.h>

#include "vast.h"

enum { FRONT = 7, MOST = 65536 };

/* Whether the library takes the calls, or says what is wrong with one of them, and gives its memory back. */
static bool is_told(const uint8_t *calls, size_t length, int32_t dialect)
{
    vast_session session = NULL;
    size_t taken = 0;
    uint8_t *copy = (uint8_t *)malloc(length);
    if (length > 0 && copy == NULL)
        return false;
    memcpy(copy, calls, length);
    bool is_well = vast_open(&session, dialect) == VAST_OK;
    int32_t status = length == 0 ? VAST_OK : vast_packed(&session, copy, length, &taken);
    free(copy);
    is_well = is_well && status >= VAST_OK && status < VAST_NOT_OPEN && taken <= length;
    is_well = is_well && (status == VAST_OK) == (vast_number(&session, VAST_LINE) == 0 || length == 0);
    int32_t printed = vast_print(&session);
    is_well = is_well && (printed == VAST_OK || printed == VAST_REFUSED);
    vast_close(&session);
    return is_well && session == NULL;
}

static bool are_fronts_told(const uint8_t *calls, size_t length, int32_t dialect)
{
    for (size_t front = 0; front <= length; front++)
        if (!is_told(calls, front, dialect))
            return false;
    return true;
}

static bool are_changes_told(uint8_t *calls, size_t length, int32_t dialect, int step)
{
    for (size_t at = 0; at < length; at++) {
        uint8_t was = calls[at];
        for (int value = (int)(at % (size_t)step); value < 256; value += step) {
            calls[at] = (uint8_t)value;
            if (!is_told(calls, length, dialect))
                return false;
        }
        calls[at] = was;
    }
    return true;
}

int main(int argc, char **argv)
{
    static uint8_t list[MOST];
    FILE *file = argc == 3 ? fopen(argv[1], "rb") : NULL;
    if (file == NULL)
        return 2;
    size_t length = fread(list, 1, MOST, file);
    fclose(file);
    if (length < FRONT)
        return 2;
    int step = atoi(argv[2]);
    bool is_well = are_fronts_told(list + FRONT, length - FRONT, list[FRONT - 1]) &&
                   are_changes_told(list + FRONT, length - FRONT, list[FRONT - 1], step);
    printf("%zu bytes of packed calls, each front, and each byte as %d values: all told\n", length - FRONT, 256 / step);
    return is_well ? 0 : 1;
}
