/* Each request for memory is refused in turn, of all that the FIFO and the register file ask for. As one list of many lines:
 * the lines before the refusal stay made and no more is, and the others, given again, make what they make undisturbed. By
 * value: the file keeps the fault, no later call is made, and opened again it becomes what it becomes undisturbed. */
#include "designs.h"
#include "refusing.h"

/* A design, and what is made of it undisturbed. */
typedef struct {
    void (*build)(vast_file *file);
    char lines[8192], text[8192];
    size_t length, text_length;
    size_t counts[512]; /* how many handles there are after so many lines */
} design;

static design of_fifo, of_registers;
static design *made; /* the one that is tried */

/* How many bytes the first lines have, so many, with their line feeds. */
static size_t length_of(const char *lines, size_t number)
{
    const char *end = lines;
    for (; number > 0; number--)
        end = strchr(end, '\n') + 1;
    return (size_t)(end - lines);
}

/* Keeps the lines of the design's calls, its text and its counts; false where they are not as they have to be. */
static bool learn(design *one, void (*build)(vast_file *file))
{
    vast_file file = VAST_CLOSED_FILE;
    vast_session s = NULL;
    one->build = build;
    vast_file_open_with_lint(&file, VAST_SYSTEMVERILOG);
    build(&file);
    vast_string text = v_emit(&file);
    bool fits = file.fault == VAST_OK && file.start < sizeof one->lines && text.length < sizeof one->text;
    if (fits) {
        memcpy(one->lines, file.lines.bytes, one->length = file.start);
        memcpy(one->text, text.bytes, one->text_length = text.length);
    }
    size_t place = 0, number = 0, taken = 0;
    vast_open(&s, VAST_SYSTEMVERILOG);
    while (fits && place < one->length && number + 1 < sizeof one->counts / sizeof one->counts[0]) {
        size_t length = length_of(one->lines + place, 1);
        fits = vast_lines(&s, (const uint8_t *)one->lines + place, length, &taken) == VAST_OK && taken == 1;
        one->counts[++number] = vast_number(&s, VAST_COUNT);
        place += length;
    }
    vast_close(&s);
    vast_file_close(&file);
    return fits && place == one->length && one->length > 0;
}

static bool is_whole(vast_session *session)
{
    char room[sizeof made->text];
    size_t length = vast_text(session, VAST_FILE, (uint8_t *)room, sizeof room);
    return length == made->text_length && memcmp(room, made->text, length) == 0;
}

/* Makes the lines, those after a refusal once more; how many calls returned VAST_MEMORY, or -1 for a wrong answer. */
static int lines_made(vast_session *session)
{
    size_t place = 0, number = 0;
    for (int refused = 0;; refused++) {
        size_t taken = 0;
        const uint8_t *lines = (const uint8_t *)made->lines + place;
        int32_t status = vast_lines(session, lines, made->length - place, &taken);
        number += taken;
        place += length_of(made->lines + place, taken);
        if (vast_number(session, VAST_COUNT) != made->counts[number])
            return -1;
        if (status == VAST_OK)
            return place == made->length ? refused : -1;
        if (status != VAST_MEMORY || refused > 0)
            return -1;
    }
}

static int as_one_list(long request)
{
    vast_session s = NULL;
    left = request;
    int opened = vast_open(&s, VAST_SYSTEMVERILOG) == VAST_MEMORY;
    if (opened == 1)
        vast_open(&s, VAST_SYSTEMVERILOG);
    int refused = lines_made(&s);
    int printed = vast_print(&s) == VAST_MEMORY;
    bool is_right = refused >= 0 && (printed == 0 || vast_print(&s) == VAST_OK) && is_whole(&s);
    left = -1;
    vast_close(&s);
    return is_right ? opened + refused + printed : -1;
}

/* Whether a file at which memory was refused takes no more calls, and has the handles that it gave. */
static bool stands_still(vast_file *file)
{
    size_t count = file->count;
    vast_type type = v_make_scalar_type(file);
    return type.id.file == 0 && file->count == count && vast_number(&file->session, VAST_COUNT) == count;
}

static int by_value(long request)
{
    vast_file file = VAST_CLOSED_FILE;
    int refused = 0;
    left = request;
    for (bool is_right = true;; refused++) {
        vast_file_open(&file, VAST_SYSTEMVERILOG);
        made->build(&file);
        vast_string text = v_emit(&file);
        if (file.fault == VAST_MEMORY && refused == 0 && is_right) {
            is_right = stands_still(&file);
            continue;
        }
        is_right = is_right && file.fault == VAST_OK && text.length == made->text_length && is_whole(&file.session);
        left = -1;
        vast_file_close(&file);
        return is_right ? refused : -1;
    }
}

/* Refuses each of the design's requests; the status of the program. */
static int refuse_each_of(design *one, void (*build)(vast_file *file))
{
    made = one;
    return !learn(one, build) || refuse_each(as_one_list) || refuse_each(by_value);
}

int main(void)
{
    return refuse_each_of(&of_fifo, fifo) || refuse_each_of(&of_registers, registers);
}
