/* Sessions of the library, many at once and one after the other: each must print what one thread printed alone, be refused
 * what it is refused alone, and give back all memory.
 *
 *     sessions at_once THREADS SECONDS    each thread opens sessions and closes them, for so long
 *     sessions in_turn NUMBER             one thread opens as many; the memory that it holds may not grow
 *     sessions passed_on                  one session goes from thread to thread
 *     sessions shared                     two threads use one session without waiting for each other, which is not allowed,
 *                                         though not at the same time: what looks for races has to tell it
 *
 * The last line says what was seen; the status is 0 where all held. It is linked with
 * -Wl,--wrap=malloc,--wrap=realloc,--wrap=free, by which it counts blocks. */
#define _GNU_SOURCE
#include <pthread.h>
#include <time.h>
#include <unistd.h>

#include "tests/designs.h"

#define CHECK(condition)                                                            \
    do {                                                                            \
        if (!(condition)) {                                                         \
            fprintf(stderr, "%s:%d: %s does not hold\n", __FILE__, __LINE__, #condition); \
            return false;                                                           \
        }                                                                           \
    } while (0)

/* Blocks of memory */

static _Thread_local long requests; /* of this thread, that were granted */
static _Thread_local long blocks;   /* that it holds */

void *__real_malloc(size_t size);
void *__real_realloc(void *old, size_t size);
void __real_free(void *block);
void *__wrap_malloc(size_t size);
void *__wrap_realloc(void *old, size_t size);
void __wrap_free(void *block);

void *__wrap_malloc(size_t size)
{
    void *block = __real_malloc(size);
    requests += block != NULL;
    blocks += block != NULL;
    return block;
}

void *__wrap_realloc(void *old, size_t size)
{
    void *block = __real_realloc(old, size);
    requests += block != NULL;
    blocks += block != NULL && old == NULL;
    return block;
}

void __wrap_free(void *block)
{
    blocks -= block != NULL;
    __real_free(block);
}

/* Designs, and what one thread makes of each before there are others */

typedef struct {
    void (*build)(vast_file *file);
    vast_string lines, text, warnings;
} design;

static design designs[] = {{fifo, {NULL, 0}, {NULL, 0}, {NULL, 0}}, {registers, {NULL, 0}, {NULL, 0}, {NULL, 0}}};
enum { DESIGNS = sizeof designs / sizeof designs[0] };

static bool is_same(vast_string one, vast_string other)
{
    return one.length == other.length && memcmp(one.bytes, other.bytes, one.length) == 0;
}

/* A copy that stays; without bytes where there is no memory. */
static vast_string kept(vast_string text)
{
    char *bytes = (char *)malloc(text.length + 1);
    vast_string copy = {bytes, text.length};
    if (bytes != NULL)
        memcpy(bytes, text.bytes, text.length);
    return copy;
}

enum { ROOM = 16384 }; /* bytes, more than each text has */

/* What the lines print that is no Verilog, which is in the room; without bytes after a fault. */
static vast_string no_verilog(vast_string lines, char *room)
{
    size_t all = 0;
    int32_t status = vast_warnings(VAST_VERILOG, (const uint8_t *)lines.bytes, lines.length, (uint8_t *)room, ROOM, &all);
    vast_string told = {status == VAST_OK && all <= ROOM ? room : NULL, all};
    return told;
}

/* Makes the design, and keeps the lines of its calls, its text and its warnings. */
static bool learn(design *made)
{
    char room[ROOM];
    vast_file file = VAST_CLOSED_FILE;
    CHECK(vast_file_open_with_lint(&file, VAST_SYSTEMVERILOG) == VAST_OK);
    made->build(&file);
    vast_string lines = {file.lines.bytes, file.start};
    made->lines = kept(lines);
    made->text = kept(v_emit(&file));
    CHECK(file.fault == VAST_OK);
    vast_string warnings = no_verilog(lines, room);
    CHECK(warnings.bytes != NULL && warnings.length > 0);
    made->warnings = kept(warnings);
    CHECK(made->lines.bytes != NULL && made->text.bytes != NULL && made->warnings.bytes != NULL);
    vast_file_close(&file);
    return true;
}

static void forget(design *made)
{
    free((void *)(uintptr_t)made->lines.bytes);
    free((void *)(uintptr_t)made->text.bytes);
    free((void *)(uintptr_t)made->warnings.bytes);
}

/* Uses of a session, each from its opening to its closing */

/* Whether this text of the session is the one that is wanted. */
static bool tells(vast_session *session, int32_t text, vast_string wanted)
{
    char room[ROOM];
    vast_string told = {room, vast_text(session, text, (uint8_t *)room, ROOM)};
    return told.length <= ROOM && is_same(told, wanted);
}

static bool is_printed(vast_session *session, const design *wanted)
{
    CHECK(vast_print(session) == VAST_OK);
    CHECK(tells(session, VAST_FILE, wanted->text));
    return true;
}

static bool by_typed_calls(const design *wanted)
{
    vast_file file = VAST_CLOSED_FILE;
    CHECK(vast_file_open(&file, VAST_SYSTEMVERILOG) == VAST_OK);
    wanted->build(&file);
    CHECK(is_same(v_emit(&file), wanted->text) && file.fault == VAST_OK);
    vast_file_close(&file);
    return true;
}

static bool by_lines(const design *wanted)
{
    vast_session s = NULL;
    size_t taken = 0;
    CHECK(vast_open(&s, VAST_SYSTEMVERILOG) == VAST_OK);
    CHECK(vast_lines(&s, (const uint8_t *)wanted->lines.bytes, wanted->lines.length, &taken) == VAST_OK);
    CHECK(is_printed(&s, wanted));
    vast_close(&s);
    return s == NULL;
}

/* Lines at fault, with the status and the words that they are told with. */
static const struct {
    const char *line;
    int32_t status;
    const char *words;
} faults[] = {
    {"MakeBitVectorType 8 0", VAST_FORM, "`true` or `false` expected, not `0`"},
    {"MakeNot 999", VAST_CONDITION,
     "no such answer: expression is `999`, and no step or helper before this line has that number"},
    {"MakeLiteral \"bits[8]:999\" Hex", VAST_REFUSED, "literal `bits[8]:999` does not fit in 8 bits"},
};
enum { FAULTS = sizeof faults / sizeof faults[0] };

static bool is_refused(vast_session *session, size_t which)
{
    size_t taken = 1, count = vast_number(session, VAST_COUNT), length = strlen(faults[which].line);
    CHECK(vast_lines(session, (const uint8_t *)faults[which].line, length, &taken) == faults[which].status);
    CHECK(taken == 0 && vast_number(session, VAST_COUNT) == count);
    CHECK(tells(session, VAST_WORDS, vast_str(faults[which].words)));
    return true;
}

/* Line by line, with a fault after each. */
static bool by_lines_with_faults(const design *wanted)
{
    vast_session s = NULL;
    size_t number = 0;
    const char *line = wanted->lines.bytes, *end = line + wanted->lines.length;
    CHECK(vast_open(&s, VAST_SYSTEMVERILOG) == VAST_OK);
    for (; line != end; number++) {
        const char *next = (const char *)memchr(line, '\n', (size_t)(end - line)) + 1;
        size_t taken = 0;
        CHECK(vast_lines(&s, (const uint8_t *)line, (size_t)(next - line), &taken) == VAST_OK && taken == 1);
        CHECK(is_refused(&s, number % FAULTS));
        line = next;
    }
    CHECK(is_printed(&s, wanted));
    vast_close(&s);
    return s == NULL;
}

/* A file that is left half made, after a fault, and the warnings of the whole one. */
static bool half_made(const design *wanted)
{
    char room[ROOM];
    vast_session s = NULL;
    size_t taken = 0;
    CHECK(vast_open(&s, VAST_SYSTEMVERILOG) == VAST_OK);
    CHECK(vast_lines(&s, (const uint8_t *)wanted->lines.bytes, wanted->lines.length / 2, &taken) != VAST_MEMORY);
    vast_string told = no_verilog(wanted->lines, room);
    CHECK(told.bytes != NULL && is_same(told, wanted->warnings));
    vast_close(&s);
    return s == NULL;
}

static bool (*const uses[])(const design *wanted) = {by_typed_calls, by_lines, by_lines_with_faults, half_made};
enum { USES = sizeof uses / sizeof uses[0] };

/* A session of this number; whether all was right and its memory is given back. */
static bool session_is_right(unsigned long number)
{
    long before = blocks;
    CHECK(uses[number % USES](&designs[number / USES % DESIGNS]));
    CHECK(blocks == before);
    return true;
}

/* Sessions at once */

typedef struct {
    pthread_t thread;
    double seconds;
    unsigned long sessions;
    long requests;
    bool is_right;
} worker;

static double now(void)
{
    struct timespec at;
    clock_gettime(CLOCK_MONOTONIC, &at);
    return (double)at.tv_sec + 1e-9 * (double)at.tv_nsec;
}

static void *work(void *given)
{
    worker *own = (worker *)given;
    double end = now() + own->seconds;
    own->is_right = true;
    while (own->is_right && (own->sessions < USES * DESIGNS || now() < end))
        own->is_right = session_is_right(own->sessions++);
    own->requests = requests;
    return NULL;
}

/* Runs so many at once, until each has ended; whether all began. */
static bool run_workers(worker *workers, int threads, double seconds)
{
    if (threads == 0)
        return true;
    workers->seconds = seconds;
    CHECK(pthread_create(&workers->thread, NULL, work, workers) == 0);
    bool have_begun = run_workers(workers + 1, threads - 1, seconds);
    CHECK(pthread_join(workers->thread, NULL) == 0);
    return have_begun;
}

static bool at_once(int threads, double seconds)
{
    enum { MOST = 64 };
    static worker workers[MOST];
    unsigned long sessions = 0;
    long granted = 0;
    CHECK(threads > 0 && threads <= MOST);
    bool are_right = run_workers(workers, threads, seconds);
    for (int at = 0; at < threads; at++) {
        are_right = are_right && workers[at].is_right;
        sessions += workers[at].sessions;
        granted += workers[at].requests;
    }
    CHECK(are_right);
    printf("%d threads for %.0f s: %lu sessions, each as one thread made it alone; %ld blocks, all given back\n", threads,
           seconds, sessions, granted);
    return true;
}

/* Sessions in turn */

/* Memory that the process holds, in KiB; -1 where the system doesn't tell. */
static long resident(void)
{
    long held = -1;
    FILE *file = fopen("/proc/self/smaps_rollup", "r");
    if (file == NULL)
        return -1;
    if (fscanf(file, "%*[^\n] Rss: %ld kB", &held) != 1)
        held = -1;
    fclose(file);
    return held;
}

static bool in_turn(unsigned long number)
{
    enum { FIRST = 1000, PAGES = 64 }; /* KiB of pages that the process may touch first after the first sessions */
    long first = -1;
    for (unsigned long at = 0; at < number; at++) {
        CHECK(session_is_right(at));
        if (at + 1 == FIRST)
            first = resident();
    }
    long last = resident();
    printf("%lu sessions in turn: %ld KiB after %d, %ld after all; %ld blocks, all given back\n", number, first, (int)FIRST,
           last, requests);
    CHECK(first > 0 && last > 0 && last <= first + PAGES);
    return true;
}

/* One session, by two threads */

static vast_session common;

/* Makes the lines; how many blocks this thread holds then, or -1. */
static void *begin(void *held)
{
    size_t taken = 0;
    const uint8_t *lines = (const uint8_t *)designs[0].lines.bytes;
    int32_t status = vast_lines(&common, lines, designs[0].lines.length, &taken);
    *(long *)held = status == VAST_OK ? blocks : -1;
    return NULL;
}

static bool passed_on(void)
{
    pthread_t thread;
    long held = -1;
    CHECK(vast_open(&common, VAST_SYSTEMVERILOG) == VAST_OK);
    CHECK(pthread_create(&thread, NULL, begin, &held) == 0 && pthread_join(thread, NULL) == 0);
    CHECK(held >= 0 && is_printed(&common, &designs[0]));
    blocks += held;
    vast_close(&common);
    puts("one session passed on: as one thread made it alone");
    return true;
}

static void *ask_late(void *result)
{
    usleep(200000);
    *(size_t *)result = vast_number(&common, VAST_COUNT);
    return NULL;
}

static bool shared(void)
{
    pthread_t thread;
    size_t count = 0;
    CHECK(vast_open(&common, VAST_SYSTEMVERILOG) == VAST_OK);
    CHECK(pthread_create(&thread, NULL, ask_late, &count) == 0);
    CHECK(vast_number(&common, VAST_COUNT) == 0);
    CHECK(pthread_join(thread, NULL) == 0);
    vast_close(&common);
    puts("one session shared");
    return count == 0;
}

/* Does what the words say. */
static bool is_right(int argc, char **argv)
{
    const char *what = argc > 1 ? argv[1] : "";
    if (strcmp(what, "at_once") == 0 && argc == 4)
        return at_once(atoi(argv[2]), atof(argv[3]));
    if (strcmp(what, "in_turn") == 0 && argc == 3)
        return in_turn(strtoul(argv[2], NULL, 10));
    if (strcmp(what, "passed_on") == 0)
        return passed_on();
    return strcmp(what, "shared") == 0 && shared();
}

int main(int argc, char **argv)
{
    bool is_well = learn(&designs[0]) && learn(&designs[1]) && is_right(argc, argv);
    forget(&designs[0]);
    forget(&designs[1]);
    return is_well && blocks == 0 ? 0 : 1;
}
