/* Files of Verilog and SystemVerilog, built and printed by the proved library.
 *
 * A session is one file and the handles that its calls have answered. It takes lines, each one call of the form in
 * docs/use/LISTS.md, as
 *
 *     counter = AddModule "counter"
 *     bit = MakeScalarType
 *     clk = AddInput counter "clk" bit
 *
 * and prints the file's text. (The line that names the dialect is none of them: `vast_open` is told the dialect.)
 *
 * Ownership. A `vast_session` is a pointer to memory that the library owns. Set it to NULL once, before its first use;
 * from then on only the functions below read or write it, and they are given its address. Copy none that is not NULL.
 * `vast_close` gives all memory back; nothing else that a function returns has to be freed. What a function is given, as
 * lines and buffers, stays the caller's, and the library keeps no pointer to it once the function returns.
 *
 * Pointers. No pointer that a function is given may be NULL, not even beside a length of 0. What a function writes (the
 * session, `out`, `*taken`, `*all`) must overlap neither what it reads (`lines`) nor anything else that it writes.
 *
 * Threads. A session may go from one thread to another, but no two calls with the same session may overlap. Sessions
 * share nothing, and nothing is global: different sessions may be used by different threads at the same time. Call none
 * of the functions from a signal handler.
 *
 * Faults. No call ends the process or prints. A call that can fail returns a status; any status but VAST_OK leaves the
 * file and its handles as they were, but that lines before the one at fault stay made.
 *
 * Memory comes from `malloc`, `realloc` and `free`. They must belong together, and align a block to each power of two up
 * to 16 that divides its size.
 */
#ifndef VAST_H
#define VAST_H

#include <stddef.h>
#include <stdint.h>

#ifdef __cplusplus
extern "C" {
#endif

typedef struct vast_session_state *vast_session;

/* What a call returns. */
enum {
    VAST_OK = 0,
    /* The library refuses what the line asks, as a literal that does not fit its width; or the file's text. */
    VAST_REFUSED = 1,
    /* A condition of the call is not met, as a name that is taken, a handle of another kind, or a width below 1. */
    VAST_CONDITION = 2,
    /* The line is not in the form of docs/use/LISTS.md, or not UTF-8. */
    VAST_FORM = 3,
    /* A request for memory was refused. The same line may be given again; but where it is a question with a name, the
     * name may be taken by then. */
    VAST_MEMORY = 4,
    /* The session is NULL. */
    VAST_NOT_OPEN = 5,
    /* The number is no dialect's. */
    VAST_NO_DIALECT = 6
};

/* The dialects. */
enum { VAST_VERILOG = 0, VAST_SYSTEMVERILOG = 1 };

/* The texts of a session. Each is UTF-8, with no NUL after it, and empty where there is nothing to tell. */
enum {
    /* What the last line of the last `vast_lines` answered, if it is a question. */
    VAST_ANSWER = 0,
    /* The fault of the last `vast_lines` or `vast_print`, as `12: AddInput: the name "clk" is taken`, or `12:9: ..` with
     * the character where the line stops being in the form. Lines are counted from the session's first, from 1. */
    VAST_MESSAGE = 1,
    /* The same fault's words alone, as `the name "clk" is taken`. */
    VAST_WORDS = 2,
    /* The same fault's call, as it stands in the line. */
    VAST_CALL = 3,
    /* The file as the last `vast_print` that returned VAST_OK printed it. */
    VAST_FILE = 4
};

/* The numbers of a session. */
enum {
    /* How many handles the session has answered. They are counted from 0, so this is the number of the next one. */
    VAST_COUNT = 0,
    /* The line of the fault that VAST_MESSAGE tells, of all lines of the session, from 1; 0 where none is known. */
    VAST_LINE = 1,
    /* The character where that line stops being in the form, from 1; 0 where it is in the form. */
    VAST_COLUMN = 2
};

/* Opens a session with an empty file of the dialect; one that was open is closed.
 * VAST_OK; VAST_NO_DIALECT, VAST_MEMORY: the session is as before. */
int32_t vast_open(vast_session *session, int32_t dialect);

/* Makes the calls of the lines in order, up to the first at fault. Each line is ended by a line feed, which the last one
 * may lack: one line or many may be given at once, and no line goes over two calls.
 * `*taken` becomes the number of the lines that were made. VAST_OK: it is all of them. VAST_REFUSED, VAST_CONDITION,
 * VAST_FORM, VAST_MEMORY: what is wrong with the line after those. VAST_NOT_OPEN: it is 0. */
int32_t vast_lines(vast_session *session, const uint8_t *lines, size_t length, size_t *taken);

/* Makes packed calls in order, up to the first at fault: the bytes of a packed list of docs/use/LISTS.md after its first
 * seven, each call whole. They are counted as lines are, and go with lines in one session.
 * `*taken` becomes the number of the calls that were made. The status is that of `vast_lines`, where VAST_FORM is of bytes
 * that are no call; VAST_COLUMN is then the byte of the call, from 1. */
int32_t vast_packed(vast_session *session, const uint8_t *calls, size_t length, size_t *taken);

/* Prints the file, which VAST_FILE is then.
 * VAST_OK; VAST_REFUSED: the file has no text, VAST_LINE is the line whose call made what is refused; VAST_MEMORY;
 * VAST_NOT_OPEN. After those VAST_FILE is as before. */
int32_t vast_print(vast_session *session);

/* Copies the start of a text to `out`, as much as the `capacity` bytes there hold, and returns the length of the whole
 * text in bytes. 0 where the session is not open, or `text` is the number of none. */
size_t vast_text(vast_session *session, int32_t text, uint8_t *out, size_t capacity);

/* A number of the session. 0 where it is not open, or `number` is the number of none. */
size_t vast_number(vast_session *session, int32_t number);

/* What the calls of the lines print that is no SystemVerilog or Verilog, or that Icarus, Verilator or Yosys refuses: the
 * warnings of a list of these lines, as `vast_replay --lint` tells them, each a line of UTF-8 with a line feed after it,
 *
 *     12: MakeIndex: prints "(a + b)[1]": a select of a computed value is no SystemVerilog (Icarus, Verilator, Yosys refuse it)
 *
 * those of the lines in order, and after them those that only the end tells, as a case without arms. The number is that
 * of the line among these, from 1. Copies the start of that text to `out`, as much as the `capacity` bytes there hold;
 * `*all` becomes the length of the whole text in bytes, 0 where there is nothing to tell.
 *
 * No session is asked, and none is changed: the lines are made anew, on a file of their own which is let go again, so it
 * takes as long as making them does. Who wants the warnings of a session keeps the lines that were made (of those that
 * were given to a `vast_lines` the first `*taken`), and gives all of them; an empty line may stand for a question. A line
 * at fault and those that use it are passed over, and handles are counted as if it had answered one. Lines and buffer
 * stay the caller's, and nothing is to be freed.
 * VAST_OK; VAST_NO_DIALECT, VAST_MEMORY: nothing is copied, and `*all` is 0. */
int32_t vast_warnings(int32_t dialect, const uint8_t *lines, size_t length, uint8_t *out, size_t capacity, size_t *all);

/* Frees the session and all that it holds, and sets the pointer to NULL. Does nothing where it is NULL. */
void vast_close(vast_session *session);

#ifdef __cplusplus
}
#endif

#endif
