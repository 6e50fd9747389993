/* Each request for memory is refused in turn, of all that the counter's session and its warnings ask for: the call whose
 * request it is answers VAST_MEMORY and leaves the session as it was, and made again it gives what it gives undisturbed.
 */
#include "refusing.h"
#include "vast.h"

#include <string.h>

static const char *const lines[] = {
    "counter = AddModule \"counter\"",
    "bit = MakeScalarType",
    "byte = MakeBitVectorType 8 false",
    "clk = AddInput counter \"clk\" bit",
    "rst = AddInput counter \"rst\" bit",
    "count = AddOutput counter \"count\" byte",
    "value = AddLogic counter \"value\" byte",
    "drive = MakeContinuousAssignment count value",
    "AddMemberContinuousAssignment counter drive",
    "one = MakeLiteral \"bits[8]:1\" UnsignedDecimal",
    "zero = MakeLiteral \"bits[8]:0\" UnsignedDecimal",
    "next = MakeAdd value one",
    "!AddRegisters clk + [ rst false ] [ [ value next + zero - ] ] counter",
    "?ModulePorts counter",
};
enum { COUNT = sizeof lines / sizeof lines[0] };

static uint8_t wanted[4096];
static size_t wanted_length;

/* Whether the file prints as it does undisturbed; the first one is kept. */
static int is_counter(vast_session *session)
{
    uint8_t room[4096];
    size_t length = vast_text(session, VAST_FILE, room, sizeof room);
    if (wanted_length == 0) {
        wanted_length = length;
        memcpy(wanted, room, length);
    }
    return length == wanted_length && length < sizeof room && memcmp(room, wanted, length) == 0;
}

/* Three lines with a warning, which is told as it is undisturbed: how often it answered VAST_MEMORY, or -1. */
static int warnings(void)
{
    const char *module = "m = AddModule \"m\"\nbit = MakeScalarType\nAddLogic m \"a\" bit\n";
    const char *told = "3: AddLogic: `logic` is no Verilog (Verilator, Yosys refuse it)\n";
    uint8_t room[4096] = "#";
    size_t all = 7, length = strlen(module);
    int refused = 0;
    int32_t status = vast_warnings(VAST_VERILOG, (const uint8_t *)module, length, room, sizeof room, &all);
    if (status == VAST_MEMORY) {
        refused++;
        if (all != 0 || room[0] != '#')
            return -1;
        status = vast_warnings(VAST_VERILOG, (const uint8_t *)module, length, room, sizeof room, &all);
    }
    return status == VAST_OK && all == strlen(told) && memcmp(room, told, all) == 0 ? refused : -1;
}

/* How many calls answered VAST_MEMORY where request k is refused, or -1 for a wrong answer. */
static int session_with(long k)
{
    vast_session s = NULL;
    size_t taken = 0;
    int refused = 0;
    left = k;
    if (vast_open(&s, VAST_SYSTEMVERILOG) == VAST_MEMORY) {
        refused++;
        if (s != NULL || vast_open(&s, VAST_SYSTEMVERILOG) != VAST_OK)
            return -1;
    }
    for (int i = 0; i < COUNT; i++) {
        const uint8_t *line = (const uint8_t *)lines[i];
        size_t before = vast_number(&s, VAST_COUNT), length = strlen(lines[i]);
        int32_t status = vast_lines(&s, line, length, &taken);
        if (status == VAST_MEMORY) {
            refused++;
            if (taken != 0 || vast_number(&s, VAST_COUNT) != before)
                return -1;
            status = vast_lines(&s, line, length, &taken);
        }
        if (status != VAST_OK || taken != 1)
            return -1;
    }
    if (vast_print(&s) == VAST_MEMORY) {
        refused++;
        if (vast_print(&s) != VAST_OK)
            return -1;
    }
    int told = warnings();
    left = -1;
    if (told < 0 || !is_counter(&s))
        return -1;
    vast_close(&s);
    return s == NULL ? refused + told : -1;
}

int main(void)
{
    return refuse_each(session_with);
}
