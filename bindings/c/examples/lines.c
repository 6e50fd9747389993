/* Builds the counter of docs/use/LISTS.md and prints it. */
#include "vast.h"

#include <stdio.h>
#include <stdlib.h>
#include <string.h>

static const char lines[] =
    "counter = AddModule \"counter\"\n"
    "bit = MakeScalarType\n"
    "byte = MakeBitVectorType 8 false\n"
    "clk = AddInput counter \"clk\" bit\n"
    "rst = AddInput counter \"rst\" bit\n"
    "count = AddOutput counter \"count\" byte\n"
    "value = AddLogic counter \"value\" byte\n"
    "drive = MakeContinuousAssignment count value\n"
    "AddMemberContinuousAssignment counter drive\n"
    "one = MakeLiteral \"bits[8]:1\" UnsignedDecimal\n"
    "zero = MakeLiteral \"bits[8]:0\" UnsignedDecimal\n"
    "next = MakeAdd value one\n"
    "!AddRegisters clk + [ rst false ] [ [ value next + zero - ] ] counter\n";

/* Writes a text of the session, however long it is. */
static int write_text(vast_session *session, int32_t text, FILE *to)
{
    uint8_t none;
    size_t length = vast_text(session, text, &none, 0);
    uint8_t *room = (uint8_t *)malloc(length + 1);
    if (!room)
        return 1;
    vast_text(session, text, room, length);
    size_t written = fwrite(room, 1, length, to);
    free(room);
    return written != length;
}

int main(void)
{
    vast_session session = NULL;
    size_t taken = 0;
    int32_t status = vast_open(&session, VAST_SYSTEMVERILOG);
    if (status == VAST_OK)
        status = vast_lines(&session, (const uint8_t *)lines, strlen(lines), &taken);
    if (status == VAST_OK)
        status = vast_print(&session);
    int failed = status != VAST_OK;
    if (!failed) {
        failed = write_text(&session, VAST_FILE, stdout);
    } else if (status == VAST_MEMORY) {
        fputs("out of memory\n", stderr);
    } else {
        fputs("counter: ", stderr);
        write_text(&session, VAST_MESSAGE, stderr);
        fputc('\n', stderr);
    }
    vast_close(&session);
    return failed;
}
