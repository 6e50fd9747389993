/* Each function of vast.h, each status, each text and each number, on two sessions at once.
 * Says the first check that fails, with its line, and ends with status 1. */
#include "check.h"
#include "vast.h"

#include <string.h>

static int32_t lines(vast_session *session, const char *text, size_t *taken)
{
    return vast_lines(session, (const uint8_t *)text, strlen(text), taken);
}

/* Whether the text is this one, and no byte after it is written. */
static int is_text(vast_session *session, int32_t text, const char *wanted)
{
    uint8_t room[512];
    memset(room, '#', sizeof room);
    size_t length = vast_text(session, text, room, sizeof room);
    return length == strlen(wanted) && memcmp(room, wanted, length) == 0 && room[length] == '#';
}

/* A session that is not open: each call says so, or answers nothing. */
static int not_open(void)
{
    vast_session session = NULL;
    size_t taken = 7;
    CHECK(lines(&session, "MakeScalarType", &taken) == VAST_NOT_OPEN && taken == 0 && session == NULL);
    CHECK(vast_print(&session) == VAST_NOT_OPEN);
    CHECK(is_text(&session, VAST_FILE, "") && is_text(&session, VAST_MESSAGE, ""));
    CHECK(vast_number(&session, VAST_COUNT) == 0);
    CHECK(vast_open(&session, 2) == VAST_NO_DIALECT && session == NULL);
    vast_close(&session);
    CHECK(session == NULL);
    return 0;
}

/* Lines one by one and at once, the last one with its line feed or without, and two sessions that share nothing. */
static int made(void)
{
    vast_session one = NULL, other = NULL;
    size_t taken;
    CHECK(vast_open(&one, VAST_VERILOG) == VAST_OK && vast_open(&other, VAST_SYSTEMVERILOG) == VAST_OK);
    CHECK(one != NULL && other != NULL && one != other);
    CHECK(lines(&one, "m = AddModule \"first\"\n", &taken) == VAST_OK && taken == 1);
    CHECK(lines(&one, "bit = MakeScalarType\nAddWire m \"a\" bit", &taken) == VAST_OK && taken == 2);
    CHECK(lines(&one, "", &taken) == VAST_OK && taken == 0);
    CHECK(lines(&one, "\n# no call\n", &taken) == VAST_OK && taken == 2);
    CHECK(lines(&other, "m = AddModule \"second\"\n", &taken) == VAST_OK && taken == 1);
    CHECK(vast_number(&one, VAST_COUNT) == 3 && vast_number(&other, VAST_COUNT) == 1);
    CHECK(lines(&one, "?ModuleName m\n", &taken) == VAST_OK && is_text(&one, VAST_ANSWER, "first"));
    CHECK(lines(&one, "MakeScalarType\n", &taken) == VAST_OK && is_text(&one, VAST_ANSWER, ""));
    CHECK(is_text(&one, VAST_FILE, ""));
    CHECK(vast_print(&one) == VAST_OK && is_text(&one, VAST_FILE, "module first;\n  wire a;\nendmodule\n"));
    CHECK(vast_print(&other) == VAST_OK && is_text(&other, VAST_FILE, "module second;\n\nendmodule\n"));
    uint8_t room[4] = {'.', '.', '.', '.'};
    CHECK(vast_text(&one, VAST_FILE, room, 3) == 34 && memcmp(room, "mod.", 4) == 0);
    CHECK(vast_text(&one, 99, room, 3) == 0 && vast_number(&one, 99) == 0);
    CHECK(vast_open(&one, VAST_VERILOG) == VAST_OK && vast_number(&one, VAST_COUNT) == 0);
    vast_close(&one);
    vast_close(&other);
    CHECK(one == NULL && other == NULL);
    vast_close(&one);
    return 0;
}

/* Each fault of a line: the lines before it stay made, and no more is. */
static int faults(void)
{
    vast_session s = NULL;
    size_t taken;
    CHECK(vast_open(&s, VAST_VERILOG) == VAST_OK);
    CHECK(lines(&s, "m = AddModule \"m\"\nbit = MakeScalarType\na = AddWire m \"a\" bit\nAddWire m \"a\" bit\n", &taken) == VAST_CONDITION);
    CHECK(taken == 3 && vast_number(&s, VAST_COUNT) == 3);
    CHECK(vast_number(&s, VAST_LINE) == 4 && vast_number(&s, VAST_COLUMN) == 0 && is_text(&s, VAST_CALL, "AddWire"));
    CHECK(is_text(&s, VAST_WORDS, "the name \"a\" is taken in the module"));
    CHECK(is_text(&s, VAST_MESSAGE, "4: AddWire: the name \"a\" is taken in the module"));
    CHECK(lines(&s, "MakeLiteral \"bits[8]:999\" Hex\n", &taken) == VAST_REFUSED && taken == 0);
    CHECK(is_text(&s, VAST_WORDS, "literal `bits[8]:999` does not fit in 8 bits"));
    CHECK(lines(&s, "MakeScalarType\nAddWire bit \"b\" bit\n", &taken) == VAST_CONDITION && taken == 1);
    CHECK(vast_number(&s, VAST_LINE) == 5 && vast_number(&s, VAST_COUNT) == 4);
    CHECK(lines(&s, "AddWire m \"b\" bit bit\n", &taken) == VAST_FORM && taken == 0 && vast_number(&s, VAST_COLUMN) > 0);
    CHECK(lines(&s, "\xff\n", &taken) == VAST_FORM && taken == 0 && is_text(&s, VAST_CALL, ""));
    CHECK(lines(&s, "AddWire m \"b\" bit\n", &taken) == VAST_OK && is_text(&s, VAST_MESSAGE, ""));
    CHECK(vast_number(&s, VAST_LINE) == 0 && vast_number(&s, VAST_COUNT) == 5);
    CHECK(vast_print(&s) == VAST_OK && is_text(&s, VAST_FILE, "module m;\n  wire a;\n  wire b;\nendmodule\n"));
    vast_close(&s);
    return 0;
}

/* Whether these lines are told so, and no byte after that is written. */
static int is_told(int32_t dialect, const char *text, const char *wanted)
{
    uint8_t room[512];
    memset(room, '#', sizeof room);
    size_t all = 7, length = strlen(wanted);
    int32_t status = vast_warnings(dialect, (const uint8_t *)text, strlen(text), room, sizeof room, &all);
    return status == VAST_OK && all == length && memcmp(room, wanted, length) == 0 && room[length] == '#';
}

/* What lines print that is no Verilog, and lines like them that are; the end, faults, and a buffer that is too short. */
static int warnings(void)
{
    const char *module = "m = AddModule \"m\"\nbit = MakeScalarType\nAddLogic m \"a\" bit\n";
    CHECK(is_told(VAST_VERILOG, module, "3: AddLogic: `logic` is no Verilog (Verilator, Yosys refuse it)\n"));
    CHECK(is_told(VAST_SYSTEMVERILOG, module, "") && is_told(VAST_VERILOG, "", ""));
    const char *repeated = "one = MakeLiteral \"bits[1]:1\" Hex\nr = MakeReplicatedConcatI64 0 [ one ]\n";
    const char *told = "2: MakeReplicatedConcatI64: prints \"{0{1'h1}}\": no times is no SystemVerilog outside of a"
                       " concatenation (Icarus, Verilator refuse it)\n";
    CHECK(is_told(VAST_SYSTEMVERILOG, repeated, told));
    CHECK(is_told(VAST_VERILOG, "MakeNot 0\nm = AddModule \"m\"\nAddModule \"m\"", "3: AddModule: a second module of the name"
                                " is no SystemVerilog (Icarus refuses it)\n"));
    uint8_t room[4] = {'.', '.', '.', '.'};
    size_t all = 7;
    CHECK(vast_warnings(2, (const uint8_t *)module, strlen(module), room, 3, &all) == VAST_NO_DIALECT);
    CHECK(all == 0 && memcmp(room, "....", 4) == 0);
    CHECK(vast_warnings(VAST_VERILOG, (const uint8_t *)module, strlen(module), room, 3, &all) == VAST_OK);
    CHECK(all == 64 && memcmp(room, "3: .", 4) == 0);
    return 0;
}

/* Packed calls beside lines: made, asked, refused, cut off, and with a byte too many. */
static int packed(void)
{
    const uint8_t calls[] = {3, 51, 1, 'm', 1, 2, 6, 0x93, 1, 0, 1, 'a', 1, 3, 0x87, 1, 0};
    const uint8_t again[] = {6, 0x93, 1, 0, 1, 'a', 1};
    const uint8_t cut[] = {1, 2, 9, 2}, many[] = {2, 2, 0};
    vast_session s = NULL;
    size_t taken = 7;
    CHECK(vast_packed(&s, calls, sizeof calls, &taken) == VAST_NOT_OPEN && taken == 0);
    CHECK(vast_open(&s, VAST_VERILOG) == VAST_OK);
    CHECK(vast_packed(&s, calls, sizeof calls, &taken) == VAST_OK && taken == 4);
    CHECK(is_text(&s, VAST_ANSWER, "m") && vast_number(&s, VAST_COUNT) == 3);
    CHECK(vast_packed(&s, again, sizeof again, &taken) == VAST_CONDITION && taken == 0 && vast_number(&s, VAST_LINE) == 5);
    CHECK(is_text(&s, VAST_MESSAGE, "5: AddWire: the name \"a\" is taken in the module"));
    CHECK(vast_packed(&s, cut, sizeof cut, &taken) == VAST_FORM && taken == 1 && vast_number(&s, VAST_COLUMN) == 1);
    CHECK(vast_packed(&s, many, sizeof many, &taken) == VAST_FORM && vast_number(&s, VAST_COLUMN) == 2);
    CHECK(is_text(&s, VAST_CALL, "MakeScalarType") && vast_packed(&s, calls, 0, &taken) == VAST_OK && taken == 0);
    CHECK(lines(&s, "AddWire 0 \"b\" 3\n", &taken) == VAST_OK && vast_number(&s, VAST_COUNT) == 5);
    CHECK(vast_print(&s) == VAST_OK && is_text(&s, VAST_FILE, "module m;\n  wire a;\n  wire b;\nendmodule\n"));
    vast_close(&s);
    return 0;
}

/* A text that is refused, whose line is told; the text of before stays. */
static int refused_text(void)
{
    vast_session s = NULL;
    size_t taken;
    CHECK(vast_open(&s, VAST_VERILOG) == VAST_OK && vast_print(&s) == VAST_OK);
    CHECK(lines(&s, "m = AddModule \"m\"\nbit = MakeScalarType\na = AddWire m \"a\" bit\ni = MakeIndex a 1\n", &taken) == VAST_OK);
    CHECK(lines(&s, "b = AddWire m \"b\" bit\nc = MakeContinuousAssignment b i\nAddMemberContinuousAssignment m c\n", &taken) == VAST_OK);
    CHECK(vast_print(&s) == VAST_REFUSED && vast_number(&s, VAST_LINE) == 4);
    CHECK(is_text(&s, VAST_WORDS, "a scalar signal can only be indexed with zero"));
    CHECK(is_text(&s, VAST_FILE, ""));
    vast_close(&s);
    return 0;
}

int main(void)
{
    return not_open() || made() || faults() || packed() || refused_text() || warnings();
}
