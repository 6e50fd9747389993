/* What vast_calls.h and vast_values.h do beside writing their calls: handles, faults, texts, answers and warnings.
 * Says the first check that fails, with its line, and ends with status 1. */
#include "check.h"
#include "vast_values.h"

static bool is_text(vast_string text, const char *wanted)
{
    return text.length == strlen(wanted) && memcmp(text.bytes, wanted, text.length) == 0;
}

static bool is_told(vast_file *file, const char *wanted)
{
    return is_text(vast_file_message(file), wanted);
}

static bool is_none(vast_handle handle)
{
    return handle.file == 0 && handle.step == 0;
}

/* Handles of another file, of none and of the file before it was opened again: refused, and the library is not asked. */
static int handles(void)
{
    vast_file one = VAST_CLOSED_FILE, other = VAST_CLOSED_FILE;
    vast_expression a, b, sum, none = {{0, 0}};
    CHECK(vast_file_open(&one, VAST_VERILOG) == VAST_OK && vast_file_open(&other, VAST_VERILOG) == VAST_OK);
    CHECK(vast_make_name(&one, vast_str("a"), &a) == VAST_OK && vast_make_name(&other, vast_str("b"), &b) == VAST_OK);
    CHECK(vast_make_add(&one, a, b, &sum) == VAST_CONDITION && is_none(sum.id) && one.count == 1);
    CHECK(is_told(&one, "MakeAdd: a handle that is none of this file"));
    CHECK(vast_make_add(&one, a, none, &sum) == VAST_CONDITION);
    CHECK(vast_make_add(&one, a, a, &sum) == VAST_OK && !is_none(sum.id) && one.count == 2 && is_told(&one, ""));
    CHECK(vast_make_concat(&one, &b, 1, NULL) == VAST_CONDITION && vast_make_concat(&one, NULL, 0, NULL) == VAST_OK);
    CHECK(vast_file_open(&one, VAST_SYSTEMVERILOG) == VAST_OK && one.count == 0);
    CHECK(vast_make_not(&one, a, NULL) == VAST_CONDITION && is_told(&one, "MakeNot: a handle that is none of this file"));
    CHECK(vast_make_name(&one, vast_str("c"), &b) == VAST_OK && vast_make_add(&one, b, a, &sum) == VAST_CONDITION);
    vast_file_close(&one);
    vast_file_close(&one);
    CHECK(vast_make_not(&one, b, &sum) == VAST_NOT_OPEN && is_none(sum.id));
    CHECK(is_told(&one, "the file is not open"));
    vast_file_close(&other);
    CHECK(vast_file_open(&other, 2) == VAST_NO_DIALECT && is_told(&other, "no dialect"));
    return 0;
}

/* Each fault of a call, after which the file is as before and goes on. */
static int faults(void)
{
    vast_file file = VAST_CLOSED_FILE;
    vast_module m;
    vast_type bit;
    vast_signal a;
    vast_string text;
    vast_literal_format no_format = (vast_literal_format)(VAST_LITERAL_FORMAT_UNSIZED_HEX + 1);
    CHECK(vast_file_open(&file, VAST_VERILOG) == VAST_OK && vast_add_module(&file, vast_str("m"), &m) == VAST_OK);
    CHECK(vast_make_scalar_type(&file, &bit) == VAST_OK && vast_add_wire(&file, m, vast_str("a"), bit, &a) == VAST_OK);
    CHECK(vast_add_wire(&file, m, vast_str("a"), bit, &a) == VAST_CONDITION && is_none(a.id));
    CHECK(is_told(&file, "4: AddWire: the name \"a\" is taken in the module"));
    CHECK(vast_make_literal(&file, vast_str("bits[8]:999"), VAST_LITERAL_FORMAT_HEX, NULL) == VAST_REFUSED);
    CHECK(is_told(&file, "4: MakeLiteral: literal `bits[8]:999` does not fit in 8 bits"));
    CHECK(vast_make_literal(&file, vast_str("bits[8]:1"), no_format, NULL) == VAST_FORM);
    CHECK(is_told(&file, "MakeLiteral: a number of no variant"));
    CHECK(vast_add_comment_text(&file, vast_str("\xff")) == VAST_FORM && vast_file_message(&file).length > 0);
    CHECK(vast_make_bit_vector_type(&file, 0, false, &bit) == VAST_CONDITION && is_none(bit.id));
    CHECK(vast_make_bit_vector_type(&file, INT64_MIN, false, &bit) == VAST_CONDITION);
    CHECK(vast_hoist_module_declarations(&file, m, UINT64_MAX) == VAST_CONDITION);
    CHECK(vast_hoist_module_declarations(&file, m, 1) == VAST_OK && file.count == 4);
    CHECK(vast_emit(&file, &text) == VAST_OK && is_text(text, "module m;\n  wire a;\nendmodule\n"));
    vast_file_close(&file);
    return 0;
}

/* A text of the file that is refused: the line is told whose call made what is at fault. */
static int refused_text(void)
{
    vast_file file = VAST_CLOSED_FILE;
    vast_string text;
    CHECK(vast_file_open(&file, VAST_VERILOG) == VAST_OK);
    vast_module m = v_add_module(&file, "m");
    vast_signal a = v_add_wire(&file, m, "a", v_make_scalar_type(&file));
    vast_assignment drive = v_make_continuous_assignment(&file, a, v_make_index(&file, a, 1));
    v_add_member_continuous_assignment(&file, m, drive);
    CHECK(file.fault == VAST_OK && vast_emit(&file, &text) == VAST_REFUSED && is_text(text, ""));
    CHECK(is_told(&file, "4: a scalar signal can only be indexed with zero"));
    vast_file_close(&file);
    return 0;
}

/* Texts with all that lines escape, one that is longer than the first buffers, and labels that are there or not; packed and
 * in lines. */
static int texts(int32_t (*opened)(vast_file *, int32_t))
{
    static char many[3001];
    vast_file file = VAST_CLOSED_FILE;
    vast_expression string;
    vast_string text, with_nul = {"a\0b", 3};
    memset(many, 'x', sizeof many - 1);
    CHECK(opened(&file, VAST_SYSTEMVERILOG) == VAST_OK);
    CHECK(vast_make_string_literal(&file, vast_str("a\"b\\\n\r\t/\xc3\xa9"), &string) == VAST_OK);
    CHECK(vast_emit_expression(&file, string, &text) == VAST_OK && is_text(text, "\"a\\\"b\\\\\\n\\r\\t/\xc3\xa9\""));
    CHECK(text.bytes[text.length] == '\0');
    CHECK(vast_make_string_literal(&file, with_nul, &string) == VAST_OK);
    CHECK(vast_emit_expression(&file, string, &text) == VAST_OK && is_text(text, "\"a\\000b\""));
    CHECK(vast_make_name(&file, vast_str(many), &string) == VAST_OK);
    CHECK(vast_emit_expression(&file, string, &text) == VAST_OK && is_text(text, many));
    CHECK(vast_make_name(&file, vast_str(""), &string) == VAST_OK);
    CHECK(vast_emit_expression(&file, string, &text) == VAST_OK && is_text(text, ""));
    vast_module m = v_add_module(&file, "m");
    vast_expression two = v_make_unsized_decimal_literal(&file, 2), zero = v_make_unsized_zero_literal(&file);
    v_add_generate_loop(&file, m, "i", zero, two, NULL);
    v_add_generate_loop(&file, m, "j", zero, two, "");
    v_add_generate_loop(&file, m, "k", zero, two, "each");
    CHECK(file.fault == VAST_OK && vast_emit(&file, &text) == VAST_OK && strstr(text.bytes, ": each\n") != NULL);
    vast_file_close(&file);
    return 0;
}

/* Answers: texts, numbers, truths, and the width that a type has or has not. */
static int answers(void)
{
    vast_file file = VAST_CLOSED_FILE;
    vast_type byte, bit;
    vast_module m;
    vast_string text;
    uint64_t members = 7;
    int64_t width = 7;
    bool truth = false;
    CHECK(vast_file_open(&file, VAST_SYSTEMVERILOG) == VAST_OK && vast_add_module(&file, vast_str("m"), &m) == VAST_OK);
    CHECK(vast_make_bit_vector_type(&file, 8, true, &byte) == VAST_OK && vast_make_scalar_type(&file, &bit) == VAST_OK);
    CHECK(vast_module_name(&file, m, &text) == VAST_OK && is_text(text, "m"));
    CHECK(vast_module_member_count(&file, m, &members) == VAST_OK && members == 0);
    CHECK(vast_type_width_as_int64(&file, byte, &width) == VAST_OK && width == 8);
    CHECK(vast_type_width_expr(&file, byte, &text) == VAST_OK && is_text(text, "8"));
    CHECK(vast_type_width_expr(&file, bit, &text) == VAST_OK && text.bytes == NULL && text.length == 0);
    CHECK(vast_type_is_signed(&file, byte, &truth) == VAST_OK && truth);
    CHECK(vast_type_is_signed(&file, bit, &truth) == VAST_OK && !truth);
    CHECK(vast_is_system_verilog_keyword(&file, vast_str("wire"), &truth) == VAST_OK && truth);
    CHECK(vast_file_is_plain(&file, &truth) == VAST_OK && truth && file.count == 3);
    vast_file_close(&file);
    return 0;
}

/* Ports, whose names may have spaces and line breaks. */
static int ports(void)
{
    vast_file file = VAST_CLOSED_FILE;
    vast_ports found;
    vast_port port;
    const char *odd = "x Input 1 false y\nz";
    CHECK(vast_file_open(&file, VAST_SYSTEMVERILOG) == VAST_OK);
    vast_module m = v_add_module(&file, "m");
    CHECK(vast_module_ports(&file, m, &found) == VAST_OK && found.count == 0 && !vast_next_port(&found, &port));
    v_add_input(&file, m, odd, v_make_bit_vector_type(&file, 12, true));
    v_add_inout(&file, m, "", v_make_extern_type(&file, "T"));
    v_add_output(&file, m, "b", v_make_scalar_type(&file));
    CHECK(file.fault == VAST_OK && vast_module_ports(&file, m, &found) == VAST_OK && found.count == 3);
    CHECK(vast_next_port(&found, &port) && is_text(port.name, odd) && is_text(port.reference, odd));
    CHECK(port.direction == VAST_MODULE_PORT_DIRECTION_INPUT && port.width == 12 && port.is_signed);
    CHECK(vast_next_port(&found, &port) && is_text(port.name, "") && port.width == 0 && !port.is_signed);
    CHECK(port.direction == VAST_MODULE_PORT_DIRECTION_IN_OUT);
    CHECK(vast_next_port(&found, &port) && is_text(port.name, "b") && port.width == 1);
    CHECK(port.direction == VAST_MODULE_PORT_DIRECTION_OUTPUT && !vast_next_port(&found, &port));
    vast_file_close(&file);
    return 0;
}

/* Calls by value: the first fault stays, and no call is made after it. */
static int values(void)
{
    vast_file file = VAST_CLOSED_FILE;
    CHECK(is_none(v_make_scalar_type(&file).id) && file.fault == VAST_NOT_OPEN);
    CHECK(vast_file_open(&file, VAST_VERILOG) == VAST_OK && file.fault == VAST_OK);
    vast_module m = v_add_module(&file, "m");
    vast_type byte = v_make_bit_vector_type(&file, 8, false);
    vast_signal a = v_add_wire(&file, m, "a", byte);
    vast_expression sum = v_make_add(&file, a, v_make_mul(&file, v_make_index(&file, a, 0), a));
    CHECK(is_text(v_emit_expression(&file, sum), "a + a[0] * a") && file.fault == VAST_OK);
    CHECK(is_none(v_add_wire(&file, m, "a", byte).id) && file.fault == VAST_CONDITION);
    CHECK(is_none(v_add_wire(&file, m, "b", byte).id) && v_module_name(&file, m).length == 0);
    CHECK(is_told(&file, "8: AddWire: the name \"a\" is taken in the module"));
    file.fault = VAST_OK;
    CHECK(!is_none(v_add_wire(&file, m, "b", byte).id) && v_module_member_count(&file, m) == 2);
    vast_file_close(&file);
    return 0;
}

/* What calls print that tools refuse; questions are numbered, and calls at fault are not. */
static int warnings(void)
{
    vast_file file = VAST_CLOSED_FILE;
    vast_expression none = {{0, 0}};
    vast_string told;
    CHECK(vast_file_warnings(&file, &told) == VAST_NOT_OPEN && vast_file_open(&file, VAST_VERILOG) == VAST_OK);
    CHECK(vast_file_warnings(&file, &told) == VAST_CONDITION && is_text(told, ""));
    CHECK(vast_file_open_with_lint(&file, VAST_VERILOG) == VAST_OK);
    CHECK(vast_file_warnings(&file, &told) == VAST_OK && is_text(told, ""));
    vast_module m = v_add_module(&file, "m");
    vast_type bit = v_make_scalar_type(&file);
    CHECK(v_name_is_free(&file, m, "a") && vast_make_not(&file, none, NULL) != VAST_OK);
    v_add_logic(&file, m, "a", bit);
    CHECK(file.fault == VAST_OK && vast_file_warnings(&file, &told) == VAST_OK);
    CHECK(is_text(told, "4: AddLogic: `logic` is no Verilog (Verilator, Yosys refuse it)\n"));
    for (int place = 0; place < 9; place++)
        v_add_module(&file, "m");
    CHECK(vast_file_warnings(&file, &told) == VAST_OK && told.length > 256 && strlen(told.bytes) == told.length);
    CHECK(vast_file_open(&file, VAST_VERILOG) == VAST_OK && vast_file_warnings(&file, &told) == VAST_CONDITION);
    vast_file_close(&file);
    return 0;
}

int main(void)
{
    return handles() || faults() || refused_text() || texts(vast_file_open) || texts(vast_file_open_with_lint) || answers() ||
           ports() || values() || warnings();
}
