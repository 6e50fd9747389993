/* Each request for memory is refused in turn, of all that the counter's calls ask for, of vast_calls.h and of the library: the
 * call returns VAST_MEMORY and leaves the file as it was, and made again it gives what it gives undisturbed. */
#include "refusing.h"
#include "vast_calls.h"

typedef struct {
    vast_file file;
    int refused; /* how many calls returned VAST_MEMORY */
    bool is_wrong;
} counted;

/* Notes what a call returned; whether it is to be made again. */
static bool is_to_be_made_again(counted *made, int32_t status, size_t count)
{
    if (status == VAST_MEMORY) {
        made->refused++;
        made->is_wrong = made->is_wrong || made->file.count != count || made->refused > 1;
        return !made->is_wrong;
    }
    made->is_wrong = made->is_wrong || status != VAST_OK;
    return false;
}

/* Makes a call, and makes it again where memory was refused to it. */
#define MAKE(made, call)                                                              \
    for (size_t count_ = (made)->file.count; is_to_be_made_again((made), (call), count_);) \
        continue

/* The design, as examples/counter.c has it. */
static void counter(counted *made)
{
    vast_file *f = &made->file;
    vast_module m;
    vast_type bit, byte;
    vast_signal clk, rst, count, value;
    vast_assignment drive;
    vast_expression zero, one, next;
    MAKE(made, vast_add_module(f, vast_str("counter"), &m));
    MAKE(made, vast_make_scalar_type(f, &bit));
    MAKE(made, vast_make_bit_vector_type(f, 8, false, &byte));
    MAKE(made, vast_add_input(f, m, vast_str("clk"), bit, &clk));
    MAKE(made, vast_add_input(f, m, vast_str("rst"), bit, &rst));
    MAKE(made, vast_add_output(f, m, vast_str("count"), byte, &count));
    MAKE(made, vast_add_logic(f, m, vast_str("value"), byte, &value));
    MAKE(made, vast_make_continuous_assignment(f, vast_expression_of(count), vast_expression_of(value), &drive));
    MAKE(made, vast_add_member_continuous_assignment(f, m, drive));
    MAKE(made, vast_make_literal(f, vast_str("bits[8]:0"), VAST_LITERAL_FORMAT_UNSIGNED_DECIMAL, &zero));
    MAKE(made, vast_make_literal(f, vast_str("bits[8]:1"), VAST_LITERAL_FORMAT_UNSIGNED_DECIMAL, &one));
    MAKE(made, vast_make_add(f, vast_expression_of(value), one, &next));
    vast_register_definition kept = {vast_expression_of(value), next, &zero, NULL};
    vast_reset reset = {vast_expression_of(rst), false};
    MAKE(made, vast_add_registers(f, vast_expression_of(clk), &reset, &kept, 1, vast_module_scope(m)));
}

/* Whether all that the file tells is what it tells undisturbed; the first text is kept. */
static bool is_whole(counted *made)
{
    static char wanted[4096];
    static size_t wanted_length;
    vast_file *f = &made->file;
    vast_string text = vast_str(""), told = vast_str("");
    bool is_keyword = true;
    MAKE(made, vast_is_system_verilog_keyword(f, vast_str("clk"), &is_keyword));
    MAKE(made, vast_file_warnings(f, &told));
    bool is_told = told.length == 0 && !is_keyword;
    MAKE(made, vast_emit(f, &text));
    if (wanted_length == 0 && text.length < sizeof wanted) {
        wanted_length = text.length;
        memcpy(wanted, text.bytes, text.length);
    }
    return is_told && text.length == wanted_length && memcmp(text.bytes, wanted, text.length) == 0;
}

static int counter_with(long request)
{
    counted made = {VAST_CLOSED_FILE, 0, false};
    left = request;
    MAKE(&made, vast_file_open_with_lint(&made.file, VAST_SYSTEMVERILOG));
    counter(&made);
    bool is_right = is_whole(&made) && !made.is_wrong;
    left = -1;
    vast_file_close(&made.file);
    return is_right ? made.refused : -1;
}

int main(void)
{
    return refuse_each(counter_with);
}
