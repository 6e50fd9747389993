/* The counter of docs/use/LISTS.md. */
#include "show.h"

static void counter(vast_file *f)
{
    vast_module m = v_add_module(f, "counter");
    vast_type bit = v_make_scalar_type(f), byte = v_make_bit_vector_type(f, 8, false);
    vast_signal clk = v_add_input(f, m, "clk", bit), rst = v_add_input(f, m, "rst", bit);
    vast_signal count = v_add_output(f, m, "count", byte), value = v_add_logic(f, m, "value", byte);
    v_assign(f, m, count, value);
    vast_expression zero = v_bits(f, 8, 0), next = v_make_add(f, value, v_bits(f, 8, 1));
    vast_register_definition kept = {vast_expression_of(value), next, &zero, NULL};
    vast_reset reset = {vast_expression_of(rst), false};
    v_add_registers(f, clk, &reset, &kept, 1, m);
}

int main(void)
{
    return show(counter);
}
