/* A FIFO of 2^N words, N at least 1, first word first; the width of a word is a parameter of the module. */
#include "show.h"

enum { N = 4 };

static void fifo(vast_file *f)
{
    const int64_t words = 1 << N;
    vast_module m = v_add_module(f, "fifo");
    vast_signal width = v_add_parameter_port(f, m, "WIDTH", v_number(f, 8));
    vast_type word = v_make_bit_vector_type_expr(f, width, false);
    vast_type bit = v_make_scalar_type(f), place = v_make_bit_vector_type(f, N + 1, false);
    vast_signal clk = v_add_input(f, m, "clk", bit), rst = v_add_input(f, m, "rst", bit);
    vast_signal push = v_add_input(f, m, "push", bit), pop = v_add_input(f, m, "pop", bit);
    vast_signal data_in = v_add_input(f, m, "data_in", word);
    vast_signal data_out = v_add_output(f, m, "data_out", word);
    vast_signal full = v_add_output(f, m, "full", bit), empty = v_add_output(f, m, "empty", bit);
    vast_signal count = v_add_output(f, m, "count", place);
    vast_signal memory = v_add_reg(f, m, "memory", v_make_unpacked_array_type(f, word, &words, 1));
    vast_signal head = v_add_logic(f, m, "head", place), tail = v_add_logic(f, m, "tail", place);
    vast_expression zero = v_bits(f, N + 1, 0), one = v_bits(f, N + 1, 1);
    v_assign(f, m, count, v_make_sub(f, head, tail));
    v_assign(f, m, full, v_make_eq(f, count, v_bits(f, N + 1, 1 << N)));
    v_assign(f, m, empty, v_make_eq(f, head, tail));
    v_assign(f, m, data_out, v_make_index_expr(f, memory, v_make_slice(f, tail, N - 1, 0)));
    vast_block block = v_always_ff(f, m, v_make_pos_edge(f, clk));
    vast_conditional at_reset = v_block_add_cond(f, block, rst);
    vast_block arm = v_conditional_then_block(f, at_reset);
    v_nonblocking(f, arm, head, zero);
    v_nonblocking(f, arm, tail, zero);
    arm = v_conditional_add_else(f, at_reset);
    vast_block taken = v_if(f, arm, v_make_logical_and(f, push, v_make_logical_not(f, full)));
    v_nonblocking(f, taken, v_make_index_expr(f, memory, v_make_slice(f, head, N - 1, 0)), data_in);
    v_nonblocking(f, taken, head, v_make_add(f, head, one));
    vast_block given = v_if(f, arm, v_make_logical_and(f, pop, v_make_logical_not(f, empty)));
    v_nonblocking(f, given, tail, v_make_add(f, tail, one));
}

int main(void)
{
    return show(fifo);
}
