/* Eight registers of 32 bits behind an AXI-Lite port. */
#include "show.h"

enum { NUMBER = 8, LANES = 4 };

/* Writes the word that `place` tells, each lane of eight bits by its strobe. */
static void write_words(vast_file *f, vast_module m, vast_signal clk, vast_signal rst_n, vast_signal words,
                        vast_signal write, vast_slice place, vast_signal wdata, vast_signal wstrb)
{
    vast_loop each = v_add_generate_loop(f, m, "i", v_number(f, 0), v_number(f, NUMBER), "each");
    vast_signal i = v_generate_genvar(f, each);
    vast_index word = v_make_index_expr(f, words, i);
    vast_expression edge = v_make_pos_edge(f, clk);
    vast_block block = v_statement_block(f, v_generate_add_always_ff(f, each, &edge, 1));
    vast_conditional at_reset = v_block_add_cond(f, block, v_make_logical_not(f, rst_n));
    v_nonblocking(f, v_conditional_then_block(f, at_reset), word, v_number(f, 0));
    vast_expression is_own = v_make_logical_and(f, write, v_make_eq(f, place, i));
    vast_block arm = v_conditional_add_else_if(f, at_reset, is_own);
    for (int lane = 0; lane < LANES; lane++) {
        vast_block then = v_if(f, arm, v_make_index(f, wstrb, lane));
        vast_slice part = v_make_slice(f, word, 8 * lane + 7, 8 * lane);
        v_nonblocking(f, then, part, v_make_slice(f, wdata, 8 * lane + 7, 8 * lane));
    }
}

/* Sets `found` to the word that `place` tells. */
static void find_word(vast_file *f, vast_module m, vast_signal found, vast_signal words, vast_slice place)
{
    vast_block block = v_statement_block(f, v_add_always_comb(f, m));
    vast_case cases = v_block_add_case(f, block, place);
    for (int at = 0; at < NUMBER; at++) {
        vast_block arm = v_case_add_item(f, cases, v_bits(f, 3, (uint64_t)at));
        v_block_add_blocking_assignment(f, arm, found, v_make_index(f, words, at));
    }
    v_block_add_blocking_assignment(f, v_case_add_default(f, cases), found, v_number(f, 0));
}

/* A wire that is `asked` while `busy` is 0 or `heard` is 1. */
static vast_signal taken(vast_file *f, vast_module m, const char *name, vast_expression asked, vast_signal busy,
                         vast_signal heard)
{
    vast_signal wire = v_add_wire(f, m, name, v_make_scalar_type(f));
    v_assign(f, m, wire, v_make_bitwise_and(f, asked, v_make_bitwise_or(f, v_make_not(f, busy), heard)));
    return wire;
}

static void registers(vast_file *f)
{
    const int64_t number = NUMBER;
    vast_module m = v_add_module(f, "registers");
    vast_type bit = v_make_scalar_type(f), word = v_make_bit_vector_type(f, 32, false);
    vast_type place = v_make_bit_vector_type(f, 5, false), strobe = v_make_bit_vector_type(f, LANES, false);
    vast_signal clk = v_add_input(f, m, "clk", bit), rst_n = v_add_input(f, m, "rst_n", bit);
    vast_signal awvalid = v_add_input(f, m, "awvalid", bit), wvalid = v_add_input(f, m, "wvalid", bit);
    vast_signal bready = v_add_input(f, m, "bready", bit), arvalid = v_add_input(f, m, "arvalid", bit);
    vast_signal rready = v_add_input(f, m, "rready", bit), awaddr = v_add_input(f, m, "awaddr", place);
    vast_signal araddr = v_add_input(f, m, "araddr", place), wdata = v_add_input(f, m, "wdata", word);
    vast_signal wstrb = v_add_input(f, m, "wstrb", strobe), awready = v_add_output(f, m, "awready", bit);
    vast_signal wready = v_add_output(f, m, "wready", bit), bvalid = v_add_output(f, m, "bvalid", bit);
    vast_signal arready = v_add_output(f, m, "arready", bit), rvalid = v_add_output(f, m, "rvalid", bit);
    vast_signal rdata = v_add_output(f, m, "rdata", word);
    vast_signal words = v_add_reg(f, m, "words", v_make_unpacked_array_type(f, word, &number, 1));
    vast_signal answered = v_add_logic(f, m, "answered", bit), read = v_add_logic(f, m, "read", bit);
    vast_signal found = v_add_logic(f, m, "found", word), held = v_add_logic(f, m, "held", word);
    vast_signal write = taken(f, m, "write", v_make_bitwise_and(f, awvalid, wvalid), answered, bready);
    vast_signal take = taken(f, m, "take", vast_expression_of(arvalid), read, rready);
    const vast_signal driven[][2] = {{awready, write}, {wready, write}, {bvalid, answered},
                                     {arready, take},  {rvalid, read},  {rdata, held}};
    for (size_t at = 0; at < sizeof driven / sizeof driven[0]; at++)
        v_assign(f, m, driven[at][0], driven[at][1]);
    write_words(f, m, clk, rst_n, words, write, v_make_slice(f, awaddr, 4, 2), wdata, wstrb);
    find_word(f, m, found, words, v_make_slice(f, araddr, 4, 2));
    vast_expression off = v_bits(f, 1, 0), takes = vast_expression_of(take);
    vast_expression answers = v_make_bitwise_or(f, write, v_make_bitwise_and(f, answered, v_make_not(f, bready)));
    vast_expression reads = v_make_bitwise_or(f, take, v_make_bitwise_and(f, read, v_make_not(f, rready)));
    vast_register_definition kept[] = {{vast_expression_of(answered), answers, &off, NULL},
                                       {vast_expression_of(read), reads, &off, NULL},
                                       {vast_expression_of(held), vast_expression_of(found), NULL, &takes}};
    vast_reset reset = {vast_expression_of(rst_n), true};
    v_add_registers(f, clk, &reset, kept, 3, m);
}

int main(void)
{
    return show(registers);
}
