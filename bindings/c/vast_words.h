/* Short words beside the calls by value, each made of some of these, which its body names. */
#ifndef VAST_WORDS_H
#define VAST_WORDS_H

#include "vast_values.h"

#include <inttypes.h>
#include <stdio.h>

/* The literal of a number of so many bits, as `8'd1`. VAST_REFUSED where the bits don't hold it. */
static inline vast_expression v_bits(vast_file *file, int64_t width, uint64_t value)
{
    char text[64];
    snprintf(text, sizeof text, "bits[%" PRId64 "]:%" PRIu64, width, value);
    return v_make_literal(file, text, VAST_LITERAL_FORMAT_UNSIGNED_DECIMAL);
}

/* The number without a width. */
static inline vast_expression v_number(vast_file *file, int32_t value)
{
    return v_make_unsized_decimal_literal(file, value);
}

/* `assign lhs = rhs`, as the module's last member. */
static inline void v_assign(vast_file *file, vast_module owner, vast_expression lhs,
                            vast_expression rhs)
{
    v_add_member_continuous_assignment(file, owner, v_make_continuous_assignment(file, lhs, rhs));
}
#define v_assign(file, owner, lhs, rhs) \
    v_assign(file, owner, vast_expression_of(lhs), vast_expression_of(rhs))

/* `lhs <= rhs`, as the block's last statement. */
static inline void v_nonblocking(vast_file *file, vast_block block, vast_expression lhs,
                                 vast_expression rhs)
{
    v_block_add_nonblocking_assignment(file, block, lhs, rhs);
}
#define v_nonblocking(file, block, lhs, rhs) \
    v_nonblocking(file, block, vast_expression_of(lhs), vast_expression_of(rhs))

/* The block of an `if` without other arms, as the block's last statement. */
static inline vast_block v_if(vast_file *file, vast_block block, vast_expression condition)
{
    return v_conditional_then_block(file, v_block_add_cond(file, block, condition));
}
#define v_if(file, block, condition) v_if(file, block, vast_expression_of(condition))

/* The block of an `always_ff` at an edge, as the module's last member. */
static inline vast_block v_always_ff(vast_file *file, vast_module owner, vast_expression edge)
{
    return v_statement_block(file, v_add_always_ff(file, owner, &edge, 1));
}

#endif
