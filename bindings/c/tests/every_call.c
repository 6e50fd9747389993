/* Makes each call of vast_calls.h packed, and as a line: nothing is at fault, and it is what lists have.
 *
 * Written by tools/bindings_from_calls from the table of calls; not to be edited.
 */
#include "check.h"
#include "vast_calls.h"

typedef struct {
    vast_file file;
    vast_module module;
    vast_function function;
    vast_type type;
    vast_signal signal;
    vast_expression expression;
    vast_indexable indexable;
    vast_slice slice;
    vast_index index;
    vast_instantiation instantiation;
    vast_blank_line blank_line;
    vast_inline_statement inline_statement;
    vast_comment comment;
    vast_macro macro;
    vast_macro_statement macro_statement;
    vast_assignment assignment;
    vast_always always;
    vast_block block;
    vast_statement statement;
    vast_conditional conditional;
    vast_case cases;
    vast_loop loop;
    vast_parameter parameter;
    vast_localparam localparam;
    vast_definition definition;
    vast_type array;
    vast_signal memory;
    bool truth;
    uint64_t natural;
    int64_t integer;
    vast_string text;
    vast_ports ports;
    vast_expression expressions[2];
    const vast_expression *options[2];
    vast_string strings[2];
    int64_t integers[1];
    vast_reset reset;
    vast_register_definition definitions[2];
} answers;

/* Whether the call was written as this line, of a file that keeps lines, or else as these bytes. */
static bool is_written(const answers *have, const char *line, const char *packed, size_t length)
{
    const vast_buffer *lines = &have->file.lines;
    if (!have->file.keeps_lines)
        return lines->length == length && memcmp(lines->bytes, packed, length) == 0;
    size_t first = line[0] == '?', whole = strlen(line); /* the first byte of a question is let go */
    if (lines->length <= whole)
        return false;
    const char *last = lines->bytes + lines->length - whole - 1;
    return memcmp(last + first, line + first, whole - first) == 0 && last[whole] == '\n';
}

/* What calls are given that take more than one thing. */
static void gather(answers *have)
{
    vast_expression signal = vast_expression_of(have->signal);
    have->expressions[0] = signal;
    have->expressions[1] = signal;
    have->options[0] = &have->expressions[0];
    have->options[1] = NULL;
    have->strings[0] = vast_str("first");
    have->strings[1] = vast_str("second");
    have->integers[0] = 2;
    have->reset.signal = signal;
    have->reset.active_low = true;
    have->definitions[0].reg = signal;
    have->definitions[0].next = have->expression;
    have->definitions[0].reset_value = &have->expressions[1];
    have->definitions[0].enable = NULL;
    have->definitions[1] = have->definitions[0];
    have->definitions[1].reset_value = NULL;
    have->definitions[1].enable = &have->expressions[0];
}

static int part_0(answers *have)
{
    CHECK(vast_make_literal(&have->file, vast_str("bits[8]:1"), VAST_LITERAL_FORMAT_UNSIZED_HEX,
                            &have->expression) == VAST_OK);
    CHECK(is_written(have, "MakeLiteral \"bits[8]:1\" UnsizedHex", "\014\001\011bits[8]:1\006",
                           13));
    CHECK(vast_make_bit_vector_type(&have->file, 8, true, &have->type) == VAST_OK);
    CHECK(is_written(have, "MakeBitVectorType 8 true", "\003R\020\001", 4));
    CHECK(vast_add_module(&have->file, vast_str("name_2"), &have->module) == VAST_OK);
    CHECK(is_written(have, "AddModule \"name_2\"", "\0103\006name_2", 9));
    CHECK(vast_add_input(&have->file, have->module, vast_str("name_3"), have->type,
                         &have->signal) == VAST_OK);
    CHECK(is_written(have, "AddInput 2 \"name_3\" 1", "\012C\002\006name_3\001", 11));
    gather(have);
    return 0;
}

static int part_1(answers *have)
{
    CHECK(vast_make_not(&have->file, vast_expression_of(have->signal), NULL) == VAST_OK);
    CHECK(is_written(have, "MakeNot 3", "\002\000\003", 3));
    CHECK(vast_make_bitwise_not(&have->file, vast_expression_of(have->signal), NULL) == VAST_OK);
    CHECK(is_written(have, "MakeBitwiseNot 3", "\002\020\003", 3));
    CHECK(vast_make_negate(&have->file, vast_expression_of(have->signal), NULL) == VAST_OK);
    CHECK(is_written(have, "MakeNegate 3", "\002 \003", 3));
    CHECK(vast_make_logical_not(&have->file, vast_expression_of(have->signal), NULL) == VAST_OK);
    CHECK(is_written(have, "MakeLogicalNot 3", "\0020\003", 3));
    CHECK(vast_make_and_reduce(&have->file, vast_expression_of(have->signal), NULL) == VAST_OK);
    CHECK(is_written(have, "MakeAndReduce 3", "\002@\003", 3));
    CHECK(vast_make_or_reduce(&have->file, vast_expression_of(have->signal), NULL) == VAST_OK);
    CHECK(is_written(have, "MakeOrReduce 3", "\002P\003", 3));
    CHECK(vast_make_xor_reduce(&have->file, vast_expression_of(have->signal), NULL) == VAST_OK);
    CHECK(is_written(have, "MakeXorReduce 3", "\002`\003", 3));
    CHECK(vast_make_add(&have->file, vast_expression_of(have->signal), have->expression,
                        NULL) == VAST_OK);
    CHECK(is_written(have, "MakeAdd 3 0", "\003p\003\000", 4));
    CHECK(vast_make_sub(&have->file, vast_expression_of(have->signal), have->expression,
                        NULL) == VAST_OK);
    CHECK(is_written(have, "MakeSub 3 0", "\004\200\001\003\000", 5));
    CHECK(vast_make_mul(&have->file, vast_expression_of(have->signal), have->expression,
                        NULL) == VAST_OK);
    CHECK(is_written(have, "MakeMul 3 0", "\004\220\001\003\000", 5));
    return 0;
}

static int part_2(answers *have)
{
    CHECK(vast_make_div(&have->file, vast_expression_of(have->signal), have->expression,
                        NULL) == VAST_OK);
    CHECK(is_written(have, "MakeDiv 3 0", "\004\240\001\003\000", 5));
    CHECK(vast_make_mod(&have->file, vast_expression_of(have->signal), have->expression,
                        NULL) == VAST_OK);
    CHECK(is_written(have, "MakeMod 3 0", "\004\260\001\003\000", 5));
    CHECK(vast_make_power(&have->file, vast_expression_of(have->signal), have->expression,
                          NULL) == VAST_OK);
    CHECK(is_written(have, "MakePower 3 0", "\004\300\001\003\000", 5));
    CHECK(vast_make_bitwise_and(&have->file, vast_expression_of(have->signal), have->expression,
                                NULL) == VAST_OK);
    CHECK(is_written(have, "MakeBitwiseAnd 3 0", "\004\320\001\003\000", 5));
    CHECK(vast_make_bitwise_or(&have->file, vast_expression_of(have->signal), have->expression,
                               NULL) == VAST_OK);
    CHECK(is_written(have, "MakeBitwiseOr 3 0", "\004\340\001\003\000", 5));
    CHECK(vast_make_bitwise_xor(&have->file, vast_expression_of(have->signal), have->expression,
                                NULL) == VAST_OK);
    CHECK(is_written(have, "MakeBitwiseXor 3 0", "\004\360\001\003\000", 5));
    CHECK(vast_make_shll(&have->file, vast_expression_of(have->signal), have->expression,
                         NULL) == VAST_OK);
    CHECK(is_written(have, "MakeShll 3 0", "\004\200\002\003\000", 5));
    CHECK(vast_make_shra(&have->file, vast_expression_of(have->signal), have->expression,
                         NULL) == VAST_OK);
    CHECK(is_written(have, "MakeShra 3 0", "\004\220\002\003\000", 5));
    CHECK(vast_make_shrl(&have->file, vast_expression_of(have->signal), have->expression,
                         NULL) == VAST_OK);
    CHECK(is_written(have, "MakeShrl 3 0", "\004\240\002\003\000", 5));
    CHECK(vast_make_ne(&have->file, vast_expression_of(have->signal), have->expression,
                       NULL) == VAST_OK);
    CHECK(is_written(have, "MakeNe 3 0", "\004\260\002\003\000", 5));
    return 0;
}

static int part_3(answers *have)
{
    CHECK(vast_make_case_ne(&have->file, vast_expression_of(have->signal), have->expression,
                            NULL) == VAST_OK);
    CHECK(is_written(have, "MakeCaseNe 3 0", "\004\300\002\003\000", 5));
    CHECK(vast_make_eq(&have->file, vast_expression_of(have->signal), have->expression,
                       NULL) == VAST_OK);
    CHECK(is_written(have, "MakeEq 3 0", "\004\320\002\003\000", 5));
    CHECK(vast_make_case_eq(&have->file, vast_expression_of(have->signal), have->expression,
                            NULL) == VAST_OK);
    CHECK(is_written(have, "MakeCaseEq 3 0", "\004\340\002\003\000", 5));
    CHECK(vast_make_ge(&have->file, vast_expression_of(have->signal), have->expression,
                       NULL) == VAST_OK);
    CHECK(is_written(have, "MakeGe 3 0", "\004\360\002\003\000", 5));
    CHECK(vast_make_gt(&have->file, vast_expression_of(have->signal), have->expression,
                       NULL) == VAST_OK);
    CHECK(is_written(have, "MakeGt 3 0", "\004\200\003\003\000", 5));
    CHECK(vast_make_le(&have->file, vast_expression_of(have->signal), have->expression,
                       NULL) == VAST_OK);
    CHECK(is_written(have, "MakeLe 3 0", "\004\220\003\003\000", 5));
    CHECK(vast_make_lt(&have->file, vast_expression_of(have->signal), have->expression,
                       NULL) == VAST_OK);
    CHECK(is_written(have, "MakeLt 3 0", "\004\240\003\003\000", 5));
    CHECK(vast_make_logical_and(&have->file, vast_expression_of(have->signal), have->expression,
                                NULL) == VAST_OK);
    CHECK(is_written(have, "MakeLogicalAnd 3 0", "\004\260\003\003\000", 5));
    CHECK(vast_make_logical_or(&have->file, vast_expression_of(have->signal), have->expression,
                               NULL) == VAST_OK);
    CHECK(is_written(have, "MakeLogicalOr 3 0", "\004\300\003\003\000", 5));
    CHECK(vast_make_ne_x(&have->file, vast_expression_of(have->signal), have->expression,
                         NULL) == VAST_OK);
    CHECK(is_written(have, "MakeNeX 3 0", "\004\320\003\003\000", 5));
    return 0;
}

static int part_4(answers *have)
{
    CHECK(vast_make_eq_x(&have->file, vast_expression_of(have->signal), have->expression,
                         NULL) == VAST_OK);
    CHECK(is_written(have, "MakeEqX 3 0", "\004\340\003\003\000", 5));
    CHECK(vast_make_binary_pattern(&have->file, vast_str("1?0"), NULL) == VAST_OK);
    CHECK(is_written(have, "MakeBinaryPattern \"1?0\"", "\005\021\0031\0770", 6));
    CHECK(vast_make_unsized_decimal_literal(&have->file, INT32_MIN, NULL) == VAST_OK);
    CHECK(is_written(have, "MakeUnsizedDecimalLiteral -2147483648", "\006!\377\377\377\377\017",
                           7));
    CHECK(vast_make_string_literal(&have->file, vast_str("\"a\\b\"\n\tc\r"), NULL) == VAST_OK);
    CHECK(is_written(have, "MakeStringLiteral \"\\\"a\\\\b\\\"\\n\tc\\r\"",
                           "\0131\011\042a\134b\042\012\011c\015", 12));
    CHECK(vast_make_unsized_one_literal(&have->file, NULL) == VAST_OK);
    CHECK(is_written(have, "MakeUnsizedOneLiteral", "\001A", 2));
    CHECK(vast_make_unsized_zero_literal(&have->file, NULL) == VAST_OK);
    CHECK(is_written(have, "MakeUnsizedZeroLiteral", "\001Q", 2));
    CHECK(vast_make_unsized_x_literal(&have->file, NULL) == VAST_OK);
    CHECK(is_written(have, "MakeUnsizedXLiteral", "\001a", 2));
    CHECK(vast_make_name(&have->file, vast_str("name_41"), NULL) == VAST_OK);
    CHECK(is_written(have, "MakeName \"name_41\"", "\011q\007name_41", 10));
    CHECK(vast_make_indexable_expression(&have->file, vast_expression_of(have->signal),
                                         &have->indexable) == VAST_OK);
    CHECK(is_written(have, "MakeIndexableExpression 3", "\003\201\001\003", 4));
    CHECK(vast_make_slice(&have->file, vast_indexable_of(have->signal), 3, 2,
                          &have->slice) == VAST_OK);
    CHECK(is_written(have, "MakeSlice 3 3 2", "\005\221\001\003\006\004", 6));
    return 0;
}

static int part_5(answers *have)
{
    CHECK(vast_make_index(&have->file, vast_indexable_of(have->signal), 2,
                          &have->index) == VAST_OK);
    CHECK(is_written(have, "MakeIndex 3 2", "\004\241\001\003\004", 5));
    CHECK(vast_make_slice_expr(&have->file, vast_indexable_of(have->signal),
                               vast_expression_of(have->signal), have->expression,
                               NULL) == VAST_OK);
    CHECK(is_written(have, "MakeSliceExpr 3 3 0", "\005\261\001\003\003\000", 6));
    CHECK(vast_make_index_expr(&have->file, vast_indexable_of(have->signal),
                               vast_expression_of(have->signal), NULL) == VAST_OK);
    CHECK(is_written(have, "MakeIndexExpr 3 3", "\004\301\001\003\003", 5));
    CHECK(vast_make_indexed_part_select(&have->file, vast_indexable_of(have->signal),
                                        vast_expression_of(have->signal), 1, NULL) == VAST_OK);
    CHECK(is_written(have, "MakeIndexedPartSelect 3 3 1", "\005\321\001\003\003\002", 6));
    CHECK(vast_make_function_call(&have->file, vast_str("name_48"), have->expressions, 2,
                                  NULL) == VAST_OK);
    CHECK(is_written(have, "MakeFunctionCall \"name_48\" [ 3 3 ]",
                           "\015\341\001\007name_48\002\003\003", 14));
    CHECK(vast_make_concat(&have->file, have->expressions, 2, NULL) == VAST_OK);
    CHECK(is_written(have, "MakeConcat [ 3 3 ]", "\005\361\001\002\003\003", 6));
    CHECK(vast_make_replicated_concat(&have->file, vast_expression_of(have->signal),
                                      have->expressions, 2, NULL) == VAST_OK);
    CHECK(is_written(have, "MakeReplicatedConcat 3 [ 3 3 ]", "\006\201\002\003\002\003\003", 7));
    CHECK(vast_make_replicated_concat_i64(&have->file, -2, have->expressions, 2, NULL) == VAST_OK);
    CHECK(is_written(have, "MakeReplicatedConcatI64 -2 [ 3 3 ]", "\006\221\002\003\002\003\003",
                           7));
    CHECK(vast_make_array_assignment_pattern(&have->file, have->expressions, 2, NULL) == VAST_OK);
    CHECK(is_written(have, "MakeArrayAssignmentPattern [ 3 3 ]", "\005\241\002\002\003\003", 6));
    CHECK(vast_make_ternary(&have->file, vast_expression_of(have->signal), have->expression,
                            vast_expression_of(have->signal), NULL) == VAST_OK);
    CHECK(is_written(have, "MakeTernary 3 0 3", "\005\261\002\003\000\003", 6));
    return 0;
}

static int part_6(answers *have)
{
    CHECK(vast_make_width_cast(&have->file, vast_expression_of(have->signal), have->expression,
                               NULL) == VAST_OK);
    CHECK(is_written(have, "MakeWidthCast 3 0", "\004\301\002\003\000", 5));
    CHECK(vast_make_type_cast(&have->file, have->type, vast_expression_of(have->signal),
                              NULL) == VAST_OK);
    CHECK(is_written(have, "MakeTypeCast 1 3", "\004\321\002\001\003", 5));
    CHECK(vast_make_pos_edge(&have->file, vast_expression_of(have->signal), NULL) == VAST_OK);
    CHECK(is_written(have, "MakePosEdge 3", "\003\341\002\003", 4));
    CHECK(vast_make_neg_edge(&have->file, vast_expression_of(have->signal), NULL) == VAST_OK);
    CHECK(is_written(have, "MakeNegEdge 3", "\003\361\002\003", 4));
    CHECK(vast_make_macro_ref(&have->file, vast_str("name_58"), &have->macro) == VAST_OK);
    CHECK(is_written(have, "MakeMacroRef \"name_58\"", "\012\201\003\007name_58", 11));
    CHECK(vast_make_macro_ref_with_args(&have->file, vast_str("name_59"), have->expressions, 2,
                                        NULL) == VAST_OK);
    CHECK(is_written(have, "MakeMacroRefWithArgs \"name_59\" [ 3 3 ]",
                           "\015\221\003\007name_59\002\003\003", 14));
    CHECK(vast_make_member(&have->file, vast_expression_of(have->signal), vast_str("field_60"),
                           NULL) == VAST_OK);
    CHECK(is_written(have, "MakeMember 3 \"field_60\"", "\014\241\003\003\010field_60", 13));
    CHECK(vast_make_scalar_type(&have->file, NULL) == VAST_OK);
    CHECK(is_written(have, "MakeScalarType", "\001\002", 2));
    CHECK(vast_make_integer_type(&have->file, true, NULL) == VAST_OK);
    CHECK(is_written(have, "MakeIntegerType true", "\002\022\001", 3));
    CHECK(vast_make_int_type(&have->file, true, NULL) == VAST_OK);
    CHECK(is_written(have, "MakeIntType true", "\002\042\001", 3));
    return 0;
}

static int part_7(answers *have)
{
    CHECK(vast_make_extern_type(&have->file, vast_str("name_64"), NULL) == VAST_OK);
    CHECK(is_written(have, "MakeExternType \"name_64\"", "\0112\007name_64", 10));
    CHECK(vast_make_extern_package_type(&have->file, vast_str("package_name_65"),
                                        vast_str("name_65"), NULL) == VAST_OK);
    CHECK(is_written(have, "MakeExternPackageType \"package_name_65\" \"name_65\"",
                           "\031B\017package_name_65\007name_65", 26));
    CHECK(vast_make_bit_vector_type_expr(&have->file, vast_expression_of(have->signal), true,
                                         NULL) == VAST_OK);
    CHECK(is_written(have, "MakeBitVectorTypeExpr 3 true", "\003b\003\001", 4));
    CHECK(vast_make_packed_array_type(&have->file, have->type, have->integers, 1,
                                      &have->array) == VAST_OK);
    CHECK(is_written(have, "MakePackedArrayType 1 [ 2 ]", "\004r\001\001\004", 5));
    CHECK(vast_make_unpacked_array_type(&have->file, have->type, have->integers, 1,
                                        NULL) == VAST_OK);
    CHECK(is_written(have, "MakeUnpackedArrayType 1 [ 2 ]", "\005\202\001\001\001\004", 6));
    CHECK(vast_make_packed_array_type_expr(&have->file, have->type, have->expressions, 2,
                                           NULL) == VAST_OK);
    CHECK(is_written(have, "MakePackedArrayTypeExpr 1 [ 3 3 ]", "\006\222\001\001\002\003\003", 7));
    CHECK(vast_make_unpacked_array_type_expr(&have->file, have->type, have->expressions, 2,
                                             NULL) == VAST_OK);
    CHECK(is_written(have, "MakeUnpackedArrayTypeExpr 1 [ 3 3 ]", "\006\242\001\001\002\003\003",
                           7));
    CHECK(vast_add_include(&have->file, vast_str("defs.svh")) == VAST_OK);
    CHECK(is_written(have, "AddInclude \"defs.svh\"", "\012\003\010defs.svh", 11));
    CHECK(vast_add_comment_text(&have->file, vast_str("text_72")) == VAST_OK);
    CHECK(is_written(have, "AddCommentText \"text_72\"", "\011#\007text_72", 10));
    CHECK(vast_add_output(&have->file, have->module, vast_str("name_73"), have->type,
                          NULL) == VAST_OK);
    CHECK(is_written(have, "AddOutput 2 \"name_73\" 1", "\013S\002\007name_73\001", 12));
    return 0;
}

static int part_8(answers *have)
{
    CHECK(vast_add_inout(&have->file, have->module, vast_str("name_74"), have->type,
                         NULL) == VAST_OK);
    CHECK(is_written(have, "AddInout 2 \"name_74\" 1", "\013c\002\007name_74\001", 12));
    CHECK(vast_add_logic_input(&have->file, have->module, vast_str("name_75"), have->type,
                               NULL) == VAST_OK);
    CHECK(is_written(have, "AddLogicInput 2 \"name_75\" 1", "\013s\002\007name_75\001", 12));
    CHECK(vast_add_logic_output(&have->file, have->module, vast_str("name_76"), have->type,
                                NULL) == VAST_OK);
    CHECK(is_written(have, "AddLogicOutput 2 \"name_76\" 1", "\014\203\001\002\007name_76\001",
                           13));
    CHECK(vast_add_wire(&have->file, have->module, vast_str("name_77"), have->type,
                        NULL) == VAST_OK);
    CHECK(is_written(have, "AddWire 2 \"name_77\" 1", "\014\223\001\002\007name_77\001", 13));
    CHECK(vast_add_reg(&have->file, have->module, vast_str("name_78"), have->array,
                       &have->memory) == VAST_OK);
    CHECK(is_written(have, "AddReg 2 \"name_78\" 67", "\014\243\001\002\007name_78C", 13));
    CHECK(vast_add_logic(&have->file, have->module, vast_str("name_79"), have->type,
                         NULL) == VAST_OK);
    CHECK(is_written(have, "AddLogic 2 \"name_79\" 1", "\014\263\001\002\007name_79\001", 13));
    CHECK(vast_add_parameter_port(&have->file, have->module, vast_str("name_80"),
                                  vast_expression_of(have->signal), NULL) == VAST_OK);
    CHECK(is_written(have, "AddParameterPort 2 \"name_80\" 3", "\014\303\001\002\007name_80\003",
                           13));
    CHECK(vast_add_typed_parameter_port(&have->file, have->module, vast_str("name_81"), have->type,
                                        vast_expression_of(have->signal), NULL) == VAST_OK);
    CHECK(is_written(have, "AddTypedParameterPort 2 \"name_81\" 1 3",
                           "\015\323\001\002\007name_81\001\003", 14));
    CHECK(vast_add_parameter(&have->file, have->module, vast_str("name_82"),
                             vast_expression_of(have->signal), &have->parameter) == VAST_OK);
    CHECK(is_written(have, "AddParameter 2 \"name_82\" 3", "\014\343\001\002\007name_82\003", 13));
    CHECK(vast_add_localparam(&have->file, have->module, vast_str("name_83"),
                              vast_expression_of(have->signal), &have->localparam) == VAST_OK);
    CHECK(is_written(have, "AddLocalparam 2 \"name_83\" 3", "\014\203\002\002\007name_83\003", 13));
    return 0;
}

static int part_9(answers *have)
{
    CHECK(vast_add_int_localparam(&have->file, have->module, vast_str("name_84"),
                                  vast_expression_of(have->signal), NULL) == VAST_OK);
    CHECK(is_written(have, "AddIntLocalparam 2 \"name_84\" 3", "\014\223\002\002\007name_84\003",
                           13));
    CHECK(vast_hoist_module_declarations(&have->file, have->module, 0) == VAST_OK);
    CHECK(is_written(have, "HoistModuleDeclarations 2 0", "\004\263\002\002\000", 5));
    CHECK(vast_add_import(&have->file, have->module, vast_str("package_86")) == VAST_OK);
    CHECK(is_written(have, "AddImport 2 \"package_86\"", "\016\303\002\002\012package_86", 15));
    CHECK(vast_add_file_import(&have->file, vast_str("package_87")) == VAST_OK);
    CHECK(is_written(have, "AddFileImport \"package_87\"", "\015\323\002\012package_87", 14));
    CHECK(vast_add_enum_typedef(&have->file, have->module, vast_str("name_88"), have->type,
                                have->strings, 2, have->options, 2, NULL) == VAST_OK);
    CHECK(is_written(have, "AddEnumTypedef 2 \"name_88\" 1 [ \"first\" \"second\" ] [ + 3 - ]",
                           "\036\343\002\002\007name_88\001\002\005first\006second\002\001\003\000",
                           31));
    CHECK(vast_add_file_enum_typedef(&have->file, vast_str("name_89"), have->type, have->strings, 2,
                                     have->options, 2, NULL) == VAST_OK);
    CHECK(is_written(have, "AddFileEnumTypedef \"name_89\" 1 [ \"first\" \"second\" ] [ + 3 - ]",
                           "\035\203\003\007name_89\001\002\005first\006second\002\001\003\000",
                           30));
    CHECK(vast_add_variable(&have->file, have->module, vast_str("name_90"), have->type,
                            NULL) == VAST_OK);
    CHECK(is_written(have, "AddVariable 2 \"name_90\" 1", "\014\243\003\002\007name_90\001", 13));
    CHECK(vast_add_generate_loop(&have->file, have->module, vast_str("name_91"),
                                 vast_expression_of(have->signal), have->expression,
                                 vast_str("label"), &have->loop) == VAST_OK);
    CHECK(is_written(have, "AddGenerateLoop 2 \"name_91\" 3 0 + \"label\"",
                           "\023\004\002\007name_91\003\000\001\005label", 20));
    CHECK(vast_generate_add_generate_loop(&have->file, have->loop, vast_str("name_92"),
                                          vast_expression_of(have->signal), have->expression,
                                          vast_str("label"), NULL) == VAST_OK);
    CHECK(is_written(have, "GenerateAddGenerateLoop 91 \"name_92\" 3 0 + \"label\"",
                           "\023\024[\007name_92\003\000\001\005label", 20));
    CHECK(vast_generate_genvar(&have->file, have->loop, NULL) == VAST_OK);
    CHECK(is_written(have, "GenerateGenvar 91", "\002$[", 3));
    return 0;
}

static int part_10(answers *have)
{
    CHECK(vast_generate_add_always_comb(&have->file, have->loop, &have->always) == VAST_OK);
    CHECK(is_written(have, "GenerateAddAlwaysComb 91", "\0024[", 3));
    CHECK(vast_generate_add_always_ff(&have->file, have->loop, have->expressions, 2,
                                      NULL) == VAST_OK);
    CHECK(is_written(have, "GenerateAddAlwaysFf 91 [ 3 3 ]", "\005D[\002\003\003", 6));
    CHECK(vast_generate_add_always_at(&have->file, have->loop, have->expressions, 2,
                                      NULL) == VAST_OK);
    CHECK(is_written(have, "GenerateAddAlwaysAt 91 [ 3 3 ]", "\005T[\002\003\003", 6));
    CHECK(vast_generate_add_localparam(&have->file, have->loop, vast_str("name_97"),
                                       vast_expression_of(have->signal), NULL) == VAST_OK);
    CHECK(is_written(have, "GenerateAddLocalparam 91 \"name_97\" 3", "\013d[\007name_97\003", 12));
    CHECK(vast_generate_add_continuous_assignment(&have->file, have->loop,
                                                  vast_expression_of(have->signal),
                                                  have->expression, &have->statement) == VAST_OK);
    CHECK(is_written(have, "GenerateAddContinuousAssignment 91 3 0", "\005\204\001[\003\000", 6));
    CHECK(vast_generate_add_conditional(&have->file, have->loop, vast_expression_of(have->signal),
                                        &have->conditional) == VAST_OK);
    CHECK(is_written(have, "GenerateAddConditional 91 3", "\004\224\001[\003", 5));
    CHECK(vast_generate_add_blank_line(&have->file, have->loop) == VAST_OK);
    CHECK(is_written(have, "GenerateAddBlankLine 91", "\003\244\001[", 4));
    CHECK(vast_generate_add_always_star(&have->file, have->loop, NULL) == VAST_OK);
    CHECK(is_written(have, "GenerateAddAlwaysStar 91", "\003\364\001[", 4));
    CHECK(vast_generate_add_always_latch(&have->file, have->loop, NULL) == VAST_OK);
    CHECK(is_written(have, "GenerateAddAlwaysLatch 91", "\003\204\002[", 4));
    CHECK(vast_generate_add_initial(&have->file, have->loop, NULL) == VAST_OK);
    CHECK(is_written(have, "GenerateAddInitial 91", "\003\224\002[", 4));
    return 0;
}

static int part_11(answers *have)
{
    CHECK(vast_add_function(&have->file, have->module, vast_str("name_104"), have->type,
                            &have->function) == VAST_OK);
    CHECK(is_written(have, "AddFunction 2 \"name_104\" 1", "\014\005\002\010name_104\001", 13));
    CHECK(vast_function_add_input(&have->file, have->function, vast_str("name_105"), have->type,
                                  NULL) == VAST_OK);
    CHECK(is_written(have, "FunctionAddInput 104 \"name_105\" 1", "\014\025h\010name_105\001", 13));
    CHECK(vast_function_add_logic_input(&have->file, have->function, vast_str("name_106"),
                                        have->type, NULL) == VAST_OK);
    CHECK(is_written(have, "FunctionAddLogicInput 104 \"name_106\" 1", "\014%h\010name_106\001",
                           13));
    CHECK(vast_function_add_reg(&have->file, have->function, vast_str("name_107"), have->type,
                                NULL) == VAST_OK);
    CHECK(is_written(have, "FunctionAddReg 104 \"name_107\" 1", "\0145h\010name_107\001", 13));
    CHECK(vast_function_add_logic(&have->file, have->function, vast_str("name_108"), have->type,
                                  NULL) == VAST_OK);
    CHECK(is_written(have, "FunctionAddLogic 104 \"name_108\" 1", "\014Eh\010name_108\001", 13));
    CHECK(vast_function_body(&have->file, have->function, &have->block) == VAST_OK);
    CHECK(is_written(have, "FunctionBody 104", "\002Uh", 3));
    CHECK(vast_function_result(&have->file, have->function, NULL) == VAST_OK);
    CHECK(is_written(have, "FunctionResult 104", "\002eh", 3));
    CHECK(vast_add_always_ff(&have->file, have->module, have->expressions, 2, NULL) == VAST_OK);
    CHECK(is_written(have, "AddAlwaysFf 2 [ 3 3 ]", "\005u\002\002\003\003", 6));
    CHECK(vast_add_always_at(&have->file, have->module, have->expressions, 2, NULL) == VAST_OK);
    CHECK(is_written(have, "AddAlwaysAt 2 [ 3 3 ]", "\006\205\001\002\002\003\003", 7));
    CHECK(vast_add_always_comb(&have->file, have->module, NULL) == VAST_OK);
    CHECK(is_written(have, "AddAlwaysComb 2", "\003\225\001\002", 4));
    return 0;
}

static int part_12(answers *have)
{
    CHECK(vast_statement_block(&have->file, have->always, NULL) == VAST_OK);
    CHECK(is_written(have, "StatementBlock 94", "\003\245\001^", 4));
    CHECK(vast_block_add_blocking_assignment(&have->file, have->block,
                                             vast_expression_of(have->signal), have->expression,
                                             NULL) == VAST_OK);
    CHECK(is_written(have, "BlockAddBlockingAssignment 109 3 0", "\005\265\001m\003\000", 6));
    CHECK(vast_block_add_nonblocking_assignment(&have->file, have->block,
                                                vast_expression_of(have->signal), have->expression,
                                                NULL) == VAST_OK);
    CHECK(is_written(have, "BlockAddNonblockingAssignment 109 3 0", "\005\305\001m\003\000", 6));
    CHECK(vast_block_add_continuous_assignment(&have->file, have->block,
                                               vast_expression_of(have->signal), have->expression,
                                               NULL) == VAST_OK);
    CHECK(is_written(have, "BlockAddContinuousAssignment 109 3 0", "\005\325\001m\003\000", 6));
    CHECK(vast_block_add_comment_text(&have->file, have->block, vast_str("text_118")) == VAST_OK);
    CHECK(is_written(have, "BlockAddCommentText 109 \"text_118\"", "\014\345\001m\010text_118",
                           13));
    CHECK(vast_block_add_inline_text(&have->file, have->block, vast_str("text_119")) == VAST_OK);
    CHECK(is_written(have, "BlockAddInlineText 109 \"text_119\"", "\014\365\001m\010text_119", 13));
    CHECK(vast_block_add_blank_line(&have->file, have->block) == VAST_OK);
    CHECK(is_written(have, "BlockAddBlankLine 109", "\003\205\002m", 4));
    CHECK(vast_add_conditional(&have->file, have->module, vast_expression_of(have->signal),
                               NULL) == VAST_OK);
    CHECK(is_written(have, "AddConditional 2 3", "\004\225\002\002\003", 5));
    CHECK(vast_block_add_cond(&have->file, have->block, vast_expression_of(have->signal),
                              NULL) == VAST_OK);
    CHECK(is_written(have, "BlockAddCond 109 3", "\004\245\002m\003", 5));
    CHECK(vast_conditional_then_block(&have->file, have->conditional, NULL) == VAST_OK);
    CHECK(is_written(have, "ConditionalThenBlock 99", "\003\265\002c", 4));
    return 0;
}

static int part_13(answers *have)
{
    CHECK(vast_conditional_add_else_if(&have->file, have->conditional,
                                       vast_expression_of(have->signal), NULL) == VAST_OK);
    CHECK(is_written(have, "ConditionalAddElseIf 99 3", "\004\305\002c\003", 5));
    CHECK(vast_conditional_add_else(&have->file, have->conditional, NULL) == VAST_OK);
    CHECK(is_written(have, "ConditionalAddElse 99", "\003\325\002c", 4));
    CHECK(vast_block_add_case(&have->file, have->block, vast_expression_of(have->signal),
                              &have->cases) == VAST_OK);
    CHECK(is_written(have, "BlockAddCase 109 3", "\004\345\002m\003", 5));
    CHECK(vast_block_add_casez(&have->file, have->block, vast_expression_of(have->signal),
                               NULL) == VAST_OK);
    CHECK(is_written(have, "BlockAddCasez 109 3", "\004\365\002m\003", 5));
    CHECK(vast_block_add_casex(&have->file, have->block, vast_expression_of(have->signal),
                               NULL) == VAST_OK);
    CHECK(is_written(have, "BlockAddCasex 109 3", "\004\205\003m\003", 5));
    CHECK(vast_case_add_item(&have->file, have->cases, vast_expression_of(have->signal),
                             NULL) == VAST_OK);
    CHECK(is_written(have, "CaseAddItem 126 3", "\004\225\003~\003", 5));
    CHECK(vast_case_add_default(&have->file, have->cases, NULL) == VAST_OK);
    CHECK(is_written(have, "CaseAddDefault 126", "\003\245\003~", 4));
    CHECK(vast_case_set_unique(&have->file, have->cases, true) == VAST_OK);
    CHECK(is_written(have, "CaseSetUnique 126 true", "\004\265\003~\001", 5));
    CHECK(vast_add_always_star(&have->file, have->module, NULL) == VAST_OK);
    CHECK(is_written(have, "AddAlwaysStar 2", "\003\305\003\002", 4));
    CHECK(vast_add_always_latch(&have->file, have->module, NULL) == VAST_OK);
    CHECK(is_written(have, "AddAlwaysLatch 2", "\003\325\003\002", 4));
    return 0;
}

static int part_14(answers *have)
{
    CHECK(vast_add_initial(&have->file, have->module, NULL) == VAST_OK);
    CHECK(is_written(have, "AddInitial 2", "\003\345\003\002", 4));
    CHECK(vast_block_add_task_call(&have->file, have->block,
                                   vast_expression_of(have->signal)) == VAST_OK);
    CHECK(is_written(have, "BlockAddTaskCall 109 3", "\004\365\003m\003", 5));
    CHECK(vast_block_add_for(&have->file, have->block, vast_str("name_136"),
                             vast_expression_of(have->signal), have->expression, NULL) == VAST_OK);
    CHECK(is_written(have, "BlockAddFor 109 \"name_136\" 3 0", "\016\205\004m\010name_136\003\000",
                           15));
    CHECK(vast_make_def(&have->file, vast_str("name_137"), VAST_DATA_KIND_GENVAR, have->type,
                        &have->definition) == VAST_OK);
    CHECK(is_written(have, "MakeDef \"name_137\" Genvar 1", "\014\006\010name_137\007\001", 13));
    CHECK(vast_add_parameter_with_def(&have->file, have->module, have->definition,
                                      vast_expression_of(have->signal), NULL) == VAST_OK);
    CHECK(is_written(have, "AddParameterWithDef 2 137 3", "\006\363\001\002\211\001\003", 7));
    CHECK(vast_add_typed_localparam(&have->file, have->module, have->definition,
                                    vast_expression_of(have->signal), NULL) == VAST_OK);
    CHECK(is_written(have, "AddTypedLocalparam 2 137 3", "\006\243\002\002\211\001\003", 7));
    CHECK(vast_add_struct_typedef(&have->file, have->module, vast_str("name_140"),
                                  &have->definition, 1, NULL) == VAST_OK);
    CHECK(is_written(have, "AddStructTypedef 2 \"name_140\" [ 137 ]",
                           "\017\363\002\002\010name_140\001\211\001", 16));
    CHECK(vast_add_file_struct_typedef(&have->file, vast_str("name_141"), &have->definition, 1,
                                       NULL) == VAST_OK);
    CHECK(is_written(have, "AddFileStructTypedef \"name_141\" [ 137 ]",
                           "\016\223\003\010name_141\001\211\001", 15));
    CHECK(vast_generate_add_typed_localparam(&have->file, have->loop, have->definition,
                                             vast_expression_of(have->signal), NULL) == VAST_OK);
    CHECK(is_written(have, "GenerateAddTypedLocalparam 91 137 3", "\005t[\211\001\003", 6));
    CHECK(vast_make_blank_line(&have->file, &have->blank_line) == VAST_OK);
    CHECK(is_written(have, "MakeBlankLine", "\001\026", 2));
    return 0;
}

static int part_15(answers *have)
{
    CHECK(vast_add_blank_line(&have->file, have->blank_line) == VAST_OK);
    CHECK(is_written(have, "AddBlankLine 143", "\003\023\217\001", 4));
    CHECK(vast_make_comment(&have->file, vast_str("text_145"), &have->comment) == VAST_OK);
    CHECK(is_written(have, "MakeComment \"text_145\"", "\012&\010text_145", 11));
    CHECK(vast_generate_add_comment(&have->file, have->loop, have->comment) == VAST_OK);
    CHECK(is_written(have, "GenerateAddComment 91 145", "\005\264\001[\221\001", 6));
    CHECK(vast_make_inline_verilog_statement(&have->file, vast_str("text_147"),
                                             &have->inline_statement) == VAST_OK);
    CHECK(is_written(have, "MakeInlineVerilogStatement \"text_147\"", "\0126\010text_147", 11));
    CHECK(vast_generate_add_inline_statement(&have->file, have->loop,
                                             have->inline_statement) == VAST_OK);
    CHECK(is_written(have, "GenerateAddInlineStatement 91 147", "\005\324\001[\223\001", 6));
    CHECK(vast_make_macro_statement(&have->file, have->macro, true,
                                    &have->macro_statement) == VAST_OK);
    CHECK(is_written(have, "MakeMacroStatement 58 true", "\003F:\001", 4));
    CHECK(vast_generate_add_macro_statement(&have->file, have->loop,
                                            have->macro_statement) == VAST_OK);
    CHECK(is_written(have, "GenerateAddMacroStatement 91 149", "\005\344\001[\225\001", 6));
    CHECK(vast_make_continuous_assignment(&have->file, vast_expression_of(have->signal),
                                          have->expression, &have->assignment) == VAST_OK);
    CHECK(is_written(have, "MakeContinuousAssignment 3 0", "\003V\003\000", 4));
    CHECK(vast_make_nonblocking_assignment(&have->file, vast_expression_of(have->signal),
                                           have->expression, NULL) == VAST_OK);
    CHECK(is_written(have, "MakeNonblockingAssignment 3 0", "\003f\003\000", 4));
    CHECK(vast_make_blocking_assignment(&have->file, vast_expression_of(have->signal),
                                        have->expression, NULL) == VAST_OK);
    CHECK(is_written(have, "MakeBlockingAssignment 3 0", "\003v\003\000", 4));
    return 0;
}

static int part_16(answers *have)
{
    CHECK(vast_make_instantiation(&have->file, vast_str("module_name_154"),
                                  vast_str("instance_name_154"), have->strings, 2,
                                  have->expressions, 2, have->strings, 2, have->options, 2,
                                  &have->instantiation) == VAST_OK);
    CHECK(is_written(have,
                           "MakeInstantiation \"module_name_154\" \"instance_name_154\" [ \"first\" \"second\" ] [ 3 3 ] [ \"first\" \"second\" ] [ + 3 - ]",
                           "G\206\001\017module_name_154\021instance_name_154\002\005first\006second\002\003\003\002\005first\006second\002\001\003\000",
                           72));
    CHECK(vast_generate_add_instantiation(&have->file, have->loop, have->instantiation) == VAST_OK);
    CHECK(is_written(have, "GenerateAddInstantiation 91 154", "\005\304\001[\232\001", 6));
    CHECK(vast_add_member_instantiation(&have->file, have->module, have->instantiation) == VAST_OK);
    CHECK(is_written(have, "AddMemberInstantiation 2 154", "\005\226\001\002\232\001", 6));
    CHECK(vast_add_member_continuous_assignment(&have->file, have->module,
                                                have->assignment) == VAST_OK);
    CHECK(is_written(have, "AddMemberContinuousAssignment 2 151", "\005\246\001\002\227\001", 6));
    CHECK(vast_add_member_blank_line(&have->file, have->module, have->blank_line) == VAST_OK);
    CHECK(is_written(have, "AddMemberBlankLine 2 143", "\005\266\001\002\217\001", 6));
    CHECK(vast_add_member_comment(&have->file, have->module, have->comment) == VAST_OK);
    CHECK(is_written(have, "AddMemberComment 2 145", "\005\306\001\002\221\001", 6));
    CHECK(vast_add_member_inline_statement(&have->file, have->module,
                                           have->inline_statement) == VAST_OK);
    CHECK(is_written(have, "AddMemberInlineStatement 2 147", "\005\326\001\002\223\001", 6));
    CHECK(vast_add_member_macro_statement(&have->file, have->module,
                                          have->macro_statement) == VAST_OK);
    CHECK(is_written(have, "AddMemberMacroStatement 2 149", "\005\346\001\002\225\001", 6));
    CHECK(vast_conditional_has_else(&have->file, have->conditional, &have->truth) == VAST_OK);
    CHECK(is_written(have, "?ConditionalHasElse 99", "\002\007c", 3));
    CHECK(vast_emit_expression(&have->file, vast_expression_of(have->signal),
                               &have->text) == VAST_OK);
    CHECK(is_written(have, "?EmitExpression 3", "\002'\003", 3));
    return 0;
}

static int part_17(answers *have)
{
    CHECK(vast_file_is_plain(&have->file, &have->truth) == VAST_OK);
    CHECK(is_written(have, "?FileIsPlain", "\0017", 2));
    CHECK(vast_is_system_verilog_keyword(&have->file, vast_str("identifier_165"),
                                         &have->truth) == VAST_OK);
    CHECK(is_written(have, "?IsSystemVerilogKeyword \"identifier_165\"", "\020G\016identifier_165",
                           17));
    CHECK(vast_logic_ref_name(&have->file, have->signal, &have->text) == VAST_OK);
    CHECK(is_written(have, "?LogicRefName 3", "\002W\003", 3));
    CHECK(vast_module_input_ports(&have->file, have->module, &have->ports) == VAST_OK);
    CHECK(is_written(have, "?ModuleInputPorts 2", "\002g\002", 3));
    CHECK(vast_module_member_count(&have->file, have->module, &have->natural) == VAST_OK);
    CHECK(is_written(have, "?ModuleMemberCount 2", "\002w\002", 3));
    CHECK(vast_module_name(&have->file, have->module, &have->text) == VAST_OK);
    CHECK(is_written(have, "?ModuleName 2", "\003\207\001\002", 4));
    CHECK(vast_module_output_ports(&have->file, have->module, &have->ports) == VAST_OK);
    CHECK(is_written(have, "?ModuleOutputPorts 2", "\003\227\001\002", 4));
    CHECK(vast_module_ports(&have->file, have->module, &have->ports) == VAST_OK);
    CHECK(is_written(have, "?ModulePorts 2", "\003\247\001\002", 4));
    CHECK(vast_name_is_free(&have->file, have->module, vast_str("name_172"),
                            &have->truth) == VAST_OK);
    CHECK(is_written(have, "?NameIsFree 2 \"name_172\"", "\014\267\001\002\010name_172", 13));
    CHECK(vast_type_can_be_cast(&have->file, have->type, &have->truth) == VAST_OK);
    CHECK(is_written(have, "?TypeCanBeCast 1", "\003\307\001\001", 4));
    return 0;
}

static int part_18(answers *have)
{
    CHECK(vast_type_can_be_packed(&have->file, have->type, &have->truth) == VAST_OK);
    CHECK(is_written(have, "?TypeCanBePacked 1", "\003\327\001\001", 4));
    CHECK(vast_type_flat_bit_count_as_int64(&have->file, have->type, &have->integer) == VAST_OK);
    CHECK(is_written(have, "?TypeFlatBitCountAsInt64 1", "\003\347\001\001", 4));
    CHECK(vast_type_is_signed(&have->file, have->type, &have->truth) == VAST_OK);
    CHECK(is_written(have, "?TypeIsSigned 1", "\003\367\001\001", 4));
    CHECK(vast_type_width_as_int64(&have->file, have->type, &have->integer) == VAST_OK);
    CHECK(is_written(have, "?TypeWidthAsInt64 1", "\003\207\002\001", 4));
    CHECK(vast_type_width_expr(&have->file, have->type, &have->text) == VAST_OK);
    CHECK(is_written(have, "?TypeWidthExpr 1", "\003\227\002\001", 4));
    CHECK(vast_width_is_usable(&have->file, vast_expression_of(have->signal),
                               &have->truth) == VAST_OK);
    CHECK(is_written(have, "?WidthIsUsable 3", "\003\247\002\003", 4));
    CHECK(vast_add_registers(&have->file, vast_expression_of(have->signal), &have->reset,
                             have->definitions, 2, vast_scope_of(have->loop)) == VAST_OK);
    CHECK(is_written(have, "!AddRegisters 3 + [ 3 true ] [ [ 3 0 + 3 - ] [ 3 0 - + 3 ] ] 91",
                           "\021\010\003\001\003\001\002\003\000\001\003\000\003\000\000\001\003[",
                           18));
    CHECK(vast_bitwise_or_reduce(&have->file, have->expressions, 2, NULL) == VAST_OK);
    CHECK(is_written(have, "!BitwiseOrReduce [ 3 3 ]", "\004\030\002\003\003", 5));
    CHECK(vast_bitwise_or_reduce_array_elements(&have->file, vast_indexable_of(have->memory),
                                                have->integers, 1, NULL) == VAST_OK);
    CHECK(is_written(have, "!BitwiseOrReduceArrayElements 78 [ 2 ]", "\004(N\001\004", 5));
    CHECK(vast_logical_and_reduce(&have->file, have->expressions, 2, true, NULL) == VAST_OK);
    CHECK(is_written(have, "!LogicalAndReduce [ 3 3 ] true", "\0058\002\003\003\001", 6));
    return 0;
}

static int part_19(answers *have)
{
    CHECK(vast_logical_or_reduce(&have->file, have->expressions, 2, true, NULL) == VAST_OK);
    CHECK(is_written(have, "!LogicalOrReduce [ 3 3 ] true", "\005H\002\003\003\001", 6));
    return 0;
}

int main(void)
{
    static answers have; /* of all zeros, so the file is closed */
    static int (*const parts[])(answers *) = {part_0, part_1, part_2, part_3, part_4, part_5,
                                              part_6, part_7, part_8, part_9, part_10, part_11,
                                              part_12, part_13, part_14, part_15, part_16, part_17,
                                              part_18, part_19};
    static int32_t (*const opened[])(vast_file *, int32_t) = {vast_file_open, vast_file_open_with_lint};
    vast_string text;
    for (size_t form = 0; form < 2; form++) {
        CHECK(opened[form](&have.file, VAST_SYSTEMVERILOG) == VAST_OK);
        for (size_t part = 0; part < sizeof parts / sizeof parts[0]; part++)
            if (parts[part](&have))
                return 1;
        CHECK(have.file.count == 167 && vast_emit(&have.file, &text) == VAST_OK);
        vast_file_close(&have.file);
    }
    return 0;
}
