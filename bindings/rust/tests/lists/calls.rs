//! One arm for each call of a list.
//!
//! Written by tools/bindings_from_calls from the table of calls; not to be edited.

use crate::answers::{format_of, kind_of, Answer, Answers, Fault};
use crate::form::{Argument, Line};
use xlsynth_vast::{Def, Expr, VastFile, VastFileExtension};

/// Makes the call of the line.
pub fn make(file: &mut VastFile, answers: &Answers, line: &Line) -> Result<Answer, Fault> {
    let words = line.arguments.as_slice();
    match line.call.as_str() {
        "MakeNot" => {
            let expression = answers.handle(&words[0])?;
            Ok(Answer::Expr(file.make_not(&expression)))
        }
        "MakeBitwiseNot" => {
            let expression = answers.handle(&words[0])?;
            Ok(Answer::Expr(file.make_bitwise_not(&expression)))
        }
        "MakeNegate" => {
            let expression = answers.handle(&words[0])?;
            Ok(Answer::Expr(file.make_negate(&expression)))
        }
        "MakeLogicalNot" => {
            let expression = answers.handle(&words[0])?;
            Ok(Answer::Expr(file.make_logical_not(&expression)))
        }
        "MakeAndReduce" => {
            let expression = answers.handle(&words[0])?;
            Ok(Answer::Expr(file.make_and_reduce(&expression)))
        }
        "MakeOrReduce" => {
            let expression = answers.handle(&words[0])?;
            Ok(Answer::Expr(file.make_or_reduce(&expression)))
        }
        "MakeXorReduce" => {
            let expression = answers.handle(&words[0])?;
            Ok(Answer::Expr(file.make_xor_reduce(&expression)))
        }
        "MakeAdd" => {
            let lhs = answers.handle(&words[0])?;
            let rhs = answers.handle(&words[1])?;
            Ok(Answer::Expr(file.make_add(&lhs, &rhs)))
        }
        "MakeSub" => {
            let lhs = answers.handle(&words[0])?;
            let rhs = answers.handle(&words[1])?;
            Ok(Answer::Expr(file.make_sub(&lhs, &rhs)))
        }
        "MakeMul" => {
            let lhs = answers.handle(&words[0])?;
            let rhs = answers.handle(&words[1])?;
            Ok(Answer::Expr(file.make_mul(&lhs, &rhs)))
        }
        "MakeDiv" => {
            let lhs = answers.handle(&words[0])?;
            let rhs = answers.handle(&words[1])?;
            Ok(Answer::Expr(file.make_div(&lhs, &rhs)))
        }
        "MakeMod" => {
            let lhs = answers.handle(&words[0])?;
            let rhs = answers.handle(&words[1])?;
            Ok(Answer::Expr(file.make_mod(&lhs, &rhs)))
        }
        "MakePower" => {
            let lhs = answers.handle(&words[0])?;
            let rhs = answers.handle(&words[1])?;
            Ok(Answer::Expr(file.make_power(&lhs, &rhs)))
        }
        "MakeBitwiseAnd" => {
            let lhs = answers.handle(&words[0])?;
            let rhs = answers.handle(&words[1])?;
            Ok(Answer::Expr(file.make_bitwise_and(&lhs, &rhs)))
        }
        "MakeBitwiseOr" => {
            let lhs = answers.handle(&words[0])?;
            let rhs = answers.handle(&words[1])?;
            Ok(Answer::Expr(file.make_bitwise_or(&lhs, &rhs)))
        }
        "MakeBitwiseXor" => {
            let lhs = answers.handle(&words[0])?;
            let rhs = answers.handle(&words[1])?;
            Ok(Answer::Expr(file.make_bitwise_xor(&lhs, &rhs)))
        }
        "MakeShll" => {
            let lhs = answers.handle(&words[0])?;
            let rhs = answers.handle(&words[1])?;
            Ok(Answer::Expr(file.make_shll(&lhs, &rhs)))
        }
        "MakeShra" => {
            let lhs = answers.handle(&words[0])?;
            let rhs = answers.handle(&words[1])?;
            Ok(Answer::Expr(file.make_shra(&lhs, &rhs)))
        }
        "MakeShrl" => {
            let lhs = answers.handle(&words[0])?;
            let rhs = answers.handle(&words[1])?;
            Ok(Answer::Expr(file.make_shrl(&lhs, &rhs)))
        }
        "MakeNe" => {
            let lhs = answers.handle(&words[0])?;
            let rhs = answers.handle(&words[1])?;
            Ok(Answer::Expr(file.make_ne(&lhs, &rhs)))
        }
        "MakeCaseNe" => {
            let lhs = answers.handle(&words[0])?;
            let rhs = answers.handle(&words[1])?;
            Ok(Answer::Expr(file.make_case_ne(&lhs, &rhs)))
        }
        "MakeEq" => {
            let lhs = answers.handle(&words[0])?;
            let rhs = answers.handle(&words[1])?;
            Ok(Answer::Expr(file.make_eq(&lhs, &rhs)))
        }
        "MakeCaseEq" => {
            let lhs = answers.handle(&words[0])?;
            let rhs = answers.handle(&words[1])?;
            Ok(Answer::Expr(file.make_case_eq(&lhs, &rhs)))
        }
        "MakeGe" => {
            let lhs = answers.handle(&words[0])?;
            let rhs = answers.handle(&words[1])?;
            Ok(Answer::Expr(file.make_ge(&lhs, &rhs)))
        }
        "MakeGt" => {
            let lhs = answers.handle(&words[0])?;
            let rhs = answers.handle(&words[1])?;
            Ok(Answer::Expr(file.make_gt(&lhs, &rhs)))
        }
        "MakeLe" => {
            let lhs = answers.handle(&words[0])?;
            let rhs = answers.handle(&words[1])?;
            Ok(Answer::Expr(file.make_le(&lhs, &rhs)))
        }
        "MakeLt" => {
            let lhs = answers.handle(&words[0])?;
            let rhs = answers.handle(&words[1])?;
            Ok(Answer::Expr(file.make_lt(&lhs, &rhs)))
        }
        "MakeLogicalAnd" => {
            let lhs = answers.handle(&words[0])?;
            let rhs = answers.handle(&words[1])?;
            Ok(Answer::Expr(file.make_logical_and(&lhs, &rhs)))
        }
        "MakeLogicalOr" => {
            let lhs = answers.handle(&words[0])?;
            let rhs = answers.handle(&words[1])?;
            Ok(Answer::Expr(file.make_logical_or(&lhs, &rhs)))
        }
        "MakeNeX" => {
            let lhs = answers.handle(&words[0])?;
            let rhs = answers.handle(&words[1])?;
            Ok(Answer::Expr(file.make_ne_x(&lhs, &rhs)))
        }
        "MakeEqX" => {
            let lhs = answers.handle(&words[0])?;
            let rhs = answers.handle(&words[1])?;
            Ok(Answer::Expr(file.make_eq_x(&lhs, &rhs)))
        }
        "MakeLiteral" => {
            let text = words[0].text();
            let format = format_of(&words[1]);
            Ok(Answer::Expr(file.make_literal(text, &format)?))
        }
        "MakeBinaryPattern" => {
            let bits_msb = words[0].text();
            Ok(Answer::Expr(file.make_binary_pattern(bits_msb)?))
        }
        "MakeUnsizedDecimalLiteral" => {
            let value = words[0].number();
            Ok(Answer::Expr(file.make_unsized_decimal_literal(value)))
        }
        "MakeStringLiteral" => {
            let value = words[0].text();
            Ok(Answer::Expr(file.make_string_literal(value)))
        }
        "MakeUnsizedOneLiteral" => Ok(Answer::Expr(file.make_unsized_one_literal())),
        "MakeUnsizedZeroLiteral" => Ok(Answer::Expr(file.make_unsized_zero_literal())),
        "MakeUnsizedXLiteral" => Ok(Answer::Expr(file.make_unsized_x_literal())),
        "MakeName" => {
            let name = words[0].text();
            Ok(Answer::Expr(file.make_name(name)))
        }
        "MakeIndexableExpression" => {
            let expression = answers.handle(&words[0])?;
            Ok(Answer::IndexableExpr(
                file.make_indexable_expression(&expression),
            ))
        }
        "MakeSlice" => {
            let subject = answers.handle(&words[0])?;
            let hi = words[1].number();
            let lo = words[2].number();
            Ok(Answer::Slice(file.make_slice(&subject, hi, lo)))
        }
        "MakeIndex" => {
            let subject = answers.handle(&words[0])?;
            let index = words[1].number();
            Ok(Answer::Index(file.make_index(&subject, index)))
        }
        "MakeSliceExpr" => {
            let subject = answers.handle(&words[0])?;
            let hi = answers.handle(&words[1])?;
            let lo = answers.handle(&words[2])?;
            Ok(Answer::Slice(file.make_slice_expr(&subject, &hi, &lo)))
        }
        "MakeIndexExpr" => {
            let subject = answers.handle(&words[0])?;
            let index = answers.handle(&words[1])?;
            Ok(Answer::Index(file.make_index_expr(&subject, &index)))
        }
        "MakeIndexedPartSelect" => {
            let subject = answers.handle(&words[0])?;
            let start = answers.handle(&words[1])?;
            let width = words[2].number();
            Ok(Answer::Expr(
                file.make_indexed_part_select(&subject, &start, width),
            ))
        }
        "MakeFunctionCall" => {
            let name = words[0].text();
            let arguments: Vec<Expr> = answers.handles(&words[1])?;
            let arguments: Vec<&Expr> = arguments.iter().collect();
            Ok(Answer::Expr(file.make_function_call(name, &arguments)))
        }
        "MakeConcat" => {
            let expressions: Vec<Expr> = answers.handles(&words[0])?;
            let expressions: Vec<&Expr> = expressions.iter().collect();
            Ok(Answer::Expr(file.make_concat(&expressions)))
        }
        "MakeReplicatedConcat" => {
            let replication = answers.handle(&words[0])?;
            let elements: Vec<Expr> = answers.handles(&words[1])?;
            let elements: Vec<&Expr> = elements.iter().collect();
            Ok(Answer::Expr(
                file.make_replicated_concat(&replication, &elements),
            ))
        }
        "MakeReplicatedConcatI64" => {
            let replication = words[0].number();
            let elements: Vec<Expr> = answers.handles(&words[1])?;
            let elements: Vec<&Expr> = elements.iter().collect();
            Ok(Answer::Expr(
                file.make_replicated_concat_i64(replication, &elements),
            ))
        }
        "MakeArrayAssignmentPattern" => {
            let elements: Vec<Expr> = answers.handles(&words[0])?;
            let elements: Vec<&Expr> = elements.iter().collect();
            Ok(Answer::Expr(file.make_array_assignment_pattern(&elements)))
        }
        "MakeTernary" => {
            let condition = answers.handle(&words[0])?;
            let consequent = answers.handle(&words[1])?;
            let alternate = answers.handle(&words[2])?;
            Ok(Answer::Expr(file.make_ternary(
                &condition,
                &consequent,
                &alternate,
            )))
        }
        "MakeWidthCast" => {
            let width = answers.handle(&words[0])?;
            let value = answers.handle(&words[1])?;
            Ok(Answer::Expr(file.make_width_cast(&width, &value)))
        }
        "MakeTypeCast" => {
            let data_type = answers.handle(&words[0])?;
            let value = answers.handle(&words[1])?;
            Ok(Answer::Expr(file.make_type_cast(&data_type, &value)))
        }
        "MakePosEdge" => {
            let expression = answers.handle(&words[0])?;
            Ok(Answer::Expr(file.make_pos_edge(&expression)))
        }
        "MakeNegEdge" => {
            let expression = answers.handle(&words[0])?;
            Ok(Answer::Expr(file.make_neg_edge(&expression)))
        }
        "MakeMacroRef" => {
            let name = words[0].text();
            Ok(Answer::MacroRef(file.make_macro_ref(name)))
        }
        "MakeMacroRefWithArgs" => {
            let name = words[0].text();
            let arguments: Vec<Expr> = answers.handles(&words[1])?;
            let arguments: Vec<&Expr> = arguments.iter().collect();
            Ok(Answer::MacroRef(
                file.make_macro_ref_with_args(name, &arguments),
            ))
        }
        "MakeMember" => {
            let value = answers.handle(&words[0])?;
            let field = words[1].text();
            Ok(Answer::Expr(file.make_member(&value, field)))
        }
        "MakeScalarType" => Ok(Answer::VastDataType(file.make_scalar_type())),
        "MakeIntegerType" => {
            let signed = words[0].truth();
            Ok(Answer::VastDataType(file.make_integer_type(signed)))
        }
        "MakeIntType" => {
            let signed = words[0].truth();
            Ok(Answer::VastDataType(file.make_int_type(signed)))
        }
        "MakeExternType" => {
            let name = words[0].text();
            Ok(Answer::VastDataType(file.make_extern_type(name)))
        }
        "MakeExternPackageType" => {
            let package_name = words[0].text();
            let name = words[1].text();
            Ok(Answer::VastDataType(
                file.make_extern_package_type(package_name, name),
            ))
        }
        "MakeBitVectorType" => {
            let bit_count = words[0].number();
            let signed = words[1].truth();
            Ok(Answer::VastDataType(
                file.make_bit_vector_type(bit_count, signed),
            ))
        }
        "MakeBitVectorTypeExpr" => {
            let width = answers.handle(&words[0])?;
            let signed = words[1].truth();
            Ok(Answer::VastDataType(
                file.make_bit_vector_type_expr(&width, signed),
            ))
        }
        "MakePackedArrayType" => {
            let element = answers.handle(&words[0])?;
            let dimensions: Vec<i64> = words[1].list().iter().map(Argument::number).collect();
            Ok(Answer::VastDataType(
                file.make_packed_array_type(element, &dimensions),
            ))
        }
        "MakeUnpackedArrayType" => {
            let element = answers.handle(&words[0])?;
            let dimensions: Vec<i64> = words[1].list().iter().map(Argument::number).collect();
            Ok(Answer::VastDataType(
                file.make_unpacked_array_type(element, &dimensions),
            ))
        }
        "MakePackedArrayTypeExpr" => {
            let element = answers.handle(&words[0])?;
            let dimensions: Vec<Expr> = answers.handles(&words[1])?;
            let dimensions: Vec<&Expr> = dimensions.iter().collect();
            Ok(Answer::VastDataType(
                file.make_packed_array_type_expr(element, &dimensions),
            ))
        }
        "MakeUnpackedArrayTypeExpr" => {
            let element = answers.handle(&words[0])?;
            let dimensions: Vec<Expr> = answers.handles(&words[1])?;
            let dimensions: Vec<&Expr> = dimensions.iter().collect();
            Ok(Answer::VastDataType(
                file.make_unpacked_array_type_expr(element, &dimensions),
            ))
        }
        "AddInclude" => {
            let include = words[0].text();
            file.add_include(include);
            Ok(Answer::Nothing)
        }
        "AddBlankLine" => {
            let blank_line = answers.handle(&words[0])?;
            file.add_blank_line(blank_line);
            Ok(Answer::Nothing)
        }
        "AddCommentText" => {
            let text = words[0].text();
            file.add_comment_text(text);
            Ok(Answer::Nothing)
        }
        "AddModule" => {
            let name = words[0].text();
            Ok(Answer::VastModule(file.add_module(name)))
        }
        "AddInput" => {
            let owner = answers.handle(&words[0])?;
            let name = words[1].text();
            let data_type = answers.handle(&words[2])?;
            Ok(Answer::LogicRef(file.add_input(owner, name, &data_type)))
        }
        "AddOutput" => {
            let owner = answers.handle(&words[0])?;
            let name = words[1].text();
            let data_type = answers.handle(&words[2])?;
            Ok(Answer::LogicRef(file.add_output(owner, name, &data_type)))
        }
        "AddInout" => {
            let owner = answers.handle(&words[0])?;
            let name = words[1].text();
            let data_type = answers.handle(&words[2])?;
            Ok(Answer::LogicRef(file.add_inout(owner, name, &data_type)))
        }
        "AddLogicInput" => {
            let owner = answers.handle(&words[0])?;
            let name = words[1].text();
            let data_type = answers.handle(&words[2])?;
            Ok(Answer::LogicRef(
                file.add_logic_input(owner, name, &data_type),
            ))
        }
        "AddLogicOutput" => {
            let owner = answers.handle(&words[0])?;
            let name = words[1].text();
            let data_type = answers.handle(&words[2])?;
            Ok(Answer::LogicRef(
                file.add_logic_output(owner, name, &data_type),
            ))
        }
        "AddWire" => {
            let owner = answers.handle(&words[0])?;
            let name = words[1].text();
            let data_type = answers.handle(&words[2])?;
            Ok(Answer::LogicRef(file.add_wire(owner, name, &data_type)))
        }
        "AddReg" => {
            let owner = answers.handle(&words[0])?;
            let name = words[1].text();
            let data_type = answers.handle(&words[2])?;
            Ok(Answer::LogicRef(file.add_reg(owner, name, &data_type)?))
        }
        "AddLogic" => {
            let owner = answers.handle(&words[0])?;
            let name = words[1].text();
            let data_type = answers.handle(&words[2])?;
            Ok(Answer::LogicRef(file.add_logic(owner, name, &data_type)?))
        }
        "AddParameterPort" => {
            let owner = answers.handle(&words[0])?;
            let name = words[1].text();
            let value = answers.handle(&words[2])?;
            Ok(Answer::LogicRef(
                file.add_parameter_port(owner, name, &value),
            ))
        }
        "AddTypedParameterPort" => {
            let owner = answers.handle(&words[0])?;
            let name = words[1].text();
            let data_type = answers.handle(&words[2])?;
            let value = answers.handle(&words[3])?;
            Ok(Answer::LogicRef(
                file.add_typed_parameter_port(owner, name, &data_type, &value),
            ))
        }
        "AddParameter" => {
            let owner = answers.handle(&words[0])?;
            let name = words[1].text();
            let rhs = answers.handle(&words[2])?;
            Ok(Answer::ParameterRef(file.add_parameter(owner, name, &rhs)))
        }
        "AddParameterWithDef" => {
            let owner = answers.handle(&words[0])?;
            let definition = answers.handle(&words[1])?;
            let rhs = answers.handle(&words[2])?;
            Ok(Answer::ParameterRef(file.add_parameter_with_def(
                owner,
                &definition,
                &rhs,
            )))
        }
        "AddLocalparam" => {
            let owner = answers.handle(&words[0])?;
            let name = words[1].text();
            let rhs = answers.handle(&words[2])?;
            Ok(Answer::LocalparamRef(
                file.add_localparam(owner, name, &rhs),
            ))
        }
        "AddIntLocalparam" => {
            let owner = answers.handle(&words[0])?;
            let name = words[1].text();
            let rhs = answers.handle(&words[2])?;
            Ok(Answer::LocalparamRef(
                file.add_int_localparam(owner, name, &rhs),
            ))
        }
        "AddTypedLocalparam" => {
            let owner = answers.handle(&words[0])?;
            let definition = answers.handle(&words[1])?;
            let rhs = answers.handle(&words[2])?;
            Ok(Answer::LocalparamRef(file.add_typed_localparam(
                owner,
                &definition,
                &rhs,
            )))
        }
        "HoistModuleDeclarations" => {
            let owner = answers.handle(&words[0])?;
            let start = words[1].number();
            file.hoist_module_declarations(owner, start);
            Ok(Answer::Nothing)
        }
        "AddImport" => {
            let owner = answers.handle(&words[0])?;
            let package = words[1].text();
            file.add_import(owner, package);
            Ok(Answer::Nothing)
        }
        "AddFileImport" => {
            let package = words[0].text();
            file.add_file_import(package);
            Ok(Answer::Nothing)
        }
        "AddEnumTypedef" => {
            let owner = answers.handle(&words[0])?;
            let name = words[1].text();
            let data_type = answers.handle(&words[2])?;
            let names: Vec<&str> = words[3].list().iter().map(Argument::text).collect();
            let values: Vec<Option<Expr>> = answers.options(&words[4])?;
            let values: Vec<Option<&Expr>> = values.iter().map(Option::as_ref).collect();
            Ok(Answer::VastDataType(file.add_enum_typedef(
                owner, name, &data_type, &names, &values,
            )))
        }
        "AddStructTypedef" => {
            let owner = answers.handle(&words[0])?;
            let name = words[1].text();
            let fields: Vec<Def> = answers.handles(&words[2])?;
            Ok(Answer::VastDataType(
                file.add_struct_typedef(owner, name, &fields),
            ))
        }
        "AddFileEnumTypedef" => {
            let name = words[0].text();
            let data_type = answers.handle(&words[1])?;
            let names: Vec<&str> = words[2].list().iter().map(Argument::text).collect();
            let values: Vec<Option<Expr>> = answers.options(&words[3])?;
            let values: Vec<Option<&Expr>> = values.iter().map(Option::as_ref).collect();
            Ok(Answer::VastDataType(
                file.add_file_enum_typedef(name, &data_type, &names, &values),
            ))
        }
        "AddFileStructTypedef" => {
            let name = words[0].text();
            let fields: Vec<Def> = answers.handles(&words[1])?;
            Ok(Answer::VastDataType(
                file.add_file_struct_typedef(name, &fields),
            ))
        }
        "AddVariable" => {
            let owner = answers.handle(&words[0])?;
            let name = words[1].text();
            let data_type = answers.handle(&words[2])?;
            Ok(Answer::LogicRef(
                file.add_variable(owner, name, &data_type)?,
            ))
        }
        "AddGenerateLoop" => {
            let owner = answers.handle(&words[0])?;
            let name = words[1].text();
            let start = answers.handle(&words[2])?;
            let end = answers.handle(&words[3])?;
            let label = words[4].option().map(Argument::text);
            Ok(Answer::GenerateLoop(
                file.add_generate_loop(owner, name, &start, &end, label),
            ))
        }
        "GenerateAddGenerateLoop" => {
            let parent = answers.handle(&words[0])?;
            let name = words[1].text();
            let start = answers.handle(&words[2])?;
            let end = answers.handle(&words[3])?;
            let label = words[4].option().map(Argument::text);
            Ok(Answer::GenerateLoop(file.generate_add_generate_loop(
                parent, name, &start, &end, label,
            )))
        }
        "GenerateGenvar" => {
            let generate = answers.handle(&words[0])?;
            Ok(Answer::LogicRef(file.generate_genvar(generate)))
        }
        "GenerateAddAlwaysComb" => {
            let generate = answers.handle(&words[0])?;
            Ok(Answer::VastAlwaysBase(
                file.generate_add_always_comb(generate)?,
            ))
        }
        "GenerateAddAlwaysFf" => {
            let generate = answers.handle(&words[0])?;
            let sensitivity_list: Vec<Expr> = answers.handles(&words[1])?;
            let sensitivity_list: Vec<&Expr> = sensitivity_list.iter().collect();
            Ok(Answer::VastAlwaysBase(
                file.generate_add_always_ff(generate, &sensitivity_list)?,
            ))
        }
        "GenerateAddAlwaysAt" => {
            let generate = answers.handle(&words[0])?;
            let sensitivity_list: Vec<Expr> = answers.handles(&words[1])?;
            let sensitivity_list: Vec<&Expr> = sensitivity_list.iter().collect();
            Ok(Answer::VastAlwaysBase(
                file.generate_add_always_at(generate, &sensitivity_list)?,
            ))
        }
        "GenerateAddLocalparam" => {
            let generate = answers.handle(&words[0])?;
            let name = words[1].text();
            let rhs = answers.handle(&words[2])?;
            Ok(Answer::LocalparamRef(
                file.generate_add_localparam(generate, name, &rhs),
            ))
        }
        "GenerateAddTypedLocalparam" => {
            let generate = answers.handle(&words[0])?;
            let definition = answers.handle(&words[1])?;
            let rhs = answers.handle(&words[2])?;
            Ok(Answer::LocalparamRef(file.generate_add_typed_localparam(
                generate,
                &definition,
                &rhs,
            )))
        }
        "GenerateAddContinuousAssignment" => {
            let generate = answers.handle(&words[0])?;
            let lhs = answers.handle(&words[1])?;
            let rhs = answers.handle(&words[2])?;
            Ok(Answer::VastStatement(
                file.generate_add_continuous_assignment(generate, &lhs, &rhs),
            ))
        }
        "GenerateAddConditional" => {
            let generate = answers.handle(&words[0])?;
            let condition = answers.handle(&words[1])?;
            Ok(Answer::Conditional(
                file.generate_add_conditional(generate, &condition),
            ))
        }
        "GenerateAddBlankLine" => {
            let generate = answers.handle(&words[0])?;
            file.generate_add_blank_line(generate);
            Ok(Answer::Nothing)
        }
        "GenerateAddComment" => {
            let generate = answers.handle(&words[0])?;
            let comment = answers.handle(&words[1])?;
            file.generate_add_comment(generate, &comment);
            Ok(Answer::Nothing)
        }
        "GenerateAddInstantiation" => {
            let generate = answers.handle(&words[0])?;
            let instantiation = answers.handle(&words[1])?;
            file.generate_add_instantiation(generate, &instantiation);
            Ok(Answer::Nothing)
        }
        "GenerateAddInlineStatement" => {
            let generate = answers.handle(&words[0])?;
            let statement = answers.handle(&words[1])?;
            file.generate_add_inline_statement(generate, &statement);
            Ok(Answer::Nothing)
        }
        "GenerateAddMacroStatement" => {
            let generate = answers.handle(&words[0])?;
            let statement = answers.handle(&words[1])?;
            file.generate_add_macro_statement(generate, &statement);
            Ok(Answer::Nothing)
        }
        "GenerateAddAlwaysStar" => {
            let generate = answers.handle(&words[0])?;
            Ok(Answer::VastAlwaysBase(
                file.generate_add_always_star(generate)?,
            ))
        }
        "GenerateAddAlwaysLatch" => {
            let generate = answers.handle(&words[0])?;
            Ok(Answer::VastAlwaysBase(
                file.generate_add_always_latch(generate)?,
            ))
        }
        "GenerateAddInitial" => {
            let generate = answers.handle(&words[0])?;
            Ok(Answer::VastAlwaysBase(file.generate_add_initial(generate)?))
        }
        "AddFunction" => {
            let owner = answers.handle(&words[0])?;
            let name = words[1].text();
            let result_type = answers.handle(&words[2])?;
            Ok(Answer::VastFunction(file.add_function(
                owner,
                name,
                &result_type,
            )?))
        }
        "FunctionAddInput" => {
            let function = answers.handle(&words[0])?;
            let name = words[1].text();
            let data_type = answers.handle(&words[2])?;
            Ok(Answer::LogicRef(
                file.function_add_input(function, name, &data_type)?,
            ))
        }
        "FunctionAddLogicInput" => {
            let function = answers.handle(&words[0])?;
            let name = words[1].text();
            let data_type = answers.handle(&words[2])?;
            Ok(Answer::LogicRef(
                file.function_add_logic_input(function, name, &data_type)?,
            ))
        }
        "FunctionAddReg" => {
            let function = answers.handle(&words[0])?;
            let name = words[1].text();
            let data_type = answers.handle(&words[2])?;
            Ok(Answer::LogicRef(
                file.function_add_reg(function, name, &data_type)?,
            ))
        }
        "FunctionAddLogic" => {
            let function = answers.handle(&words[0])?;
            let name = words[1].text();
            let data_type = answers.handle(&words[2])?;
            Ok(Answer::LogicRef(
                file.function_add_logic(function, name, &data_type)?,
            ))
        }
        "FunctionBody" => {
            let function = answers.handle(&words[0])?;
            Ok(Answer::VastStatementBlock(file.function_body(function)))
        }
        "FunctionResult" => {
            let function = answers.handle(&words[0])?;
            Ok(Answer::LogicRef(file.function_result(function)))
        }
        "AddAlwaysFf" => {
            let owner = answers.handle(&words[0])?;
            let sensitivity_list: Vec<Expr> = answers.handles(&words[1])?;
            let sensitivity_list: Vec<&Expr> = sensitivity_list.iter().collect();
            Ok(Answer::VastAlwaysBase(
                file.add_always_ff(owner, &sensitivity_list)?,
            ))
        }
        "AddAlwaysAt" => {
            let owner = answers.handle(&words[0])?;
            let sensitivity_list: Vec<Expr> = answers.handles(&words[1])?;
            let sensitivity_list: Vec<&Expr> = sensitivity_list.iter().collect();
            Ok(Answer::VastAlwaysBase(
                file.add_always_at(owner, &sensitivity_list)?,
            ))
        }
        "AddAlwaysComb" => {
            let owner = answers.handle(&words[0])?;
            Ok(Answer::VastAlwaysBase(file.add_always_comb(owner)?))
        }
        "StatementBlock" => {
            let always = answers.handle(&words[0])?;
            Ok(Answer::VastStatementBlock(file.statement_block(always)))
        }
        "BlockAddBlockingAssignment" => {
            let block = answers.handle(&words[0])?;
            let lhs = answers.handle(&words[1])?;
            let rhs = answers.handle(&words[2])?;
            Ok(Answer::VastStatement(
                file.block_add_blocking_assignment(block, &lhs, &rhs),
            ))
        }
        "BlockAddNonblockingAssignment" => {
            let block = answers.handle(&words[0])?;
            let lhs = answers.handle(&words[1])?;
            let rhs = answers.handle(&words[2])?;
            Ok(Answer::VastStatement(
                file.block_add_nonblocking_assignment(block, &lhs, &rhs),
            ))
        }
        "BlockAddContinuousAssignment" => {
            let block = answers.handle(&words[0])?;
            let lhs = answers.handle(&words[1])?;
            let rhs = answers.handle(&words[2])?;
            Ok(Answer::VastStatement(
                file.block_add_continuous_assignment(block, &lhs, &rhs),
            ))
        }
        "BlockAddCommentText" => {
            let block = answers.handle(&words[0])?;
            let text = words[1].text();
            file.block_add_comment_text(block, text);
            Ok(Answer::Nothing)
        }
        "BlockAddInlineText" => {
            let block = answers.handle(&words[0])?;
            let text = words[1].text();
            file.block_add_inline_text(block, text);
            Ok(Answer::Nothing)
        }
        "BlockAddBlankLine" => {
            let block = answers.handle(&words[0])?;
            file.block_add_blank_line(block);
            Ok(Answer::Nothing)
        }
        "AddConditional" => {
            let owner = answers.handle(&words[0])?;
            let condition = answers.handle(&words[1])?;
            Ok(Answer::Conditional(file.add_conditional(owner, &condition)))
        }
        "BlockAddCond" => {
            let block = answers.handle(&words[0])?;
            let condition = answers.handle(&words[1])?;
            Ok(Answer::Conditional(file.block_add_cond(block, &condition)))
        }
        "ConditionalThenBlock" => {
            let conditional = answers.handle(&words[0])?;
            Ok(Answer::VastStatementBlock(
                file.conditional_then_block(conditional),
            ))
        }
        "ConditionalAddElseIf" => {
            let conditional = answers.handle(&words[0])?;
            let condition = answers.handle(&words[1])?;
            Ok(Answer::VastStatementBlock(
                file.conditional_add_else_if(conditional, &condition),
            ))
        }
        "ConditionalAddElse" => {
            let conditional = answers.handle(&words[0])?;
            Ok(Answer::VastStatementBlock(
                file.conditional_add_else(conditional),
            ))
        }
        "BlockAddCase" => {
            let block = answers.handle(&words[0])?;
            let selector = answers.handle(&words[1])?;
            Ok(Answer::CaseStatement(file.block_add_case(block, &selector)))
        }
        "BlockAddCasez" => {
            let block = answers.handle(&words[0])?;
            let selector = answers.handle(&words[1])?;
            Ok(Answer::CaseStatement(
                file.block_add_casez(block, &selector),
            ))
        }
        "BlockAddCasex" => {
            let block = answers.handle(&words[0])?;
            let selector = answers.handle(&words[1])?;
            Ok(Answer::CaseStatement(
                file.block_add_casex(block, &selector),
            ))
        }
        "CaseAddItem" => {
            let case = answers.handle(&words[0])?;
            let pattern = answers.handle(&words[1])?;
            Ok(Answer::VastStatementBlock(
                file.case_add_item(case, &pattern),
            ))
        }
        "CaseAddDefault" => {
            let case = answers.handle(&words[0])?;
            Ok(Answer::VastStatementBlock(file.case_add_default(case)))
        }
        "CaseSetUnique" => {
            let case = answers.handle(&words[0])?;
            let unique = words[1].truth();
            file.case_set_unique(case, unique)?;
            Ok(Answer::Nothing)
        }
        "AddAlwaysStar" => {
            let owner = answers.handle(&words[0])?;
            Ok(Answer::VastAlwaysBase(file.add_always_star(owner)?))
        }
        "AddAlwaysLatch" => {
            let owner = answers.handle(&words[0])?;
            Ok(Answer::VastAlwaysBase(file.add_always_latch(owner)?))
        }
        "AddInitial" => {
            let owner = answers.handle(&words[0])?;
            Ok(Answer::VastAlwaysBase(file.add_initial(owner)?))
        }
        "BlockAddTaskCall" => {
            let block = answers.handle(&words[0])?;
            let call = answers.handle(&words[1])?;
            file.block_add_task_call(block, &call);
            Ok(Answer::Nothing)
        }
        "BlockAddFor" => {
            let block = answers.handle(&words[0])?;
            let name = words[1].text();
            let start = answers.handle(&words[2])?;
            let end = answers.handle(&words[3])?;
            Ok(Answer::VastStatementBlock(
                file.block_add_for(block, name, &start, &end),
            ))
        }
        "MakeDef" => {
            let name = words[0].text();
            let kind = kind_of(&words[1]);
            let data_type = answers.handle(&words[2])?;
            Ok(Answer::Def(file.make_def(name, kind, &data_type)))
        }
        "MakeBlankLine" => Ok(Answer::BlankLine(file.make_blank_line())),
        "MakeComment" => {
            let text = words[0].text();
            Ok(Answer::Comment(file.make_comment(text)))
        }
        "MakeInlineVerilogStatement" => {
            let text = words[0].text();
            Ok(Answer::InlineVerilogStatement(
                file.make_inline_verilog_statement(text),
            ))
        }
        "MakeMacroStatement" => {
            let macro_ref = answers.handle(&words[0])?;
            let semicolon = words[1].truth();
            Ok(Answer::MacroStatement(
                file.make_macro_statement(&macro_ref, semicolon),
            ))
        }
        "MakeContinuousAssignment" => {
            let lhs = answers.handle(&words[0])?;
            let rhs = answers.handle(&words[1])?;
            Ok(Answer::ContinuousAssignment(
                file.make_continuous_assignment(&lhs, &rhs),
            ))
        }
        "MakeNonblockingAssignment" => {
            let lhs = answers.handle(&words[0])?;
            let rhs = answers.handle(&words[1])?;
            Ok(Answer::VastStatement(
                file.make_nonblocking_assignment(&lhs, &rhs),
            ))
        }
        "MakeBlockingAssignment" => {
            let lhs = answers.handle(&words[0])?;
            let rhs = answers.handle(&words[1])?;
            Ok(Answer::VastStatement(
                file.make_blocking_assignment(&lhs, &rhs),
            ))
        }
        "MakeInstantiation" => {
            let module_name = words[0].text();
            let instance_name = words[1].text();
            let parameter_names: Vec<&str> = words[2].list().iter().map(Argument::text).collect();
            let parameter_expressions: Vec<Expr> = answers.handles(&words[3])?;
            let parameter_expressions: Vec<&Expr> = parameter_expressions.iter().collect();
            let connection_names: Vec<&str> = words[4].list().iter().map(Argument::text).collect();
            let connection_expressions: Vec<Option<Expr>> = answers.options(&words[5])?;
            let connection_expressions: Vec<Option<&Expr>> =
                connection_expressions.iter().map(Option::as_ref).collect();
            Ok(Answer::Instantiation(file.make_instantiation(
                module_name,
                instance_name,
                &parameter_names,
                &parameter_expressions,
                &connection_names,
                &connection_expressions,
            )))
        }
        "AddMemberInstantiation" => {
            let owner = answers.handle(&words[0])?;
            let instantiation = answers.handle(&words[1])?;
            file.add_member_instantiation(owner, instantiation);
            Ok(Answer::Nothing)
        }
        "AddMemberContinuousAssignment" => {
            let owner = answers.handle(&words[0])?;
            let assignment = answers.handle(&words[1])?;
            file.add_member_continuous_assignment(owner, assignment);
            Ok(Answer::Nothing)
        }
        "AddMemberBlankLine" => {
            let owner = answers.handle(&words[0])?;
            let blank = answers.handle(&words[1])?;
            file.add_member_blank_line(owner, blank);
            Ok(Answer::Nothing)
        }
        "AddMemberComment" => {
            let owner = answers.handle(&words[0])?;
            let comment = answers.handle(&words[1])?;
            file.add_member_comment(owner, comment);
            Ok(Answer::Nothing)
        }
        "AddMemberInlineStatement" => {
            let owner = answers.handle(&words[0])?;
            let statement = answers.handle(&words[1])?;
            file.add_member_inline_statement(owner, statement);
            Ok(Answer::Nothing)
        }
        "AddMemberMacroStatement" => {
            let owner = answers.handle(&words[0])?;
            let statement = answers.handle(&words[1])?;
            file.add_member_macro_statement(owner, statement);
            Ok(Answer::Nothing)
        }
        other => panic!("no call: {other}"),
    }
}
