//! A generator as it is written for the crate `xlsynth-vast`: functions, literals, registers, reductions, a loop, an
//! instance, and declarations that are moved up. It compiles unchanged against either crate, and prints the same.

use xlsynth_vast::helpers::{
    add_registers, bitwise_or_reduce_array_elements, logical_and_reduce, RegisterDefinition,
    RegisterScope, Reset,
};
use xlsynth_vast::{DataKind, Expr, LiteralFormat, VastError, VastFile, VastFileType, VastModule};

fn main() -> Result<(), VastError> {
    let mut file = VastFile::new(VastFileType::SystemVerilog);
    file.add_comment_text("A generator's file.");
    saturating_sum(&mut file)?;
    let blank = file.make_blank_line();
    file.add_blank_line(blank);
    lanes(&mut file)?;
    print!("{}", file.emit());
    Ok(())
}

/// A module with a function that adds and stays at its greatest value, and a register behind it.
fn saturating_sum(file: &mut VastFile) -> Result<(), VastError> {
    let module = file.add_module("saturating_sum");
    let bit = file.make_scalar_type();
    let byte = file.make_bit_vector_type(8, false);
    let wide = file.make_bit_vector_type(9, false);
    let clk = file.add_input(module, "clk", &bit);
    let rst_n = file.add_input(module, "rst_n", &bit);
    let a = file.add_input(module, "a", &byte);
    let b = file.add_input(module, "b", &byte);
    let sum = file.add_output(module, "sum", &byte);

    let function = file.add_function(module, "add_saturating", &byte)?;
    let left = file.function_add_logic_input(function, "left", &byte)?;
    let right = file.function_add_logic_input(function, "right", &byte)?;
    let carried = file.function_add_logic(function, "carried", &wide)?;
    let body = file.function_body(function);
    let zero = file.make_literal("bits[1]:0", &LiteralFormat::Binary)?;
    let wide_left = file.make_concat(&[&zero, &left.to_expr()]);
    let total = file.make_add(&wide_left, &right.to_expr());
    file.block_add_blocking_assignment(body, &carried.to_expr(), &total);
    let carry = file.make_index(&carried.to_indexable_expr(), 8);
    let low = file.make_slice(&carried.to_indexable_expr(), 7, 0);
    let most = file.make_literal("bits[8]:0xff", &LiteralFormat::Hex)?;
    let chosen = file.make_ternary(&carry.to_expr(), &most, &low.to_expr());
    let result = file.function_result(function).to_expr();
    file.block_add_blocking_assignment(body, &result, &chosen);

    let start = file.module_member_count(module);
    let call = file.make_function_call("add_saturating", &[&a.to_expr(), &b.to_expr()]);
    let held = file.add_logic(module, "held", &byte)?;
    let assignment = file.make_continuous_assignment(&sum.to_expr(), &held.to_expr());
    file.add_member_continuous_assignment(module, assignment);
    let next = file.add_logic(module, "next", &byte)?;
    let assignment = file.make_continuous_assignment(&next.to_expr(), &call);
    file.add_member_continuous_assignment(module, assignment);
    file.hoist_module_declarations(module, start);
    let reset_value = file.make_literal("bits[8]:0", &LiteralFormat::UnsignedDecimal)?;
    let register = RegisterDefinition {
        reg: held.to_expr(),
        next: next.to_expr(),
        reset_value: Some(reset_value),
        enable: None,
    };
    let reset = Reset {
        signal: rst_n.to_expr(),
        active_low: true,
    };
    add_registers(
        &clk.to_expr(),
        Some(reset),
        &[register],
        RegisterScope::Module(module),
        file,
    )
}

/// A module of four lanes, each an instance in a loop, with two reductions.
fn lanes(file: &mut VastFile) -> Result<(), VastError> {
    let module = file.add_module("lanes");
    let bit = file.make_scalar_type();
    let byte = file.make_bit_vector_type(8, false);
    let bytes = file.make_packed_array_type(byte, &[4]);
    let clk = file.add_input(module, "clk", &bit);
    let rst_n = file.add_input(module, "rst_n", &bit);
    let a = file.add_input(module, "a", &bytes);
    let b = file.add_input(module, "b", &bytes);
    let any = file.add_output(module, "any", &byte);
    let all = file.add_output(module, "all", &bit);
    let sums = file.add_logic(module, "sums", &bytes)?;

    let count = count_parameter(file, module);
    let zero = file.make_unsized_decimal_literal(0);
    let lanes = file.add_generate_loop(module, "lane", &zero, &count, Some("each_lane"));
    let lane = file.generate_genvar(lanes).to_expr();
    let lane_a = file.make_index_expr(&a.to_indexable_expr(), &lane);
    let lane_b = file.make_index_expr(&b.to_indexable_expr(), &lane);
    let lane_sum = file.make_index_expr(&sums.to_indexable_expr(), &lane);
    let instance = file.make_instantiation(
        "saturating_sum",
        "lane_sum",
        &[],
        &[],
        &["clk", "rst_n", "a", "b", "sum"],
        &[
            Some(&clk.to_expr()),
            Some(&rst_n.to_expr()),
            Some(&lane_a.to_expr()),
            Some(&lane_b.to_expr()),
            Some(&lane_sum.to_expr()),
        ],
    );
    file.generate_add_instantiation(lanes, &instance);

    let union = bitwise_or_reduce_array_elements(&sums.to_indexable_expr(), &[4], file)?;
    let assignment = file.make_continuous_assignment(&any.to_expr(), &union);
    file.add_member_continuous_assignment(module, assignment);
    let mut are_set: Vec<Expr> = Vec::new();
    for index in 0..4 {
        let element = file.make_index(&sums.to_indexable_expr(), index);
        are_set.push(file.make_or_reduce(&element.to_expr()));
    }
    let conjunction = logical_and_reduce(&are_set, false, file)?;
    let assignment = file.make_continuous_assignment(&all.to_expr(), &conjunction);
    file.add_member_continuous_assignment(module, assignment);
    Ok(())
}

/// A local parameter for the number of lanes.
fn count_parameter(file: &mut VastFile, module: VastModule) -> Expr {
    let int = file.make_int_type(true);
    let definition = file.make_def("LANES", DataKind::Int, &int);
    let four = file.make_unsized_decimal_literal(4);
    file.add_typed_localparam(module, &definition, &four)
        .to_expr()
}
