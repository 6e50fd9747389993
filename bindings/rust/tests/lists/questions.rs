//! Questions and helpers of lists, by this crate's calls.

use crate::answers::{Answer, Answers, Fault};
use crate::form::{Argument, Line};
use xlsynth_vast::helpers::{
    add_registers, bitwise_or_reduce, bitwise_or_reduce_array_elements, logical_and_reduce,
    logical_or_reduce, RegisterDefinition, RegisterScope, Reset,
};
use xlsynth_vast::{is_system_verilog_keyword, Expr, ModulePort, VastFile, VastModule};

/// What the question is answered.
pub fn ask(file: &VastFile, answers: &Answers, line: &Line) -> Result<String, Fault> {
    if line.call == "?FileIsPlain" {
        return Ok(file.is_plain().to_string());
    }
    let first = &line.arguments[0];
    Ok(match line.call.as_str() {
        "?EmitExpression" => file.emit_expression(&answers.handle(first)?),
        "?IsSystemVerilogKeyword" => is_system_verilog_keyword(first.text()).to_string(),
        "?LogicRefName" => file.logic_ref_name(answers.handle(first)?),
        "?ModuleInputPorts" => ports(file, &file.module_input_ports(answers.handle(first)?)),
        "?ModuleMemberCount" => file.module_member_count(answers.handle(first)?).to_string(),
        "?ModuleName" => file.module_name(answers.handle(first)?),
        "?ModuleOutputPorts" => ports(file, &file.module_output_ports(answers.handle(first)?)),
        "?ModulePorts" => ports(file, &file.module_ports(answers.handle(first)?)),
        "?TypeFlatBitCountAsInt64" => file
            .type_flat_bit_count_as_int64(answers.handle(first)?)?
            .to_string(),
        "?TypeIsSigned" => file.type_is_signed(answers.handle(first)?).to_string(),
        "?TypeWidthAsInt64" => file
            .type_width_as_int64(answers.handle(first)?)?
            .to_string(),
        "?TypeWidthExpr" => match file.type_width_expr(answers.handle(first)?) {
            Some(width) => file.emit_expression(&width),
            None => "-".to_owned(),
        },
        other => panic!("no question: {other}"),
    })
}

fn ports(file: &VastFile, ports: &[ModulePort]) -> String {
    let mut lines = ports.len().to_string();
    for port in ports {
        lines += &format!(
            "\n{} {:?} {} {} {}",
            file.port_name(*port),
            file.port_direction(*port),
            file.port_width(*port),
            file.type_is_signed(file.port_data_type(*port)),
            file.logic_ref_name(file.port_logic_ref(*port)),
        );
    }
    lines
}

/// What the helper answers, and what is printed of it.
pub fn helped(
    file: &mut VastFile,
    answers: &Answers,
    line: &Line,
) -> Result<(Answer, String), Fault> {
    let arguments = &line.arguments;
    let made = match line.call.as_str() {
        "!AddRegisters" => return registers(file, answers, arguments),
        "!BitwiseOrReduce" => bitwise_or_reduce(&answers.handles(&arguments[0])?, file)?,
        "!BitwiseOrReduceArrayElements" => {
            let dimensions: Vec<i64> = arguments[1].list().iter().map(Argument::number).collect();
            bitwise_or_reduce_array_elements(&answers.handle(&arguments[0])?, &dimensions, file)?
        }
        "!LogicalAndReduce" => {
            logical_and_reduce(&answers.handles(&arguments[0])?, arguments[1].truth(), file)?
        }
        "!LogicalOrReduce" => {
            logical_or_reduce(&answers.handles(&arguments[0])?, arguments[1].truth(), file)?
        }
        other => panic!("no helper: {other}"),
    };
    Ok((Answer::Expr(made), file.emit_expression(&made)))
}

fn registers(
    file: &mut VastFile,
    answers: &Answers,
    arguments: &[Argument],
) -> Result<(Answer, String), Fault> {
    let clk: Expr = answers.handle(&arguments[0])?;
    let reset = match arguments[1].option() {
        None => None,
        Some(reset) => Some(Reset {
            signal: answers.handle(&reset.list()[0])?,
            active_low: reset.list()[1].truth(),
        }),
    };
    let mut definitions = Vec::new();
    for register in arguments[2].list() {
        let parts = register.list();
        let optional =
            |part: &Argument| part.option().map(|value| answers.handle(value)).transpose();
        definitions.push(RegisterDefinition {
            reg: answers.handle(&parts[0])?,
            next: answers.handle(&parts[1])?,
            reset_value: optional(&parts[2])?,
            enable: optional(&parts[3])?,
        });
    }
    let module: Result<VastModule, Fault> = answers.handle(&arguments[3]);
    let scope = match module {
        Ok(module) => RegisterScope::Module(module),
        Err(Fault::WrongKind) => RegisterScope::GenerateLoop(answers.handle(&arguments[3])?),
        Err(fault) => return Err(fault),
    };
    add_registers(&clk, reset, &definitions, scope, file)?;
    Ok((Answer::Nothing, "ok".to_owned()))
}
