//! Groups of registers, and reductions of many expressions to one.

use crate::calls::Call;
use crate::error::VastError;
use crate::file::VastFile;
use crate::handles::{Expr, GenerateLoop, IndexableExpr, VastModule};
use crate::packed::Calls;

/// The reset of a group of registers.
#[derive(Clone, Copy, Debug)]
pub struct Reset {
    pub signal: Expr,
    /// Whether the registers are reset while the signal is 0.
    pub active_low: bool,
}

/// A register: its name, what it becomes at the clock's edge, its value at reset, and whether it is written at all.
#[derive(Clone, Copy, Debug)]
pub struct RegisterDefinition {
    pub reg: Expr,
    pub next: Expr,
    pub reset_value: Option<Expr>,
    pub enable: Option<Expr>,
}

/// Where registers are added.
#[derive(Clone, Copy, Debug)]
pub enum RegisterScope {
    Module(VastModule),
    GenerateLoop(GenerateLoop),
}

/// Adds one `always_ff` for the registers to the scope; nothing where there are none.
///
/// # Errors
/// Where a register has a value at reset and there is no reset.
///
/// # Panics
/// Where a handle is another file's.
pub fn add_registers(
    clk: &Expr,
    reset: Option<Reset>,
    registers: &[RegisterDefinition],
    scope: RegisterScope,
    file: &mut VastFile,
) -> Result<(), VastError> {
    if registers.is_empty() {
        return Ok(());
    }
    if reset.is_none()
        && registers
            .iter()
            .any(|register| register.reset_value.is_some())
    {
        return Err(VastError(
            "reset signal is required when a register has a reset value".to_owned(),
        ));
    }
    let clk = file.own(clk.0);
    let scope = match scope {
        RegisterScope::Module(module) => file.own(module.0),
        RegisterScope::GenerateLoop(generate) => file.own(generate.0),
    };
    let reset = reset.map(|reset| (file.own(reset.signal.0), reset.active_low));
    let mut steps = Vec::with_capacity(registers.len());
    for register in registers {
        steps.push((
            file.own(register.reg.0),
            file.own(register.next.0),
            register.reset_value.map(|value| file.own(value.0)),
            register.enable.map(|enable| file.own(enable.0)),
        ));
    }
    file.allowed(false, Call::AddRegisters, |calls| {
        calls
            .step(clk)
            .option(reset, |calls, (signal, active_low)| {
                calls.step(signal).truth(active_low)
            })
            .list(steps, |calls, (reg, next, reset_value, enable)| {
                calls
                    .step(reg)
                    .step(next)
                    .option(reset_value, Calls::step)
                    .option(enable, Calls::step)
            })
            .step(scope)
    })?;
    Ok(())
}

/// The logical OR of all inputs, false where there are none, or its opposite.
///
/// # Errors
/// Never; the original's signature is kept.
///
/// # Panics
/// Where a handle is another file's.
pub fn logical_or_reduce(
    inputs: &[Expr],
    invert: bool,
    file: &mut VastFile,
) -> Result<Expr, VastError> {
    logical(Call::LogicalOrReduce, inputs, invert, file)
}

/// The logical AND of all inputs, true where there are none, or its opposite.
///
/// # Errors
/// Never; the original's signature is kept.
///
/// # Panics
/// Where a handle is another file's.
pub fn logical_and_reduce(
    inputs: &[Expr],
    invert: bool,
    file: &mut VastFile,
) -> Result<Expr, VastError> {
    logical(Call::LogicalAndReduce, inputs, invert, file)
}

/// The bitwise OR of all inputs, `'0` where there are none.
///
/// # Errors
/// Never; the original's signature is kept.
///
/// # Panics
/// Where a handle is another file's.
pub fn bitwise_or_reduce(inputs: &[Expr], file: &mut VastFile) -> Result<Expr, VastError> {
    let steps = own_all(inputs, file);
    if let [only] = inputs {
        return Ok(*only);
    }
    let made = file.allowed(false, Call::BitwiseOrReduce, |calls| calls.steps(&steps))?;
    Ok(Expr(made))
}

/// The bitwise OR of all elements of an array of these dimensions, the outermost first.
///
/// # Errors
/// Where there is no dimension, one is below 1, or they are not those of the expression's type.
///
/// # Panics
/// Where the handle is another file's.
pub fn bitwise_or_reduce_array_elements(
    expr: &IndexableExpr,
    dimensions: &[i64],
    file: &mut VastFile,
) -> Result<Expr, VastError> {
    let step = file.own_indexable(expr);
    let made = file.allowed(false, Call::BitwiseOrReduceArrayElements, |calls| {
        calls.step(step).numbers(dimensions)
    })?;
    Ok(Expr(made))
}

fn logical(
    call: Call,
    inputs: &[Expr],
    invert: bool,
    file: &mut VastFile,
) -> Result<Expr, VastError> {
    let steps = own_all(inputs, file);
    if let ([only], false) = (inputs, invert) {
        return Ok(*only);
    }
    let made = file.allowed(false, call, |calls| calls.steps(&steps).truth(invert))?;
    Ok(Expr(made))
}

fn own_all(inputs: &[Expr], file: &VastFile) -> Vec<usize> {
    inputs.iter().map(|input| file.own(input.0)).collect()
}
