//! Calls that make any other expression.
//!
//! Written by tools/bindings_from_calls from the table of calls; not to be edited.

use crate::calls::Call;
use crate::conditions::cast_condition;
use crate::error::VastError;
use crate::file::VastFile;
use crate::handles::{Expr, Index, IndexableExpr, MacroRef, Slice, VastDataType};
use crate::kinds::LiteralFormat;
use crate::literal::{is_pattern, is_small_literal};

impl VastFile {
    /// The literal `bits[N]:value`, written in a format. `N` is 1 to 1,048,576; the value may have a sign, a
    /// radix mark (`0x`, `0b`, `0o` in either case) and underscores between its digits.
    ///
    /// # Errors
    /// Where the library refuses the call, in its words.
    pub fn make_literal(&mut self, text: &str, format: &LiteralFormat) -> Result<Expr, VastError> {
        let is_certain = is_small_literal(text);
        Ok(Expr(self.allowed(
            is_certain,
            Call::MakeLiteral,
            |calls| calls.text(text).count(format.place()),
        )?))
    }

    /// The binary pattern of these digits `0`, `1` and `?`, the most significant first, as wide as they are
    /// many.
    ///
    /// # Errors
    /// Where the library refuses the call, in its words.
    pub fn make_binary_pattern(&mut self, bits_msb: &str) -> Result<Expr, VastError> {
        let is_certain = is_pattern(bits_msb);
        Ok(Expr(self.allowed(
            is_certain,
            Call::MakeBinaryPattern,
            |calls| calls.text(bits_msb),
        )?))
    }

    /// The number in decimal, without a width; a negative one has its minus.
    pub fn make_unsized_decimal_literal(&mut self, value: i32) -> Expr {
        Expr(self.later(Call::MakeUnsizedDecimalLiteral, |calls| calls.number(value)))
    }

    /// The string of this content: it stands between quotes, with escapes where they are needed.
    pub fn make_string_literal(&mut self, value: &str) -> Expr {
        Expr(self.later(Call::MakeStringLiteral, |calls| calls.text(value)))
    }

    /// All ones, `'1`.
    pub fn make_unsized_one_literal(&mut self) -> Expr {
        Expr(self.later(Call::MakeUnsizedOneLiteral, |calls| calls))
    }

    /// All zeros, `'0`.
    pub fn make_unsized_zero_literal(&mut self) -> Expr {
        Expr(self.later(Call::MakeUnsizedZeroLiteral, |calls| calls))
    }

    /// All bits unknown, `'X`.
    pub fn make_unsized_x_literal(&mut self) -> Expr {
        Expr(self.later(Call::MakeUnsizedXLiteral, |calls| calls))
    }

    /// The bare name, which prints as it is and has no type: what inline text, an include or another file
    /// declares can be named by it. It enters no name, so a later declaration may have it.
    pub fn make_name(&mut self, name: &str) -> Expr {
        Expr(self.later(Call::MakeName, |calls| calls.text(name)))
    }

    /// The same node, as an expression that may be selected from.
    pub fn make_indexable_expression(&self, expression: &Expr) -> IndexableExpr {
        let step = self
            .answered(Call::MakeIndexableExpression, expression.0)
            .step;
        let expression = expression.0;
        IndexableExpr { expression, step }
    }

    /// The range `s[hi:lo]` between two numbers, for which literals are made, that of `hi` first.
    ///
    /// # Panics
    /// With `bit and part-select indices must be nonnegative`, where that is not so.
    pub fn make_slice(&mut self, subject: &IndexableExpr, hi: i64, lo: i64) -> Slice {
        let subject_step = self.own_indexable(subject);
        let is_certain = hi >= 0 && lo >= 0;
        Slice(self.made(
            is_certain,
            Call::MakeSlice,
            "bit and part-select indices must be nonnegative",
            |calls| calls.step(subject_step).number(hi).number(lo),
        ))
    }

    /// The bit `s[index]`, by a number, for which a literal is made.
    ///
    /// # Panics
    /// With `bit and part-select indices must be nonnegative`, where that is not so.
    pub fn make_index(&mut self, subject: &IndexableExpr, index: i64) -> Index {
        let subject_step = self.own_indexable(subject);
        let is_certain = index >= 0;
        Index(self.made(
            is_certain,
            Call::MakeIndex,
            "bit and part-select indices must be nonnegative",
            |calls| calls.step(subject_step).number(index),
        ))
    }

    /// The range `s[hi:lo]` between two bounds that are expressions.
    pub fn make_slice_expr(&mut self, subject: &IndexableExpr, hi: &Expr, lo: &Expr) -> Slice {
        let subject_step = self.own_indexable(subject);
        let hi_step = self.own(hi.0);
        let lo_step = self.own(lo.0);
        Slice(self.later_of(Call::MakeSliceExpr, [subject_step, hi_step, lo_step]))
    }

    /// The bit `s[index]`, by an expression.
    pub fn make_index_expr(&mut self, subject: &IndexableExpr, index: &Expr) -> Index {
        let subject_step = self.own_indexable(subject);
        let index_step = self.own(index.0);
        Index(self.later_of(Call::MakeIndexExpr, [subject_step, index_step]))
    }

    /// The range `s[start +: width]` of so many bits upwards.
    ///
    /// # Panics
    /// With `indexed part-select width must be positive`, where that is not so.
    pub fn make_indexed_part_select(
        &mut self,
        subject: &IndexableExpr,
        start: &Expr,
        width: i64,
    ) -> Expr {
        let subject_step = self.own_indexable(subject);
        let start_step = self.own(start.0);
        let is_certain = width >= 1;
        Expr(self.made(
            is_certain,
            Call::MakeIndexedPartSelect,
            "indexed part-select width must be positive",
            |calls| calls.step(subject_step).step(start_step).number(width),
        ))
    }

    /// The call `f(a, b)` of a function of this name.
    ///
    /// # Panics
    /// With `function call name must not be empty`, where that is not so.
    pub fn make_function_call(&mut self, name: &str, arguments: &[&Expr]) -> Expr {
        let arguments_steps = self.own_all(arguments);
        let is_certain = !name.is_empty();
        Expr(self.made(
            is_certain,
            Call::MakeFunctionCall,
            "function call name must not be empty",
            |calls| calls.text(name).steps(&arguments_steps),
        ))
    }

    /// The concatenation `{a, b}`; there may be no parts.
    pub fn make_concat(&mut self, expressions: &[&Expr]) -> Expr {
        let expressions_steps = self.own_all(expressions);
        Expr(self.later(Call::MakeConcat, |calls| calls.steps(&expressions_steps)))
    }

    /// The replicated concatenation `{n{a, b}}`.
    pub fn make_replicated_concat(&mut self, replication: &Expr, elements: &[&Expr]) -> Expr {
        let replication_step = self.own(replication.0);
        let elements_steps = self.own_all(elements);
        Expr(self.later(Call::MakeReplicatedConcat, |calls| {
            calls.step(replication_step).steps(&elements_steps)
        }))
    }

    /// The replicated concatenation by a number, for which a literal is made too.
    pub fn make_replicated_concat_i64(&mut self, replication: i64, elements: &[&Expr]) -> Expr {
        let elements_steps = self.own_all(elements);
        Expr(self.later(Call::MakeReplicatedConcatI64, |calls| {
            calls.number(replication).steps(&elements_steps)
        }))
    }

    /// The array assignment pattern `'{a, b}`.
    pub fn make_array_assignment_pattern(&mut self, elements: &[&Expr]) -> Expr {
        let elements_steps = self.own_all(elements);
        Expr(self.later(Call::MakeArrayAssignmentPattern, |calls| {
            calls.steps(&elements_steps)
        }))
    }

    /// The choice `c ? a : b`.
    pub fn make_ternary(&mut self, condition: &Expr, consequent: &Expr, alternate: &Expr) -> Expr {
        let condition_step = self.own(condition.0);
        let consequent_step = self.own(consequent.0);
        let alternate_step = self.own(alternate.0);
        Expr(self.later_of(
            Call::MakeTernary,
            [condition_step, consequent_step, alternate_step],
        ))
    }

    /// The value, cast to a width: `w'(v)`.
    pub fn make_width_cast(&mut self, width: &Expr, value: &Expr) -> Expr {
        let width_step = self.own(width.0);
        let value_step = self.own(value.0);
        Expr(self.later_of(Call::MakeWidthCast, [width_step, value_step]))
    }

    /// The value, cast to a type that is no array; [`VastFile::type_can_be_cast`] is the test.
    ///
    /// # Panics
    /// Where a condition of the call isn't met, with its words.
    pub fn make_type_cast(&mut self, data_type: &VastDataType, value: &Expr) -> Expr {
        let data_type_step = self.own(data_type.0);
        let value_step = self.own(value.0);
        let is_certain = !self.known().is_array(data_type_step);
        Expr(self.made_or(
            is_certain,
            Call::MakeTypeCast,
            |calls| calls.step(data_type_step).step(value_step),
            |state| cast_condition(state, data_type_step),
        ))
    }

    /// The event of a rising edge, `posedge a`.
    pub fn make_pos_edge(&mut self, expression: &Expr) -> Expr {
        let expression_step = self.own(expression.0);
        Expr(self.later_of(Call::MakePosEdge, [expression_step]))
    }

    /// The event of a falling edge, `negedge a`.
    pub fn make_neg_edge(&mut self, expression: &Expr) -> Expr {
        let expression_step = self.own(expression.0);
        Expr(self.later_of(Call::MakeNegEdge, [expression_step]))
    }

    /// The use of a macro without arguments, `` `M ``.
    pub fn make_macro_ref(&mut self, name: &str) -> MacroRef {
        MacroRef(self.later(Call::MakeMacroRef, |calls| calls.text(name)))
    }

    /// The use of a macro with arguments, `` `M(a, b) ``; there may be none.
    pub fn make_macro_ref_with_args(&mut self, name: &str, arguments: &[&Expr]) -> MacroRef {
        let arguments_steps = self.own_all(arguments);
        MacroRef(self.later(Call::MakeMacroRefWithArgs, |calls| {
            calls.text(name).steps(&arguments_steps)
        }))
    }
}
