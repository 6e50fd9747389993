//! Calls of functions, always blocks, conditionals and statements.
//!
//! Written by tools/bindings_from_calls from the table of calls; not to be edited.

use crate::calls::Call;
use crate::error::VastError;
use crate::file::VastFile;
use crate::handles::{
    CaseStatement, Conditional, Expr, LogicRef, VastAlwaysBase, VastDataType, VastFunction,
    VastModule, VastStatement, VastStatementBlock,
};
use crate::kinds::VastFileType;

impl VastFile {
    /// A function without inputs and locals and with an empty body, as the module's last member.
    ///
    /// # Errors
    /// Where the library refuses the call, in its words.
    pub fn add_function(
        &mut self,
        owner: VastModule,
        name: &str,
        result_type: &VastDataType,
    ) -> Result<VastFunction, VastError> {
        let owner_step = self.own(owner.0);
        let result_type_step = self.own(result_type.0);
        Ok(VastFunction(self.allowed(
            false,
            Call::AddFunction,
            |calls| calls.step(owner_step).text(name).step(result_type_step),
        )?))
    }

    /// An input of this type with the kind word `reg`, as the function's last; returns its name as an
    /// expression.
    ///
    /// # Errors
    /// Where the library refuses the call, in its words.
    pub fn function_add_input(
        &mut self,
        function: VastFunction,
        name: &str,
        data_type: &VastDataType,
    ) -> Result<LogicRef, VastError> {
        let function_step = self.own(function.0);
        let data_type_step = self.own(data_type.0);
        Ok(LogicRef(self.allowed(
            false,
            Call::FunctionAddInput,
            |calls| calls.step(function_step).text(name).step(data_type_step),
        )?))
    }

    /// An input of this type with the kind word `logic`, as the function's last; returns its name as an
    /// expression.
    ///
    /// # Errors
    /// Where the library refuses the call, in its words.
    pub fn function_add_logic_input(
        &mut self,
        function: VastFunction,
        name: &str,
        data_type: &VastDataType,
    ) -> Result<LogicRef, VastError> {
        let function_step = self.own(function.0);
        let data_type_step = self.own(data_type.0);
        Ok(LogicRef(self.allowed(
            false,
            Call::FunctionAddLogicInput,
            |calls| calls.step(function_step).text(name).step(data_type_step),
        )?))
    }

    /// A reg, as the function's last local; returns its name as an expression.
    ///
    /// # Errors
    /// Where the library refuses the call, in its words.
    pub fn function_add_reg(
        &mut self,
        function: VastFunction,
        name: &str,
        data_type: &VastDataType,
    ) -> Result<LogicRef, VastError> {
        let function_step = self.own(function.0);
        let data_type_step = self.own(data_type.0);
        Ok(LogicRef(self.allowed(
            false,
            Call::FunctionAddReg,
            |calls| calls.step(function_step).text(name).step(data_type_step),
        )?))
    }

    /// A logic, as the function's last local; returns its name as an expression.
    ///
    /// # Errors
    /// Where the library refuses the call, in its words.
    pub fn function_add_logic(
        &mut self,
        function: VastFunction,
        name: &str,
        data_type: &VastDataType,
    ) -> Result<LogicRef, VastError> {
        let function_step = self.own(function.0);
        let data_type_step = self.own(data_type.0);
        Ok(LogicRef(self.allowed(
            false,
            Call::FunctionAddLogic,
            |calls| calls.step(function_step).text(name).step(data_type_step),
        )?))
    }

    /// The function's body.
    pub fn function_body(&self, function: VastFunction) -> VastStatementBlock {
        VastStatementBlock(self.answered(Call::FunctionBody, function.0))
    }

    /// The name to which the body assigns the function's result, as an expression.
    pub fn function_result(&self, function: VastFunction) -> LogicRef {
        LogicRef(self.answered(Call::FunctionResult, function.0))
    }

    /// An `always_ff` with these events and an empty block, as the module's last member.
    ///
    /// # Errors
    /// Where the library refuses the call, in its words.
    pub fn add_always_ff(
        &mut self,
        owner: VastModule,
        sensitivity_list: &[&Expr],
    ) -> Result<VastAlwaysBase, VastError> {
        let owner_step = self.own(owner.0);
        let sensitivity_list_steps = self.own_all(sensitivity_list);
        Ok(VastAlwaysBase(self.allowed(
            false,
            Call::AddAlwaysFf,
            |calls| calls.step(owner_step).steps(&sensitivity_list_steps),
        )?))
    }

    /// An `always @` with these events and an empty block, as the module's last member; there may be no
    /// events.
    ///
    /// # Errors
    /// Where the library refuses the call, in its words.
    pub fn add_always_at(
        &mut self,
        owner: VastModule,
        sensitivity_list: &[&Expr],
    ) -> Result<VastAlwaysBase, VastError> {
        let owner_step = self.own(owner.0);
        let sensitivity_list_steps = self.own_all(sensitivity_list);
        Ok(VastAlwaysBase(self.allowed(
            false,
            Call::AddAlwaysAt,
            |calls| calls.step(owner_step).steps(&sensitivity_list_steps),
        )?))
    }

    /// An `always_comb` with an empty block, as the module's last member.
    ///
    /// # Errors
    /// Where the library refuses the call, in its words.
    pub fn add_always_comb(&mut self, owner: VastModule) -> Result<VastAlwaysBase, VastError> {
        let owner_step = self.own(owner.0);
        Ok(VastAlwaysBase(
            self.later_of(Call::AddAlwaysComb, [owner_step]),
        ))
    }

    /// The block of the always block.
    pub fn statement_block(&self, always: VastAlwaysBase) -> VastStatementBlock {
        VastStatementBlock(self.answered(Call::StatementBlock, always.0))
    }

    /// The assignment `lhs = rhs`, as the block's last statement.
    pub fn block_add_blocking_assignment(
        &mut self,
        block: VastStatementBlock,
        lhs: &Expr,
        rhs: &Expr,
    ) -> VastStatement {
        let block_step = self.own(block.0);
        let lhs_step = self.own(lhs.0);
        let rhs_step = self.own(rhs.0);
        VastStatement(self.later_of(
            Call::BlockAddBlockingAssignment,
            [block_step, lhs_step, rhs_step],
        ))
    }

    /// The assignment `lhs <= rhs`, as the block's last statement.
    pub fn block_add_nonblocking_assignment(
        &mut self,
        block: VastStatementBlock,
        lhs: &Expr,
        rhs: &Expr,
    ) -> VastStatement {
        let block_step = self.own(block.0);
        let lhs_step = self.own(lhs.0);
        let rhs_step = self.own(rhs.0);
        VastStatement(self.later_of(
            Call::BlockAddNonblockingAssignment,
            [block_step, lhs_step, rhs_step],
        ))
    }

    /// The assignment `assign lhs = rhs`, as the block's last statement.
    pub fn block_add_continuous_assignment(
        &mut self,
        block: VastStatementBlock,
        lhs: &Expr,
        rhs: &Expr,
    ) -> VastStatement {
        let block_step = self.own(block.0);
        let lhs_step = self.own(lhs.0);
        let rhs_step = self.own(rhs.0);
        VastStatement(self.later_of(
            Call::BlockAddContinuousAssignment,
            [block_step, lhs_step, rhs_step],
        ))
    }

    /// A comment, as the block's last statement; each line of the text becomes a line of its own.
    pub fn block_add_comment_text(
        &mut self,
        block: VastStatementBlock,
        text: &str,
    ) -> VastStatement {
        let block_step = self.own(block.0);
        self.later(Call::BlockAddCommentText, |calls| {
            calls.step(block_step).text(text)
        });
        VastStatement(block.0)
    }

    /// A text that is written as it is, as the block's last statement.
    pub fn block_add_inline_text(
        &mut self,
        block: VastStatementBlock,
        text: &str,
    ) -> VastStatement {
        let block_step = self.own(block.0);
        self.later(Call::BlockAddInlineText, |calls| {
            calls.step(block_step).text(text)
        });
        VastStatement(block.0)
    }

    /// A blank line, as the block's last statement.
    pub fn block_add_blank_line(&mut self, block: VastStatementBlock) -> VastStatement {
        let block_step = self.own(block.0);
        self.later_of(Call::BlockAddBlankLine, [block_step]);
        VastStatement(block.0)
    }

    /// A conditional with an empty block, as the module's last member.
    pub fn add_conditional(&mut self, owner: VastModule, condition: &Expr) -> Conditional {
        let owner_step = self.own(owner.0);
        let condition_step = self.own(condition.0);
        let made = self.later_of(Call::AddConditional, [owner_step, condition_step]);
        self.answer_next(Call::ConditionalThenBlock, made);
        Conditional(made)
    }

    /// A conditional with an empty block, as the block's last statement.
    pub fn block_add_cond(&mut self, block: VastStatementBlock, condition: &Expr) -> Conditional {
        let block_step = self.own(block.0);
        let condition_step = self.own(condition.0);
        let made = self.later_of(Call::BlockAddCond, [block_step, condition_step]);
        self.answer_next(Call::ConditionalThenBlock, made);
        Conditional(made)
    }

    /// The block of the conditional's first arm.
    pub fn conditional_then_block(&self, conditional: Conditional) -> VastStatementBlock {
        VastStatementBlock(self.answered_next(Call::ConditionalThenBlock, conditional.0))
    }

    /// An arm `else if` with an empty block, as the conditional's last; returns the block. The conditional
    /// has no `else` yet; [`VastFile::conditional_has_else`] is the test.
    ///
    /// # Panics
    /// With `cannot add an else-if arm after an unconditional else`, where that is not so.
    pub fn conditional_add_else_if(
        &mut self,
        conditional: Conditional,
        condition: &Expr,
    ) -> VastStatementBlock {
        let conditional_step = self.own(conditional.0);
        let condition_step = self.own(condition.0);
        let is_certain = !self.known().has_else(conditional_step);
        VastStatementBlock(self.made(
            is_certain,
            Call::ConditionalAddElseIf,
            "cannot add an else-if arm after an unconditional else",
            |calls| calls.step(conditional_step).step(condition_step),
        ))
    }

    /// The conditional's `else` with an empty block; returns the block. The conditional has none yet;
    /// [`VastFile::conditional_has_else`] is the test.
    ///
    /// # Panics
    /// With `cannot add another arm after an unconditional else`, where that is not so.
    pub fn conditional_add_else(&mut self, conditional: Conditional) -> VastStatementBlock {
        let conditional_step = self.own(conditional.0);
        let is_certain = !self.known().has_else(conditional_step);
        let made = self.made(
            is_certain,
            Call::ConditionalAddElse,
            "cannot add another arm after an unconditional else",
            |calls| calls.step(conditional_step),
        );
        self.known().keep_else(conditional_step);
        VastStatementBlock(made)
    }

    /// A `case` statement without arms, as the block's last statement.
    pub fn block_add_case(&mut self, block: VastStatementBlock, selector: &Expr) -> CaseStatement {
        let block_step = self.own(block.0);
        let selector_step = self.own(selector.0);
        CaseStatement(self.later_of(Call::BlockAddCase, [block_step, selector_step]))
    }

    /// A `casez` statement without arms, as the block's last statement.
    pub fn block_add_casez(&mut self, block: VastStatementBlock, selector: &Expr) -> CaseStatement {
        let block_step = self.own(block.0);
        let selector_step = self.own(selector.0);
        CaseStatement(self.later_of(Call::BlockAddCasez, [block_step, selector_step]))
    }

    /// A `casex` statement without arms, as the block's last statement.
    pub fn block_add_casex(&mut self, block: VastStatementBlock, selector: &Expr) -> CaseStatement {
        let block_step = self.own(block.0);
        let selector_step = self.own(selector.0);
        CaseStatement(self.later_of(Call::BlockAddCasex, [block_step, selector_step]))
    }

    /// An arm with this label and an empty block, as the case statement's last; returns the block.
    pub fn case_add_item(&mut self, case: CaseStatement, pattern: &Expr) -> VastStatementBlock {
        let case_step = self.own(case.0);
        let pattern_step = self.own(pattern.0);
        VastStatementBlock(self.later_of(Call::CaseAddItem, [case_step, pattern_step]))
    }

    /// A `default` arm with an empty block, as the case statement's last; returns the block. There may be
    /// more than one.
    pub fn case_add_default(&mut self, case: CaseStatement) -> VastStatementBlock {
        let case_step = self.own(case.0);
        VastStatementBlock(self.later_of(Call::CaseAddDefault, [case_step]))
    }

    /// Makes the case statement `unique`, or not. It takes no memory.
    ///
    /// # Errors
    /// Where the library refuses the call, in its words.
    pub fn case_set_unique(&mut self, case: CaseStatement, unique: bool) -> Result<(), VastError> {
        let case_step = self.own(case.0);
        let is_certain = !unique || self.file_type == VastFileType::SystemVerilog;
        self.allowed(is_certain, Call::CaseSetUnique, |calls| {
            calls.step(case_step).truth(unique)
        })?;
        Ok(())
    }
}
