//! Calls of generate loops and their members.
//!
//! Written by tools/bindings_from_calls from the table of calls; not to be edited.

use crate::calls::Call;
use crate::error::VastError;
use crate::file::VastFile;
use crate::handles::{
    Comment, Conditional, Def, Expr, GenerateLoop, InlineVerilogStatement, Instantiation,
    LocalparamRef, LogicRef, MacroStatement, VastAlwaysBase, VastModule, VastStatement,
};
use crate::packed::Calls;

impl VastFile {
    /// A generate loop without members, as the module's last member: its variable runs from `start` on while
    /// it is below `end`. The variable's name is an expression without a type
    /// ([`VastFile::generate_genvar`]).
    pub fn add_generate_loop(
        &mut self,
        owner: VastModule,
        name: &str,
        start: &Expr,
        end: &Expr,
        label: Option<&str>,
    ) -> GenerateLoop {
        let owner_step = self.own(owner.0);
        let start_step = self.own(start.0);
        let end_step = self.own(end.0);
        GenerateLoop(self.later(Call::AddGenerateLoop, |calls| {
            calls
                .step(owner_step)
                .text(name)
                .step(start_step)
                .step(end_step)
                .option(label, Calls::text)
        }))
    }

    /// A generate loop without members, as the last member of the loop `parent`; otherwise as
    /// [`VastFile::add_generate_loop`].
    pub fn generate_add_generate_loop(
        &mut self,
        parent: GenerateLoop,
        name: &str,
        start: &Expr,
        end: &Expr,
        label: Option<&str>,
    ) -> GenerateLoop {
        let parent_step = self.own(parent.0);
        let start_step = self.own(start.0);
        let end_step = self.own(end.0);
        GenerateLoop(self.later(Call::GenerateAddGenerateLoop, |calls| {
            calls
                .step(parent_step)
                .text(name)
                .step(start_step)
                .step(end_step)
                .option(label, Calls::text)
        }))
    }

    /// The loop's variable as an expression.
    pub fn generate_genvar(&self, generate: GenerateLoop) -> LogicRef {
        LogicRef(self.answered(Call::GenerateGenvar, generate.0))
    }

    /// An `always_comb` with an empty block, as the loop's last member.
    ///
    /// # Errors
    /// Where the library refuses the call, in its words.
    pub fn generate_add_always_comb(
        &mut self,
        generate: GenerateLoop,
    ) -> Result<VastAlwaysBase, VastError> {
        let generate_step = self.own(generate.0);
        Ok(VastAlwaysBase(
            self.later_of(Call::GenerateAddAlwaysComb, [generate_step]),
        ))
    }

    /// An `always_ff` with these events and an empty block, as the loop's last member.
    ///
    /// # Errors
    /// Where the library refuses the call, in its words.
    pub fn generate_add_always_ff(
        &mut self,
        generate: GenerateLoop,
        sensitivity_list: &[&Expr],
    ) -> Result<VastAlwaysBase, VastError> {
        let generate_step = self.own(generate.0);
        let sensitivity_list_steps = self.own_all(sensitivity_list);
        Ok(VastAlwaysBase(self.allowed(
            false,
            Call::GenerateAddAlwaysFf,
            |calls| calls.step(generate_step).steps(&sensitivity_list_steps),
        )?))
    }

    /// An `always @` with these events and an empty block, as the loop's last member; there may be no events.
    ///
    /// # Errors
    /// Where the library refuses the call, in its words.
    pub fn generate_add_always_at(
        &mut self,
        generate: GenerateLoop,
        sensitivity_list: &[&Expr],
    ) -> Result<VastAlwaysBase, VastError> {
        let generate_step = self.own(generate.0);
        let sensitivity_list_steps = self.own_all(sensitivity_list);
        Ok(VastAlwaysBase(self.allowed(
            false,
            Call::GenerateAddAlwaysAt,
            |calls| calls.step(generate_step).steps(&sensitivity_list_steps),
        )?))
    }

    /// `localparam NAME = VALUE`, as the loop's last member; returns its name.
    pub fn generate_add_localparam(
        &mut self,
        generate: GenerateLoop,
        name: &str,
        rhs: &Expr,
    ) -> LocalparamRef {
        let generate_step = self.own(generate.0);
        let rhs_step = self.own(rhs.0);
        LocalparamRef(self.later(Call::GenerateAddLocalparam, |calls| {
            calls.step(generate_step).text(name).step(rhs_step)
        }))
    }

    /// A local parameter with the definition's kind, type and name, as the loop's last member; returns its
    /// name.
    pub fn generate_add_typed_localparam(
        &mut self,
        generate: GenerateLoop,
        definition: &Def,
        rhs: &Expr,
    ) -> LocalparamRef {
        let generate_step = self.own(generate.0);
        let definition_step = self.own(definition.0);
        let rhs_step = self.own(rhs.0);
        LocalparamRef(self.later_of(
            Call::GenerateAddTypedLocalparam,
            [generate_step, definition_step, rhs_step],
        ))
    }

    /// The assignment `assign lhs = rhs`, as the loop's last member.
    pub fn generate_add_continuous_assignment(
        &mut self,
        generate: GenerateLoop,
        lhs: &Expr,
        rhs: &Expr,
    ) -> VastStatement {
        let generate_step = self.own(generate.0);
        let lhs_step = self.own(lhs.0);
        let rhs_step = self.own(rhs.0);
        VastStatement(self.later_of(
            Call::GenerateAddContinuousAssignment,
            [generate_step, lhs_step, rhs_step],
        ))
    }

    /// A conditional with an empty block, as the loop's last member.
    pub fn generate_add_conditional(
        &mut self,
        generate: GenerateLoop,
        condition: &Expr,
    ) -> Conditional {
        let generate_step = self.own(generate.0);
        let condition_step = self.own(condition.0);
        let made = self.later_of(
            Call::GenerateAddConditional,
            [generate_step, condition_step],
        );
        self.answer_next(Call::ConditionalThenBlock, made);
        Conditional(made)
    }

    /// A blank line, as the loop's last member.
    pub fn generate_add_blank_line(&mut self, generate: GenerateLoop) {
        let generate_step = self.own(generate.0);
        self.later_of(Call::GenerateAddBlankLine, [generate_step]);
    }

    /// The comment, as the loop's last member.
    pub fn generate_add_comment(&mut self, generate: GenerateLoop, comment: &Comment) {
        let generate_step = self.own(generate.0);
        let comment_step = self.own(comment.0);
        self.later_of(Call::GenerateAddComment, [generate_step, comment_step]);
    }

    /// The instantiation, as the loop's last member.
    pub fn generate_add_instantiation(
        &mut self,
        generate: GenerateLoop,
        instantiation: &Instantiation,
    ) {
        let generate_step = self.own(generate.0);
        let instantiation_step = self.own(instantiation.0);
        self.later_of(
            Call::GenerateAddInstantiation,
            [generate_step, instantiation_step],
        );
    }

    /// The text, as the loop's last member.
    pub fn generate_add_inline_statement(
        &mut self,
        generate: GenerateLoop,
        statement: &InlineVerilogStatement,
    ) {
        let generate_step = self.own(generate.0);
        let statement_step = self.own(statement.0);
        self.later_of(
            Call::GenerateAddInlineStatement,
            [generate_step, statement_step],
        );
    }

    /// The use of a macro, as the loop's last member.
    pub fn generate_add_macro_statement(
        &mut self,
        generate: GenerateLoop,
        statement: &MacroStatement,
    ) {
        let generate_step = self.own(generate.0);
        let statement_step = self.own(statement.0);
        self.later_of(
            Call::GenerateAddMacroStatement,
            [generate_step, statement_step],
        );
    }
}
