//! Calls of parts that are made beforehand, and that add them to modules.
//!
//! Written by tools/bindings_from_calls from the table of calls; not to be edited.

use crate::calls::Call;
use crate::file::VastFile;
use crate::handles::{
    BlankLine, Comment, ContinuousAssignment, Def, Expr, InlineVerilogStatement, Instantiation,
    MacroRef, MacroStatement, VastDataType, VastModule, VastStatement,
};
use crate::kinds::DataKind;

impl VastFile {
    /// A declaration's kind, type and name, which parameters can be made with.
    pub fn make_def(&mut self, name: &str, kind: DataKind, data_type: &VastDataType) -> Def {
        let data_type_step = self.own(data_type.0);
        Def(self.later(Call::MakeDef, |calls| {
            calls.text(name).count(kind.place()).step(data_type_step)
        }))
    }

    /// A blank line.
    pub fn make_blank_line(&mut self) -> BlankLine {
        BlankLine(self.later(Call::MakeBlankLine, |calls| calls))
    }

    /// A comment; each line of the text becomes a line `// ..` (IEEE 1800-2017, 5.4).
    pub fn make_comment(&mut self, text: &str) -> Comment {
        Comment(self.later(Call::MakeComment, |calls| calls.text(text)))
    }

    /// A text that is written as it is, with the depth of the place before each of its lines.
    pub fn make_inline_verilog_statement(&mut self, text: &str) -> InlineVerilogStatement {
        InlineVerilogStatement(
            self.later(Call::MakeInlineVerilogStatement, |calls| calls.text(text)),
        )
    }

    /// The use of a macro as a member, with a semicolon or without (IEEE 1800-2017, 22.5.1).
    pub fn make_macro_statement(
        &mut self,
        macro_ref: &MacroRef,
        semicolon: bool,
    ) -> MacroStatement {
        let macro_ref_step = self.own(macro_ref.0);
        MacroStatement(self.later(Call::MakeMacroStatement, |calls| {
            calls.step(macro_ref_step).truth(semicolon)
        }))
    }

    /// The assignment `assign lhs = rhs` (IEEE 1800-2017, 10.3.2).
    pub fn make_continuous_assignment(&mut self, lhs: &Expr, rhs: &Expr) -> ContinuousAssignment {
        let lhs_step = self.own(lhs.0);
        let rhs_step = self.own(rhs.0);
        ContinuousAssignment(self.later_of(Call::MakeContinuousAssignment, [lhs_step, rhs_step]))
    }

    /// The procedural assignment `lhs <= rhs` (IEEE 1800-2017, 10.4.2).
    pub fn make_nonblocking_assignment(&mut self, lhs: &Expr, rhs: &Expr) -> VastStatement {
        let lhs_step = self.own(lhs.0);
        let rhs_step = self.own(rhs.0);
        VastStatement(self.later_of(Call::MakeNonblockingAssignment, [lhs_step, rhs_step]))
    }

    /// The procedural assignment `lhs = rhs` (IEEE 1800-2017, 10.4.1).
    pub fn make_blocking_assignment(&mut self, lhs: &Expr, rhs: &Expr) -> VastStatement {
        let lhs_step = self.own(lhs.0);
        let rhs_step = self.own(rhs.0);
        VastStatement(self.later_of(Call::MakeBlockingAssignment, [lhs_step, rhs_step]))
    }

    /// An instance of a module, with an expression for each named parameter, and for each named port an
    /// expression or none, which leaves it open. It stands nowhere until it is added. The module need not be
    /// one of the file.
    ///
    /// # Panics
    /// Where a condition of the call isn't met, with its words.
    pub fn make_instantiation(
        &mut self,
        module_name: &str,
        instance_name: &str,
        parameter_names: &[&str],
        parameter_expressions: &[&Expr],
        connection_names: &[&str],
        connection_expressions: &[Option<&Expr>],
    ) -> Instantiation {
        assert_eq!(
            parameter_names.len(),
            parameter_expressions.len(),
            "module-instantiation parameter names and values must have equal lengths"
        );
        assert_eq!(
            connection_names.len(),
            connection_expressions.len(),
            "module-instantiation port names and values must have equal lengths"
        );
        let parameter_expressions_steps = self.own_all(parameter_expressions);
        let connection_expressions_steps = self.own_any(connection_expressions);
        Instantiation(self.later(Call::MakeInstantiation, |calls| {
            calls
                .text(module_name)
                .text(instance_name)
                .texts(parameter_names)
                .steps(&parameter_expressions_steps)
                .texts(connection_names)
                .optional_steps(&connection_expressions_steps)
        }))
    }

    /// The instantiation, as the module's last member.
    pub fn add_member_instantiation(&mut self, owner: VastModule, instantiation: Instantiation) {
        let owner_step = self.own(owner.0);
        let instantiation_step = self.own(instantiation.0);
        self.later_of(
            Call::AddMemberInstantiation,
            [owner_step, instantiation_step],
        );
    }

    /// The assignment, as the module's last member.
    pub fn add_member_continuous_assignment(
        &mut self,
        owner: VastModule,
        assignment: ContinuousAssignment,
    ) {
        let owner_step = self.own(owner.0);
        let assignment_step = self.own(assignment.0);
        self.later_of(
            Call::AddMemberContinuousAssignment,
            [owner_step, assignment_step],
        );
    }

    /// A blank line, as the module's last member.
    pub fn add_member_blank_line(&mut self, owner: VastModule, blank: BlankLine) {
        let owner_step = self.own(owner.0);
        let blank_step = self.own(blank.0);
        self.later_of(Call::AddMemberBlankLine, [owner_step, blank_step]);
    }

    /// The comment, as the module's last member.
    pub fn add_member_comment(&mut self, owner: VastModule, comment: Comment) {
        let owner_step = self.own(owner.0);
        let comment_step = self.own(comment.0);
        self.later_of(Call::AddMemberComment, [owner_step, comment_step]);
    }

    /// The text, as the module's last member.
    pub fn add_member_inline_statement(
        &mut self,
        owner: VastModule,
        statement: InlineVerilogStatement,
    ) {
        let owner_step = self.own(owner.0);
        let statement_step = self.own(statement.0);
        self.later_of(Call::AddMemberInlineStatement, [owner_step, statement_step]);
    }

    /// The use of a macro, as the module's last member.
    pub fn add_member_macro_statement(&mut self, owner: VastModule, statement: MacroStatement) {
        let owner_step = self.own(owner.0);
        let statement_step = self.own(statement.0);
        self.later_of(Call::AddMemberMacroStatement, [owner_step, statement_step]);
    }
}
