//! Calls of the file's items, and of modules with their ports, declarations and parameters.
//!
//! Written by tools/bindings_from_calls from the table of calls; not to be edited.

use crate::calls::Call;
use crate::error::VastError;
use crate::file::VastFile;
use crate::handles::{
    BlankLine, Def, Expr, LocalparamRef, LogicRef, ParameterRef, VastDataType, VastModule,
};
use crate::kinds::ModulePortDirection;

impl VastFile {
    /// The inclusion of the file at this path, as the last item of the file.
    pub fn add_include(&mut self, include: &str) {
        self.later(Call::AddInclude, |calls| calls.text(include));
    }

    /// A blank line, as the last item of the file.
    pub fn add_blank_line(&mut self, blank_line: BlankLine) {
        let blank_line_step = self.own(blank_line.0);
        self.later_of(Call::AddBlankLine, [blank_line_step]);
    }

    /// A comment, as the last item of the file; each line of the text becomes a line of its own.
    pub fn add_comment_text(&mut self, text: &str) {
        self.later(Call::AddCommentText, |calls| calls.text(text));
    }

    /// An empty module, as the last item of the file.
    pub fn add_module(&mut self, name: &str) -> VastModule {
        VastModule(self.later(Call::AddModule, |calls| calls.text(name)))
    }

    /// An input, as the module's last port; returns its name as an expression.
    ///
    /// # Panics
    /// With `module ports must have unique names`, where that is not so.
    pub fn add_input(
        &mut self,
        owner: VastModule,
        name: &str,
        data_type: &VastDataType,
    ) -> LogicRef {
        let owner_step = self.own(owner.0);
        let data_type_step = self.own(data_type.0);
        let made = self.made(
            false,
            Call::AddInput,
            "module ports must have unique names",
            |calls| calls.step(owner_step).text(name).step(data_type_step),
        );
        self.keep_port(owner_step, ModulePortDirection::Input, data_type_step, made);
        LogicRef(made)
    }

    /// An output, as the module's last port; returns its name as an expression.
    ///
    /// # Panics
    /// With `module ports must have unique names`, where that is not so.
    pub fn add_output(
        &mut self,
        owner: VastModule,
        name: &str,
        data_type: &VastDataType,
    ) -> LogicRef {
        let owner_step = self.own(owner.0);
        let data_type_step = self.own(data_type.0);
        let made = self.made(
            false,
            Call::AddOutput,
            "module ports must have unique names",
            |calls| calls.step(owner_step).text(name).step(data_type_step),
        );
        self.keep_port(
            owner_step,
            ModulePortDirection::Output,
            data_type_step,
            made,
        );
        LogicRef(made)
    }

    /// A port of both directions, as the module's last port; returns its name as an expression.
    ///
    /// # Panics
    /// With `module ports must have unique names`, where that is not so.
    pub fn add_inout(
        &mut self,
        owner: VastModule,
        name: &str,
        data_type: &VastDataType,
    ) -> LogicRef {
        let owner_step = self.own(owner.0);
        let data_type_step = self.own(data_type.0);
        let made = self.made(
            false,
            Call::AddInout,
            "module ports must have unique names",
            |calls| calls.step(owner_step).text(name).step(data_type_step),
        );
        self.keep_port(owner_step, ModulePortDirection::InOut, data_type_step, made);
        LogicRef(made)
    }

    /// An input that is declared with the word `logic`, as the module's last port; returns its name as an
    /// expression.
    ///
    /// # Panics
    /// With `module ports must have unique names`, where that is not so.
    pub fn add_logic_input(
        &mut self,
        owner: VastModule,
        name: &str,
        data_type: &VastDataType,
    ) -> LogicRef {
        let owner_step = self.own(owner.0);
        let data_type_step = self.own(data_type.0);
        let made = self.made(
            false,
            Call::AddLogicInput,
            "module ports must have unique names",
            |calls| calls.step(owner_step).text(name).step(data_type_step),
        );
        self.keep_port(owner_step, ModulePortDirection::Input, data_type_step, made);
        LogicRef(made)
    }

    /// An output that is declared with the word `logic`, as the module's last port; returns its name as an
    /// expression.
    ///
    /// # Panics
    /// With `module ports must have unique names`, where that is not so.
    pub fn add_logic_output(
        &mut self,
        owner: VastModule,
        name: &str,
        data_type: &VastDataType,
    ) -> LogicRef {
        let owner_step = self.own(owner.0);
        let data_type_step = self.own(data_type.0);
        let made = self.made(
            false,
            Call::AddLogicOutput,
            "module ports must have unique names",
            |calls| calls.step(owner_step).text(name).step(data_type_step),
        );
        self.keep_port(
            owner_step,
            ModulePortDirection::Output,
            data_type_step,
            made,
        );
        LogicRef(made)
    }

    /// A wire, as the module's last member; returns its name as an expression. That the name is free is the
    /// caller's to know; [`VastFile::name_is_free`] is the test.
    ///
    /// # Panics
    /// With `module wires must have unique names`, where that is not so.
    pub fn add_wire(
        &mut self,
        owner: VastModule,
        name: &str,
        data_type: &VastDataType,
    ) -> LogicRef {
        let owner_step = self.own(owner.0);
        let data_type_step = self.own(data_type.0);
        LogicRef(self.made(
            false,
            Call::AddWire,
            "module wires must have unique names",
            |calls| calls.step(owner_step).text(name).step(data_type_step),
        ))
    }

    /// A reg, as the module's last member; returns its name as an expression.
    ///
    /// # Errors
    /// Where the library refuses the call, in its words.
    pub fn add_reg(
        &mut self,
        owner: VastModule,
        name: &str,
        data_type: &VastDataType,
    ) -> Result<LogicRef, VastError> {
        let owner_step = self.own(owner.0);
        let data_type_step = self.own(data_type.0);
        Ok(LogicRef(self.allowed(false, Call::AddReg, |calls| {
            calls.step(owner_step).text(name).step(data_type_step)
        })?))
    }

    /// A logic, as the module's last member; returns its name as an expression.
    ///
    /// # Errors
    /// Where the library refuses the call, in its words.
    pub fn add_logic(
        &mut self,
        owner: VastModule,
        name: &str,
        data_type: &VastDataType,
    ) -> Result<LogicRef, VastError> {
        let owner_step = self.own(owner.0);
        let data_type_step = self.own(data_type.0);
        Ok(LogicRef(self.allowed(false, Call::AddLogic, |calls| {
            calls.step(owner_step).text(name).step(data_type_step)
        })?))
    }

    /// A parameter without a type, as the last of the module's header; returns its name as an expression.
    pub fn add_parameter_port(&mut self, owner: VastModule, name: &str, value: &Expr) -> LogicRef {
        let owner_step = self.own(owner.0);
        let value_step = self.own(value.0);
        LogicRef(self.later(Call::AddParameterPort, |calls| {
            calls.step(owner_step).text(name).step(value_step)
        }))
    }

    /// A parameter of this type, as the last of the module's header; returns its name as an expression.
    pub fn add_typed_parameter_port(
        &mut self,
        owner: VastModule,
        name: &str,
        data_type: &VastDataType,
        value: &Expr,
    ) -> LogicRef {
        let owner_step = self.own(owner.0);
        let data_type_step = self.own(data_type.0);
        let value_step = self.own(value.0);
        LogicRef(self.later(Call::AddTypedParameterPort, |calls| {
            calls
                .step(owner_step)
                .text(name)
                .step(data_type_step)
                .step(value_step)
        }))
    }

    /// `parameter NAME = VALUE`, as the module's last member; returns its name.
    pub fn add_parameter(&mut self, owner: VastModule, name: &str, rhs: &Expr) -> ParameterRef {
        let owner_step = self.own(owner.0);
        let rhs_step = self.own(rhs.0);
        ParameterRef(self.later(Call::AddParameter, |calls| {
            calls.step(owner_step).text(name).step(rhs_step)
        }))
    }

    /// A parameter with the definition's kind, type and name, as the module's last member; returns its name.
    pub fn add_parameter_with_def(
        &mut self,
        owner: VastModule,
        definition: &Def,
        rhs: &Expr,
    ) -> ParameterRef {
        let owner_step = self.own(owner.0);
        let definition_step = self.own(definition.0);
        let rhs_step = self.own(rhs.0);
        ParameterRef(self.later_of(
            Call::AddParameterWithDef,
            [owner_step, definition_step, rhs_step],
        ))
    }

    /// `localparam NAME = VALUE`, as the module's last member; returns its name.
    pub fn add_localparam(&mut self, owner: VastModule, name: &str, rhs: &Expr) -> LocalparamRef {
        let owner_step = self.own(owner.0);
        let rhs_step = self.own(rhs.0);
        LocalparamRef(self.later(Call::AddLocalparam, |calls| {
            calls.step(owner_step).text(name).step(rhs_step)
        }))
    }

    /// `localparam int NAME = VALUE`, as the module's last member; returns its name.
    pub fn add_int_localparam(
        &mut self,
        owner: VastModule,
        name: &str,
        rhs: &Expr,
    ) -> LocalparamRef {
        let owner_step = self.own(owner.0);
        let rhs_step = self.own(rhs.0);
        LocalparamRef(self.later(Call::AddIntLocalparam, |calls| {
            calls.step(owner_step).text(name).step(rhs_step)
        }))
    }

    /// A local parameter with the definition's kind, type and name, as the module's last member; returns its
    /// name.
    pub fn add_typed_localparam(
        &mut self,
        owner: VastModule,
        definition: &Def,
        rhs: &Expr,
    ) -> LocalparamRef {
        let owner_step = self.own(owner.0);
        let definition_step = self.own(definition.0);
        let rhs_step = self.own(rhs.0);
        LocalparamRef(self.later_of(
            Call::AddTypedLocalparam,
            [owner_step, definition_step, rhs_step],
        ))
    }

    /// Puts the module's wires, regs, logics and variables from the member `start` on before the other
    /// members from there on. Declarations keep their order, and so do the others; the members before `start`
    /// stay. `start` is at most [`VastFile::module_member_count`].
    ///
    /// # Panics
    /// With `the start lies behind the module's members`, where that is not so.
    pub fn hoist_module_declarations(&mut self, owner: VastModule, start: usize) {
        let owner_step = self.own(owner.0);
        self.made(
            false,
            Call::HoistModuleDeclarations,
            "the start lies behind the module's members",
            |calls| calls.step(owner_step).count(start),
        );
    }
}
