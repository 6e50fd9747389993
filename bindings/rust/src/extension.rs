//! Calls that the original has none of.
//!
//! Written by tools/bindings_from_calls from the table of calls; not to be edited.

use crate::calls::Call;
use crate::error::VastError;
use crate::file::VastFile;
use crate::handles::{
    Def, Expr, GenerateLoop, LogicRef, VastAlwaysBase, VastDataType, VastModule, VastStatementBlock,
};
use crate::known::Width;

/// Calls that the original has none of, as methods of a [`VastFile`] where this trait is in scope.
pub trait VastFileExtension {
    /// The member `value.field` of a value of a named type, whose name prints as it is. The original crate
    /// lacks it.
    fn make_member(&mut self, value: &Expr, field: &str) -> Expr;

    /// The packed array of elements of a type, each dimension as many as an expression says;
    /// [`VastFile::dimensions_are_usable`] is the test of these.
    ///
    /// # Panics
    /// With `a packed array has elements that can be packed, and dimensions of which none is below 1`, where
    /// that is not so.
    fn make_packed_array_type_expr(
        &mut self,
        element: VastDataType,
        dimensions: &[&Expr],
    ) -> VastDataType;

    /// The unpacked array of elements of a type, each dimension as many as an expression says;
    /// [`VastFile::dimensions_are_usable`] is the test of these.
    ///
    /// # Panics
    /// With `an array has dimensions, of which none is below 1`, where that is not so.
    fn make_unpacked_array_type_expr(
        &mut self,
        element: VastDataType,
        dimensions: &[&Expr],
    ) -> VastDataType;

    /// `import PACKAGE::*;`, as the module's last member.
    fn add_import(&mut self, owner: VastModule, package: &str);

    /// `import PACKAGE::*;`, as the last item of the file.
    fn add_file_import(&mut self, package: &str);

    /// `typedef enum`, as the module's last member, and the type of its name: an enumeration over the type,
    /// with an entry for each name, each with a value or none. The names are not taken in the module.
    ///
    /// # Panics
    /// Where a condition of the call isn't met, with its words.
    fn add_enum_typedef(
        &mut self,
        owner: VastModule,
        name: &str,
        data_type: &VastDataType,
        names: &[&str],
        values: &[Option<&Expr>],
    ) -> VastDataType;

    /// `typedef struct packed`, as the module's last member, and the type of its name: a field for each
    /// definition, with its kind, type and name. The type's name is not taken in the module.
    fn add_struct_typedef(&mut self, owner: VastModule, name: &str, fields: &[Def])
        -> VastDataType;

    /// `typedef enum`, as the last item of the file, and the type of its name, as
    /// [`VastFile::add_enum_typedef`] in a module.
    ///
    /// # Panics
    /// Where a condition of the call isn't met, with its words.
    fn add_file_enum_typedef(
        &mut self,
        name: &str,
        data_type: &VastDataType,
        names: &[&str],
        values: &[Option<&Expr>],
    ) -> VastDataType;

    /// `typedef struct packed`, as the last item of the file, and the type of its name, as
    /// [`VastFile::add_struct_typedef`] in a module.
    fn add_file_struct_typedef(&mut self, name: &str, fields: &[Def]) -> VastDataType;

    /// A variable of a type that is declared elsewhere, as the module's last member; returns its name as an
    /// expression.
    ///
    /// # Errors
    /// Where the library refuses the call, in its words.
    fn add_variable(
        &mut self,
        owner: VastModule,
        name: &str,
        data_type: &VastDataType,
    ) -> Result<LogicRef, VastError>;

    /// An `always @*` with an empty block, as the loop's last member.
    ///
    /// # Errors
    /// Where the library refuses the call, in its words.
    fn generate_add_always_star(
        &mut self,
        generate: GenerateLoop,
    ) -> Result<VastAlwaysBase, VastError>;

    /// An `always_latch` with an empty block, as the loop's last member.
    ///
    /// # Errors
    /// Where the library refuses the call, in its words.
    fn generate_add_always_latch(
        &mut self,
        generate: GenerateLoop,
    ) -> Result<VastAlwaysBase, VastError>;

    /// An `initial` block with an empty block, as the loop's last member.
    ///
    /// # Errors
    /// Where the library refuses the call, in its words.
    fn generate_add_initial(&mut self, generate: GenerateLoop)
        -> Result<VastAlwaysBase, VastError>;

    /// An `always @*` with an empty block, as the module's last member.
    ///
    /// # Errors
    /// Where the library refuses the call, in its words.
    fn add_always_star(&mut self, owner: VastModule) -> Result<VastAlwaysBase, VastError>;

    /// An `always_latch` with an empty block, as the module's last member.
    ///
    /// # Errors
    /// Where the library refuses the call, in its words.
    fn add_always_latch(&mut self, owner: VastModule) -> Result<VastAlwaysBase, VastError>;

    /// An `initial` block with an empty block, as the module's last member.
    ///
    /// # Errors
    /// Where the library refuses the call, in its words.
    fn add_initial(&mut self, owner: VastModule) -> Result<VastAlwaysBase, VastError>;

    /// The statement `f(a, b);` of a call, as the block's last: a task's or a system task's, made by
    /// [`VastFile::make_function_call`], or the use of a macro. The original crate lacks it.
    fn block_add_task_call(&mut self, block: VastStatementBlock, call: &Expr);

    /// A loop with an empty block, as the block's last statement, whose index of this name runs from `start`
    /// on while it is below `end`: `for (int i = start; i < end; i = i + 1)`. It returns the loop's block;
    /// [`VastFile::make_name`] makes the index as an expression. The original crate lacks it.
    fn block_add_for(
        &mut self,
        block: VastStatementBlock,
        name: &str,
        start: &Expr,
        end: &Expr,
    ) -> VastStatementBlock;
}

impl VastFileExtension for VastFile {
    fn make_member(&mut self, value: &Expr, field: &str) -> Expr {
        let value_step = self.own(value.0);
        Expr(self.later(Call::MakeMember, |calls| calls.step(value_step).text(field)))
    }

    fn make_packed_array_type_expr(
        &mut self,
        element: VastDataType,
        dimensions: &[&Expr],
    ) -> VastDataType {
        let element_step = self.own(element.0);
        let dimensions_steps = self.own_all(dimensions);
        let made = self.made(false, Call::MakePackedArrayTypeExpr, "a packed array has elements that can be packed, and dimensions of which none is below 1", |calls| calls.step(element_step).steps(&dimensions_steps));
        self.keep_width(made, Width::Element(element_step));
        VastDataType(made)
    }

    fn make_unpacked_array_type_expr(
        &mut self,
        element: VastDataType,
        dimensions: &[&Expr],
    ) -> VastDataType {
        let element_step = self.own(element.0);
        let dimensions_steps = self.own_all(dimensions);
        let made = self.made(
            false,
            Call::MakeUnpackedArrayTypeExpr,
            "an array has dimensions, of which none is below 1",
            |calls| calls.step(element_step).steps(&dimensions_steps),
        );
        self.keep_width(made, Width::Element(element_step));
        VastDataType(made)
    }

    fn add_import(&mut self, owner: VastModule, package: &str) {
        let owner_step = self.own(owner.0);
        self.later(Call::AddImport, |calls| {
            calls.step(owner_step).text(package)
        });
    }

    fn add_file_import(&mut self, package: &str) {
        self.later(Call::AddFileImport, |calls| calls.text(package));
    }

    fn add_enum_typedef(
        &mut self,
        owner: VastModule,
        name: &str,
        data_type: &VastDataType,
        names: &[&str],
        values: &[Option<&Expr>],
    ) -> VastDataType {
        assert_eq!(
            names.len(),
            values.len(),
            "enumeration entry names and values must have equal lengths"
        );
        let owner_step = self.own(owner.0);
        let data_type_step = self.own(data_type.0);
        let values_steps = self.own_any(values);
        VastDataType(self.later(Call::AddEnumTypedef, |calls| {
            calls
                .step(owner_step)
                .text(name)
                .step(data_type_step)
                .texts(names)
                .optional_steps(&values_steps)
        }))
    }

    fn add_struct_typedef(
        &mut self,
        owner: VastModule,
        name: &str,
        fields: &[Def],
    ) -> VastDataType {
        let owner_step = self.own(owner.0);
        let fields_steps = self.own_definitions(fields);
        VastDataType(self.later(Call::AddStructTypedef, |calls| {
            calls.step(owner_step).text(name).steps(&fields_steps)
        }))
    }

    fn add_file_enum_typedef(
        &mut self,
        name: &str,
        data_type: &VastDataType,
        names: &[&str],
        values: &[Option<&Expr>],
    ) -> VastDataType {
        assert_eq!(
            names.len(),
            values.len(),
            "enumeration entry names and values must have equal lengths"
        );
        let data_type_step = self.own(data_type.0);
        let values_steps = self.own_any(values);
        VastDataType(self.later(Call::AddFileEnumTypedef, |calls| {
            calls
                .text(name)
                .step(data_type_step)
                .texts(names)
                .optional_steps(&values_steps)
        }))
    }

    fn add_file_struct_typedef(&mut self, name: &str, fields: &[Def]) -> VastDataType {
        let fields_steps = self.own_definitions(fields);
        VastDataType(self.later(Call::AddFileStructTypedef, |calls| {
            calls.text(name).steps(&fields_steps)
        }))
    }

    fn add_variable(
        &mut self,
        owner: VastModule,
        name: &str,
        data_type: &VastDataType,
    ) -> Result<LogicRef, VastError> {
        let owner_step = self.own(owner.0);
        let data_type_step = self.own(data_type.0);
        Ok(LogicRef(self.allowed(
            false,
            Call::AddVariable,
            |calls| calls.step(owner_step).text(name).step(data_type_step),
        )?))
    }

    fn generate_add_always_star(
        &mut self,
        generate: GenerateLoop,
    ) -> Result<VastAlwaysBase, VastError> {
        let generate_step = self.own(generate.0);
        Ok(VastAlwaysBase(
            self.later_of(Call::GenerateAddAlwaysStar, [generate_step]),
        ))
    }

    fn generate_add_always_latch(
        &mut self,
        generate: GenerateLoop,
    ) -> Result<VastAlwaysBase, VastError> {
        let generate_step = self.own(generate.0);
        Ok(VastAlwaysBase(
            self.later_of(Call::GenerateAddAlwaysLatch, [generate_step]),
        ))
    }

    fn generate_add_initial(
        &mut self,
        generate: GenerateLoop,
    ) -> Result<VastAlwaysBase, VastError> {
        let generate_step = self.own(generate.0);
        Ok(VastAlwaysBase(
            self.later_of(Call::GenerateAddInitial, [generate_step]),
        ))
    }

    fn add_always_star(&mut self, owner: VastModule) -> Result<VastAlwaysBase, VastError> {
        let owner_step = self.own(owner.0);
        Ok(VastAlwaysBase(
            self.later_of(Call::AddAlwaysStar, [owner_step]),
        ))
    }

    fn add_always_latch(&mut self, owner: VastModule) -> Result<VastAlwaysBase, VastError> {
        let owner_step = self.own(owner.0);
        Ok(VastAlwaysBase(
            self.later_of(Call::AddAlwaysLatch, [owner_step]),
        ))
    }

    fn add_initial(&mut self, owner: VastModule) -> Result<VastAlwaysBase, VastError> {
        let owner_step = self.own(owner.0);
        Ok(VastAlwaysBase(
            self.later_of(Call::AddInitial, [owner_step]),
        ))
    }

    fn block_add_task_call(&mut self, block: VastStatementBlock, call: &Expr) {
        let block_step = self.own(block.0);
        let call_step = self.own(call.0);
        self.later_of(Call::BlockAddTaskCall, [block_step, call_step]);
    }

    fn block_add_for(
        &mut self,
        block: VastStatementBlock,
        name: &str,
        start: &Expr,
        end: &Expr,
    ) -> VastStatementBlock {
        let block_step = self.own(block.0);
        let start_step = self.own(start.0);
        let end_step = self.own(end.0);
        VastStatementBlock(self.later(Call::BlockAddFor, |calls| {
            calls
                .step(block_step)
                .text(name)
                .step(start_step)
                .step(end_step)
        }))
    }
}
