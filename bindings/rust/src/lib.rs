//! Builders for Verilog and SystemVerilog and their emitter: the API of the crate `xlsynth-vast` 0.79.0 over a library
//! that is proved.
//!
//! A [`VastFile`] is one file in the making. Its calls answer small copyable handles, which are good for that file
//! alone; [`VastFile::emit`] prints the file. Each call is handed to the library as one of a packed list, at once or, where
//! nothing can refuse it, with later ones; what the library does with these calls is proved, what this crate does is tested.
//!
//! ```
//! use xlsynth_vast::{VastFile, VastFileType};
//!
//! let mut file = VastFile::new(VastFileType::SystemVerilog);
//! let module = file.add_module("passthrough");
//! let byte = file.make_bit_vector_type(8, false);
//! let input = file.add_input(module, "input_data", &byte);
//! let output = file.add_output(module, "output_data", &byte);
//! let assignment = file.make_continuous_assignment(&output.to_expr(), &input.to_expr());
//! file.add_member_continuous_assignment(module, assignment);
//! assert_eq!(
//!     file.emit(),
//!     "module passthrough(\n  input wire [7:0] input_data,\n  output wire [7:0] output_data\n);\n  \
//!      assign output_data = input_data;\nendmodule\n"
//! );
//! ```

mod calls;
mod conditions;
mod error;
mod extension;
mod file;
mod handles;
pub mod helpers;
mod inspect;
mod kinds;
mod known;
mod literal;
mod methods;
mod mixer;
mod packed;
mod rows;
mod session;
mod state;
mod unpacked;
mod warning;

pub use error::VastError;
pub use extension::VastFileExtension;
pub use file::{is_system_verilog_keyword, VastFile};
pub use handles::{
    BlankLine, CaseStatement, Comment, Conditional, ContinuousAssignment, Def, Expr, GenerateLoop,
    Index, IndexableExpr, InlineVerilogStatement, Instantiation, LocalparamRef, LogicRef, MacroRef,
    MacroStatement, ModulePort, ParameterRef, Slice, VastAlwaysBase, VastDataType, VastFunction,
    VastModule, VastStatement, VastStatementBlock,
};
pub use kinds::{AlwaysKind, DataKind, LiteralFormat, ModulePortDirection, VastFileType};
pub use warning::VastWarning;
