//! Handles: small copyable names of what a file holds.

use std::hash::{Hash, Hasher};

/// Whose handle it is, and the number of the step that answered it.
#[derive(Clone, Copy, Debug, PartialEq, Eq, Hash)]
pub(crate) struct Id {
    pub(crate) file: u64,
    pub(crate) step: usize,
}

macro_rules! handles {
    ($($name:ident, $what:literal;)*) => {
        $(
            #[doc = $what]
            #[derive(Clone, Copy, Debug, PartialEq, Eq, Hash)]
            pub struct $name(pub(crate) Id);
        )*
    };
}

handles! {
    VastModule, "A module of a file.";
    VastFunction, "A function of a module.";
    ModulePort, "A port of a module.";
    VastDataType, "A data type.";
    LogicRef, "A name that was declared, as an expression.";
    Expr, "An expression.";
    Slice, "A part select.";
    Index, "A bit select.";
    Instantiation, "An instance of a module, made beforehand.";
    BlankLine, "A blank line, made beforehand.";
    InlineVerilogStatement, "Text that is printed as it is, made beforehand.";
    Comment, "A comment, made beforehand.";
    MacroRef, "The use of a macro, as an expression.";
    MacroStatement, "The use of a macro as a statement, made beforehand.";
    ContinuousAssignment, "A continuous assignment, made beforehand.";
    VastAlwaysBase, "An always block.";
    VastStatementBlock, "A block of statements.";
    VastStatement, "An assignment; no call takes it.";
    Conditional, "An `if` with its branches.";
    CaseStatement, "A `case` with its arms.";
    GenerateLoop, "A generate loop.";
    ParameterRef, "A parameter's name, as an expression.";
    LocalparamRef, "A local parameter's name, as an expression.";
    Def, "A declaration with a type, made beforehand.";
}

macro_rules! expressions {
    ($($name:ident)*) => {
        $(
            impl $name {
                /// The same as an expression.
                pub fn to_expr(&self) -> Expr {
                    Expr(self.0)
                }
            }
        )*
    };
}

expressions! { LogicRef Slice Index ParameterRef LocalparamRef MacroRef }

macro_rules! indexables {
    ($($name:ident)*) => {
        $(
            impl $name {
                /// The same as what can be indexed.
                pub fn to_indexable_expr(&self) -> IndexableExpr {
                    IndexableExpr {
                        expression: self.0,
                        step: self.0.step,
                    }
                }
            }
        )*
    };
}

indexables! { LogicRef Index ParameterRef }

/// What can be indexed.
#[derive(Clone, Copy, Debug)]
pub struct IndexableExpr {
    /// What it is as an expression.
    pub(crate) expression: Id,
    /// The step whose answer stands where something to be indexed is wanted.
    pub(crate) step: usize,
}

impl IndexableExpr {
    /// The same as an expression.
    pub fn to_expr(&self) -> Expr {
        Expr(self.expression)
    }
}

// An expression is one thing, however it came to be indexed.
impl PartialEq for IndexableExpr {
    fn eq(&self, other: &IndexableExpr) -> bool {
        self.expression == other.expression
    }
}

impl Eq for IndexableExpr {}

impl Hash for IndexableExpr {
    fn hash<H: Hasher>(&self, state: &mut H) {
        self.expression.hash(state);
    }
}
