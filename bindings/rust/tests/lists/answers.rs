//! What steps answered, and what stands for what.

use crate::form::Argument;
use std::collections::HashMap;
use xlsynth_vast::*;

/// What a step answered.
#[derive(Clone, Copy, Debug)]
pub enum Answer {
    BlankLine(BlankLine),
    CaseStatement(CaseStatement),
    Comment(Comment),
    Conditional(Conditional),
    ContinuousAssignment(ContinuousAssignment),
    Def(Def),
    Expr(Expr),
    GenerateLoop(GenerateLoop),
    Index(Index),
    IndexableExpr(IndexableExpr),
    InlineVerilogStatement(InlineVerilogStatement),
    Instantiation(Instantiation),
    LocalparamRef(LocalparamRef),
    LogicRef(LogicRef),
    MacroRef(MacroRef),
    MacroStatement(MacroStatement),
    Nothing,
    ParameterRef(ParameterRef),
    Slice(Slice),
    VastAlwaysBase(VastAlwaysBase),
    VastDataType(VastDataType),
    VastFunction(VastFunction),
    VastModule(VastModule),
    // No call takes one.
    #[allow(dead_code)]
    VastStatement(VastStatement),
    VastStatementBlock(VastStatementBlock),
}

/// Why a step is not made.
#[derive(Debug)]
pub enum Fault {
    NoAnswer,
    WrongKind,
    Condition,
    Refused(String),
}

impl From<VastError> for Fault {
    fn from(error: VastError) -> Fault {
        Fault::Refused(error.0)
    }
}

/// The answers so far, and the names of steps.
#[derive(Default)]
pub struct Answers {
    pub items: Vec<Answer>,
    pub names: HashMap<String, usize>,
    /// What named questions answered.
    pub values: HashMap<String, String>,
}

impl Answers {
    /// Keeps the next answer, and its name.
    pub fn keep(&mut self, name: Option<String>, answer: Answer) {
        if let Some(name) = name {
            self.names.insert(name, self.items.len());
        }
        self.items.push(answer);
    }

    /// What the argument's step answered.
    pub fn of(&self, argument: &Argument) -> Result<Answer, Fault> {
        let step = argument.step(&self.names);
        self.items.get(step).copied().ok_or(Fault::NoAnswer)
    }

    /// The same, as a handle of a kind.
    pub fn handle<H: FromAnswer>(&self, argument: &Argument) -> Result<H, Fault> {
        H::from_answer(self.of(argument)?).ok_or(Fault::WrongKind)
    }

    pub fn handles<H: FromAnswer>(&self, argument: &Argument) -> Result<Vec<H>, Fault> {
        argument
            .list()
            .iter()
            .map(|item| self.handle(item))
            .collect()
    }

    pub fn options<H: FromAnswer>(&self, argument: &Argument) -> Result<Vec<Option<H>>, Fault> {
        let items = argument.list().iter();
        items
            .map(|item| item.option().map(|item| self.handle(item)).transpose())
            .collect()
    }
}

/// A handle that an answer may stand for.
pub trait FromAnswer: Sized {
    fn from_answer(answer: Answer) -> Option<Self>;
}

macro_rules! plain {
    ($($kind:ident)*) => {
        $(
            impl FromAnswer for $kind {
                fn from_answer(answer: Answer) -> Option<$kind> {
                    match answer {
                        Answer::$kind(handle) => Some(handle),
                        _ => None,
                    }
                }
            }
        )*
    };
}

plain! {
    BlankLine CaseStatement Comment Conditional ContinuousAssignment Def GenerateLoop InlineVerilogStatement
    Instantiation LogicRef MacroRef MacroStatement VastAlwaysBase VastDataType VastFunction VastModule
    VastStatementBlock
}

impl FromAnswer for Expr {
    fn from_answer(answer: Answer) -> Option<Expr> {
        match answer {
            Answer::Expr(handle) => Some(handle),
            Answer::LogicRef(handle) => Some(handle.to_expr()),
            Answer::IndexableExpr(handle) => Some(handle.to_expr()),
            Answer::Slice(handle) => Some(handle.to_expr()),
            Answer::Index(handle) => Some(handle.to_expr()),
            Answer::ParameterRef(handle) => Some(handle.to_expr()),
            Answer::LocalparamRef(handle) => Some(handle.to_expr()),
            Answer::MacroRef(handle) => Some(handle.to_expr()),
            _ => None,
        }
    }
}

impl FromAnswer for IndexableExpr {
    fn from_answer(answer: Answer) -> Option<IndexableExpr> {
        match answer {
            Answer::IndexableExpr(handle) => Some(handle),
            Answer::LogicRef(handle) => Some(handle.to_indexable_expr()),
            Answer::Index(handle) => Some(handle.to_indexable_expr()),
            Answer::ParameterRef(handle) => Some(handle.to_indexable_expr()),
            _ => None,
        }
    }
}

pub fn format_of(argument: &Argument) -> LiteralFormat {
    match argument.word() {
        "Binary" => LiteralFormat::Binary,
        "Hex" => LiteralFormat::Hex,
        "SignedDecimal" => LiteralFormat::SignedDecimal,
        "UnsignedDecimal" => LiteralFormat::UnsignedDecimal,
        "UnsizedBinary" => LiteralFormat::UnsizedBinary,
        "UnsizedDecimal" => LiteralFormat::UnsizedDecimal,
        "UnsizedHex" => LiteralFormat::UnsizedHex,
        other => panic!("no format: {other}"),
    }
}

pub fn kind_of(argument: &Argument) -> DataKind {
    match argument.word() {
        "Reg" => DataKind::Reg,
        "Wire" => DataKind::Wire,
        "Logic" => DataKind::Logic,
        "Integer" => DataKind::Integer,
        "Int" => DataKind::Int,
        "User" => DataKind::User,
        "UntypedEnum" => DataKind::UntypedEnum,
        "Genvar" => DataKind::Genvar,
        other => panic!("no kind of declaration: {other}"),
    }
}
