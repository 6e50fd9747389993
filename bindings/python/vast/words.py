"""Short words: what the handles do beside the calls of the table.

Each is made of calls of `File`, which its body names, and raises what these raise.
"""
# Each class here is the base of one of kinds.py, which is what its `self` is.
# mypy: disable-error-code=arg-type
from __future__ import annotations

from typing import TYPE_CHECKING, List, Mapping, Optional, Sequence, TypeVar

from .handle import Handle

if TYPE_CHECKING:
    from .kinds import (
        AlwaysBase,
        CaseStatement,
        Conditional,
        ContinuousAssignment,
        DataType,
        Expr,
        Function,
        GenerateLoop,
        Instantiation,
        LocalparamRef,
        LogicRef,
        Operand,
        RegisterDefinition,
        Reset,
        Statement,
        StatementBlock,
        TypeLike,
    )


class TypeWords(Handle):
    """Arrays of a type."""

    __slots__ = ()

    def packed(self, *dimensions: int) -> DataType:
        """A packed array, its dimensions from the outermost, in elements."""
        return self.file.make_packed_array_type(self, dimensions)

    def unpacked(self, *dimensions: int) -> DataType:
        """An unpacked array, its dimensions from the outermost, in elements."""
        return self.file.make_unpacked_array_type(self, dimensions)


Self = TypeVar("Self", bound="With")


class With(Handle):
    """What a `with` statement may be of; it ends nothing, since a call always names where it adds."""

    __slots__ = ()

    def __enter__(self: Self) -> Self:
        return self

    def __exit__(self, *_: object) -> None:
        pass


class ScopeWords(With):
    """What modules and loops have."""

    __slots__ = ()

    def registers(
        self,
        clk: Operand,
        registers: Sequence[RegisterDefinition],
        reset: Optional[Reset] = None,
    ) -> None:
        """`File.add_registers` here."""
        self.file.add_registers(clk, reset, registers, self)


class ModuleWords(ScopeWords):
    """A module: `with file.module("counter") as m:`."""

    __slots__ = ()

    def _printed(self) -> str:
        return self.file.module_name(self)

    def input(self, name: str, data_type: TypeLike = 1) -> LogicRef:
        """An input of this type, or of so many bits."""
        return self.file.add_input(self, name, data_type)

    def inputs(self, *names: str, data_type: TypeLike = 1) -> List[LogicRef]:
        """Inputs of one type."""
        return [self.input(name, data_type) for name in names]

    def output(self, name: str, data_type: TypeLike = 1) -> LogicRef:
        """An output of this type, or of so many bits."""
        return self.file.add_output(self, name, data_type)

    def outputs(self, *names: str, data_type: TypeLike = 1) -> List[LogicRef]:
        """Outputs of one type."""
        return [self.output(name, data_type) for name in names]

    def inout(self, name: str, data_type: TypeLike = 1) -> LogicRef:
        """A port of both directions, of this type, or of so many bits."""
        return self.file.add_inout(self, name, data_type)

    def wire(self, name: str, data_type: TypeLike = 1, value: Optional[Operand] = None) -> LogicRef:
        """A wire of this type, or of so many bits; with a value, that is assigned."""
        made = self.file.add_wire(self, name, data_type)
        if value is not None:
            self.assign(made, value)
        return made

    def reg(self, name: str, data_type: TypeLike = 1) -> LogicRef:
        """A `reg` of this type, or of so many bits."""
        return self.file.add_reg(self, name, data_type)

    def logic(self, name: str, data_type: TypeLike = 1) -> LogicRef:
        """A `logic` of this type, or of so many bits."""
        return self.file.add_logic(self, name, data_type)

    def variable(self, name: str, data_type: TypeLike) -> LogicRef:
        """A variable of this type, which has a name of its own."""
        return self.file.add_variable(self, name, data_type)

    def parameter(self, name: str, value: Operand) -> LogicRef:
        """A parameter without a type, in the module's header."""
        return self.file.add_parameter_port(self, name, value)

    def localparam(self, name: str, value: Operand) -> LocalparamRef:
        """`localparam NAME = VALUE`."""
        return self.file.add_localparam(self, name, value)

    def assign(self, lhs: Operand, rhs: Operand) -> ContinuousAssignment:
        """`assign lhs = rhs`."""
        assignment = self.file.make_continuous_assignment(lhs, rhs)
        self.file.add_member_continuous_assignment(self, assignment)
        return assignment

    def comment(self, text: str) -> None:
        """A comment."""
        self.file.add_member_comment(self, self.file.make_comment(text))

    def blank_line(self) -> None:
        """A blank line."""
        self.file.add_member_blank_line(self, self.file.make_blank_line())

    def inline(self, text: str) -> None:
        """A text that is written as it is."""
        self.file.add_member_inline_statement(self, self.file.make_inline_verilog_statement(text))

    def always_ff(self, *events: Operand) -> AlwaysBase:
        """`always_ff` at these edges; `with` gives its block."""
        return self.file.add_always_ff(self, events)

    def always_at(self, *events: Operand) -> AlwaysBase:
        """`always @` at these edges or names; `with` gives its block."""
        return self.file.add_always_at(self, events)

    def always_comb(self) -> AlwaysBase:
        """`always_comb`; `with` gives its block."""
        return self.file.add_always_comb(self)

    def if_(self, condition: Operand) -> Conditional:
        """`if` among the members; `with` gives its block."""
        return self.file.add_conditional(self, condition)

    def loop(self, name: str, start: Operand, end: Operand, label: Optional[str] = None) -> GenerateLoop:
        """A generate loop over `name` from `start` to below `end`."""
        return self.file.add_generate_loop(self, name, start, end, label)

    def function(self, name: str, result_type: TypeLike) -> Function:
        """A function; `with` gives its body."""
        return self.file.add_function(self, name, result_type)

    def instance(
        self,
        module_name: str,
        instance_name: str,
        connections: Mapping[str, Optional[Operand]],
        parameters: Mapping[str, Operand] = {},
    ) -> Instantiation:
        """An instance, with an expression or `None` for each port that is named."""
        made = self.file.instance(module_name, instance_name, connections, parameters)
        self.file.add_member_instantiation(self, made)
        return made


class LoopWords(ScopeWords):
    """A generate loop: `with m.loop("i", 0, 4) as lane:`."""

    __slots__ = ()

    def localparam(self, name: str, value: Operand) -> LocalparamRef:
        """`localparam NAME = VALUE`."""
        return self.file.generate_add_localparam(self, name, value)

    def assign(self, lhs: Operand, rhs: Operand) -> Statement:
        """`assign lhs = rhs`."""
        return self.file.generate_add_continuous_assignment(self, lhs, rhs)

    def comment(self, text: str) -> None:
        """A comment."""
        self.file.generate_add_comment(self, self.file.make_comment(text))

    def blank_line(self) -> None:
        """A blank line."""
        self.file.generate_add_blank_line(self)

    def inline(self, text: str) -> None:
        """A text that is written as it is."""
        statement = self.file.make_inline_verilog_statement(text)
        self.file.generate_add_inline_statement(self, statement)

    def always_ff(self, *events: Operand) -> AlwaysBase:
        """`always_ff` at these edges; `with` gives its block."""
        return self.file.generate_add_always_ff(self, events)

    def always_at(self, *events: Operand) -> AlwaysBase:
        """`always @` at these edges or names; `with` gives its block."""
        return self.file.generate_add_always_at(self, events)

    def always_comb(self) -> AlwaysBase:
        """`always_comb`; `with` gives its block."""
        return self.file.generate_add_always_comb(self)

    def if_(self, condition: Operand) -> Conditional:
        """`if` among the members; `with` gives its block."""
        return self.file.generate_add_conditional(self, condition)

    def loop(self, name: str, start: Operand, end: Operand, label: Optional[str] = None) -> GenerateLoop:
        """A loop in this one."""
        return self.file.generate_add_generate_loop(self, name, start, end, label)

    def instance(
        self,
        module_name: str,
        instance_name: str,
        connections: Mapping[str, Optional[Operand]],
        parameters: Mapping[str, Operand] = {},
    ) -> Instantiation:
        """An instance, with an expression or `None` for each port that is named."""
        made = self.file.instance(module_name, instance_name, connections, parameters)
        self.file.generate_add_instantiation(self, made)
        return made


class FunctionWords(Handle):
    """A function: `with m.function("sum", 8) as body:`; `sum(a, b)` is a call of it."""

    __slots__ = ("called",)
    called: str

    def _printed(self) -> str:
        return self.called

    def __enter__(self) -> StatementBlock:
        return self.file.function_body(self)

    def __exit__(self, *_: object) -> None:
        pass

    def __call__(self, *arguments: Operand) -> Expr:
        return self.file.make_function_call(self.called, arguments)

    def input(self, name: str, data_type: TypeLike = 1) -> LogicRef:
        """An input with the word `reg`."""
        return self.file.function_add_input(self, name, data_type)

    def logic_input(self, name: str, data_type: TypeLike = 1) -> LogicRef:
        """An input with the word `logic`."""
        return self.file.function_add_logic_input(self, name, data_type)

    def reg(self, name: str, data_type: TypeLike = 1) -> LogicRef:
        """A local `reg`."""
        return self.file.function_add_reg(self, name, data_type)

    def logic(self, name: str, data_type: TypeLike = 1) -> LogicRef:
        """A local `logic`."""
        return self.file.function_add_logic(self, name, data_type)


class AlwaysWords(Handle):
    """An always block: `with m.always_ff(clk.posedge) as block:`."""

    __slots__ = ()

    def __enter__(self) -> StatementBlock:
        return self.file.statement_block(self)

    def __exit__(self, *_: object) -> None:
        pass


class BlockWords(With):
    """A block of statements. An arm of a conditional knows it: `with arm.else_() as arm:` goes on."""

    __slots__ = ("conditional",)
    conditional: ConditionalWords

    def nonblocking(self, lhs: Operand, rhs: Operand) -> Statement:
        """`lhs <= rhs`."""
        return self.file.block_add_nonblocking_assignment(self, lhs, rhs)

    def blocking(self, lhs: Operand, rhs: Operand) -> Statement:
        """`lhs = rhs`."""
        return self.file.block_add_blocking_assignment(self, lhs, rhs)

    def assign(self, lhs: Operand, rhs: Operand) -> Statement:
        """`assign lhs = rhs`."""
        return self.file.block_add_continuous_assignment(self, lhs, rhs)

    def comment(self, text: str) -> None:
        """A comment."""
        self.file.block_add_comment_text(self, text)

    def blank_line(self) -> None:
        """A blank line."""
        self.file.block_add_blank_line(self)

    def inline(self, text: str) -> None:
        """A text that is written as it is."""
        self.file.block_add_inline_text(self, text)

    def if_(self, condition: Operand) -> Conditional:
        """`if`; `with` gives its block."""
        return self.file.block_add_cond(self, condition)

    def else_if(self, condition: Operand) -> StatementBlock:
        """The next arm of the conditional whose arm this is. Raises `AttributeError` of other blocks."""
        return self.conditional.else_if(condition)

    def else_(self) -> StatementBlock:
        """The last arm of the conditional whose arm this is. Raises `AttributeError` of other blocks."""
        return self.conditional.else_()

    def case(self, selector: Operand, unique: bool = False) -> CaseStatement:
        """`case`, or `unique case`."""
        return self._cases(self.file.block_add_case(self, selector), unique)

    def casez(self, selector: Operand, unique: bool = False) -> CaseStatement:
        """`casez`, or `unique casez`."""
        return self._cases(self.file.block_add_casez(self, selector), unique)

    def casex(self, selector: Operand, unique: bool = False) -> CaseStatement:
        """`casex`, or `unique casex`."""
        return self._cases(self.file.block_add_casex(self, selector), unique)

    def _cases(self, made: CaseStatement, unique: bool) -> CaseStatement:
        if unique:
            self.file.case_set_unique(made, unique)
        return made


class ConditionalWords(Handle):
    """A conditional: `with block.if_(rst) as arm:`."""

    __slots__ = ()

    def __enter__(self) -> StatementBlock:
        return self._arm(self.file.conditional_then_block(self))

    def __exit__(self, *_: object) -> None:
        pass

    def else_if(self, condition: Operand) -> StatementBlock:
        """An arm `else if`; its block."""
        return self._arm(self.file.conditional_add_else_if(self, condition))

    def else_(self) -> StatementBlock:
        """The `else`; its block."""
        return self._arm(self.file.conditional_add_else(self))

    def _arm(self, block: StatementBlock) -> StatementBlock:
        block.conditional = self
        return block


class CaseWords(With):
    """A case statement: `with block.case(state) as cases:`."""

    __slots__ = ()

    def item(self, pattern: Operand) -> StatementBlock:
        """An arm with this label; its block."""
        return self.file.case_add_item(self, pattern)

    def default(self) -> StatementBlock:
        """The arm `default`; its block."""
        return self.file.case_add_default(self)
