"""A file."""
from __future__ import annotations

import enum
from typing import Mapping, Optional, Union

from .calls import Calls
from .kinds import (
    Expr,
    Expression,
    Function,
    Index,
    Instantiation,
    LiteralFormat,
    Module,
    Operand,
    Selectable,
    Slice,
    TypeLike,
)
from .saving import Path, save_whole
from .session import ListSession, Session, open_session
from .writing import quoted


class FileType(enum.Enum):
    """The dialects."""

    VERILOG = "verilog"
    SYSTEM_VERILOG = "systemverilog"


class File(Calls):
    """A file of Verilog or SystemVerilog, which the proved library builds and prints.

    Each call that lists have is a method of its name; `docs/use/CALLS.md` says what it does. A call answers a handle, and calls take
    handles of this file. Where a call is at fault it raises `Refused` or `Condition`, and the file is as it was
    before the call; where memory is refused, `MemoryError`, and the call may be made again.

    When a fault is raised: by the call itself. Calls that nothing can refuse once Python has looked at their handles, numbers
    and names wait, up to 1,024 of them, and are made with the next that can be, or with the next question. With `strict=False` all calls
    but questions wait, which is faster through a process: a fault is then raised by the call that sends it, and each later
    call of the file raises it again. Wrong kinds of handles and numbers out of range are `TypeError` and `ValueError` of the
    call itself in either case, handles of another file `Condition`.

    With `places=True` each fault names the line of Python that made the call, and over the library a refusal of `emit` the
    line whose call made what is refused; calls then take about twice as long.

    With `lint=True` `warnings` tells what the calls so far print that tools refuse. Over the library the file's lines are
    kept for that, and made anew each time that it is asked; over a process calls take longer.

    A file is used by one thread at a time.
    """

    def __init__(
        self,
        dialect: Union[FileType, str] = FileType.SYSTEM_VERILOG,
        strict: bool = True,
        places: bool = False,
        session: Optional[Session] = None,
        lint: bool = False,
    ) -> None:
        self.file_type = FileType(dialect)
        super().__init__(session or open_session(self.file_type.value, lint), strict, places)

    @classmethod
    def listed(cls, dialect: Union[FileType, str] = FileType.SYSTEM_VERILOG) -> File:
        """A file whose `emit` is the list of its calls, for `vast_replay`. It needs no library and answers no question."""
        return cls(dialect, strict=False, session=ListSession(FileType(dialect).value))

    def __enter__(self) -> File:
        return self

    def __exit__(self, *_: object) -> None:
        self.close()

    def close(self) -> None:
        """Lets go of the file, as is done where nothing holds it any more. Each later call that is sent is a `ValueError`."""
        self._session.close()

    def save(self, path: Path) -> None:
        """Makes the file's text the file at this path, whole or not at all.

        Where `emit` is refused or the text can't be written, what was at the path stays as it was. Raises what `emit` raises,
        and `OSError`.
        """
        save_whole(path, self.emit())

    def add_function(self, owner: Module, name: str, result_type: TypeLike) -> Function:
        made = super().add_function(owner, name, result_type)
        made.called = name
        # A name of the module, and that of the function's result.
        self._names.update(f"{scope.step} {quoted(name)}" for scope in (owner, made))
        return made

    # Short words, made of the calls

    def module(self, name: str) -> Module:
        """An empty module, as the last item."""
        return self.add_module(name)

    def bits(
        self,
        width: int,
        value: int,
        format: LiteralFormat = LiteralFormat.UNSIGNED_DECIMAL,
    ) -> Expr:
        """The literal of this number of so many bits, as `8'd1`. Raises `Refused` where the bits don't hold it."""
        return self.make_literal(f"bits[{width}]:{value}", format)

    def concat(self, *expressions: Operand) -> Expr:
        """`{a, b}`."""
        return self.make_concat(expressions)

    def call(self, name: str, *arguments: Operand) -> Expr:
        """A call of a function of this name, as `$clog2`."""
        return self.make_function_call(name, arguments)

    def selectable(self, given: Expression) -> Selectable:
        """The expression itself where it may be selected from, or a handle of it that may be."""
        return given if isinstance(given, Selectable) else self.make_indexable_expression(given)

    def select(self, subject: Expression, key: Union[Operand, slice]) -> Union[Index, Slice]:
        """`subject[key]`: a bit or an element, or from the highest to the lowest, both included."""
        subject = self.selectable(subject)
        if not isinstance(key, slice):
            if isinstance(key, int):
                return self.make_index(subject, key)
            return self.make_index_expr(subject, key)
        if key.start is None or key.stop is None or key.step is not None:
            raise TypeError("a slice has two bounds, both included: a[7:0]")
        if isinstance(key.start, int) and isinstance(key.stop, int):
            return self.make_slice(subject, key.start, key.stop)
        return self.make_slice_expr(subject, key.start, key.stop)

    def instance(
        self,
        module_name: str,
        instance_name: str,
        connections: Mapping[str, Optional[Operand]],
        parameters: Mapping[str, Operand] = {},
    ) -> Instantiation:
        """An instance, with an expression or `None` for each port that is named."""
        return self.make_instantiation(
            module_name,
            instance_name,
            list(parameters),
            list(parameters.values()),
            list(connections),
            list(connections.values()),
        )


def is_system_verilog_keyword(identifier: str) -> bool:
    """Whether the word is a keyword of Verilog or SystemVerilog."""
    with File() as file:
        return file.is_system_verilog_keyword(identifier)
