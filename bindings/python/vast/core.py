"""The lines of a file, and when they are sent."""
from __future__ import annotations

import itertools
import os
import sys
from typing import Any, Dict, Iterator, List, Optional, Set, Tuple, Type

from .errors import Condition, VastFault
from .handle import Handle
from .kinds import DataType, Expr, Expression, GenerateLoop, Module, Operand, RegisterScope
from .kinds import Selectable, TypeLike
from .session import Session
from .warning import Warned
from .writing import int32, int64

# Lines that wait at most.
BATCH = 1024
# What the paths of this package's files begin with.
_new = object.__new__
_PACKAGE = os.path.join(os.path.dirname(__file__), "")


def caller() -> Tuple[str, int]:
    """The file and line of Python that called this package."""
    frame = sys._getframe(2)
    while frame.f_back is not None and frame.f_code.co_filename.startswith(_PACKAGE):
        frame = frame.f_back
    return frame.f_code.co_filename, frame.f_lineno


def numbers(first: int) -> Iterator[str]:
    """The numbers from this one on, in digits."""
    return map(str, itertools.count(first))


class Core:
    """Writes lines, and knows the number of each answer before it is there.

    A call that nothing refuses waits with others (`_later`), since Python has looked at the kinds of its handles, at its
    numbers (`_if`), and whether a name was entered before (`_named`). One that may be refused is made at once, after those
    that wait (`_now`), so that it raises its own fault and no later call does. What asks (`_ask`) is made at once too.
    """

    def __init__(self, session: Session, strict: bool, places: bool) -> None:
        self._session = session
        self._strict = strict
        self._lines: List[str] = []
        # Of each line that was made or waits, where it was written.
        self._places: Optional[List[Tuple[str, int]]] = [] if places else None
        # The numbers of the answers to come, in digits, as lines have them.
        self._steps = numbers(0)
        # The names of modules and functions, each after the number of its owner, of a file with `strict`.
        self._names: Set[str] = set()
        self._types: Dict[int, DataType] = {}
        self._fault: Optional[VastFault] = None
        # The fault while lines are being made, which stays where their making is interrupted, as from the keyboard.
        self._interrupted = VastFault("a call was interrupted: whether it was made isn't known")

    def flush(self) -> None:
        """Makes the calls that wait.

        Raises `MemoryError` where memory was refused: those that weren't made wait on, and `flush` may be called again.
        Without `strict` it raises the fault of the first call that is at fault, and so does each later call, since the
        handles that were given after it are none.
        """
        if self._fault is not None:
            raise self._fault
        lines = self._lines
        if not lines:
            return
        # Cleared after the call, so that lines whose sending was interrupted aren't sent twice.
        self._fault = self._interrupted
        try:
            taken, fault = self._session.lines(lines)
            del lines[:taken]
        except Exception:
            self._fault = None
            raise
        self._fault = None
        if fault is None:
            return
        if isinstance(fault, VastFault):
            self._placed(fault)
            if len(self._lines) > 1 or not self._strict:
                self._fault = fault
        raise fault

    def _placed(self, fault: VastFault) -> None:
        """Gives the fault its place."""
        if self._places is not None and fault.line is not None and fault.line < len(self._places):
            fault.place = "{}:{}".format(*self._places[fault.line])

    def _later(self, line: str, kind: Optional[Type[Handle]] = None) -> Any:
        """What a call that waits returns: a handle of this kind, or `None`."""
        lines = self._lines
        if len(lines) >= BATCH:
            self.flush()
        lines.append(line)
        if self._places is not None:
            self._places.append(caller())
        step = next(self._steps)
        if kind is None:
            return None
        made = _new(kind)
        made.file = self
        made.step = step
        return made

    def _now(self, line: str, kind: Type[Handle] = Handle) -> Any:
        """What a call that is made at once returns. Raises its fault, and then nothing changed."""
        made = self._later(line, kind)
        if not self._strict:
            return made
        try:
            self.flush()
        except BaseException:
            # Where an earlier line was refused memory, this one comes after it, and is let go.
            del self._lines[-1:]
            if self._places is not None:
                del self._places[-1:]
            self._steps = numbers(made.number)
            raise
        return made

    def _if(self, line: str, kind: Type[Handle], is_certain: bool) -> Any:
        """What a call returns that waits where nothing refuses it for certain, and else is made at once."""
        return self._later(line, kind) if is_certain else self._now(line, kind)

    def _named(self, call: str, entry: str, rest: str, kind: Type[Handle]) -> Any:
        """What a call returns that enters a name, `entry` with the number of its owner before it; it waits where that is new."""
        line = f"{call} {entry} {rest}"
        if not self._strict:
            return self._later(line, kind)
        if entry in self._names:
            return self._now(line, kind)
        made = self._later(line, kind)
        self._names.add(entry)
        return made

    def _ask(self, line: str) -> Any:
        """The answer, as the session has it."""
        self.flush()
        answer = self._session.ask(line)
        if self._places is not None:
            self._places.append(caller())
        return answer

    def emit(self) -> str:
        """The text of the file.

        Raises `Refused` where an index or a slice of a named scalar has a bound that is no literal 0.
        """
        self.flush()
        try:
            return self._session.text()
        except VastFault as fault:
            self._placed(fault)
            raise

    def warnings(self) -> List[Warned]:
        """What the calls so far print that is no SystemVerilog or Verilog, or that Icarus, Verilator or Yosys refuses.

        Those of the calls in order, and after them those that only the end tells, as a case without arms. A file with
        `lint=True` tells them; of one without it is a `ValueError`. The rules are those of `vast_replay --lint`.
        """
        self.flush()
        return [self._warned(warned) for warned in self._session.warnings()]

    def _warned(self, warned: Warned) -> Warned:
        """The warning with its place."""
        if self._places is None or warned.line >= len(self._places):
            return warned
        return warned._replace(place="{}:{}".format(*self._places[warned.line]))

    # Of an argument that isn't plainly a handle of this file and of the kind that is wanted: what stands for it, or why not.
    # That it is is looked at by each call itself, which calls nothing then.

    def _own(self, given: Handle, kind: Type[Handle]) -> Any:
        """The handle, where it is of this kind and of this file."""
        if not isinstance(given, kind):
            raise TypeError(f"{kind.__name__} is wanted, not {given!r}")
        if given.file is not self:
            raise Condition("a handle of another file")
        return given

    def _value(self, given: Operand) -> Expression:
        """The expression; of an `int`, a literal which is made for it."""
        if isinstance(given, int) and not isinstance(given, bool):
            return self._later(f"MakeUnsizedDecimalLiteral {int32(given)}", Expr)
        if not isinstance(given, Expression):
            raise TypeError(f"an expression or an int is wanted, not {given!r}")
        return self._own(given, Expression)

    def _subject(self, given: Selectable) -> Selectable:
        """The expression, where it may be selected from."""
        if isinstance(given, Expression) and not isinstance(given, Selectable):
            raise TypeError(f"make_indexable_expression makes of {given!r} what may be selected from")
        return self._own(given, Selectable)

    def _type(self, given: TypeLike) -> DataType:
        """The type; of an `int`, that of so many bits, which is made once."""
        if isinstance(given, DataType):
            return self._own(given, DataType)
        if not isinstance(given, int) or isinstance(given, bool):
            raise TypeError(f"a type or a number of bits is wanted, not {given!r}")
        if given not in self._types:
            line = f"MakeBitVectorType {int64(given)} false"
            self._types[given] = self._if(line, DataType, given >= 1)
        return self._types[given]

    def _scope(self, given: RegisterScope) -> RegisterScope:
        """The module or the loop."""
        if not isinstance(given, (Module, GenerateLoop)):
            raise TypeError(f"Module or GenerateLoop is wanted, not {given!r}")
        return self._own(given, Handle)

    def _value_step(self, given: Operand) -> str:
        """The number of an expression, as `_value` has it."""
        if isinstance(given, Expression) and given.file is self:
            return given.step
        return self._value(given).step
