"""Why a call gave nothing."""
from __future__ import annotations

from typing import Optional


class VastFault(Exception):
    """A call gave nothing, and the file is as it was before it.

    `words` say why. `call` is the call as lists write it (`AddReg`). `place` is the file and line of Python that made the
    call, of files with `places=True`; where `emit` is refused, those of the call that made what is refused, or `None` where
    the session doesn't tell it.
    """

    def __init__(self, words: str, call: Optional[str] = None, line: Optional[int] = None) -> None:
        super().__init__(words)
        self.words = words
        self.call = call
        # How many lines of the file were made before that of the call.
        self.line = line
        self.place: Optional[str] = None

    def __str__(self) -> str:
        return ": ".join(part for part in (self.place, self.call, self.words) if part)


class Refused(VastFault):
    """A rule of the call refuses, as `add_reg` does for a name that is taken."""


class Condition(VastFault):
    """A condition of the call isn't met, as a width below 1, or a handle of another file."""


class NotInForm(VastFault):
    """A line isn't in the form of lists: a fault of this package, or of the library beside it."""


class NoLibrary(Exception):
    """Neither the shared library nor the program `vast_replay` was found."""
